//! The C header beside the Rust: every constant of it has a Rust one, and its row has the same fields. The refusals stand in `refusals.rs`.

use std::collections::BTreeMap;

use fallowcart::layout::{self, filter, float, number, row, stage};
use fallowcart::{Detector, DetectorState, Filter};

use crate::common::root;

type Constants = BTreeMap<String, usize>;

pub fn header() -> String {
    let path = root().join("include/fallowcart.h");
    std::fs::read_to_string(path).expect("the header")
}

/// The text without its comments.
fn code(text: &str) -> String {
    let mut parts = text.split("/*");
    let first = parts.next().unwrap_or_default().to_string();
    parts.fold(first, |code, part| {
        code + part.split_once("*/").expect("a comment's end").1
    })
}

/// What stands between the braces after each of these words.
fn blocks<'a>(code: &'a str, word: &'a str) -> impl Iterator<Item = &'a str> {
    let after = code.split(word).skip(1);
    after.map(|text| text.split_once('}').expect("a block's end").0)
}

/// The value of a sum of numbers and of constants that stand before it, or a struct's length in numbers.
fn value(sum: &str, known: &Constants, code: &str) -> usize {
    if let Some(size) = sum.trim().strip_suffix(" / sizeof(uint64_t)") {
        let named = size
            .strip_prefix("sizeof(")
            .and_then(|s| s.strip_suffix(')'));
        return fields(code, named.expect("a struct's size")).len();
    }
    let one = |word: &str| word.parse().unwrap_or_else(|_| known[word]);
    sum.split('+').map(|word| one(word.trim())).sum()
}

/// The fields of a struct of numbers.
fn fields<'a>(code: &'a str, name: &str) -> Vec<&'a str> {
    let opening = format!("{name} {{");
    let (_, after) = code.split_once(&opening).expect("the struct");
    let (block, _) = after.split_once('}').expect("the struct's end");
    let fields = block.split(';').map(str::trim);
    fields
        .filter(|field| !field.is_empty())
        .map(|field| field.strip_prefix("uint64_t ").expect("a number"))
        .collect()
}

/// Every enumerator of the header, as C counts: one without a value is one more than the one before it.
fn constants() -> Constants {
    let code = code(&header());
    let mut found = Constants::new();
    for block in blocks(&code, "enum {") {
        let mut next = 0;
        for one in block
            .split(',')
            .map(str::trim)
            .filter(|one| !one.is_empty())
        {
            let (name, given) = match one.split_once('=') {
                Some((name, sum)) => (name.trim(), value(sum, &found, &code)),
                None => (one, next),
            };
            next = given + 1;
            let before = found.insert(name.to_string(), given);
            assert_eq!(before, None, "{name} stands once");
        }
    }
    found
}

/// The name of the layout: as a number of 64 bits it can be no enumerator.
fn name_of_the_layout() -> u64 {
    let header = header();
    let mut defined = header
        .lines()
        .filter_map(|line| line.strip_prefix("#define FALLOWCART_VAD_LAYOUT_NAME "));
    let one = defined.next().and_then(|text| {
        let digits = text.strip_prefix("UINT64_C(0x")?.strip_suffix(')')?;
        u64::from_str_radix(digits, 16).ok()
    });
    assert_eq!(defined.next(), None, "it stands once");
    one.expect("a number of 64 bits")
}

/// The constants of the layout with the names that C gives them.
fn of_layout() -> Constants {
    let places = [
        ("VAD", number::ALL),
        ("VAD_FLOAT", float::ALL),
        ("FILTER", filter::ALL),
        ("STAGE", stage::ALL),
    ];
    let places = places.into_iter().flat_map(|(of, all)| {
        all.iter()
            .map(move |(name, place)| (format!("FALLOWCART_{of}_{name}"), *place))
    });
    let lengths = [
        ("VAD_NUMBERS", layout::NUMBERS),
        ("VAD_FLOATS", layout::FLOATS),
        ("FILTER_WORDS", layout::FILTER_WORDS),
        ("STAGE_WORDS", stage::LENGTH),
        ("ROW_FIELDS", layout::ROW_FIELDS),
        ("LONGEST_FRAME", layout::LONGEST_FRAME),
        ("LONGEST_WARMUP", layout::LONGEST_WARMUP),
        ("LONGEST_BLOCK", Detector::LONGEST_BLOCK),
    ];
    let lengths = lengths.map(|(name, length)| (format!("FALLOWCART_{name}"), length));
    places.chain(lengths).collect()
}

#[test]
fn the_header_s_constants_are_the_layout_s() {
    let refused = |name: &String| name.starts_with("FALLOWCART_REFUSED_");
    let mut constants = constants();
    constants.retain(|name, _| !refused(name));
    assert_eq!(constants, of_layout());
    assert_eq!(name_of_the_layout(), layout::LAYOUT);
    assert_eq!(DetectorState::NUMBERS, layout::NUMBERS);
    assert_eq!(DetectorState::FLOATS, layout::FLOATS);
    assert_eq!(Filter::STATE_WORDS, layout::FILTER_WORDS);
}

#[test]
fn the_header_s_row_is_the_layout_s() {
    let names = row::ALL.iter().map(|(name, _)| name.to_lowercase());
    let names: Vec<_> = names.collect();
    assert_eq!(fields(&code(&header()), "struct fallowcart_row"), names);
    assert_eq!(names.len(), layout::ROW_FIELDS);
}
