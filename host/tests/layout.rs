//! The proved crate that says where the parts of a stored state stand, beside the wrapper's layout: the same names at the same places. `header.rs` holds the C
//! header to the wrapper.

use fallowcart::layout::{self, float, number};

use crate::common::root;

/// A constant: its name, its type and its value.
type Constant = (String, String, u64);

/// The constants of a file of the crate, in the file's order.
fn constants(file: &str) -> Vec<Constant> {
    let path = root().join("crates/vad_layout/src").join(file);
    let text = std::fs::read_to_string(path).expect("a file of the crate");
    text.lines()
        .filter(|line| line.contains("const ") && !line.starts_with("//"))
        .map(|line| constant(line).unwrap_or_else(|| panic!("{file}: {line}")))
        .collect()
}

/// `pub const NAME: TYPE = VALUE;`
fn constant(line: &str) -> Option<Constant> {
    let (name, rest) = line.strip_prefix("pub const ")?.split_once(": ")?;
    let (of, value) = rest.strip_suffix(';')?.split_once(" = ")?;
    let digits = value.replace('_', "");
    let value = match digits.strip_prefix("0x") {
        Some(digits) => u64::from_str_radix(digits, 16),
        None => digits.parse(),
    };
    Some((name.into(), of.into(), value.ok()?))
}

/// The wrapper's places as the crate would write them.
fn places(all: &[(&str, usize)]) -> Vec<Constant> {
    let one = |(name, place): &(&str, usize)| (name.to_string(), "usize".into(), *place as u64);
    all.iter().map(one).collect()
}

#[test]
fn the_crate_s_places_are_the_layout_s() {
    assert_eq!(constants("in_numbers.rt"), places(number::ALL));
    assert_eq!(constants("in_floats.rt"), places(float::ALL));
    let name = ("LAYOUT".to_string(), "u64".to_string(), layout::LAYOUT);
    let lengths = places(&[("NUMBERS", layout::NUMBERS), ("FLOATS", layout::FLOATS)]);
    let whole: Vec<Constant> = [name].into_iter().chain(lengths).collect();
    assert_eq!(constants("lib.rt"), whole);
}

/// So that no place stands in a file that is not read here.
#[test]
fn the_crate_has_no_other_file() {
    let entries = std::fs::read_dir(root().join("crates/vad_layout/src")).expect("the crate");
    let names = entries.map(|entry| entry.expect("an entry").file_name());
    let mut names: Vec<_> = names.collect();
    names.sort();
    assert_eq!(names, ["in_floats.rt", "in_numbers.rt", "lib.rt"]);
}
