//! docs/REFUSALS.md is the list of refusals: header and wrapper have the same numbers, each once, with the same names and sentences.

use fallowcart::refusal::{Carries, KINDS};

use crate::common::root;
use crate::header::header;

/// A line of the list, of docs/REFUSALS.md or of the header.
#[derive(Debug, PartialEq)]
struct Line {
    number: u32,
    name: String,
    sentence: String,
    carries: String,
}

const NOTHING: &str = "nothing";

/// The table of docs/REFUSALS.md.
fn listed() -> Vec<Line> {
    let path = root().join("docs/REFUSALS.md");
    let page = std::fs::read_to_string(path).expect("the list");
    let table = page.split("|---|---|---|---|\n").nth(1).expect("the table");
    let lines = table.lines().take_while(|line| line.starts_with('|'));
    lines.map(of_page).collect()
}

fn of_page(line: &str) -> Line {
    let cells: Vec<&str> = line.split('|').map(str::trim).collect();
    let ["", number, name, sentence, carries, ""] = cells[..] else {
        panic!("no line of the table: {line}");
    };
    Line {
        number: number.parse().expect("a number"),
        name: name.trim_matches('`').into(),
        sentence: sentence.into(),
        carries: carries.into(),
    }
}

/// The header's enumerators, with their comments.
fn of_header(line: &str) -> Option<Line> {
    let line = line.trim().strip_prefix("FALLOWCART_REFUSED_")?;
    let (name, rest) = line.split_once(" = ").expect("a value");
    let (number, comment) = rest.split_once(", /* ").expect("a comment");
    let comment = comment.strip_suffix(" */").expect("its end");
    let (sentence, carries) = comment
        .split_once("; carries ")
        .unwrap_or((comment, NOTHING));
    Some(Line {
        number: number.parse().expect("a number"),
        name: name.into(),
        sentence: sentence.into(),
        carries: carries.into(),
    })
}

#[test]
fn the_list_has_each_number_once_and_in_order() {
    let listed = listed();
    assert!(listed.len() >= 27);
    assert!(listed.is_sorted_by(|one, next| one.number < next.number));
    for (n, line) in listed.iter().enumerate() {
        let before = listed[..n].iter().any(|other| other.name == line.name);
        assert!(!before, "{} stands twice", line.name);
    }
}

#[test]
fn the_header_s_refusals_are_the_list_s() {
    let header: Vec<Line> = header().lines().filter_map(of_header).collect();
    assert_eq!(header, listed());
}

#[test]
fn the_wrapper_s_refusals_are_the_list_s() {
    let carries = |carries| match carries {
        Carries::Nothing => NOTHING,
        Carries::Place => "the sample's place in the block",
        Carries::Rows => "the number of rows needed",
    };
    let listed = listed();
    assert_eq!(KINDS.len(), listed.len());
    for (kind, line) in KINDS.iter().zip(&listed) {
        assert_eq!(kind.number, line.number);
        assert_eq!(kind.sentence, line.sentence, "{}", line.number);
        assert_eq!(carries(kind.carries), line.carries, "{}", line.number);
    }
}
