//! The stored outputs are what the reference gives for the same test vectors:
//! that of the library's program `cases`, and that of the calls with records,
//! to which a test of the wrapper holds the archive.

use reference::vectors::{difference, output, Reference};

const CASES: &str = include_str!("../../../crates/cases/stdin");
const CASES_STORED: &str = include_str!("../../../crates/cases/stdout");
const RECORDS: &str = include_str!("../../vectors/records.txt");
const RECORDS_STORED: &str = include_str!("../../vectors/records.out");

fn same(file: &str, vectors: &str, stored: &str) {
    let output = String::from_utf8(output::<Reference>(vectors)).expect("text");
    if let Some(difference) = difference(stored, &output) {
        panic!("{file}: {difference}");
    }
}

#[test]
fn the_stored_output_is_that_of_the_reference() {
    same("crates/cases/stdout", CASES, CASES_STORED);
}

#[test]
fn so_is_that_of_the_calls_with_records() {
    same("rust/vectors/records.out", RECORDS, RECORDS_STORED);
}

#[test]
fn no_stored_line_is_malformed() {
    for stored in [CASES_STORED, RECORDS_STORED] {
        assert!(!stored.contains("= malformed"));
    }
}

/// Lines of the calls with records that have too many numbers, too few, or a
/// record without its value.
#[test]
fn lines_that_are_malformed() {
    for line in [
        "work 1 x",
        "records 1",
        "records 1 2 3",
        "count",
        "count 1 2",
        "celerycrag::file_recorded 1",
        "celerycrag::file_recorded 1 2 3",
        "celerycrag::withdraw",
        "celerycrag::withdraw 1 2",
    ] {
        let given = output::<Reference>(&format!("{line}\n"));
        assert_eq!(given, format!("{line}\n= malformed\n").as_bytes());
    }
}

#[test]
fn a_difference_comes_with_its_call() {
    let stored = "# name\ncrate::call 1\n= number 0\n= row 1\n";
    let told = |line, stored, given| {
        let both = format!("stored {stored:?}, given {given:?}");
        Some(format!(
            "line {line}, under \"# name\", of \"crate::call 1\": {both}"
        ))
    };
    let other = stored.replace("row 1", "row 2");
    let expected = told(4, Some("= row 1"), Some("= row 2"));
    assert_eq!(difference(stored, &other), expected);
    let more = format!("{stored}= more");
    assert_eq!(difference(stored, &more), told(5, Some(""), Some("= more")));
    let less = &stored[..stored.len() - 1];
    assert_eq!(difference(stored, less), told(5, Some(""), None));
    assert_eq!(difference(stored, stored), None);
}
