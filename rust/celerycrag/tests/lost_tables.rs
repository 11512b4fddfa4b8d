//! The example `read_back` on the plan texts of examples/ with their listings:
//! the whole table comes back, and filed again it prints the same listing.

use std::fs;
use std::path::Path;

#[path = "../examples/read_back.rs"]
mod read_back;
use read_back::table;

const DIRECTORY: &str = concat!(env!("CARGO_MANIFEST_DIR"), "/../../examples");

/// Every plan text of examples/, up to its entries and with its entries alone,
/// and its listing.
fn examples() -> Vec<[String; 3]> {
    let mut all = Vec::new();
    for file in fs::read_dir(DIRECTORY).expect("examples/") {
        let path = file.expect("a file").path();
        if path.extension() == Some("txt".as_ref()) {
            let read = |path: &Path| fs::read_to_string(path).expect("a text");
            let (text, listing) = (read(&path), read(&path.with_extension("out")));
            let (plan, entries) = text.split_at(text.find("entry value\n").expect("entries"));
            all.push([plan.to_string(), entries.to_string(), listing]);
        }
    }
    assert!(all.len() >= 17, "only {} examples", all.len());
    all
}

/// Every example has the whole table, its entries in order.
#[test]
fn every_table_comes_back() {
    for [plan, entries, listing] in examples() {
        let back = |text: &str| table(text, listing.as_bytes()).expect("a table");
        let whole = (entries.clone(), 0);
        assert_eq!(back(&plan), whole);
        // The entries behind the plan are not read, whatever they are.
        assert_eq!(back(&(plan.clone() + &entries)), whole);
        assert_eq!(back(&(plan.clone() + "entry value\n0 1\nx\n")), whole);

        let again = plan + &whole.0;
        let printed = reference::filing_program(again.as_bytes());
        assert_eq!(printed, listing.as_bytes());
    }
}

/// p = 5 and s = 2, a digit of radix 5, and the program that gives it back: the
/// residues of entries 2, 3 and 4 are no values.
#[test]
fn residues_of_s_and_more_are_left_out() {
    let plan = "p s n links products\n5 2 1 0 0\n5\n";
    let listing = "bootstraps steps worst\n0 2 1\nkind to from by\n0 5 0 0\n1 5 0 1\n";
    let back = table(plan, listing.as_bytes()).expect("a table");
    assert_eq!(back, ("entry value\n0 0\n1 1\n".to_string(), 3));
    let again = plan.to_string() + &back.0;
    assert_eq!(
        reference::filing_program(again.as_bytes()),
        listing.as_bytes()
    );
}

#[test]
fn what_is_turned_down() {
    let plan = "p s n links products\n5 2 1 0 0\n5\n";
    let failure = |plan: &str, listing: &str| {
        let failure = table(plan, listing.as_bytes()).expect_err("a failure");
        failure.to_string()
    };
    let listing = "bootstraps steps worst\n0 2 1\nkind to from by\n0 5 0 0\n1 5 0 1\n";
    assert!(
        failure(plan, &listing.replace("0 2 1", "0 2 2")).starts_with("line 1: refused with 15")
    );
    assert!(failure(plan, listing.trim_end()).starts_with("line 5: refused with 13"));
    assert!(failure(&plan.replace("5 2", "9 2"), listing).starts_with("refused with 1:"));
    assert!(failure(&plan.replace("\n5\n", "\n1\n"), listing).starts_with("refused with 2:"));
    for text in [
        "",
        "p s n links products\n",
        "entry value\n",
        "p s n links products\n5 2 1 0\n5\n",
    ] {
        assert!(failure(text, listing).starts_with("the plan text"));
    }
    for line in ["256", "x", "", "5  5", "-5"] {
        let text = plan.replace("\n5\n", &format!("\n{line}\n"));
        assert!(table(&text, listing.as_bytes()).is_err(), "{line}");
    }
}
