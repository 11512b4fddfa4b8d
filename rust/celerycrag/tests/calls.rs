//! The test vectors of the C interface, rust/vectors, over the archive: every
//! line that is printed for them has to be the stored one, which is the
//! reference's.

use celerycrag::{raw, Record};
use reference::interface::{difference, output, Calls, Lent};
use std::collections::BTreeMap;

/// The files: name, vectors, stored output.
const FILES: [(&str, &str, &str); 2] = [
    (
        "rust/vectors/calls.out",
        include_str!("../../vectors/calls.txt"),
        include_str!("../../vectors/calls.out"),
    ),
    (
        "rust/vectors/recorded.out",
        include_str!("../../vectors/recorded.txt"),
        include_str!("../../vectors/recorded.out"),
    ),
];

/// The calls with their causes, as the header has them.
const CAUSES: [(&str, &[u8]); 17] = [
    ("celery_check", &[1, 2, 3, 4, 5]),
    ("celery_row", &[1, 2, 3, 4, 5, 7]),
    ("celery_test", &[1, 2, 3, 4, 5, 6]),
    ("celery_file", &[1, 2, 3, 4, 5, 6, 7, 8, 9]),
    ("celery_file_recorded", &[1, 2, 3, 4, 5, 6, 16, 7, 8, 9]),
    ("celery_withdraw", &[1, 2, 3, 4, 5, 6, 16, 7, 17]),
    ("celery_coefficients", &[1, 2, 3, 4, 5, 6]),
    ("celery_settle", &[1, 2, 3, 4, 5, 6, 7]),
    ("celery_general", &[1, 2, 3, 4, 5]),
    ("celery_to_half", &[1, 2, 3, 4, 5, 6]),
    ("celery_to_full", &[1, 2, 3, 4, 5, 6]),
    ("celery_check_writing", &[1, 2, 3, 4, 5, 10]),
    ("celery_write", &[1, 2, 3, 4, 5, 10]),
    ("celery_run", &[1, 2, 3, 4, 5, 11, 12]),
    ("celery_worst_norm", &[1, 2, 3, 4, 5]),
    ("celery_read_steps", &[1, 2, 3, 4, 5, 15]),
    ("celery_read_listing", &[1, 2, 3, 4, 5, 13, 15]),
];

/// The words of the lines that set something.
const SETTINGS: [&str; 14] = [
    "plan", "radices", "weights", "tables", "d", "row", "store", "full", "work", "beta", "digits",
    "steps", "records", "count",
];

/// The calls made by the archive.
#[derive(Default)]
struct Archive;

fn lent(plan: Lent) -> raw::Lent {
    let ([p, s, n, m, t], [radices, weights, tables, d]) = (plan.numbers, plan.parts);
    raw::Lent {
        p,
        s,
        n,
        m,
        t,
        radices,
        weights,
        tables,
        d,
    }
}

/// Lends the library records of its own type, and gives back what it left
/// there.
fn with_records(records: &mut [reference::Record], call: impl FnOnce(&mut [Record]) -> u8) -> u8 {
    let ours = |&reference::Record { entry, value }: &_| Record { entry, value };
    let theirs = |Record { entry, value }| reference::Record { entry, value };
    let mut lent: Vec<Record> = records.iter().map(ours).collect();
    let number = call(&mut lent);
    for (to, from) in records.iter_mut().zip(lent) {
        *to = theirs(from);
    }
    number
}

/// Calls that are handed on as they are, but for the plan.
macro_rules! handed_on {
    ($($name:ident($($own:ident: $type:ty),*);)*) => {$(
        fn $name(&self, plan: Lent, $($own: $type),*) -> u8 {
            raw::$name(lent(plan), $($own),*)
        }
    )*};
}

impl Calls for Archive {
    handed_on! {
        check();
        row(entry: usize, row: &mut [u8]);
        test(store: &[u8]);
        file(store: &mut [u8], entry: usize, value: usize, column: &mut usize);
        coefficients(store: &[u8], beta: &mut [u8]);
        settle(store: &[u8], entry: usize, residue: &mut u8, column: &mut usize);
        general(work: &mut [u8], general: &mut u8);
        to_half(full: &[u8], half: &mut [u8]);
        to_full(half: &[u8], full: &mut [u8]);
        check_writing(beta: &[u8], steps: &[u16]);
        write(beta: &[u8], steps: &mut [u16], written: &mut usize);
        run(steps: &[u16], digits: &[u8], y: &mut u8, bootstraps: &mut usize);
        worst_norm(beta: &[u8], norm: &mut usize);
        read_steps(steps: &[u16], beta: &mut [u8]);
        read_listing(text: &[u8], beta: &mut [u8], line: &mut usize);
    }

    fn file_recorded(
        &self,
        plan: Lent,
        store: &mut [u8],
        work: &mut [u8],
        records: &mut [reference::Record],
        count: &mut usize,
        entry: usize,
        value: usize,
        column: &mut usize,
    ) -> u8 {
        let plan = lent(plan);
        with_records(records, |records| {
            raw::file_recorded(plan, store, work, records, count, entry, value, column)
        })
    }

    fn withdraw(
        &self,
        plan: Lent,
        store: &mut [u8],
        work: &mut [u8],
        records: &mut [reference::Record],
        count: &mut usize,
        entry: usize,
        value: &mut u16,
    ) -> u8 {
        let plan = lent(plan);
        with_records(records, |records| {
            raw::withdraw(plan, store, work, records, count, entry, value)
        })
    }
}

#[test]
fn the_stored_output_is_that_of_the_archive() {
    for (file, vectors, stored) in FILES {
        let output = String::from_utf8(output::<Archive>(vectors)).expect("text");
        if let Some(difference) = difference(stored, &output) {
            panic!("{file}: {difference}");
        }
    }
}

/// The first word of a line that is a call, or would be one: of every line that
/// is no name, no line of a text, no answer, and sets nothing.
fn call(line: &str) -> Option<&str> {
    let word = line.split(' ').next().expect("a first word");
    let other = line.is_empty() || line.starts_with(['#', '>', '=']);
    (!other && !SETTINGS.contains(&word)).then_some(word)
}

/// Every call of the vectors is one that the archive makes here.
#[test]
fn the_vectors_have_the_calls_of_the_header_and_no_other() {
    for (file, vectors, _) in FILES {
        for word in vectors.lines().filter_map(call) {
            let known = CAUSES.iter().any(|(call, _)| *call == word);
            assert!(known, "{file}: {word}");
        }
    }
}

/// How often each call has each answer in the stored outputs: its number, and
/// the number that it tells in the line behind that, where there is one.
fn answers() -> BTreeMap<(&'static str, u8), Vec<&'static str>> {
    let mut answers: BTreeMap<_, Vec<_>> = BTreeMap::new();
    for (file, _, stored) in FILES {
        let mut lines = stored.lines().peekable();
        while let Some(line) = lines.next() {
            let Some(word) = call(line) else {
                continue;
            };
            let number = lines.next().and_then(|line| line.strip_prefix("= number "));
            let number = number.and_then(|number| number.parse().ok());
            let number = number.unwrap_or_else(|| panic!("{file}: {word} without a number"));
            let told = lines.peek().filter(|line| line.starts_with("= "));
            answers
                .entry((word, number))
                .or_default()
                .push(told.copied().unwrap_or(""));
        }
    }
    answers
}

/// Each call is accepted, and refused for each of its causes, and for no other.
#[test]
fn each_call_is_refused_for_each_of_its_causes() {
    let answers = answers();
    for (call, causes) in CAUSES {
        for cause in [0].iter().chain(causes) {
            let count = answers.get(&(call, *cause)).map_or(0, Vec::len);
            assert!(count >= 5, "{call}: {count} with number {cause}");
        }
    }
    for (call, number) in answers.keys() {
        let of_call = CAUSES.iter().find(|(name, _)| name == call);
        let causes = of_call.expect("a call of the header").1;
        assert!(*number == 0 || causes.contains(number), "{call}: {number}");
    }
}

/// Of the calls that tell of two cases, each is there: an entry that is new or
/// implied, forced or free, a plan that is general or not.
#[test]
fn accepted_calls_tell_of_each_case() {
    let answers = answers();
    // Under XOR's plan, which many vectors have, C is 4 and p is 3.
    for (call, told, other) in [
        ("celery_file", "= column 4", "= column 1"),
        ("celery_file_recorded", "= column 4", "= column 1"),
        ("celery_settle", "= residue 1", "= residue 3"),
        ("celery_general", "= general 1", "= general 0"),
    ] {
        for told in [told, other] {
            let accepted = answers[&(call, 0)].iter();
            let count = accepted.filter(|answer| **answer == told).count();
            assert!(count >= 5, "{call}: {count} with {told}");
        }
    }
}
