//! The test vectors of the calls with records, rust/vectors/records.txt, over
//! the archive: every line that is printed for them has to be the stored one,
//! which is the reference's.

use celerycrag::{raw, Record};
use reference::vectors::{difference, output, Calls, Lent, Recorded};
use reference::{Filed, Withdrawn};

const VECTORS: &str = include_str!("../../vectors/records.txt");
const STORED: &str = include_str!("../../vectors/records.out");

/// The calls made by the archive. What a C function tells beside its number is
/// what the lent number holds after it, so where a refusal writes it, it is seen
/// in the line that is printed.
#[derive(Default)]
struct Archive;

fn plan(lent: Lent) -> raw::Lent {
    let [p, s, n, m, t] = lent.numbers.map(|number| number as usize);
    let [radices, weights, tables, d] = lent.parts;
    raw::Lent {
        p,
        s,
        n,
        m,
        t,
        radices,
        weights,
        tables,
        d,
    }
}

/// Lends the library records and a count of its own types, and gives back what
/// it left there.
fn lend(
    records: &mut [reference::Record],
    count: &mut u64,
    call: impl FnOnce(&mut [Record], &mut usize) -> u8,
) -> u8 {
    let ours = |&reference::Record { entry, value }: &_| Record { entry, value };
    let theirs = |&Record { entry, value }: &_| reference::Record { entry, value };
    let mut lent: Vec<Record> = records.iter().map(ours).collect();
    let mut end = *count as usize;
    let number = call(&mut lent, &mut end);
    records
        .iter_mut()
        .zip(&lent)
        .for_each(|(to, from)| *to = theirs(from));
    *count = end as u64;
    number
}

impl Calls for Archive {
    /// Implied where the column is C, which is no column.
    fn file_recorded(
        &self,
        lent: Lent,
        own: Recorded,
        entry: u64,
        value: u64,
        column: &mut u64,
    ) -> Filed {
        let (plan, entry, value) = (plan(lent), entry as usize, value as usize);
        let mut told = *column as usize;
        let number = lend(own.records, own.count, |records, count| {
            let (store, work) = (own.store, own.work);
            raw::file_recorded(plan, store, work, records, count, entry, value, &mut told)
        });
        *column = told as u64;
        match number {
            0 if told == (plan.t + 1) * (plan.n + plan.m) => Filed::Implied,
            0 => Filed::New(told),
            number => Filed::Refused(number.into()),
        }
    }

    fn withdraw(&self, lent: Lent, own: Recorded, entry: u64, value: &mut u16) -> Withdrawn {
        let (plan, entry) = (plan(lent), entry as usize);
        let number = lend(own.records, own.count, |records, count| {
            raw::withdraw(plan, own.store, own.work, records, count, entry, value)
        });
        match number {
            0 => Withdrawn::Value(*value),
            number => Withdrawn::Refused(number.into()),
        }
    }
}

#[test]
fn the_stored_output_is_that_of_the_archive() {
    let output = String::from_utf8(output::<Archive>(VECTORS)).expect("text");
    if let Some(difference) = difference(STORED, &output) {
        panic!("rust/vectors/records.out: {difference}");
    }
}

/// How many calls have this answer, with or without a number behind it.
fn answers(call: &str, answer: &str) -> usize {
    let lines = STORED.lines().zip(STORED.lines().skip(1));
    let is_it = |next: &str| next == answer || next.starts_with(&format!("{answer} "));
    let lines = lines.filter(|(line, next)| line.starts_with(call) && is_it(next));
    lines.count()
}

/// Both calls are there, often, accepted and refused for each of their causes;
/// no other call is, which the reference would make.
#[test]
fn the_vectors_have_both_calls_and_no_other() {
    let (file, withdraw) = ("celerycrag::file_recorded ", "celerycrag::withdraw ");
    let of = |call: &str| {
        VECTORS
            .lines()
            .filter(|line| line.starts_with(call))
            .count()
    };
    assert!(of(file) >= 400 && of(withdraw) >= 400);
    let is_call = |line: &&str| line.contains("::") && !line.starts_with('#');
    let all = VECTORS.lines().filter(is_call).count();
    assert_eq!(all, of(file) + of(withdraw));
    for (call, causes) in [
        (file, [1, 2, 3, 4, 5, 6, 16, 7, 8, 9].as_slice()),
        (withdraw, &[1, 2, 3, 4, 5, 6, 16, 7, 17]),
    ] {
        for cause in causes {
            let answer = format!("= refused {cause}");
            assert!(answers(call, &answer) >= 15, "{call}: {answer}");
        }
    }
    for (call, answer) in [(file, "= new"), (file, "= implied"), (withdraw, "= value")] {
        assert!(answers(call, answer) >= 40, "{call}: {answer}");
    }
}
