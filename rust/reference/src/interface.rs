//! The interpreter of the test vectors: what has to be printed for a file of
//! them. It is written from the pages that say what each line means,
//! rust/vectors/README.md and crates/cases/README.md.
//!
//! The calls of the C interface are made by whoever is asked to ([`Calls`]): by
//! the reference, of which the stored outputs are, or by the archive, which a
//! test of the wrapper holds to them. The calls of the Rattle program `cases` are
//! made by the reference alone.

mod answers;
mod calls;
mod difference;
mod numbers;
mod rattle;
mod reference;

use self::numbers::{numbers, records};
use crate::Record;
use std::fmt::Display;

pub use self::calls::{Calls, Lent};
pub use self::difference::difference;
pub use self::reference::Reference;

/// The plan that is set.
#[derive(Default)]
struct Plan {
    numbers: [usize; 5],
    radices: Vec<u8>,
    weights: Vec<u8>,
    tables: Vec<u8>,
    d: Vec<u8>,
}

impl Plan {
    fn lent(&self) -> Lent<'_> {
        Lent {
            numbers: self.numbers,
            parts: [&self.radices, &self.weights, &self.tables, &self.d],
        }
    }
}

/// What was printed.
#[derive(Default)]
struct Output(Vec<u8>);

impl Output {
    fn line(&mut self, line: impl Display) {
        self.0.extend_from_slice(format!("{line}\n").as_bytes());
    }

    /// A line of an answer: a number.
    fn number(&mut self, name: &str, number: impl Display) {
        self.line(format_args!("= {name} {number}"));
    }

    /// A line of an answer: every number of a part.
    fn part<T: Display>(&mut self, name: &str, part: &[T]) {
        let numbers: String = part.iter().map(|number| format!(" {number}")).collect();
        self.line(format_args!("= {name}{numbers}"));
    }
}

/// What is set, and what was printed.
#[derive(Default)]
struct Cases<C> {
    /// Who makes the calls of the C interface.
    calls: C,
    plan: Plan,
    row: Vec<u8>,
    store: Vec<u8>,
    full: Vec<u8>,
    work: Vec<u8>,
    beta: Vec<u8>,
    digits: Vec<u8>,
    steps: Vec<u16>,
    records: Vec<Record>,
    count: usize,
    text: Vec<u8>,
    out: Output,
}

impl<C: Calls> Cases<C> {
    /// A line without its LF.
    fn line(&mut self, line: &str) {
        self.out.line(line);
        if let Some(text) = line.strip_prefix('>') {
            self.text.extend_from_slice(format!("{text}\n").as_bytes());
        } else if !line.is_empty() && !line.starts_with('#') {
            let (word, numbers) = match line.split_once(' ') {
                None => (line, Some(Vec::new())),
                Some((word, words)) => (word, numbers(words)),
            };
            let done = numbers.and_then(|numbers| self.command(word, &numbers));
            done.unwrap_or_else(|| self.out.line("= malformed"));
        }
    }

    /// A command; None where there is no such command with so many numbers.
    fn command(&mut self, word: &str, numbers: &[usize]) -> Option<()> {
        self.set(word, numbers)
            .or_else(|| self.call(word, numbers))
            .or_else(|| self.rattle_call(word, numbers))
    }

    /// Sets the plan's numbers, a part, or the count.
    fn set(&mut self, word: &str, numbers: &[usize]) -> Option<()> {
        let bytes = || numbers.iter().map(|number| *number as u8).collect();
        match (word, numbers) {
            ("plan", _) => self.plan.numbers = numbers.try_into().ok()?,
            ("radices", _) => self.plan.radices = bytes(),
            ("weights", _) => self.plan.weights = bytes(),
            ("tables", _) => self.plan.tables = bytes(),
            ("d", _) => self.plan.d = bytes(),
            ("row", _) => self.row = bytes(),
            ("store", _) => self.store = bytes(),
            ("full", _) => self.full = bytes(),
            ("work", _) => self.work = bytes(),
            ("beta", _) => self.beta = bytes(),
            ("digits", _) => self.digits = bytes(),
            ("steps", _) => self.steps = numbers.iter().map(|number| *number as u16).collect(),
            ("records", _) => self.records = records(numbers)?,
            ("count", [count]) => self.count = *count,
            _ => return None,
        }
        Some(())
    }
}

/// Everything that is printed for these vectors.
pub fn output<C: Calls + Default>(vectors: &str) -> Vec<u8> {
    let mut cases = Cases::<C>::default();
    // A line ends in LF, and a CR before it is a byte of the line.
    let lines = vectors.split_terminator('\n');
    lines.for_each(|line| cases.line(line));
    cases.out.0
}
