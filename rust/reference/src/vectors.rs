//! The interpreter of the test vectors: what has to be printed for a file of
//! them. It is written from the pages that say what each line means:
//! crates/cases/README.md, and for the calls with records rust/vectors/README.md.
//!
//! The calls with records are made by whoever is asked to ([`Calls`]): by the
//! reference, of which the stored outputs are, or by the archive, which a test of
//! the wrapper holds to them. All other calls are made by the reference.

mod calls;

use crate::{Filed, General, Record, Reread, Settled, Withdrawn};
pub use crate::interface::difference;
pub use calls::{Calls, Lent, Recorded, Reference};
use std::fmt::Display;

/// What is set, and what was printed.
#[derive(Default)]
struct Cases<C> {
    /// Who makes the calls with records.
    calls: C,
    plan: [u64; 5],
    radices: Vec<u8>,
    weights: Vec<u8>,
    tables: Vec<u8>,
    d: Vec<u8>,
    row: Vec<u8>,
    store: Vec<u8>,
    full: Vec<u8>,
    beta: Vec<u8>,
    digits: Vec<u8>,
    steps: Vec<u16>,
    work: Vec<u8>,
    records: Vec<Record>,
    count: u64,
    text: Vec<u8>,
    out: Vec<u8>,
}

/// Calls a function of the reference with the plan, then the call's own parts.
macro_rules! call {
    ($f:ident, $cases:expr $(, $own:expr)*) => {{
        let [p, s, n, m, t] = $cases.plan;
        let (radices, weights) = (&$cases.radices, &$cases.weights);
        crate::$f(p, s, n, m, t, radices, weights, &$cases.tables, &$cases.d $(, $own)*)
    }};
}

/// The most numbers that a line has.
const MOST: usize = 2048;
/// Room enough for every text; with less, nothing is printed.
const ROOM: usize = 131_072;
/// What the column or the value that a call with records tells holds before it;
/// no call tells it.
const NINES: u16 = 9999;

/// A number's digits; above 2^64 - 1 it stays there.
fn number(digits: &str) -> Option<u64> {
    digits.bytes().try_fold(0_u64, |value, byte| {
        let digit = byte.is_ascii_digit().then(|| u64::from(byte - b'0'))?;
        Some(value.saturating_mul(10).saturating_add(digit))
    })
}

/// The numbers of a line, `20*2` twenty times. None where it is malformed.
fn numbers(words: &str) -> Option<Vec<u64>> {
    let mut all = Vec::new();
    for word in words.split(' ') {
        let (times, value) = word.split_once('*').unwrap_or(("1", word));
        let times = usize::try_from(number(times)?).ok()?;
        if times > MOST - all.len() {
            return None;
        }
        all.resize(all.len() + times, number(value)?);
    }
    Some(all)
}

/// Records, of pairs of numbers. None where one is left over.
fn records(numbers: &[u64]) -> Option<Vec<Record>> {
    let pairs = numbers.chunks(2).map(|pair| match *pair {
        [entry, value] => Some(Record {
            entry: entry as u16,
            value: value as u16,
        }),
        _ => None,
    });
    pairs.collect()
}

impl<C: Calls> Cases<C> {
    fn say(&mut self, name: &str, number: impl Display) {
        self.print(&format!("= {name} {number}\n"));
    }

    fn print(&mut self, line: &str) {
        self.out.extend_from_slice(line.as_bytes());
    }

    /// Every number of a part.
    fn whole<T: Display>(&mut self, name: &str, part: &[T]) {
        let numbers: String = part.iter().map(|number| format!(" {number}")).collect();
        self.print(&format!("= {name}{numbers}\n"));
    }

    /// A line without its LF.
    fn line(&mut self, line: &str) {
        self.print(&format!("{line}\n"));
        if let Some(text) = line.strip_prefix('>') {
            self.text.extend_from_slice(format!("{text}\n").as_bytes());
        } else if !line.is_empty() && !line.starts_with('#') {
            let (word, numbers) = match line.split_once(' ') {
                None => (line, Some(Vec::new())),
                Some((word, words)) => (word, numbers(words)),
            };
            let done = numbers.and_then(|numbers| self.command(word, &numbers));
            done.unwrap_or_else(|| self.print("= malformed\n"));
        }
    }

    /// A command; None where there is no such command with so many numbers.
    fn command(&mut self, word: &str, numbers: &[u64]) -> Option<()> {
        let bytes = || numbers.iter().map(|number| *number as u8).collect();
        match (word, numbers) {
            ("plan", _) => self.plan = numbers.try_into().ok()?,
            ("radices", _) => self.radices = bytes(),
            ("weights", _) => self.weights = bytes(),
            ("tables", _) => self.tables = bytes(),
            ("d", _) => self.d = bytes(),
            ("row", _) => self.row = bytes(),
            ("store", _) => self.store = bytes(),
            ("full", _) => self.full = bytes(),
            ("beta", _) => self.beta = bytes(),
            ("digits", _) => self.digits = bytes(),
            ("steps", _) => self.steps = numbers.iter().map(|number| *number as u16).collect(),
            ("work", _) => self.work = bytes(),
            ("records", _) => self.records = records(numbers)?,
            ("count", [count]) => self.count = *count,
            ("plan::check", []) => self.say("number", call!(check_plan, self)),
            ("plan::row", [entry]) => self.row(*entry),
            ("store::test", []) => self.say("number", call!(test_store, self, &self.store)),
            ("store::file", [entry, value]) => self.file(*entry, *value),
            ("store::coefficients", []) => self.coefficients(),
            ("store::settle", [entry]) => self.settle(*entry),
            ("moves::to_half", []) => self.move_to_half(),
            ("moves::to_full", []) => self.move_to_full(),
            ("general::general", []) => self.general(),
            ("program::check_writing", []) => self.say("number", self.check_writing()),
            ("program::write_into", []) => self.write_into(),
            ("program::write", []) => self.write(),
            ("program::run", []) => self.run(),
            ("listing::worst_norm", []) => self.worst_norm(),
            ("readback::read_steps", []) => self.read_steps(),
            ("readback::read_listing", []) => self.read_listing(),
            ("celerycrag::file_recorded", [entry, value]) => self.file_recorded(*entry, *value),
            ("celerycrag::withdraw", [entry]) => self.withdraw(*entry),
            ("text::print_text", [room]) => self.print_text(*room),
            _ => return None,
        }
        Some(())
    }

    fn row(&mut self, entry: u64) {
        let mut row = self.row.clone();
        self.say("number", call!(row, self, entry, &mut row));
        self.whole("row", &row);
        self.row = row;
    }

    fn file(&mut self, entry: u64, value: u64) {
        let mut store = self.store.clone();
        self.filed(call!(file, self, &mut store, entry, value));
        self.whole("store", &store);
        self.store = store;
    }

    fn filed(&mut self, answer: Filed) {
        match answer {
            Filed::New(column) => self.say("new", column),
            Filed::Implied => self.print("= implied\n"),
            Filed::Refused(number) => self.say("refused", number),
        }
    }

    fn coefficients(&mut self) {
        let (store, mut beta) = (self.store.clone(), self.beta.clone());
        self.say("number", call!(coefficients, self, &store, &mut beta));
        self.whole("beta", &beta);
        self.whole("store", &store);
        self.beta = beta;
    }

    fn settle(&mut self, entry: u64) {
        match call!(settle, self, &self.store, entry) {
            Settled::Forced(residue) => self.say("forced", residue),
            Settled::Free(column) => self.say("free", column),
            Settled::Refused(number) => self.say("refused", number),
        }
    }

    fn move_to_half(&mut self) {
        let mut store = self.store.clone();
        self.say("number", call!(to_half, self, &self.full, &mut store));
        self.whole("store", &store);
        self.store = store;
    }

    fn move_to_full(&mut self) {
        let mut full = self.full.clone();
        self.say("number", call!(to_full, self, &self.store, &mut full));
        self.whole("full", &full);
        self.full = full;
    }

    fn general(&mut self) {
        let mut work = self.store.clone();
        match call!(general, self, &mut work) {
            General::Yes => self.print("= yes\n"),
            General::No => self.print("= no\n"),
            General::Refused(number) => self.say("refused", number),
        }
        self.whole("store", &work);
        self.store = work;
    }

    fn check_writing(&self) -> u32 {
        call!(check_writing, self, &self.beta, &self.steps)
    }

    /// The reference has no writer that answers the number: it is that of the
    /// check.
    fn write_into(&mut self) {
        let mut steps = self.steps.clone();
        self.say("number", self.check_writing());
        call!(write, self, &self.beta, &mut steps);
        self.whole("steps", &steps);
        self.steps = steps;
    }

    fn write(&mut self) {
        let mut steps = self.steps.clone();
        self.say("length", call!(write, self, &self.beta, &mut steps).len());
        self.whole("steps", &steps);
        self.steps = steps;
    }

    fn run(&mut self) {
        match call!(run, self, &self.steps, &self.digits) {
            Ok(ran) => {
                self.say("y", ran.y);
                self.say("bootstraps", ran.bootstraps);
            }
            Err(number) => self.say("refused", number),
        }
    }

    fn worst_norm(&mut self) {
        match call!(worst_norm, self, &self.beta) {
            Ok(norm) => self.say("norm", norm),
            Err(number) => self.say("refused", number),
        }
    }

    fn read_steps(&mut self) {
        let mut beta = self.beta.clone();
        self.say("number", call!(read_steps, self, &self.steps, &mut beta));
        self.whole("beta", &beta);
        self.beta = beta;
    }

    fn read_listing(&mut self) {
        let (text, mut beta) = (std::mem::take(&mut self.text), self.beta.clone());
        match call!(read_listing, self, &text, &mut beta) {
            Reread::Read => self.print("= read\n"),
            Reread::Refused(number) => self.say("refused", number),
            Reread::RefusedAt(number, line) => {
                self.say("refused", number);
                self.say("line", line);
            }
        }
        self.whole("beta", &beta);
        self.beta = beta;
    }

    /// Who makes a call with records, and what it is lent.
    fn lent(&mut self) -> (&C, Lent<'_>, Recorded<'_>) {
        let plan = Lent {
            numbers: self.plan,
            parts: [&self.radices, &self.weights, &self.tables, &self.d],
        };
        let own = Recorded {
            store: &mut self.store,
            work: &mut self.work,
            records: &mut self.records,
            count: &mut self.count,
        };
        (&self.calls, plan, own)
    }

    fn file_recorded(&mut self, entry: u64, value: u64) {
        let mut column = NINES.into();
        let (calls, plan, own) = self.lent();
        let answer = calls.file_recorded(plan, own, entry, value, &mut column);
        self.filed(answer);
        if let Filed::Refused(_) = answer {
            self.say("column", column);
        }
        self.recorded();
    }

    fn withdraw(&mut self, entry: u64) {
        let mut value = NINES;
        let (calls, plan, own) = self.lent();
        match calls.withdraw(plan, own, entry, &mut value) {
            Withdrawn::Value(value) => self.say("value", value),
            Withdrawn::Refused(number) => {
                self.say("refused", number);
                self.say("value", value);
            }
        }
        self.recorded();
    }

    /// All that a call with records may write.
    fn recorded(&mut self) {
        let records = self.records.iter();
        let records: Vec<u16> = records.flat_map(|one| [one.entry, one.value]).collect();
        let (store, work) = (self.store.clone(), self.work.clone());
        self.whole("store", &store);
        self.whole("work", &work);
        self.whole("records", &records);
        self.say("count", self.count);
    }

    fn print_text(&mut self, room: u64) {
        let mut slice = [9; ROOM];
        let text = std::mem::take(&mut self.text);
        let printed = match room < ROOM as u64 {
            true => Vec::new(),
            false => crate::filing_program(&text),
        };
        slice[..printed.len()].copy_from_slice(&printed);
        self.say("length", printed.len());
        self.out.extend_from_slice(&printed);
        let behind = &slice[printed.len()..];
        let changed = behind.iter().filter(|byte| **byte != 9).count();
        self.say("changed behind it", changed);
    }
}

/// Everything that is printed for these vectors.
pub fn output<C: Calls + Default>(vectors: &str) -> Vec<u8> {
    let mut cases = Cases::<C>::default();
    // A line ends in LF, and a CR before it is a byte of the line.
    let lines = vectors.split_terminator('\n');
    lines.for_each(|line| cases.line(line));
    cases.out
}
