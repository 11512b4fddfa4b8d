//! Gets a table back from its printed program: for who kept the plan and the
//! listing, and lost the table.
//!
//!     read_back PLAN LISTING
//!
//! PLAN is a file with a plan text, as the filing program reads it. From the
//! line `entry value` on it is not read, and that line may be missing, too: the
//! entries are what was lost. LISTING is a file with what the filing program
//! printed; it has to be the listing of some coefficients under this plan, byte
//! by byte, else it is refused and nothing is printed.
//!
//! The table is printed as a plan text has it: the line `entry value`, then a
//! line for each entry. Under the coefficients every entry has a residue modulo
//! p, also one that was never filed. Where that is not below s it is no value,
//! and none can have been filed for the entry, so the entry is left out; how many
//! are left out is told on standard error. Behind the lines of its plan, the table makes
//! the filing program print the same listing again, if that was made by filing.
//!
//!     cargo run --release --example read_back -- ../examples/xor.txt ../examples/xor.out

use celerycrag::{Plan, Shape};
use std::error::Error;
use std::process::ExitCode;

type Failure = Box<dyn Error>;

/// The lines of a plan text that are not yet read.
struct Lines<'a>(std::str::Lines<'a>);

impl Lines<'_> {
    /// The numbers of the next line.
    fn numbers(&mut self) -> Result<Vec<usize>, Failure> {
        let line = self.0.next().ok_or("the plan text ends early")?;
        let number = |word: &str| word.parse::<usize>();
        let numbers = line.split(' ').map(number).collect::<Result<_, _>>();
        numbers.map_err(|error| format!("the plan text has the line '{line}': {error}").into())
    }

    /// The same where each is a byte, as radices and residues are.
    fn bytes(&mut self) -> Result<Vec<u8>, Failure> {
        let bytes = self.numbers()?.into_iter().map(u8::try_from);
        Ok(bytes.collect::<Result<_, _>>()?)
    }
}

/// The plan of a plan text, whatever entries come behind it.
fn plan(text: &str) -> Result<Plan, Failure> {
    let mut lines = Lines(text.lines());
    if lines.0.next() != Some("p s n links products") {
        return Err("the plan text begins with another line".into());
    }
    let [p, s, n, m, t] = lines.numbers()?[..] else {
        return Err("the plan text has not five numbers".into());
    };
    let radices = lines.bytes()?;
    let (mut weights, mut tables, mut d) = (Vec::new(), Vec::new(), Vec::new());
    for _ in 0..m {
        weights.extend(lines.bytes()?);
        tables.extend(lines.bytes()?);
    }
    for _ in 0..t {
        d.extend(lines.bytes()?);
    }
    Ok(Plan::new(
        Shape { p, s, n, m, t },
        radices,
        weights,
        tables,
        d,
    )?)
}

/// The lines of the table that a plan and a listing make, and how many entries
/// are left out.
pub fn table(plan_text: &str, listing: &[u8]) -> Result<(String, usize), Failure> {
    let plan = plan(plan_text)?;
    let beta = plan.read_listing(listing)?;
    let Shape { p, s, .. } = plan.shape();
    let (mut lines, mut left_out) = ("entry value\n".to_string(), 0);
    for entry in 0..plan.entries() {
        let row = plan.row(entry)?;
        let terms = row.iter().zip(&beta);
        let sum: usize = terms.map(|(&x, &y)| usize::from(x) * usize::from(y)).sum();
        match sum % p {
            value if value < s => lines += &format!("{entry} {value}\n"),
            _ => left_out += 1,
        }
    }
    Ok((lines, left_out))
}

#[allow(dead_code)]
fn main() -> ExitCode {
    let arguments: Vec<String> = std::env::args().skip(1).collect();
    let [plan, listing] = &arguments[..] else {
        eprintln!("read_back PLAN LISTING");
        return ExitCode::FAILURE;
    };
    let read = || table(&std::fs::read_to_string(plan)?, &std::fs::read(listing)?);
    match read() {
        Ok((lines, left_out)) => {
            print!("{lines}");
            if left_out > 0 {
                eprintln!("{left_out} entries have a residue that is no value");
            }
            ExitCode::SUCCESS
        }
        Err(failure) => {
            eprintln!("{failure}");
            ExitCode::FAILURE
        }
    }
}
