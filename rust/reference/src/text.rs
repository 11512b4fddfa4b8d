//! Document 01, "The filing program", with the radices line of document 02,
//! C-11, and its limit of columns, C-16: from the bytes of standard input to the
//! bytes of standard output.

use crate::lines::{Lines, Refusal};
use crate::listing::listing;
use crate::plan::numbers_cause;
use crate::store::{coefficients, file, Filed};

/// The most columns of a plan in text. 02, C-16: "The filing program then takes C
/// up to 360 (65,340 bytes)".
const COLUMNS: u64 = 360;

/// Judges the lines one after another, filing entries as they are read, and
/// gives the listing or the refusal of the first line at fault.
fn judge(text: &[u8]) -> Result<String, Refusal> {
    let mut lines = Lines::new(text);
    lines.names("p s n links products")?;
    let values = lines.numbers(5)?;
    let (p, s, n, m, t) = (values[0], values[1], values[2], values[3], values[4]);
    // 02, C-11: "In text the values line is tested whole before the radices line
    // is read", so here no radix is known yet.
    let cause = numbers_cause(p, s, n, m, t, &[]);
    if cause != 0 {
        return Err(lines.refusal(cause));
    }
    let (l, columns) = (n + m, (t + 1) * (n + m));
    if columns > COLUMNS {
        return Err(lines.refusal(14));
    }

    // 02, C-11: "After the values line a plan has a line of n radices, each 2 to
    // p." They are tested as read, before they are bytes; the five numbers have
    // passed, so that only the radices can be refused here.
    let radices = lines.numbers(n as usize)?;
    let cause = numbers_cause(p, s, n, m, t, &radices);
    if cause != 0 {
        return Err(lines.refusal(cause));
    }
    let radices: Vec<u8> = radices.into_iter().map(|radix| radix as u8).collect();

    let (mut weights, mut tables, mut d) = (Vec::new(), Vec::new(), Vec::new());
    for k in 0..m {
        weights.extend(lines.residues((n + k) as usize, p)?);
        tables.extend(lines.residues(p as usize, p)?);
    }
    for _ in 0..t {
        d.extend(lines.residues(l as usize, p)?);
    }

    lines.names("entry value")?;
    let mut store = vec![0; (columns * (columns + 1) / 2 + columns) as usize];
    while !lines.at_end() {
        let pair = lines.numbers(2)?;
        let (entry, value) = (pair[0], pair[1]);
        let answer = file(
            p, s, n, m, t, &radices, &weights, &tables, &d, &mut store, entry, value,
        );
        if let Filed::Refused(number) = answer {
            return Err(lines.refusal(number));
        }
    }

    let mut beta = vec![0; columns as usize];
    let read_off = coefficients(
        p, s, n, m, t, &radices, &weights, &tables, &d, &store, &mut beta,
    );
    assert_eq!(read_off, 0);
    let listing = listing(p, s, n, m, t, &radices, &weights, &tables, &d, &beta);
    Ok(listing.expect("an accepted plan has a listing"))
}

/// The filing program: what it prints for this standard input.
pub fn filing_program(input: &[u8]) -> Vec<u8> {
    let out = match judge(input) {
        Ok(listing) => listing,
        Err(Refusal { number, line }) => format!("refusal line\n{number} {line}\n"),
    };
    out.into_bytes()
}
