//! Document 02, C-17: plans that suit every table.

use crate::plan::{accept, Part};
use crate::store::{file, Filed};

/// What the test of a plan answers. 02, C-17: it "says yes when each was New".
#[derive(Clone, Copy, Debug, PartialEq, Eq)]
pub enum General {
    /// Each entry was New: "every table with values below s has coefficients".
    Yes,
    /// One was not.
    No,
    /// The call is refused, for the cause of this number.
    Refused(u32),
}

/// Tests whether a plan suits every table. 02, C-17: it "files each entry with
/// value 0 on an empty work store". What is lent as work store is emptied first,
/// whatever it held, and left all zeros.
/// Causes 1 2 3 4 5.
pub fn general(
    p: u64,
    s: u64,
    n: u64,
    m: u64,
    t: u64,
    radices: &[u8],
    weights: &[u8],
    tables: &[u8],
    d: &[u8],
    work: &mut [u8],
) -> General {
    let own = [(Part::Store, work.len())];
    let plan = match accept(p, s, n, m, t, radices, weights, tables, d, &own, &[]) {
        Ok(plan) => plan,
        Err(number) => return General::Refused(number),
    };
    work.fill(0);
    let each_was_new = (0..plan.entries() as u64).all(|entry| {
        let filed = file(p, s, n, m, t, radices, weights, tables, d, work, entry, 0);
        matches!(filed, Filed::New(_))
    });
    work.fill(0);
    if each_was_new {
        General::Yes
    } else {
        General::No
    }
}
