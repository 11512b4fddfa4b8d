//! Document 01, "Worst norm", with document 02, C-14: weights counted by their
//! short side.

use crate::plan::{accept, Part};

/// What a weight counts as, a number that may be below 0.
///
/// 02, C-14: "A weight w above (p−1)/2 therefore counts as w − p in the worst
/// norm."
fn counted(w: u8, p: usize) -> i64 {
    let (w, p) = (w as i64, p as i64);
    if w > (p - 1) / 2 {
        w - p
    } else {
        w
    }
}

/// The largest sum of squares of weights over the link rows, the d rows and
/// all t+1 β rows, each weight by its short side, or the number of a refusal.
/// Causes 1 2 3 4 5.
pub fn worst_norm(
    p: u64,
    s: u64,
    n: u64,
    m: u64,
    t: u64,
    radices: &[u8],
    weights: &[u8],
    tables: &[u8],
    d: &[u8],
    beta: &[u8],
) -> Result<u64, u32> {
    let own = [(Part::Beta, beta.len())];
    let plan = accept(p, s, n, m, t, radices, weights, tables, d, &own, beta)?;
    let link_rows = (0..plan.m).map(|k| plan.link_weights(k));
    let d_rows = (0..plan.t).map(|b| plan.d_row(b));
    let beta_rows = beta.chunks(plan.variables());
    let square = |&w: &u8| counted(w, plan.p) * counted(w, plan.p);
    let norm = |row: &[u8]| row.iter().map(square).sum::<i64>() as u64;
    Ok(link_rows
        .chain(d_rows)
        .chain(beta_rows)
        .map(norm)
        .max()
        .expect("a β row"))
}
