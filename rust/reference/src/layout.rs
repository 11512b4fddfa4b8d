//! Document 02, C-16: the store of 01 without what is zero in it anyway, and
//! the moves between the two layouts.
//!
//! The old layout, called full here, is that of 01: C rows of C+1 bytes. The new
//! one, called half, is what every call on a store is lent. All that is said of
//! stores is said of the full layout: a half store stands for a full one, and is
//! judged and filed in as that one is.

use crate::plan::{accept, Part};
use crate::store::{is_reduced, rows_of};

/// The half store of a full one. 02, C-16: "the new store keeps of row q only
/// columns q to C−1 and the right-hand side".
pub fn halved(columns: usize, full: &[u8]) -> Vec<u8> {
    let rows = full.chunks(columns + 1).enumerate();
    rows.flat_map(|(q, row)| row[q..].to_vec()).collect()
}

/// The full store that a half one stands for. 02, C-16: "Left of its pivot a row
/// is all zero".
pub fn widened(columns: usize, half: &[u8]) -> Vec<u8> {
    let mut full = Vec::new();
    let mut rest = half.iter();
    for q in 0..columns {
        full.extend(vec![0; q]);
        full.extend(rest.by_ref().take(columns + 1 - q));
    }
    full
}

/// Moves a store from the full layout to the half one. 02, C-16: "either move
/// refuses others with 6, and its target's old bytes are untested".
/// Causes 1 2 3 4 5 6.
pub fn to_half(
    p: u64,
    s: u64,
    n: u64,
    m: u64,
    t: u64,
    radices: &[u8],
    weights: &[u8],
    tables: &[u8],
    d: &[u8],
    full: &[u8],
    half: &mut [u8],
) -> u32 {
    let own = [(Part::FullStore, full.len()), (Part::Store, half.len())];
    let plan = match accept(p, s, n, m, t, radices, weights, tables, d, &own, &[]) {
        Ok(plan) => plan,
        Err(number) => return number,
    };
    if !is_reduced(plan.p, plan.columns(), &rows_of(plan.columns(), full)) {
        return 6;
    }
    half.copy_from_slice(&halved(plan.columns(), full));
    0
}

/// Moves a store from the half layout to the full one. 02, C-16: "A new store is
/// in reduced form when the old one it stands for is".
/// Causes 1 2 3 4 5 6.
pub fn to_full(
    p: u64,
    s: u64,
    n: u64,
    m: u64,
    t: u64,
    radices: &[u8],
    weights: &[u8],
    tables: &[u8],
    d: &[u8],
    half: &[u8],
    full: &mut [u8],
) -> u32 {
    let own = [(Part::Store, half.len()), (Part::FullStore, full.len())];
    let plan = match accept(p, s, n, m, t, radices, weights, tables, d, &own, &[]) {
        Ok(plan) => plan,
        Err(number) => return number,
    };
    let stands_for = widened(plan.columns(), half);
    if !is_reduced(
        plan.p,
        plan.columns(),
        &rows_of(plan.columns(), &stands_for),
    ) {
        return 6;
    }
    full.copy_from_slice(&stands_for);
    0
}
