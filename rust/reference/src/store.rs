//! Document 01, "The store": reduced form, filing, and the coefficients read
//! off; with document 02, C-12: the digit an unfiled entry already has.
//!
//! The calls are lent stores in the new layout of 02, C-16. Within, everything is
//! done on the rows of the old store that a lent one stands for, as 01 says it:
//! "All filing replies and coefficients equal those of the old layout".

use crate::field::inverse;
use crate::layout::{halved, widened};
use crate::plan::{accept, Part, Plan};
use crate::row::row_of;

/// What a filing answers.
#[derive(Clone, Copy, Debug, PartialEq, Eq)]
pub enum Filed {
    /// The entry is kept; the store has a new row with its pivot in this column.
    New(usize),
    /// The entry is kept; the store implied it already.
    Implied,
    /// The entry is not kept, for the cause of this number.
    Refused(u32),
}

/// What settling an entry answers. 02, C-12: "reply Forced with a residue, or
/// Free with a column".
#[derive(Clone, Copy, Debug, PartialEq, Eq)]
pub enum Settled {
    /// "All coefficients reproducing the store give that residue there"; it may
    /// be s or more.
    Forced(usize),
    /// "They don't": the cleared row's first coefficient that is not 0 is in
    /// this column.
    Free(usize),
    /// The call is refused, for the cause of this number.
    Refused(u32),
}

/// The bytes of an old store as C rows of C+1 numbers.
pub(crate) fn rows_of(columns: usize, full: &[u8]) -> Vec<Vec<usize>> {
    let row = |bytes: &[u8]| bytes.iter().map(|&x| x as usize).collect();
    full.chunks(columns + 1).map(row).collect()
}

/// The first of the C coefficients that is not 0; the right-hand side is none.
fn lead(columns: usize, row: &[usize]) -> Option<usize> {
    (0..columns).find(|&j| row[j] != 0)
}

/// Whether the rows are in reduced form: all numbers below p, and row q either
/// all zero, or led by a 1 in column q that is zero in every other row.
pub(crate) fn is_reduced(p: usize, columns: usize, rows: &[Vec<usize>]) -> bool {
    let below_p = rows.iter().flatten().all(|&x| x < p);
    let row_is_right = |q: usize| {
        let zero = rows[q].iter().all(|&x| x == 0);
        let led = lead(columns, &rows[q]) == Some(q) && rows[q][q] == 1;
        let alone = (0..columns).all(|r| r == q || rows[r][q] == 0);
        zero || (led && alone)
    };
    below_p && (0..columns).all(row_is_right)
}

/// Takes from `row` the multiple of `by` that makes its column c zero; `by`
/// has a 1 there.
fn clear(p: usize, row: &mut [usize], by: &[usize], c: usize) {
    let factor = row[c];
    for (x, y) in row.iter_mut().zip(by) {
        *x = (*x + (p - factor) * y) % p;
    }
}

/// Takes from `equation`, over its whole length, what makes it zero in the
/// pivot's column of every row.
fn clear_by_rows(p: usize, rows: &[Vec<usize>], equation: &mut [usize]) {
    for (q, row) in rows.iter().enumerate() {
        if row[q] != 0 {
            clear(p, equation, row, q);
        }
    }
}

/// Files one equation, C coefficients and a right-hand side, in rows that are
/// in reduced form: clear the equation by the rows, find its pivot, normalise
/// it, clear the pivot's column from the other rows.
fn file_equation(p: usize, rows: &mut [Vec<usize>], mut equation: Vec<usize>) -> Filed {
    let columns = rows.len();
    clear_by_rows(p, rows, &mut equation);
    let Some(pivot) = lead(columns, &equation) else {
        return if equation[columns] == 0 {
            Filed::Implied
        } else {
            Filed::Refused(9)
        };
    };
    let factor = inverse(p, equation[pivot]);
    for x in &mut equation {
        *x = *x * factor % p;
    }
    for row in rows.iter_mut() {
        clear(p, row, &equation, pivot);
    }
    rows[pivot] = equation;
    Filed::New(pivot)
}

/// Files an entry with its value in rows that are in reduced form.
/// Causes 7 8 9.
pub(crate) fn file_entry(plan: &Plan, rows: &mut [Vec<usize>], entry: u64, value: u64) -> Filed {
    if entry >= plan.entries() as u64 {
        return Filed::Refused(7);
    }
    if value >= plan.s as u64 {
        return Filed::Refused(8);
    }
    let mut equation = row_of(plan, entry as usize);
    equation.push(value as usize);
    file_equation(plan.p, rows, equation)
}

/// Tests a store for reduced form; answers the number of a refusal, or 0.
/// Causes 1 2 3 4 5 6.
pub fn test_store(
    p: u64,
    s: u64,
    n: u64,
    m: u64,
    t: u64,
    radices: &[u8],
    weights: &[u8],
    tables: &[u8],
    d: &[u8],
    store: &[u8],
) -> u32 {
    let own = [(Part::Store, store.len())];
    let plan = match accept(p, s, n, m, t, radices, weights, tables, d, &own, &[]) {
        Ok(plan) => plan,
        Err(number) => return number,
    };
    let rows = rows_of(plan.columns(), &widened(plan.columns(), store));
    if is_reduced(plan.p, plan.columns(), &rows) {
        0
    } else {
        6
    }
}

/// Files an entry with its value in the store.
/// Causes 1 2 3 4 5 6 7 8 9.
pub fn file(
    p: u64,
    s: u64,
    n: u64,
    m: u64,
    t: u64,
    radices: &[u8],
    weights: &[u8],
    tables: &[u8],
    d: &[u8],
    store: &mut [u8],
    entry: u64,
    value: u64,
) -> Filed {
    let own = [(Part::Store, store.len())];
    let plan = match accept(p, s, n, m, t, radices, weights, tables, d, &own, &[]) {
        Ok(plan) => plan,
        Err(number) => return Filed::Refused(number),
    };
    let mut rows = rows_of(plan.columns(), &widened(plan.columns(), store));
    if !is_reduced(plan.p, plan.columns(), &rows) {
        return Filed::Refused(6);
    }
    let answer = file_entry(&plan, &mut rows, entry, value);
    if let Filed::New(_) = answer {
        let full: Vec<u8> = rows.into_iter().flatten().map(|x| x as u8).collect();
        store.copy_from_slice(&halved(plan.columns(), &full));
    }
    answer
}

/// Reads the coefficients off a store into `beta`: coefficient q is the
/// right-hand side of row q. Answers the number of a refusal, or 0.
/// Causes 1 2 3 4 5 6.
pub fn coefficients(
    p: u64,
    s: u64,
    n: u64,
    m: u64,
    t: u64,
    radices: &[u8],
    weights: &[u8],
    tables: &[u8],
    d: &[u8],
    store: &[u8],
    beta: &mut [u8],
) -> u32 {
    let own = [(Part::Store, store.len()), (Part::Beta, beta.len())];
    let plan = match accept(p, s, n, m, t, radices, weights, tables, d, &own, &[]) {
        Ok(plan) => plan,
        Err(number) => return number,
    };
    let rows = rows_of(plan.columns(), &widened(plan.columns(), store));
    if !is_reduced(plan.p, plan.columns(), &rows) {
        return 6;
    }
    for (out, row) in beta.iter_mut().zip(rows) {
        *out = row[plan.columns()] as u8;
    }
    0
}

/// Settles an entry: whether all coefficients that reproduce the store give it
/// the same residue, and which. 02, C-12: "The reply equals that of clearing
/// the whole row", so the whole row is cleared here. Writes nothing.
/// Causes 1 2 3 4 5 6 7.
pub fn settle(
    p: u64,
    s: u64,
    n: u64,
    m: u64,
    t: u64,
    radices: &[u8],
    weights: &[u8],
    tables: &[u8],
    d: &[u8],
    store: &[u8],
    entry: u64,
) -> Settled {
    let own = [(Part::Store, store.len())];
    let plan = match accept(p, s, n, m, t, radices, weights, tables, d, &own, &[]) {
        Ok(plan) => plan,
        Err(number) => return Settled::Refused(number),
    };
    let (p, columns) = (plan.p, plan.columns());
    let rows = rows_of(columns, &widened(columns, store));
    if !is_reduced(p, columns, &rows) {
        return Settled::Refused(6);
    }
    if entry >= plan.entries() as u64 {
        return Settled::Refused(7);
    }
    // With 0 on the right, the cleared row has there the opposite of what the
    // coefficients give.
    let mut equation = row_of(&plan, entry as usize);
    equation.push(0);
    clear_by_rows(p, &rows, &mut equation);
    match lead(columns, &equation) {
        Some(column) => Settled::Free(column),
        None => Settled::Forced((p - equation[columns]) % p),
    }
}
