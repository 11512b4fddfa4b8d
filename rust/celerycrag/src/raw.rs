//! One safe function for each call of the C interface.
//!
//! They take numbers and slices of any kind: the library tests everything it is
//! lent, lengths too, and answers the number of a refusal, 0 where it accepts.
//! A refused call leaves every lent slice and number as it was, but for the
//! line that [`read_listing`] tells, and for the work store of
//! [`file_recorded`] and [`withdraw`], which a refusal after cause 5 leaves all
//! zeros. The types of the crate's root are easier to use; these functions are
//! for hosts that keep their own buffers, and for the tests.

use crate::{ffi, Record};

/// A plan as it is lent to a call: its five numbers and four parts, of any
/// lengths and with any bytes.
#[derive(Clone, Copy, Debug)]
pub struct Lent<'a> {
    /// The prime.
    pub p: usize,
    /// The bound of the values that are filed.
    pub s: usize,
    /// The number of input digits.
    pub n: usize,
    /// The number of links.
    pub m: usize,
    /// The number of products.
    pub t: usize,
    /// The radix of each digit, the most significant first.
    pub radices: &'a [u8],
    /// The weights of the links, link after link.
    pub weights: &'a [u8],
    /// The tables of the links, p values each.
    pub tables: &'a [u8],
    /// The fixed halves of the products, t rows of n + m.
    pub d: &'a [u8],
}

/// Calls into the library with the plan first.
//
// SAFETY, for each use: every pointer comes from a slice or a reference and
// goes with that slice's own length, so the memory is there, aligned,
// initialised and not null, and what is lent to be written is lent by `&mut`,
// so nothing overlaps it. That is all the header asks. The library reads and
// writes nothing beyond the lengths, whatever the numbers say; that is proved
// of it.
macro_rules! call {
    ($name:ident, $plan:expr $(, $own:expr)*) => {{
        let plan = $plan;
        unsafe {
            ffi::$name(
                plan.p,
                plan.s,
                plan.n,
                plan.m,
                plan.t,
                plan.radices.as_ptr(),
                plan.radices.len(),
                plan.weights.as_ptr(),
                plan.weights.len(),
                plan.tables.as_ptr(),
                plan.tables.len(),
                plan.d.as_ptr(),
                plan.d.len(),
                $($own),*
            )
        }
    }};
}

/// Checks a plan. Causes 1 2 3 4 5.
pub fn check(plan: Lent) -> u8 {
    call!(celery_check, plan)
}

/// Writes the row of an entry to `row`. Causes 1 2 3 4 5 7.
pub fn row(plan: Lent, entry: usize, row: &mut [u8]) -> u8 {
    call!(celery_row, plan, entry, row.as_mut_ptr(), row.len())
}

/// Tests a store for reduced form. Causes 1 2 3 4 5 6.
pub fn test(plan: Lent, store: &[u8]) -> u8 {
    call!(celery_test, plan, store.as_ptr(), store.len())
}

/// Files an entry with its value. `column` becomes the pivot's column where the
/// entry was new, and C, which is no column, where the store implied it.
/// Causes 1 2 3 4 5 6 7 8 9.
pub fn file(plan: Lent, store: &mut [u8], entry: usize, value: usize, column: &mut usize) -> u8 {
    call!(
        celery_file,
        plan,
        store.as_mut_ptr(),
        store.len(),
        entry,
        value,
        column
    )
}

/// Files an entry with its value beside records: the first `count` of them are
/// the entries kept, and have to be those of the store. An entry that is not
/// listed joins their end, and `count` becomes one more. `column` is as with
/// [`file()`]. `work` is as long as a store; its old bytes do not matter, and all
/// of it becomes zero unless a cause from 1 to 5 refuses.
/// Causes 1 2 3 4 5 6 16 7 8 9.
#[allow(clippy::too_many_arguments)]
pub fn file_recorded(
    plan: Lent,
    store: &mut [u8],
    work: &mut [u8],
    records: &mut [Record],
    count: &mut usize,
    entry: usize,
    value: usize,
    column: &mut usize,
) -> u8 {
    call!(
        celery_file_recorded,
        plan,
        store.as_mut_ptr(),
        store.len(),
        work.as_mut_ptr(),
        work.len(),
        records.as_mut_ptr(),
        records.len(),
        count,
        entry,
        value,
        column
    )
}

/// Withdraws a listed entry: its record is removed, those behind it close the
/// gap, the freed one becomes zeros, `count` becomes one less, and the store
/// becomes that of the remaining list. `value` becomes the value withdrawn. The
/// rest is as with [`file_recorded`]. Causes 1 2 3 4 5 6 16 7 17.
pub fn withdraw(
    plan: Lent,
    store: &mut [u8],
    work: &mut [u8],
    records: &mut [Record],
    count: &mut usize,
    entry: usize,
    value: &mut u16,
) -> u8 {
    call!(
        celery_withdraw,
        plan,
        store.as_mut_ptr(),
        store.len(),
        work.as_mut_ptr(),
        work.len(),
        records.as_mut_ptr(),
        records.len(),
        count,
        entry,
        value
    )
}

/// Reads the coefficients off a store into `beta`. Causes 1 2 3 4 5 6.
pub fn coefficients(plan: Lent, store: &[u8], beta: &mut [u8]) -> u8 {
    call!(
        celery_coefficients,
        plan,
        store.as_ptr(),
        store.len(),
        beta.as_mut_ptr(),
        beta.len()
    )
}

/// Tells whether an entry is settled. Where all coefficients that reproduce the
/// store give it one residue, `residue` becomes that and `column` becomes C,
/// which is no column. Where they do not, `residue` becomes p, which is no
/// residue, and `column` the one that filing the entry would give a pivot.
/// Causes 1 2 3 4 5 6 7.
pub fn settle(plan: Lent, store: &[u8], entry: usize, residue: &mut u8, column: &mut usize) -> u8 {
    call!(
        celery_settle,
        plan,
        store.as_ptr(),
        store.len(),
        entry,
        residue,
        column
    )
}

/// Tells whether every table with values below s has coefficients under the
/// plan: `general` becomes 1 where it is so, else 0. `work` is as long as a store;
/// its old bytes do not matter, and all of it becomes zero. Causes 1 2 3 4 5.
pub fn general(plan: Lent, work: &mut [u8], general: &mut u8) -> u8 {
    call!(celery_general, plan, work.as_mut_ptr(), work.len(), general)
}

/// Moves a store from the full layout, C rows of C + 1 bytes, to the one that all
/// other calls take. A store that is not in reduced form is refused, and then
/// `half` is left as it was. Causes 1 2 3 4 5 6.
pub fn to_half(plan: Lent, full: &[u8], half: &mut [u8]) -> u8 {
    call!(
        celery_to_half,
        plan,
        full.as_ptr(),
        full.len(),
        half.as_mut_ptr(),
        half.len()
    )
}

/// Moves a store back to the full layout. A store that is not in reduced form is
/// refused, and then `full` is left as it was. Causes 1 2 3 4 5 6.
pub fn to_full(plan: Lent, half: &[u8], full: &mut [u8]) -> u8 {
    call!(
        celery_to_full,
        plan,
        half.as_ptr(),
        half.len(),
        full.as_mut_ptr(),
        full.len()
    )
}

/// Answers what [`write()`] answers on the same arguments, and writes nothing.
/// Causes 1 2 3 4 5 10.
pub fn check_writing(plan: Lent, beta: &[u8], steps: &[u16]) -> u8 {
    call!(
        celery_check_writing,
        plan,
        beta.as_ptr(),
        beta.len(),
        steps.as_ptr(),
        steps.len()
    )
}

/// Writes the program of the plan and β to the beginning of `steps`; `written`
/// becomes 4 times the step count. Causes 1 2 3 4 5 10.
pub fn write(plan: Lent, beta: &[u8], steps: &mut [u16], written: &mut usize) -> u8 {
    call!(
        celery_write,
        plan,
        beta.as_ptr(),
        beta.len(),
        steps.as_mut_ptr(),
        steps.len(),
        written
    )
}

/// Runs a list of steps on the digits; `y` and `bootstraps` become what it
/// answers. Causes 1 2 3 4 5 11 12.
pub fn run(plan: Lent, steps: &[u16], digits: &[u8], y: &mut u8, bootstraps: &mut usize) -> u8 {
    call!(
        celery_run,
        plan,
        steps.as_ptr(),
        steps.len(),
        digits.as_ptr(),
        digits.len(),
        y,
        bootstraps
    )
}

/// The worst norm of the plan and β goes to `norm`: the largest sum of squares
/// of weights in a row, where a weight w above (p - 1) / 2 counts as w - p; at
/// most 1,000,000. Causes 1 2 3 4 5.
pub fn worst_norm(plan: Lent, beta: &[u8], norm: &mut usize) -> u8 {
    call!(celery_worst_norm, plan, beta.as_ptr(), beta.len(), norm)
}

/// Reads the coefficients back from a written program into `beta`: those from
/// which [`write()`] gives exactly these steps. Causes 1 2 3 4 5 15.
pub fn read_steps(plan: Lent, steps: &[u16], beta: &mut [u8]) -> u8 {
    call!(
        celery_read_steps,
        plan,
        steps.as_ptr(),
        steps.len(),
        beta.as_mut_ptr(),
        beta.len()
    )
}

/// Reads the coefficients back from a listing into `beta`: those of which the
/// filing program prints exactly this text. Where it is refused with 13 or 15,
/// `line` becomes the line at fault, from 1 on, which of 15 is always 1.
/// Causes 1 2 3 4 5 13 15.
pub fn read_listing(plan: Lent, text: &[u8], beta: &mut [u8], line: &mut usize) -> u8 {
    call!(
        celery_read_listing,
        plan,
        text.as_ptr(),
        text.len(),
        beta.as_mut_ptr(),
        beta.len(),
        line
    )
}
