//! Document 01, "From entry to row", with the radices of document 02, C-11.

use crate::plan::{accept, Part, Plan};

/// The n digits of an entry, the most significant first. 02, C-11: "Splitting
/// an entry number into digits follows" the radices, "x_0 still the most
/// significant".
pub(crate) fn digits(plan: &Plan, entry: usize) -> Vec<usize> {
    let mut rest = entry;
    let mut digits = vec![0; plan.n];
    for (digit, &radix) in digits.iter_mut().zip(plan.radices).rev() {
        *digit = rest % radix as usize;
        rest /= radix as usize;
    }
    digits
}

/// The sum of the weights, each times its variable, modulo p.
fn weighted(p: usize, weights: &[u8], variables: &[usize]) -> usize {
    let terms = weights.iter().zip(variables).map(|(&w, x)| w as usize * x);
    terms.sum::<usize>() % p
}

/// The L variables: the digits, then each link's table at its weighted sum.
pub(crate) fn variables(plan: &Plan, digits: &[usize]) -> Vec<usize> {
    let mut variables = digits.to_vec();
    for k in 0..plan.m {
        let sum = weighted(plan.p, plan.link_weights(k), &variables);
        variables.push(plan.link_table(k)[sum] as usize);
    }
    variables
}

/// The C residues of an entry's row: a block for each product, then the
/// variables themselves.
pub(crate) fn row_of(plan: &Plan, entry: usize) -> Vec<usize> {
    let variables = variables(plan, &digits(plan, entry));
    let mut row = Vec::new();
    for b in 0..plan.t {
        let sum = weighted(plan.p, plan.d_row(b), &variables);
        for x in &variables {
            row.push(x * sum % plan.p);
        }
    }
    row.extend(&variables);
    row
}

/// Writes the row of an entry to `row`; answers the number of a refusal, or 0.
/// Causes 1 2 3 4 5 7.
pub fn row(
    p: u64,
    s: u64,
    n: u64,
    m: u64,
    t: u64,
    radices: &[u8],
    weights: &[u8],
    tables: &[u8],
    d: &[u8],
    entry: u64,
    row: &mut [u8],
) -> u32 {
    let own = [(Part::Row, row.len())];
    let plan = match accept(p, s, n, m, t, radices, weights, tables, d, &own, &[]) {
        Ok(plan) => plan,
        Err(number) => return number,
    };
    if entry >= plan.entries() as u64 {
        return 7;
    }
    for (out, x) in row.iter_mut().zip(row_of(&plan, entry as usize)) {
        *out = x as u8;
    }
    0
}
