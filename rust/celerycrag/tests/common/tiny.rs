//! Tiny plans, of which every β can be enumerated, and what a β gives by the
//! definition. Nothing here comes from the reference or from the library.

use super::plans::Owned;

/// Shapes with at most 3^6 or 5^4 lists of coefficients.
pub const TINY: [[usize; 5]; 18] = [
    [3, 2, 2, 0, 1],
    [3, 2, 1, 1, 1],
    [3, 3, 1, 1, 1],
    [3, 2, 2, 1, 0],
    [3, 3, 2, 1, 0],
    [3, 2, 1, 2, 1],
    [3, 2, 2, 1, 1],
    [3, 3, 2, 0, 1],
    [3, 2, 2, 0, 2],
    [3, 3, 1, 0, 3],
    [3, 2, 3, 2, 0],
    [3, 3, 1, 4, 0],
    [5, 4, 2, 0, 1],
    [5, 5, 1, 1, 1],
    [5, 3, 2, 2, 0],
    [7, 6, 1, 2, 0],
    [11, 2, 1, 0, 1],
    [23, 5, 2, 0, 0],
];

/// Every list of C residues modulo p.
pub fn every_beta(plan: &Owned) -> Vec<Vec<u8>> {
    let (p, columns) = (plan.p, plan.columns() as u32);
    let beta = |number: usize| {
        (0..columns)
            .map(|j| (number / p.pow(j) % p) as u8)
            .collect()
    };
    (0..p.pow(columns)).map(beta).collect()
}

/// The variables of an entry by the definition, and from them its row.
pub fn row(plan: &Owned, entry: usize) -> Vec<u8> {
    let mut variables = plan.digits(entry);
    let mut weights = plan.weights.as_slice();
    for table in plan.tables.chunks(plan.p) {
        let (own, rest) = weights.split_at(variables.len());
        variables.push(table[plan.product(own, &variables) as usize]);
        weights = rest;
    }
    let mut row = Vec::new();
    for d in plan.d.chunks(variables.len()) {
        let sum = plan.product(d, &variables);
        row.extend(variables.iter().map(|&x| plan.product(&[x], &[sum])));
    }
    row.extend(variables);
    row
}

/// Whether β satisfies every row of a store.
pub fn satisfies(plan: &Owned, rows: &[Vec<u8>], beta: &[u8]) -> bool {
    let columns = plan.columns();
    rows.iter()
        .all(|row| plan.product(&row[..columns], beta) == row[columns])
}
