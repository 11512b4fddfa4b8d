//! The plans that are timed, each with a whole table that files under it.

use celerycrag::{Plan, Shape};
use reference::random::SplitMix;

fn bytes(random: &mut SplitMix, count: usize, below: usize) -> Vec<u8> {
    (0..count)
        .map(|_| (random.bits() % below as u64) as u8)
        .collect()
}

/// A plan with the values of its entries, all of which can be kept.
pub struct Case {
    pub plan: Plan,
    pub values: Vec<usize>,
}

impl Case {
    /// A random plan with these radices. The table is that of the first link,
    /// whose values are bits: some β reproduces it, whatever the rest of the
    /// plan.
    pub fn new(p: usize, radices: &[u8], m: usize, t: usize) -> Case {
        let n = radices.len();
        let random = &mut SplitMix((p * n) as u64);
        let weights = bytes(random, (0..m).map(|k| n + k).sum(), p);
        let mut tables = bytes(random, m * p, p);
        tables[..p].copy_from_slice(&bytes(random, p, 2));
        let d = bytes(random, t * (n + m), p);
        let shape = Shape { p, s: 2, n, m, t };
        let plan = Plan::new(shape, radices.to_vec(), weights, tables, d).expect("a plan");
        let link = plan.columns() - m;
        let value = |entry| plan.row(entry).expect("a row")[link] as usize;
        let values = (0..plan.entries()).map(value).collect();
        Case { plan, values }
    }

    /// The rows of all entries, each with its value behind it.
    pub fn matrix(&self) -> Vec<u8> {
        let mut rows = Vec::new();
        for (entry, &value) in self.values.iter().enumerate() {
            rows.extend(self.plan.row(entry).expect("a row"));
            rows.push(value as u8);
        }
        rows
    }
}

/// The radices of a month, a day and a bit.
const MIXED: [u8; 3] = [12, 31, 2];

/// Radix 2 with 64 entries and C = 64, with 256 and C = 256, and with 4,096 and
/// C = 1,024, each for three primes; and between them a month, a day and a bit,
/// 744 entries with C = 744. Of these, the ones with at most so many entries.
pub fn cases(most: usize) -> Vec<Case> {
    let bits = [2; 12];
    let shapes: [(&[usize], &[u8], usize, usize); 4] = [
        (&[3, 17, 251], &bits[..6], 26, 1),
        (&[3, 17, 251], &bits[..8], 56, 3),
        (&[31], &MIXED, 59, 11),
        (&[3, 17, 251], &bits, 52, 15),
    ];
    let mut cases = Vec::new();
    for (primes, radices, m, t) in shapes {
        if radices
            .iter()
            .map(|&radix| radix as usize)
            .product::<usize>()
            > most
        {
            break;
        }
        for &p in primes {
            cases.push(Case::new(p, radices, m, t));
        }
    }
    cases
}
