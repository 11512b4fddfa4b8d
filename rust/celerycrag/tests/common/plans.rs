//! Plans that own their parts, checked or not, and random ones.

use super::layout::Layout;
use super::random::Random;
use celerycrag::raw::Lent;

/// A plan with parts of its own.
#[derive(Clone, Debug)]
pub struct Owned {
    pub p: usize,
    pub s: usize,
    pub n: usize,
    pub m: usize,
    pub t: usize,
    pub radices: Vec<u8>,
    pub weights: Vec<u8>,
    pub tables: Vec<u8>,
    pub d: Vec<u8>,
}

impl Owned {
    /// A plan of this shape with s for every radix, and the other parts of the
    /// right lengths, all zeros.
    pub fn zeros([p, s, n, m, t]: [usize; 5]) -> Owned {
        Owned {
            p,
            s,
            n,
            m,
            t,
            // An s that is no byte is refused as 255 is.
            radices: vec![s.min(255) as u8; n],
            weights: vec![0; (0..m).map(|k| n + k).sum()],
            tables: vec![0; m * p],
            d: vec![0; t * (n + m)],
        }
    }

    /// The plan of the exclusive or.
    pub fn xor() -> Owned {
        Owned {
            d: vec![1, 1],
            ..Owned::zeros([3, 2, 2, 0, 1])
        }
    }

    /// A plan of just so many columns, most of them by products, its residues
    /// all zero. Up to 64 columns there is always one.
    pub fn of_columns(p: usize, columns: usize) -> Owned {
        let blocks = (1..=33).rfind(|blocks| columns / blocks * blocks == columns);
        let blocks = blocks.expect("one block at least");
        let variables = columns / blocks;
        assert!(variables <= 64, "no plan has {columns} columns");
        let n = variables.min(12);
        Owned::zeros([p, 2, n, variables - n, blocks - 1])
    }

    /// The same with other radices, which need not be n.
    pub fn with_radices(self, radices: &[u8]) -> Owned {
        Owned {
            radices: radices.to_vec(),
            ..self
        }
    }

    /// The plan with random residues for its weights, tables and d: weights
    /// uniform or mostly zero, link tables not affine, as the method asks, and
    /// seldom any.
    pub fn drawn(self, random: &mut Random) -> Owned {
        let mut plan = self;
        let p = plan.p;
        plan.weights = residues(random, plan.weights.len(), p);
        plan.d = residues(random, plan.d.len(), p);
        for table in plan.tables.chunks_mut(p) {
            let drawn = if random.one_in(8) {
                residues(random, p, p)
            } else {
                not_affine(random, p)
            };
            table.copy_from_slice(&drawn);
        }
        plan
    }

    pub fn lent(&self) -> Lent<'_> {
        Lent {
            p: self.p,
            s: self.s,
            n: self.n,
            m: self.m,
            t: self.t,
            radices: &self.radices,
            weights: &self.weights,
            tables: &self.tables,
            d: &self.d,
        }
    }

    // The numbers below are those of an accepted plan.

    pub fn variables(&self) -> usize {
        self.n + self.m
    }

    pub fn columns(&self) -> usize {
        (self.t + 1) * self.variables()
    }

    /// The columns where the numbers are small, though perhaps refused, else 0.
    pub fn columns_if_small(&self) -> usize {
        let small = [self.n, self.m, self.t].iter().all(|&number| number < 100);
        if small {
            self.columns()
        } else {
            0
        }
    }

    pub fn entries(&self) -> usize {
        product(&self.radices)
    }

    /// The most entries that can be new: any two products share a column, and
    /// there are no more than L independent ones.
    pub fn most_new(&self) -> usize {
        let l = self.variables();
        let q = self.t.min(l);
        (q + 1) * l - q * q.saturating_sub(1) / 2
    }

    pub fn bootstraps(&self) -> usize {
        self.m + 2 * self.t
    }

    pub fn step_count(&self) -> usize {
        let (n, m, t, l) = (self.n, self.m, self.t, self.variables());
        m * (n + 2) + m * m.saturating_sub(1) / 2 + 1 + t * (2 * l + 12) + l
    }

    pub fn empty_store(&self) -> Vec<u8> {
        vec![0; Layout::Half.length(self.columns())]
    }

    /// The digits of an entry, found from the left: each is what the product
    /// of the radices behind it goes into the rest.
    pub fn digits(&self, entry: usize) -> Vec<u8> {
        let mut rest = entry;
        let mut digits = Vec::new();
        for place in 1..=self.radices.len() {
            let behind = product(&self.radices[place..]);
            digits.push((rest / behind) as u8);
            rest %= behind;
        }
        digits
    }

    /// The sum of products of two lists, modulo p.
    pub fn product(&self, row: &[u8], beta: &[u8]) -> u8 {
        let terms = row.iter().zip(beta).map(|(&x, &y)| x as usize * y as usize);
        (terms.sum::<usize>() % self.p) as u8
    }
}

/// The product of radices, at most `usize::MAX`.
pub fn product(radices: &[u8]) -> usize {
    let radices = radices.iter().map(|&radix| usize::from(radix));
    radices.fold(1, usize::saturating_mul)
}

/// Residues of one kind or another: uniform, mostly zero, or small and large
/// ones only.
pub fn residues(random: &mut Random, count: usize, p: usize) -> Vec<u8> {
    match random.below(8) {
        0 => (0..count)
            .map(|_| {
                if random.one_in(4) {
                    random.below(p) as u8
                } else {
                    0
                }
            })
            .collect(),
        1 => (0..count)
            .map(|_| random.pick(&[0, 1, p - 1]) as u8)
            .collect(),
        2 => vec![(p - 1) as u8; count],
        _ => random.bytes(count, p),
    }
}

/// A table that is not the first value plus a multiple of the place.
fn not_affine(random: &mut Random, p: usize) -> Vec<u8> {
    loop {
        let table = random.bytes(p, p);
        let [first, second] = [table[0] as usize, table[1] as usize];
        let affine = |z: usize| (first + (p + second - first) * z) % p == table[z] as usize;
        if !(0..p).all(affine) {
            return table;
        }
    }
}

/// The odd primes from 3 to 251.
pub fn primes() -> Vec<usize> {
    (3..=251)
        .filter(|&p| reference::is_odd_prime(p as u64))
        .collect()
}

/// A number from 2 to p, often p itself or a small one.
fn radix(random: &mut Random, p: usize) -> usize {
    match random.below(4) {
        0 => p,
        1 => random.within(2, p),
        _ => random.within(2, p.min(5)),
    }
}

/// Radices for each of n digits, from 2 to p.
pub fn radices(random: &mut Random, p: usize, n: usize) -> Vec<u8> {
    (0..n).map(|_| radix(random, p) as u8).collect()
}

/// A plan that passes, with at most so many columns, its residues all zero.
/// Every other one has s for every radix, the rest a radix of its own for each
/// digit.
pub fn outline(random: &mut Random, most_columns: usize) -> Owned {
    let mixed = random.one_in(2);
    loop {
        let p = match random.below(3) {
            0 => random.pick(&[3, 3, 5, 7]),
            1 => random.pick(&[17, 31, 127, 241, 251]),
            _ => random.pick(&primes()),
        };
        let (s, n) = (radix(random, p), random.within(1, 8));
        let (m, t) = (
            random.below(9),
            random.pick(&[0, 0, 1, 1, 2, 2, 3, 4, 6, 12]),
        );
        let mut plan = Owned::zeros([p, s, n, m, t]);
        if mixed {
            plan.radices = radices(random, p, n);
        }
        if plan.entries() <= 4_096 && plan.columns() <= most_columns {
            return plan;
        }
    }
}

/// A random store in reduced form, as no list of filings need have left it:
/// about one row in `one_row_in` is led.
pub fn reduced(random: &mut Random, plan: &Owned, one_row_in: usize) -> Vec<u8> {
    let led = (0..plan.columns()).map(|_| random.one_in(one_row_in));
    let led: Vec<bool> = led.collect();
    reduced_with(random, plan, &led)
}

/// A random store in reduced form with just these rows led.
pub fn reduced_with(random: &mut Random, plan: &Owned, led: &[bool]) -> Vec<u8> {
    let columns = plan.columns();
    let mut store = plan.empty_store();
    let mut rest = &mut store[..];
    for q in 0..columns {
        // Its columns from q on, and the right-hand side.
        let (row, behind) = rest.split_at_mut(columns + 1 - q);
        rest = behind;
        if !led[q] {
            continue;
        }
        row[0] = 1;
        for j in q + 1..=columns {
            if j == columns || !led[j] {
                row[j - q] = random.below(plan.p) as u8;
            }
        }
    }
    store
}
