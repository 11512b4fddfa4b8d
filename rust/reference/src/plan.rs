//! Document 01, "The plan", and of "Turned down" the causes 1 to 5, which
//! every call tests first and in this order; with document 02, C-11: a radix
//! for each digit.

use crate::field::is_odd_prime;

/// A plan that meets none of the causes 1 to 5.
///
/// Its fields cannot be reached from outside: the public functions take the
/// numbers and parts and check them anew on each call.
pub struct Plan<'a> {
    pub(crate) p: usize,
    /// 02, C-11: "The header's s bounds table values only."
    pub(crate) s: usize,
    pub(crate) n: usize,
    pub(crate) m: usize,
    pub(crate) t: usize,
    pub(crate) radices: &'a [u8],
    pub(crate) weights: &'a [u8],
    pub(crate) tables: &'a [u8],
    pub(crate) d: &'a [u8],
}

/// A part that a call is lent beside the plan's own; its length is the plan's
/// to say.
pub(crate) enum Part {
    /// C residues out.
    Row,
    /// C coefficients.
    Beta,
    /// Of row q, for each q below C, the columns q to C-1 and the right-hand
    /// side (02, C-16).
    Store,
    /// C rows of C+1 bytes, the store as 01 has it.
    FullStore,
    /// n digits.
    Digits,
    /// As many entry records as there are entries (02, C-18).
    Records,
}

impl Plan<'_> {
    /// L = n + m is at most this.
    pub const VARIABLES: u64 = 64;
    /// t is at most this.
    pub const PRODUCTS: u64 = 32;
    /// C, which is t+1 times L, is at most this.
    pub const COLUMNS: u64 = 1_024;
    /// The product of the radices, which takes the place of s^n (02, C-11), is
    /// at most this.
    pub const ENTRIES: u64 = 4_096;

    /// L, the number of variables: the digits and the links.
    pub(crate) fn variables(&self) -> usize {
        self.n + self.m
    }

    /// C, the number of columns.
    pub(crate) fn columns(&self) -> usize {
        (self.t + 1) * self.variables()
    }

    /// The number of entries: the product of the radices (02, C-11).
    pub(crate) fn entries(&self) -> usize {
        self.radices.iter().map(|&radix| radix as usize).product()
    }

    /// The weights of link k, one for each variable before it.
    pub(crate) fn link_weights(&self, k: usize) -> &[u8] {
        let start: usize = (0..k).map(|before| self.n + before).sum();
        &self.weights[start..start + self.n + k]
    }

    /// The table of link k: its values at the sums 0 to p-1.
    pub(crate) fn link_table(&self, k: usize) -> &[u8] {
        &self.tables[k * self.p..(k + 1) * self.p]
    }

    /// Row b of the product weights.
    pub(crate) fn d_row(&self, b: usize) -> &[u8] {
        let l = self.variables();
        &self.d[b * l..(b + 1) * l]
    }

    /// How long a part has to be under this plan.
    fn length(&self, part: &Part) -> usize {
        match part {
            Part::Row | Part::Beta => self.columns(),
            // 02, C-16: "C(C+1)/2 + C bytes".
            Part::Store => self.columns() * (self.columns() + 1) / 2 + self.columns(),
            Part::FullStore => self.columns() * (self.columns() + 1),
            Part::Digits => self.n,
            Part::Records => self.entries(),
        }
    }
}

/// Causes 1 to 3: what the five numbers and the radices can be refused for, or
/// 0.
///
/// 02, C-11: "Cause 2 also covers a bad radix, cause 3 the product, both as
/// lent", which is: of all the radices here, be they n or not. Where there are
/// none, none is bad, and their product is 1.
pub(crate) fn numbers_cause(p: u64, s: u64, n: u64, m: u64, t: u64, radices: &[u64]) -> u32 {
    if !is_odd_prime(p) {
        return 1;
    }
    let in_range = |number: &u64| (2..=p).contains(number);
    if !in_range(&s) || !radices.iter().all(in_range) {
        return 2;
    }
    let l = n as u128 + m as u128;
    if n < 1 || l > Plan::VARIABLES as u128 || t > Plan::PRODUCTS {
        return 3;
    }
    // Here n and m are at most 64, and t at most 32.
    if (t + 1) * (n + m) > Plan::COLUMNS {
        return 3;
    }
    // Here no radix is 0, so that a product above 2^64 - 1 may stay there.
    let product = radices
        .iter()
        .fold(1, |all: u64, &radix| all.saturating_mul(radix));
    if product > Plan::ENTRIES {
        return 3;
    }
    0
}

/// Causes 1 to 5 in number order: the checked plan, or the number.
///
/// `own` lists the call's own parts with the lengths they were lent in; `beta`
/// is a given β, or empty where the call is given none.
pub(crate) fn accept<'a>(
    p: u64,
    s: u64,
    n: u64,
    m: u64,
    t: u64,
    radices: &'a [u8],
    weights: &'a [u8],
    tables: &'a [u8],
    d: &'a [u8],
    own: &[(Part, usize)],
    beta: &[u8],
) -> Result<Plan<'a>, u32> {
    let wide: Vec<u64> = radices.iter().map(|&radix| radix as u64).collect();
    let number = numbers_cause(p, s, n, m, t, &wide);
    if number != 0 {
        return Err(number);
    }
    let [p, s, n, m, t] = [p, s, n, m, t].map(|number| number as usize);
    let plan = Plan {
        p,
        s,
        n,
        m,
        t,
        radices,
        weights,
        tables,
        d,
    };

    let weight_count: usize = (0..m).map(|k| n + k).sum();
    let plan_parts_fit = radices.len() == n
        && weights.len() == weight_count
        && tables.len() == m * p
        && d.len() == t * (n + m);
    let own_parts_fit = own.iter().all(|(part, lent)| *lent == plan.length(part));
    if !plan_parts_fit || !own_parts_fit {
        return Err(4);
    }

    let residues = |part: &[u8]| part.iter().all(|&x| (x as usize) < p);
    if ![weights, tables, d, beta].into_iter().all(residues) {
        return Err(5);
    }
    Ok(plan)
}

/// Checks a plan: the first of the causes 1 to 5 that it meets, or 0.
pub fn check_plan(
    p: u64,
    s: u64,
    n: u64,
    m: u64,
    t: u64,
    radices: &[u8],
    weights: &[u8],
    tables: &[u8],
    d: &[u8],
) -> u32 {
    match accept(p, s, n, m, t, radices, weights, tables, d, &[], &[]) {
        Ok(_) => 0,
        Err(number) => number,
    }
}
