//! What the tests share: a plan that owns its parts, with the calls as
//! methods, every β of a plan, texts with a line changed, and a small source of
//! random numbers.
#![allow(dead_code)]

use reference::random::SplitMix;
use reference::{Filed, General, Ran, Reread, Settled};

/// A plan with parts of its own, checked or not.
#[derive(Clone)]
pub struct Owned {
    pub p: u64,
    pub s: u64,
    pub n: u64,
    pub m: u64,
    pub t: u64,
    pub radices: Vec<u8>,
    pub weights: Vec<u8>,
    pub tables: Vec<u8>,
    pub d: Vec<u8>,
}

/// Calls a function of the reference with the plan's numbers and parts, then
/// the call's own.
macro_rules! call {
    ($f:ident, $plan:expr $(, $own:expr)*) => {
        reference::$f(
            $plan.p, $plan.s, $plan.n, $plan.m, $plan.t,
            &$plan.radices, &$plan.weights, &$plan.tables, &$plan.d $(, $own)*
        )
    };
}
#[allow(unused_imports)]
pub(crate) use call;

impl Owned {
    /// Plan X of 01, the XOR plan.
    pub fn xor() -> Owned {
        Owned {
            p: 3,
            s: 2,
            n: 2,
            m: 0,
            t: 1,
            radices: vec![2, 2],
            weights: vec![],
            tables: vec![],
            d: vec![1, 1],
        }
    }

    /// A plan of this shape with n radices of s, and its other parts of the
    /// right lengths, all zeros.
    pub fn zeros(p: u64, s: u64, n: u64, m: u64, t: u64) -> Owned {
        Owned::mixed(p, s, &vec![s as u8; n as usize], m, t)
    }

    /// The same with these radices, as many as n is.
    pub fn mixed(p: u64, s: u64, radices: &[u8], m: u64, t: u64) -> Owned {
        let n = radices.len() as u64;
        let weights = vec![0; (m * n + m * m.saturating_sub(1) / 2) as usize];
        let tables = vec![0; (m * p) as usize];
        let d = vec![0; (t * (n + m)) as usize];
        Owned {
            p,
            s,
            n,
            m,
            t,
            radices: radices.to_vec(),
            weights,
            tables,
            d,
        }
    }

    /// A plan of this shape with random parts. About half of the plans have n
    /// radices of s; in the others each radix is drawn for itself.
    pub fn random(random: &mut Random, p: u64, s: u64, n: u64, m: u64, t: u64) -> Owned {
        let mut plan = Owned::zeros(p, s, n, m, t);
        if random.below(2) == 1 {
            plan.radices = random.radices(p, n);
        }
        for part in [&mut plan.weights, &mut plan.tables, &mut plan.d] {
            part.iter_mut().for_each(|x| *x = random.below(p) as u8);
        }
        plan
    }

    pub fn columns(&self) -> usize {
        ((self.t + 1) * (self.n + self.m)) as usize
    }

    pub fn entries(&self) -> u64 {
        self.radices.iter().map(|&radix| radix as u64).product()
    }

    pub fn empty_store(&self) -> Vec<u8> {
        vec![0; self.columns() * (self.columns() + 1) / 2 + self.columns()]
    }

    /// The empty store in the layout of 01.
    pub fn empty_full(&self) -> Vec<u8> {
        vec![0; self.columns() * (self.columns() + 1)]
    }

    /// The rows of the store that a new one stands for, each with its right-hand
    /// side: found without the reference, from where row q begins, which is at
    /// q(C+1) - q(q-1)/2.
    pub fn rows(&self, store: &[u8]) -> Vec<Vec<u8>> {
        let columns = self.columns();
        let begin = |q: usize| q * (columns + 1) - q * q.saturating_sub(1) / 2;
        let row = |q: usize| [&vec![0; q], &store[begin(q)..begin(q + 1)]].concat();
        (0..columns).map(row).collect()
    }

    /// The new store of these rows, which have zeros left of the diagonal.
    pub fn store(&self, rows: &[Vec<u8>]) -> Vec<u8> {
        let kept = rows.iter().enumerate().map(|(q, row)| {
            assert!(row[..q].iter().all(|&x| x == 0), "left of the diagonal");
            &row[q..]
        });
        kept.collect::<Vec<&[u8]>>().concat()
    }

    /// The store moved to the new layout. The target has these bytes before; a
    /// refused move leaves them.
    pub fn to_half(&self, full: &[u8], target: &[u8]) -> Result<Vec<u8>, u32> {
        let mut half = target.to_vec();
        match call!(to_half, self, full, &mut half) {
            0 => Ok(half),
            number => {
                assert_eq!(half, target, "the target of a refused move");
                Err(number)
            }
        }
    }

    /// The same to the old layout.
    pub fn to_full(&self, half: &[u8], target: &[u8]) -> Result<Vec<u8>, u32> {
        let mut full = target.to_vec();
        match call!(to_full, self, half, &mut full) {
            0 => Ok(full),
            number => {
                assert_eq!(full, target, "the target of a refused move");
                Err(number)
            }
        }
    }

    pub fn check(&self) -> u32 {
        call!(check_plan, self)
    }

    pub fn row(&self, entry: u64) -> Vec<u8> {
        let mut row = vec![0; self.columns()];
        assert_eq!(call!(row, self, entry, &mut row), 0);
        row
    }

    pub fn test(&self, store: &[u8]) -> u32 {
        call!(test_store, self, store)
    }

    pub fn file(&self, store: &mut [u8], entry: u64, value: u64) -> Filed {
        call!(file, self, store, entry, value)
    }

    pub fn settle(&self, store: &[u8], entry: u64) -> Settled {
        call!(settle, self, store, entry)
    }

    /// What settling answers for each entry in turn.
    pub fn settled(&self, store: &[u8]) -> Vec<Settled> {
        let settle = |entry| self.settle(store, entry);
        (0..self.entries()).map(settle).collect()
    }

    /// Whether the plan is general, or the number of a refusal. The work store
    /// has these bytes before; it is all zeros afterwards, and a refused call
    /// leaves it.
    pub fn general_in(&self, work: &[u8]) -> Result<bool, u32> {
        let mut after = work.to_vec();
        let answer = match call!(general, self, &mut after) {
            General::Yes => Ok(true),
            General::No => Ok(false),
            General::Refused(number) => Err(number),
        };
        match answer {
            Ok(_) => assert!(after.iter().all(|&x| x == 0), "the work store is left"),
            Err(_) => assert_eq!(after, work, "the work store of a refused call"),
        }
        answer
    }

    /// The same of an accepted plan in an empty work store.
    pub fn general(&self) -> bool {
        let answer = self.general_in(&self.empty_store());
        answer.expect("an accepted plan")
    }

    pub fn beta(&self, store: &[u8]) -> Vec<u8> {
        let mut beta = vec![0; self.columns()];
        assert_eq!(call!(coefficients, self, store, &mut beta), 0);
        beta
    }

    /// The β that filing the values in entry order leaves.
    pub fn solved(&self, values: &[u64]) -> Vec<u8> {
        let mut store = self.empty_store();
        for (entry, &value) in values.iter().enumerate() {
            let answer = self.file(&mut store, entry as u64, value);
            assert!(
                !matches!(answer, Filed::Refused(_)),
                "entry {entry}: {answer:?}"
            );
        }
        self.beta(&store)
    }

    pub fn steps(&self, beta: &[u8]) -> Vec<u16> {
        let mut slice = vec![0; 4 * 5_000];
        call!(write, self, beta, &mut slice).to_vec()
    }

    pub fn run(&self, steps: &[u16], digits: &[u8]) -> Result<Ran, u32> {
        call!(run, self, steps, digits)
    }

    pub fn worst(&self, beta: &[u8]) -> Result<u64, u32> {
        call!(worst_norm, self, beta)
    }

    pub fn listing(&self, beta: &[u8]) -> String {
        call!(listing, self, beta).expect("a listing")
    }

    /// The coefficients of a list of steps. A refused call leaves its β alone.
    pub fn read_steps(&self, steps: &[u16]) -> Result<Vec<u8>, u32> {
        let mut beta = vec![0xA5; self.columns()];
        match call!(read_steps, self, steps, &mut beta) {
            0 => Ok(beta),
            number => {
                assert!(beta.iter().all(|&byte| byte == 0xA5), "β was written");
                Err(number)
            }
        }
    }

    /// The coefficients of a listing, or the number and the line. A refused call
    /// leaves its β alone.
    pub fn read_listing(&self, text: impl AsRef<[u8]>) -> Result<Vec<u8>, (u32, u64)> {
        let mut beta = vec![0xA5; self.columns()];
        let refusal = match call!(read_listing, self, text.as_ref(), &mut beta) {
            Reread::Read => return Ok(beta),
            Reread::Refused(number) => (number, 0),
            Reread::RefusedAt(number, line) => (number, line),
        };
        assert!(beta.iter().all(|&byte| byte == 0xA5), "β was written");
        Err(refusal)
    }

    /// The digits of an entry, found without the reference: from the left, each
    /// by the product of the radices behind it.
    pub fn digits(&self, entry: u64) -> Vec<u8> {
        let digit = |j: usize| {
            let behind = &self.radices[j + 1..];
            let weight: u64 = behind.iter().map(|&radix| radix as u64).product();
            (entry / weight % self.radices[j] as u64) as u8
        };
        (0..self.n as usize).map(digit).collect()
    }

    /// Equation 1 of 003 with its own nested sums, modulo p.
    pub fn equation_1(&self, beta: &[u8], digits: &[u8]) -> u8 {
        let (p, n, l) = (self.p as usize, self.n as usize, (self.n + self.m) as usize);
        let mut x: Vec<usize> = digits.iter().map(|&digit| digit as usize).collect();
        let mut weights = self.weights.iter();
        for k in 0..self.m as usize {
            let sum: usize = (0..n + k)
                .map(|j| x[j] * *weights.next().unwrap() as usize)
                .sum();
            x.push(self.tables[k * p + sum % p] as usize);
        }
        let sum = |of: &[u8]| -> usize { (0..l).map(|j| of[j] as usize * x[j]).sum() };
        let t = self.t as usize;
        let products: usize = (0..t)
            .map(|i| sum(&beta[i * l..]) * sum(&self.d[i * l..]))
            .sum();
        ((products + sum(&beta[t * l..])) % p) as u8
    }
}

/// Every list of C residues.
pub fn every_beta(plan: &Owned) -> Vec<Vec<u8>> {
    let mut all = vec![vec![]];
    for _ in 0..plan.columns() {
        let longer = |beta: &Vec<u8>| {
            let beta = beta.clone();
            (0..plan.p as u8).map(move |x| [&beta[..], &[x]].concat())
        };
        all = all.iter().flat_map(longer).collect();
    }
    all
}

/// The text with one line, counted from 1, changed.
pub fn with_line(text: &str, line: usize, change: impl FnOnce(&str) -> String) -> String {
    let mut lines: Vec<String> = text.split_inclusive('\n').map(String::from).collect();
    let old = lines[line - 1].trim_end_matches('\n').to_string();
    lines[line - 1] = change(&old) + "\n";
    lines.concat()
}

/// Numbers from a generator.
pub struct Random(SplitMix);

impl Random {
    pub fn new(seed: u64) -> Random {
        Random(SplitMix(seed))
    }

    pub fn next(&mut self) -> u64 {
        self.0.bits()
    }

    /// A number below k; for tests the small bias does not matter.
    pub fn below(&mut self, k: u64) -> u64 {
        self.next() % k
    }

    /// So many radices from 2 to p with a product of at most 4,096, the large
    /// ones anywhere; n is at most 12.
    pub fn radices(&mut self, p: u64, n: u64) -> Vec<u8> {
        let mut room = 4_096;
        let mut radices = Vec::new();
        for behind in (0..n as u32).rev() {
            // Each radix behind needs at least a factor of 2.
            let most = p.min(room >> behind);
            let radix = 2 + self.below(most - 1);
            room /= radix;
            radices.push(radix as u8);
        }
        radices.rotate_left(self.below(n) as usize);
        radices
    }
}
