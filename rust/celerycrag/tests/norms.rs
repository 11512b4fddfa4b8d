//! The worst norm against the reference, and against the square of the smaller
//! of w and p - w: every weight of every prime, each row the one that decides,
//! weights on both sides of the middle, and the largest shapes.

mod common;
use common::plans::{outline, primes, Owned};
use common::random::{cases, Random};
use common::tally::Tally;
use common::twins;

/// A row of weights: of a link, of d, or of β.
#[derive(Clone, Copy, Debug, PartialEq)]
enum Row {
    Link(usize),
    D(usize),
    Beta(usize),
}

/// A plan and β, which are looked at row by row.
struct Weights {
    plan: Owned,
    beta: Vec<u8>,
}

impl Weights {
    /// A plan like this one, and β, with all weights zero.
    fn zeros(plan: &Owned) -> Weights {
        let shape = [plan.p, plan.s, plan.n, plan.m, plan.t];
        let plan = Owned::zeros(shape).with_radices(&plan.radices);
        let beta = vec![0; plan.columns()];
        Weights { plan, beta }
    }

    /// Every row.
    fn rows(&self) -> Vec<Row> {
        let (m, t) = (self.plan.m, self.plan.t);
        let plan_rows = (0..m).map(Row::Link).chain((0..t).map(Row::D));
        plan_rows.chain((0..=t).map(Row::Beta)).collect()
    }

    /// The weights of a row.
    fn row(&mut self, row: Row) -> &mut [u8] {
        let (n, l) = (self.plan.n, self.plan.variables());
        match row {
            Row::Link(k) => {
                let start = (0..k).map(|before| n + before).sum();
                &mut self.plan.weights[start..][..n + k]
            }
            Row::D(b) => &mut self.plan.d[b * l..][..l],
            Row::Beta(b) => &mut self.beta[b * l..][..l],
        }
    }

    /// The worst norm, the same by library and reference.
    fn worst(&self, tally: &mut Tally) -> usize {
        twins::worst_norm(&self.plan, &self.beta, tally).expect("an accepted call")
    }
}

/// The square of a weight by its short side, the smaller of w and p - w.
fn square(w: u8, p: usize) -> usize {
    let w = usize::from(w);
    w.min(p - w).pow(2)
}

/// The sum of squares of a row by short sides.
fn squares(row: &[u8], p: usize) -> usize {
    row.iter().map(|&w| square(w, p)).sum()
}

/// The same if each weight counted as it is.
fn long_squares(row: &[u8]) -> usize {
    row.iter().map(|&w| usize::from(w).pow(2)).sum()
}

/// Plans of this p with the most variables, links, products and columns, and
/// with the fewest.
fn largest(p: usize) -> [Owned; 7] {
    let shapes = [
        [p, 2, 1, 63, 15],
        [p, 2, 12, 52, 15],
        [p, 2, 1, 30, 32],
        [p, 2, 1, 63, 0],
        [p, 2, 12, 0, 32],
        [p, 2, 1, 0, 32],
        [p, 2, 1, 0, 0],
    ];
    shapes.map(Owned::zeros)
}

/// Every weight alone, at every place of every row.
#[test]
fn every_weight_of_every_prime() {
    let mut tally = Tally::default();
    for p in primes() {
        let mut weights = Weights::zeros(&Owned::zeros([p, 2, 1, 2, 2]));
        for row in weights.rows() {
            for place in 0..weights.row(row).len() {
                for w in 0..p as u8 {
                    weights.row(row)[place] = w;
                    let norm = weights.worst(&mut tally);
                    assert_eq!(norm, square(w, p), "{w} modulo {p}, {row:?}");
                }
                weights.row(row)[place] = 0;
            }
        }
    }
}

/// One row has weights beside the middle. The others have so many weights of
/// p - 1 that they stay smaller; if each weight counted as it is, one of them
/// would mostly be larger.
#[test]
fn each_row_decides() {
    let mut tally = Tally::default();
    let (mut rows, mut larger) = (0, 0);
    cases("each row decides", 10, |random| {
        let (p, place) = (random.pick(&primes()), random.below(7));
        let plan = if random.one_in(4) {
            largest(p)[place].clone()
        } else {
            outline(random, 40)
        };
        let p = plan.p;
        for row in Weights::zeros(&plan).rows() {
            let mut weights = Weights::zeros(&plan);
            for w in weights.row(row) {
                *w = (p / 2 + random.below(2)) as u8;
            }
            let norm = squares(weights.row(row), p);
            assert_eq!(weights.worst(&mut tally), norm, "{row:?} alone");

            let long = long_squares(weights.row(row));
            let mut is_larger = false;
            for other in weights.rows() {
                if other != row {
                    let some = random.below(norm);
                    let first = weights.row(other).iter_mut().take(some);
                    first.for_each(|w| *w = (p - 1) as u8);
                    is_larger |= long_squares(weights.row(other)) > long;
                }
            }
            assert_eq!(weights.worst(&mut tally), norm, "{row:?}");
            rows += 1;
            larger += usize::from(is_larger);
        }
    });
    println!("in {larger} of {rows} another row is larger by its long side");
    assert!(rows < 500 || 2 * larger > rows);
}

/// A weight near 0, near the middle, near p, at one of these, or any.
fn weight(random: &mut Random, kind: usize, p: usize) -> u8 {
    let some = random.below(4);
    let weight = match kind {
        0 => some,
        1 => p / 2 + 2 - some,
        2 => (p - 1).saturating_sub(some),
        3 => random.pick(&[0, p / 2, p / 2 + 1, p - 1]),
        _ => random.below(p),
    };
    weight.min(p - 1) as u8
}

/// Draws the weights of each row, of one kind, and compares the norm with the
/// largest of the rows.
fn drawn(random: &mut Random, plan: &Owned, tally: &mut Tally) {
    let mut weights = Weights::zeros(plan);
    let mut most = 0;
    for row in weights.rows() {
        let kind = random.below(6);
        for w in weights.row(row) {
            *w = weight(random, kind, plan.p);
        }
        most = most.max(squares(weights.row(row), plan.p));
    }
    assert_eq!(weights.worst(tally), most, "the largest row");
}

#[test]
fn weights_on_both_sides() {
    let mut tally = Tally::default();
    cases("weights on both sides", 500, |random| {
        let plan = outline(random, 60);
        drawn(random, &plan, &mut tally);
    });
}

#[test]
fn the_largest_shapes() {
    let mut tally = Tally::default();
    let mut random = Random::new(14, 0);
    for p in primes() {
        for plan in largest(p) {
            drawn(&mut random, &plan, &mut tally);
        }
    }
}

/// Weights of 125 and 126 in each row: 64 of them in a row of d or β, up to 63
/// in that of a link. Then 126 everywhere.
#[test]
fn the_largest_norm() {
    let mut tally = Tally::default();
    let mut random = Random::new(14, 1);
    let plan = &largest(251)[0];
    let mut all = Weights::zeros(plan);
    for row in all.rows() {
        let mut weights = Weights::zeros(plan);
        for w in weights.row(row) {
            *w = random.pick(&[125, 126]);
        }
        let length = match row {
            Row::Link(k) => 1 + k,
            Row::D(_) | Row::Beta(_) => 64,
        };
        assert_eq!(weights.worst(&mut tally), 15_625 * length, "{row:?}");
        all.row(row).fill(126);
    }
    assert_eq!(all.worst(&mut tally), 1_000_000);
}
