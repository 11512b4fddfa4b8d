//! Document 02, C-14: "A weight w above (p−1)/2 therefore counts as w − p in the
//! worst norm." Each number here was worked out by hand or is the square of the
//! smaller of w and p - w.

mod common;
use common::{Owned, Random};

/// The shape p 2 3 2 2: 3 digits and 2 links, so that L = 5, and 2 products. It
/// has a row of each kind, and of each more than one.
const ROWS: [Row; 7] = [
    Row::Link(0),
    Row::Link(1),
    Row::D(0),
    Row::D(1),
    Row::Beta(0),
    Row::Beta(1),
    Row::Beta(2),
];

/// A row of weights of a plan and β.
#[derive(Clone, Copy, Debug, PartialEq)]
enum Row {
    Link(usize),
    D(usize),
    Beta(usize),
}

/// The plan of that shape and its β, all weights zero.
fn zeros(p: u64) -> (Owned, Vec<u8>) {
    let plan = Owned::zeros(p, 2, 3, 2, 2);
    let beta = vec![0; plan.columns()];
    (plan, beta)
}

/// The weights of a row.
fn weights((plan, beta): &mut (Owned, Vec<u8>), row: Row) -> &mut [u8] {
    match row {
        Row::Link(0) => &mut plan.weights[..3],
        Row::Link(_) => &mut plan.weights[3..],
        Row::D(b) => &mut plan.d[5 * b..5 * (b + 1)],
        Row::Beta(b) => &mut beta[5 * b..5 * (b + 1)],
    }
}

/// The worst norm where one row has these weights first and all else is zero.
fn worst_of(p: u64, row: Row, given: &[u8]) -> u64 {
    let mut all = zeros(p);
    weights(&mut all, row)[..given.len()].copy_from_slice(given);
    all.0.worst(&all.1).unwrap()
}

#[test]
fn two_three_and_four_modulo_5() {
    for row in ROWS {
        assert_eq!(worst_of(5, row, &[2, 3, 4]), 4 + 4 + 1, "{row:?}");
    }
}

#[test]
fn every_weight_of_3_5_and_7() {
    let squares: [&[u64]; 3] = [&[0, 1, 1], &[0, 1, 4, 4, 1], &[0, 1, 4, 9, 9, 4, 1]];
    for squares in squares {
        let p = squares.len() as u64;
        for row in ROWS {
            for (w, &square) in squares.iter().enumerate() {
                assert_eq!(worst_of(p, row, &[w as u8]), square, "{w} modulo {p}");
            }
        }
    }
}

#[test]
fn every_weight_of_251() {
    for row in ROWS {
        for w in 0..=250 {
            let short = w.min(251 - w);
            assert_eq!(worst_of(251, row, &[w as u8]), short * short, "{w}");
        }
    }
}

#[test]
fn beside_the_middle_of_251() {
    for row in ROWS {
        for (w, square) in [
            (0, 0),
            (1, 1),
            (123, 15_129),
            (124, 15_376),
            (125, 15_625),
            (126, 15_625),
            (127, 15_376),
            (128, 15_129),
            (129, 14_884),
            (249, 4),
            (250, 1),
        ] {
            assert_eq!(worst_of(251, row, &[w]), square, "{w} in {row:?}");
        }
        assert_eq!(worst_of(251, row, &[125, 126, 250]), 31_251);
    }
}

/// In every other row all weights are p-1, or p-2: by their long side these are
/// the larger, by their short side the smaller.
#[test]
fn each_row_in_turn_is_the_largest() {
    for (p, middle, square) in [(7, 3, 9), (11, 5, 25), (251, 125, 15_625)] {
        for row in ROWS {
            for (weight, below) in [(middle, 1), (middle + 1, 1), (middle, 2), (middle + 1, 2)] {
                let mut all = zeros(p);
                for other in ROWS {
                    weights(&mut all, other).fill(p as u8 - below);
                }
                let own = weights(&mut all, row);
                own.fill(weight);
                let length = own.len() as u64;
                assert_eq!(all.0.worst(&all.1), Ok(length * square), "{p}, {row:?}");
            }
        }
    }
}

/// The same with the rows that are not the largest changed at random.
#[test]
fn rows_that_are_smaller_do_not_count() {
    let mut random = Random::new(14);
    for row in ROWS {
        for _ in 0..50 {
            let mut all = zeros(251);
            for other in ROWS {
                for weight in weights(&mut all, other) {
                    // 50 and less, and 201 and more: at most 2,500 each.
                    *weight = ((201 + random.below(101)) % 251) as u8;
                }
            }
            let own = weights(&mut all, row);
            own.fill(126);
            let length = own.len() as u64;
            assert_eq!(all.0.worst(&all.1), Ok(15_625 * length), "{row:?}");
        }
    }
}

#[test]
fn exclusive_or_and_conjunction() {
    // β is 0 1 1 0, and d is 1 1.
    assert_eq!(Owned::xor().worst(&[0, 1, 1, 0]), Ok(2));
    // β is 1 0 2 0, where the 2 counts as -1.
    assert_eq!(Owned::xor().worst(&[1, 0, 2, 0]), Ok(2));
    assert_eq!(Owned::xor().worst(&[2, 2, 2, 2]), Ok(2));
    let plan = Owned {
        d: vec![2, 0],
        ..Owned::xor()
    };
    assert_eq!(plan.worst(&[1, 0, 2, 0]), Ok(1));
}

#[test]
fn the_largest_norm() {
    let mut plan = Owned::zeros(251, 2, 1, 63, 15);
    for weight in [125, 126] {
        let beta = vec![weight; plan.columns()];
        assert_eq!(plan.worst(&beta), Ok(1_000_000));
        plan.d.fill(weight);
        assert_eq!(plan.worst(&vec![0; plan.columns()]), Ok(1_000_000));
        plan.d.fill(0);
        // The last link reads 63 variables.
        plan.weights.fill(weight);
        assert_eq!(plan.worst(&vec![0; plan.columns()]), Ok(984_375));
        plan.weights.fill(0);
    }
    assert_eq!(plan.worst(&vec![250; plan.columns()]), Ok(64));
}
