//! Document 01, "Turned down": each cause, their order, and that a refused
//! call leaves every lent slice as it was. Of the calls with records in
//! tests/records.rs.

mod common;
use common::{call, Owned};
use reference::{Filed, Reread, Settled};

/// One repair of a call that meets every cause: after the i-th, cause i is no
/// longer met. What is lent at first meets all of them.
struct Broken {
    plan: Owned,
    good: Owned,
}

impl Broken {
    /// A plan p s n m t = 3 2 2 1 1, C = 6, with everything in it wrong.
    fn new() -> Broken {
        let good = Owned {
            weights: vec![1, 2],
            tables: vec![1, 0, 2],
            d: vec![1, 0, 1],
            ..Owned::zeros(3, 2, 2, 1, 1)
        };
        let plan = Owned {
            p: 9,
            s: 1,
            n: 0,
            d: vec![3],
            ..good.clone()
        };
        Broken { plan, good }
    }

    /// Repairs the plan for the causes 1 to 5; later ones are the call's own.
    fn repair(&mut self, cause: u32) {
        match cause {
            1 => self.plan.p = self.good.p,
            2 => self.plan.s = self.good.s,
            3 => self.plan.n = self.good.n,
            4 => self.plan.d = vec![1, 3, 1],
            5 => self.plan.d = self.good.d.clone(),
            _ => {}
        }
    }
}

#[test]
fn check_plan_in_order() {
    let mut broken = Broken::new();
    for cause in [1, 2, 3, 4, 5] {
        assert_eq!(broken.plan.check(), cause);
        broken.repair(cause);
    }
    assert_eq!(broken.plan.check(), 0);
}

#[test]
fn row_in_order() {
    let mut broken = Broken::new();
    let (mut entry, mut row) = (4, vec![99; 5]);
    for cause in [1, 2, 3, 4, 5, 7] {
        let before = row.clone();
        assert_eq!(call!(row, broken.plan, entry, &mut row), cause);
        assert_eq!(row, before);
        broken.repair(cause);
        match cause {
            4 => row = vec![99; 6],
            7 => entry = 3,
            _ => {}
        }
    }
    assert_eq!(call!(row, broken.plan, entry, &mut row), 0);
}

#[test]
fn test_store_in_order() {
    let mut broken = Broken::new();
    let mut store = vec![1; 26];
    for cause in [1, 2, 3, 4, 5, 6] {
        assert_eq!(broken.plan.test(&store), cause);
        broken.repair(cause);
        match cause {
            4 => store = vec![1; 27],
            6 => store = vec![0; 27],
            _ => {}
        }
    }
    assert_eq!(broken.plan.test(&store), 0);
}

#[test]
fn file_in_order() {
    let mut broken = Broken::new();
    let (mut store, mut entry, mut value) = (vec![1; 28], 4, 2);
    for cause in [1, 2, 3, 4, 5, 6, 7, 8, 9] {
        let before = store.clone();
        assert_eq!(
            broken.plan.file(&mut store, entry, value),
            Filed::Refused(cause)
        );
        assert_eq!(store, before);
        broken.repair(cause);
        match cause {
            4 => store = vec![1; 27],
            6 => store = vec![0; 27],
            7 => entry = 3,
            8 => {
                value = 1;
                assert!(matches!(broken.plan.file(&mut store, 3, 0), Filed::New(_)));
            }
            9 => value = 0,
            _ => {}
        }
    }
    assert_eq!(broken.plan.file(&mut store, entry, value), Filed::Implied);
}

#[test]
fn coefficients_in_order() {
    let mut broken = Broken::new();
    let (mut store, mut beta) = (vec![1; 27], vec![99; 7]);
    for cause in [1, 2, 3, 4, 5, 6] {
        let before = beta.clone();
        assert_eq!(call!(coefficients, broken.plan, &store, &mut beta), cause);
        assert_eq!(beta, before);
        broken.repair(cause);
        match cause {
            4 => beta = vec![99; 6],
            6 => store = vec![0; 27],
            _ => {}
        }
    }
    assert_eq!(call!(coefficients, broken.plan, &store, &mut beta), 0);
    assert_eq!(beta, [0; 6]);
}

#[test]
fn settle_in_order() {
    let mut broken = Broken::new();
    let (mut store, mut entry) = (vec![1; 28], 4);
    for cause in [1, 2, 3, 4, 5, 6, 7] {
        let answer = broken.plan.settle(&store, entry);
        assert_eq!(answer, Settled::Refused(cause));
        broken.repair(cause);
        match cause {
            4 => store = vec![1; 27],
            6 => store = vec![0; 27],
            7 => entry = 3,
            _ => {}
        }
    }
    assert_eq!(broken.plan.settle(&store, entry), Settled::Free(0));
}

#[test]
fn general_in_order() {
    // The old bytes of the work store are no damage.
    let mut broken = Broken::new();
    let mut work = vec![1; 28];
    for cause in [1, 2, 3, 4, 5] {
        assert_eq!(broken.plan.general_in(&work), Err(cause));
        broken.repair(cause);
        if cause == 4 {
            work = vec![1; 27];
        }
    }
    assert!(broken.plan.general_in(&work).is_ok());
}

#[test]
fn writing_in_order() {
    let mut broken = Broken::new();
    // 1(2+2) + 0 + 1 + 1(6+12) + 3 = 26 steps.
    let (mut beta, mut slice) = (vec![3; 5], vec![99; 4 * 26 - 1]);
    for cause in [1, 2, 3, 4, 5, 10] {
        let before = slice.clone();
        assert_eq!(call!(check_writing, broken.plan, &beta, &slice), cause);
        assert!(call!(write, broken.plan, &beta, &mut slice).is_empty());
        assert_eq!(slice, before);
        broken.repair(cause);
        match cause {
            4 => beta = vec![3; 6],
            5 => beta = vec![2; 6],
            10 => slice = vec![99; 4 * 26],
            _ => {}
        }
    }
    assert_eq!(call!(check_writing, broken.plan, &beta, &slice), 0);
    assert_eq!(call!(write, broken.plan, &beta, &mut slice).len(), 4 * 26);
}

#[test]
fn run_in_order() {
    let mut broken = Broken::new();
    let (mut steps, mut digits) = (vec![0, 7, 0, 0, 3, 0, 0, 0], vec![2; 3]);
    for cause in [1, 2, 3, 4, 5, 11, 12] {
        assert_eq!(broken.plan.run(&steps, &digits), Err(cause));
        broken.repair(cause);
        match cause {
            4 => digits = vec![0, 2],
            11 => steps = vec![],
            12 => digits = vec![0, 1],
            _ => {}
        }
    }
    assert!(broken.plan.run(&steps, &digits).is_ok());
}

#[test]
fn worst_norm_in_order() {
    let mut broken = Broken::new();
    let mut beta = vec![3; 7];
    for cause in [1, 2, 3, 4, 5] {
        assert_eq!(broken.plan.worst(&beta), Err(cause));
        broken.repair(cause);
        match cause {
            4 => beta = vec![3; 6],
            5 => beta = vec![2; 6],
            _ => {}
        }
    }
    // Each 2 modulo 3 counts as -1 (02, C-14).
    assert_eq!(broken.plan.worst(&beta), Ok(3));
}

#[test]
fn read_steps_in_order() {
    let mut broken = Broken::new();
    let written = broken.good.steps(&[1, 2, 0, 0, 1, 2]);
    // β has no byte below p at first: its old bytes are not tested.
    let (mut steps, mut beta) = (vec![9; 7], vec![99; 7]);
    for cause in [1, 2, 3, 4, 5, 15] {
        let before = beta.clone();
        assert_eq!(call!(read_steps, broken.plan, &steps, &mut beta), cause);
        assert_eq!(beta, before);
        broken.repair(cause);
        match cause {
            4 => beta = vec![99; 6],
            15 => steps.clone_from(&written),
            _ => {}
        }
    }
    assert_eq!(call!(read_steps, broken.plan, &steps, &mut beta), 0);
    assert_eq!(beta, [1, 2, 0, 0, 1, 2]);
}

#[test]
fn read_listing_in_order() {
    let mut broken = Broken::new();
    let listing = broken.good.listing(&[1, 2, 0, 0, 1, 2]);
    // Line 2 is wrong and the last line malformed.
    let (mut text, mut beta) = (
        format!("{}0", listing.replacen(" 26 ", " 27 ", 1)),
        vec![99; 5],
    );
    let last = listing.lines().count() as u64 + 1;
    for cause in [1, 2, 3, 4, 5, 13, 15] {
        let before = beta.clone();
        let answer = call!(read_listing, broken.plan, text.as_bytes(), &mut beta);
        let expected = match cause {
            13 => Reread::RefusedAt(13, last),
            15 => Reread::RefusedAt(15, 1),
            _ => Reread::Refused(cause),
        };
        assert_eq!((answer, &beta), (expected, &before));
        broken.repair(cause);
        match cause {
            4 => beta = vec![99; 6],
            13 => drop(text.pop()),
            15 => text.clone_from(&listing),
            _ => {}
        }
    }
    let answer = call!(read_listing, broken.plan, text.as_bytes(), &mut beta);
    assert_eq!(answer, Reread::Read);
    assert_eq!(beta, [1, 2, 0, 0, 1, 2]);
}

#[test]
fn every_part_in_another_length_is_4_and_every_large_byte_5() {
    let good = Broken::new().good;
    type Part = fn(&mut Owned) -> &mut Vec<u8>;
    // Of the radices in tests/radices.rs.
    let parts: [Part; 3] = [
        |plan| &mut plan.weights,
        |plan| &mut plan.tables,
        |plan| &mut plan.d,
    ];
    for part in parts {
        let mut plan = good.clone();
        part(&mut plan).push(0);
        assert_eq!(plan.check(), 4);
        part(&mut plan).pop();
        assert_eq!(plan.check(), 0);
        part(&mut plan).pop();
        assert_eq!(plan.check(), 4);
        part(&mut plan).clear();
        assert_eq!(plan.check(), 4);

        for place in 0..part(&mut good.clone()).len() {
            for large in [3, 4, 255] {
                let mut plan = good.clone();
                part(&mut plan)[place] = large;
                assert_eq!(plan.check(), 5);
            }
        }
    }
}

#[test]
fn lengths_come_before_values_across_parts() {
    let mut plan = Broken::new().good;
    plan.weights[0] = 3;
    assert_eq!(plan.test(&[0; 26]), 4);
    assert_eq!(plan.test(&[0; 27]), 5);
    assert_eq!(plan.test(&[0; 42]), 4);
    assert_eq!(call!(row, plan, 0, &mut [0; 7]), 4);
    assert_eq!(call!(coefficients, plan, &[0; 27], &mut [0; 5]), 4);
    assert_eq!(plan.settle(&[0; 28], 4), Settled::Refused(4));
    assert_eq!(plan.settle(&[0; 27], 4), Settled::Refused(5));
    assert_eq!(plan.general_in(&[9; 28]), Err(4));
    assert_eq!(plan.general_in(&[9; 27]), Err(5));
    assert_eq!(plan.to_half(&[9; 42], &[9; 28]), Err(4));
    assert_eq!(plan.to_half(&[9; 42], &[9; 27]), Err(5));
    assert_eq!(plan.to_full(&[9; 27], &[9; 41]), Err(4));
    assert_eq!(plan.to_full(&[9; 27], &[9; 42]), Err(5));
    assert_eq!(call!(check_writing, plan, &[9; 7], &[]), 4);
    assert_eq!(plan.run(&[9], &[9]), Err(4));
    assert_eq!(plan.worst(&[9; 7]), Err(4));
    assert_eq!(call!(read_steps, plan, &[], &mut [9; 7]), 4);
    assert_eq!(call!(read_steps, plan, &[], &mut [9; 6]), 5);
    let listing = |beta: &mut [u8]| call!(read_listing, plan, b"", beta);
    assert_eq!(listing(&mut [9; 5]), Reread::Refused(4));
    assert_eq!(listing(&mut [9; 6]), Reread::Refused(5));
}

#[test]
fn run_is_lent_the_plan_and_tests_all_of_it() {
    let mut plan = Broken::new().good;
    plan.d[2] = 3;
    assert_eq!(plan.run(&[], &[0, 0]), Err(5));
}

#[test]
fn step_lists() {
    // m = 1, L = 3, so the registers are 0 to 7 and the tables 0 to 2; p = 3.
    let plan = Broken::new().good;
    let good: [[u16; 4]; 9] = [
        [0, 0, 0, 0],
        [0, 7, 0, 0],
        [1, 7, 7, 2],
        [1, 0, 0, 0],
        [2, 7, 7, 2],
        [2, 0, 0, 0],
        [1, 3, 7, 1],
        [2, 7, 0, 1],
        [2, 1, 1, 2],
    ];
    for step in good {
        assert!(plan.run(&step, &[0, 0]).is_ok(), "{step:?}");
    }
    let bad: [[u16; 4]; 17] = [
        [0, 8, 0, 0],
        [0, 0, 1, 0],
        [0, 0, 0, 1],
        [0, 65_535, 0, 0],
        [1, 8, 0, 0],
        [1, 0, 8, 0],
        [1, 0, 0, 3],
        [1, 0, 0, 65_535],
        [1, 65_535, 0, 0],
        [2, 8, 0, 0],
        [2, 0, 8, 0],
        [2, 0, 0, 3],
        [2, 0, 65_535, 0],
        [2, 0, 0, 65_535],
        [3, 0, 0, 0],
        [4, 0, 0, 0],
        [65_535, 0, 0, 0],
    ];
    for step in bad {
        assert_eq!(plan.run(&step, &[0, 0]), Err(11), "{step:?}");
        // The whole list is tested before any step and before the digits.
        let list = [good[2], good[4], step].concat();
        assert_eq!(plan.run(&list, &[0, 2]), Err(11));
    }
    for length in [1, 2, 3, 5, 6, 7] {
        assert_eq!(plan.run(&vec![0; length], &[0, 0]), Err(11));
    }
    assert_eq!(plan.run(&[], &[0, 2]), Err(12));
    assert_eq!(plan.run(&[], &[255, 0]), Err(12));
    assert_eq!(plan.run(&[], &[0]), Err(4));
    assert_eq!(plan.run(&[], &[]), Err(4));
}

#[test]
fn any_number_may_be_lent() {
    let numbers = [
        0,
        1,
        2,
        3,
        31,
        32,
        33,
        63,
        64,
        65,
        251,
        1 << 32,
        1 << 63,
        u64::MAX - 1,
        u64::MAX,
    ];
    for p in numbers {
        for s in numbers {
            for n in numbers {
                for m in numbers {
                    for t in numbers {
                        let prime = [3, 31, 251].contains(&p);
                        let l = n as u128 + m as u128;
                        let c = l.saturating_mul(t as u128 + 1);
                        let small = n >= 1 && l <= 64 && t <= 32 && c <= 1_024;
                        for (radices, product) in [(&[][..], 1), (&[2], 2), (&[30; 3], 27_000)] {
                            let two_to_p = |number: u64| 2 <= number && number <= p;
                            let radix = radices.iter().all(|&radix| two_to_p(radix as u64));
                            // No part but the radices is lent, so an accepted plan has no links.
                            let fits = n == radices.len() as u64 && m == 0 && t == 0;
                            let expected = match (prime, two_to_p(s) && radix, fits) {
                                (false, _, _) => 1,
                                (_, false, _) => 2,
                                _ if !small || product > 4_096 => 3,
                                (_, _, false) => 4,
                                _ => 0,
                            };
                            let got = reference::check_plan(p, s, n, m, t, radices, &[], &[], &[]);
                            assert_eq!(got, expected, "{p} {s} {n} {m} {t} {radices:?}");
                        }
                    }
                }
            }
        }
    }
}

#[test]
fn large_entries_and_values() {
    let x = Owned::xor();
    let mut store = x.empty_store();
    let mut row = [9; 4];
    for entry in [4, 256, 1 << 32, u64::MAX] {
        assert_eq!(x.file(&mut store, entry, 0), Filed::Refused(7));
        assert_eq!(x.file(&mut store, entry, 9), Filed::Refused(7));
        assert_eq!(x.settle(&store, entry), Settled::Refused(7));
        assert_eq!(call!(row, x, entry, &mut row), 7);
    }
    for value in [2, 256, 257, 1 << 32, u64::MAX] {
        assert_eq!(x.file(&mut store, 1, value), Filed::Refused(8));
    }
    assert_eq!((store, row), (x.empty_store(), [9; 4]));
}

#[test]
fn a_given_beta_not_below_p() {
    let plan = Broken::new().good;
    for place in 0..6 {
        let mut beta = [0; 6];
        beta[place] = 3;
        let mut slice = [99; 4 * 26];
        assert_eq!(call!(check_writing, plan, &beta, &slice), 5);
        assert_eq!(call!(check_writing, plan, &beta, &[]), 5);
        assert!(call!(write, plan, &beta, &mut slice).is_empty());
        assert_eq!(slice, [99; 4 * 26]);
        assert_eq!(plan.worst(&beta), Err(5));
    }
}
