//! Document 02, C-11: a radix for each digit. What is refused, in which order
//! and by every call, and how an entry is split.

mod common;
use common::{call, Owned};
use reference::{Filed, Ran, Record, Settled, Withdrawn};

/// That a plan without links and products and with n = 2 is answered so.
#[track_caller]
fn two_digits(p: u64, radices: &[u8], number: u32) {
    let plan = Owned {
        radices: radices.to_vec(),
        ..Owned::zeros(p, 2, 2, 0, 0)
    };
    assert_eq!(plan.check(), number, "{radices:?}");
}

/// That a plan without links and products with these n radices is answered so.
#[track_caller]
fn digits(p: u64, radices: &[u8], number: u32) {
    let plan = Owned::mixed(p, 2, radices, 0, 0);
    assert_eq!(plan.check(), number, "{radices:?}");
}

#[test]
fn twelve_radices_of_2_pass_and_thirteen_give_3() {
    digits(3, &[2; 12], 0);
    digits(3, &[2; 13], 3);
}

#[test]
fn a_radix_is_2_to_p() {
    for p in [3, 67, 251] {
        for (radix, number) in [
            (0, 2),
            (1, 2),
            (2, 0),
            (p as u8, 0),
            (p as u8 + 1, 2),
            (255, 2),
        ] {
            digits(p, &[radix], number);
            // At each place, whatever s is.
            for s in [2, p] {
                for place in 0..3 {
                    let mut radices = [2; 3];
                    radices[place] = radix;
                    let plan = Owned::mixed(p, s, &radices, 0, 0);
                    assert_eq!(plan.check(), number, "p = {p}, s = {s}, {radices:?}");
                }
            }
        }
    }
}

#[test]
fn radices_are_tested_as_lent() {
    // Causes 2 and 3 look at all of them, whatever n is.
    two_digits(67, &[64, 64, 64], 3);
    two_digits(67, &[2, 2, 1], 2);
    two_digits(67, &[2, 2, 68], 2);
    two_digits(67, &[1], 2);
    two_digits(67, &[0], 2);
    two_digits(67, &[68], 2);
    two_digits(67, &[2, 2, 2], 4);
    two_digits(67, &[2], 4);
    two_digits(67, &[], 4);
    two_digits(67, &[2, 2], 0);
    // One more than n may be enough for 3, and one fewer too few.
    two_digits(67, &[64, 64, 2], 3);
    two_digits(67, &[64, 64], 0);
    two_digits(67, &[64], 4);
}

#[test]
fn the_product_beside_its_limit() {
    digits(67, &[63, 65], 0);
    digits(67, &[64, 64], 0);
    digits(67, &[65, 64], 3);
    for p in [241, 251] {
        digits(p, &[17, 241], 3);
        digits(p, &[241, 17], 3);
        digits(p, &[16, 241], 0);
    }
    digits(251, &[251, 16], 0);
    digits(251, &[251, 17], 3);
    digits(17, &[2, 16, 8, 16], 0);
    digits(17, &[2, 16, 8, 17], 3);
}

#[test]
fn the_product_does_not_wrap() {
    for (p, radices) in [
        (251, [251; 64].as_slice()),
        // 2^64 in three ways, then 2^32, 2^16 and 2^13.
        (3, &[2; 64]),
        (5, &[4; 32]),
        (17, &[16; 16]),
        (17, &[16; 8]),
        (67, &[64, 64, 16]),
        (17, &[16, 16, 16, 2]),
        (251, &[251; 5_000]),
    ] {
        // As n radices where n may be so large, and as too many.
        if radices.len() <= 64 {
            digits(p, radices, 3);
        }
        two_digits(p, radices, 3);
    }
}

#[test]
fn cause_2_by_any_radix_comes_before_3_by_any_product() {
    two_digits(67, &[67, 67, 68], 2);
    digits(67, &[67, 67, 68], 2);
    digits(67, &[67, 67, 67], 3);
    // Behind a product that is out of every range.
    let mut radices = [251; 64];
    for bad in [0, 1, 252, 255] {
        radices[63] = bad;
        digits(251, &radices, 2);
    }
    // And before 3 by the numbers.
    let plan = |n: u64, radices: &[u8]| Owned {
        n,
        radices: radices.to_vec(),
        ..Owned::zeros(3, 2, 1, 0, 0)
    };
    for n in [0, 65, u64::MAX] {
        assert_eq!(plan(n, &[1]).check(), 2);
        assert_eq!(plan(n, &[2]).check(), 3);
        assert_eq!(plan(n, &[]).check(), 3);
    }
}

/// What filing entry 1 with records answers, and withdrawing it from there. A
/// refused call leaves what it is lent.
fn with_records(plan: &Owned) -> (u32, u32) {
    let product = |all: usize, &radix: &u8| all.saturating_mul(radix.into());
    let entries = plan.radices.iter().fold(1, product).min(4_096);
    let empty = (plan.empty_store(), vec![Record::default(); entries], 0);
    let (mut store, mut records, mut count) = empty.clone();
    let mut work = plan.empty_store();
    let (kept, list, number) = (&mut store, &mut records, &mut count);
    let filed = match call!(file_recorded, plan, kept, &mut work, list, number, 1, 1) {
        Filed::Refused(number) => number,
        _ => 0,
    };
    assert_eq!(filed == 0, *number == 1);
    let withdrawn = match call!(withdraw, plan, kept, &mut work, list, number, 1) {
        Withdrawn::Refused(number) => number,
        Withdrawn::Value(value) => u32::from(value) - 1,
    };
    assert_eq!((store, records, count), empty);
    (filed, withdrawn)
}

/// What each call answers, all its own parts being as the plan's numbers ask.
/// A refused call leaves them as they were.
fn every_call(plan: &Owned) -> [u32; 12] {
    let columns = plan.columns();
    let (mut row, mut store, mut beta) = (vec![9; columns], plan.empty_store(), vec![9; columns]);
    let good = vec![1; columns];
    let (mut slice, lent) = (vec![9; 20_000], vec![9; 20_000]);

    let rowed = call!(row, plan, 1, &mut row);
    let filed = match plan.file(&mut store, 1, 1) {
        Filed::Refused(number) => number,
        _ => 0,
    };
    let read_off = call!(coefficients, plan, &plan.empty_store(), &mut beta);
    let settled = match plan.settle(&plan.empty_store(), 1) {
        Settled::Refused(number) => number,
        _ => 0,
    };
    let (filed_recorded, withdrawn) = with_records(plan);
    let written = call!(write, plan, &good, &mut slice).len();
    let checked = call!(check_writing, plan, &good, &lent);
    for (answer, untouched) in [
        (rowed, row == vec![9; columns]),
        (filed, store == plan.empty_store()),
        (read_off, beta == vec![9; columns]),
        (checked, slice == lent),
    ] {
        assert_eq!(answer != 0, untouched);
    }
    assert_eq!(checked != 0, written == 0);
    [
        plan.check(),
        rowed,
        plan.test(&plan.empty_store()),
        filed,
        read_off,
        settled,
        plan.general_in(&plan.empty_store()).err().unwrap_or(0),
        filed_recorded,
        withdrawn,
        checked,
        plan.run(&[], &vec![0; plan.n as usize]).err().unwrap_or(0),
        plan.worst(&good).err().unwrap_or(0),
    ]
}

/// p s n m t = 13 4 2 1 1 with radices 12 2 and good parts.
fn month_and_bit() -> Owned {
    Owned {
        weights: vec![1, 11],
        tables: (0..13).collect(),
        d: vec![1, 2, 3],
        ..Owned::mixed(13, 4, &[12, 2], 1, 1)
    }
}

#[test]
fn every_call_refuses_radices_alike() {
    let good = month_and_bit();
    assert_eq!(every_call(&good), [0; 12]);
    for (radices, number) in [
        (&[12, 1][..], 2),
        (&[0, 2], 2),
        (&[14, 2], 2),
        (&[12, 255], 2),
        (&[12, 2, 1], 2),
        (&[14], 2),
        (&[13, 13, 13, 13], 3),
        (&[2; 13], 3),
        (&[13; 64], 3),
        (&[], 4),
        (&[12], 4),
        (&[24], 2),
        (&[12, 2, 2], 4),
        (&[2; 12], 4),
        (&[13, 13], 0),
        (&[2, 2], 0),
        (&[2, 12], 0),
    ] {
        let plan = Owned {
            radices: radices.to_vec(),
            ..good.clone()
        };
        assert_eq!(every_call(&plan), [number; 12], "{radices:?}");
    }
}

#[test]
fn two_causes_and_the_first_put_right() {
    let good = month_and_bit();
    let with = |change: &dyn Fn(&mut Owned)| {
        let mut plan = good.clone();
        change(&mut plan);
        every_call(&plan)
    };
    // 1 before a bad radix.
    assert_eq!(with(&|plan| (plan.p, plan.radices[1]) = (15, 1)), [1; 12]);
    assert_eq!(with(&|plan| plan.radices[1] = 1), [2; 12]);
    // A bad radix before 3 by t, 4 and 5.
    let spoil = |plan: &mut Owned| {
        plan.weights = vec![13; 3];
        plan.t = 33;
    };
    let bad_radix = |plan: &mut Owned| plan.radices = vec![12, 14];
    assert_eq!(
        with(&|plan| {
            spoil(plan);
            bad_radix(plan);
        }),
        [2; 12]
    );
    assert_eq!(with(&spoil), [3; 12]);
    // The product before 4 and 5.
    let length_and_value = |plan: &mut Owned| plan.weights = vec![13; 3];
    let product = |plan: &mut Owned| plan.radices = vec![13; 4];
    assert_eq!(
        with(&|plan| {
            length_and_value(plan);
            product(plan);
        }),
        [3; 12]
    );
    assert_eq!(with(&length_and_value), [4; 12]);
    // The number of radices before 5.
    let value = |plan: &mut Owned| plan.d[2] = 13;
    for radices in [&[12][..], &[12, 2, 2], &[]] {
        assert_eq!(
            with(&|plan| {
                value(plan);
                plan.radices = radices.to_vec();
            }),
            [4; 12]
        );
    }
    assert_eq!(with(&value), [5; 12]);
}

#[test]
fn the_number_of_radices_before_the_causes_of_a_call() {
    let good = month_and_bit();
    let one_radix = Owned {
        radices: vec![12],
        ..good.clone()
    };
    let mut row = vec![9; good.columns()];
    assert_eq!(call!(row, one_radix, 24, &mut row), 4);
    assert_eq!(call!(row, good, 24, &mut row), 7);
    let mut store = good.empty_store();
    store[0] = 2;
    assert_eq!(one_radix.test(&store), 4);
    assert_eq!(good.test(&store), 6);
    assert_eq!(one_radix.file(&mut store, 24, 4), Filed::Refused(4));
    assert_eq!(good.file(&mut store, 24, 4), Filed::Refused(6));
    assert_eq!(one_radix.settle(&store, 24), Settled::Refused(4));
    assert_eq!(good.settle(&store, 24), Settled::Refused(6));
    assert_eq!(good.settle(&good.empty_store(), 24), Settled::Refused(7));
    assert_eq!(call!(check_writing, one_radix, &[0; 6], &[]), 4);
    assert_eq!(call!(check_writing, good, &[0; 6], &[]), 10);
    assert_eq!(one_radix.run(&[9; 4], &[12, 1]), Err(4));
    assert_eq!(good.run(&[9; 4], &[12, 1]), Err(11));
    assert_eq!(good.run(&[], &[12, 1]), Err(12));
    // The radices are as many as the digits, and neither as many as n.
    assert_eq!(one_radix.run(&[], &[11]), Err(4));
}

#[test]
fn a_month_and_a_bit() {
    let plan = Owned::mixed(13, 4, &[12, 2], 0, 0);
    assert_eq!(plan.entries(), 24);
    assert_eq!(plan.row(0), [0, 0]);
    assert_eq!(plan.row(1), [0, 1]);
    assert_eq!(plan.row(2), [1, 0]);
    assert_eq!(plan.row(23), [11, 1]);
    let mut row = [9, 9];
    assert_eq!(call!(row, plan, 24, &mut row), 7);
    assert_eq!(row, [9, 9]);
    let mut store = plan.empty_store();
    assert_eq!(plan.file(&mut store, 24, 0), Filed::Refused(7));
    assert_eq!(plan.file(&mut store, 24, 4), Filed::Refused(7));
    assert_eq!(plan.file(&mut store, 23, 4), Filed::Refused(8));
    assert_eq!(plan.file(&mut store, 23, 3), Filed::New(0));

    // y is register 6: y = x_0 + 2·x_1.
    let steps = [1, 6, 0, 1, 1, 6, 1, 2];
    let (y, bootstraps) = (0, 0);
    assert_eq!(plan.run(&steps, &[11, 1]), Ok(Ran { y, bootstraps }));
    assert_eq!(plan.run(&steps, &[12, 1]), Err(12));
    assert_eq!(plan.run(&steps, &[1, 2]), Err(12));
    assert_eq!(plan.run(&steps, &[255, 255]), Err(12));

    // With the bit first, the same numbers are other entries.
    let turned = Owned::mixed(13, 4, &[2, 12], 0, 0);
    assert_eq!(turned.row(1), [0, 1]);
    assert_eq!(turned.row(11), [0, 11]);
    assert_eq!(turned.row(12), [1, 0]);
    assert_eq!(turned.row(23), [1, 11]);
    assert_eq!(turned.run(&steps, &[11, 1]), Err(12));
    assert!(turned.run(&steps, &[1, 11]).is_ok());
}

#[test]
fn s_bounds_values_and_radices_bound_digits() {
    // s below every radix.
    let plan = Owned::mixed(13, 2, &[13, 3], 0, 0);
    assert!(plan.run(&[], &[12, 2]).is_ok());
    let mut store = plan.empty_store();
    assert_eq!(plan.file(&mut store, 38, 2), Filed::Refused(8));
    assert_eq!(plan.file(&mut store, 38, 1), Filed::New(0));
    assert_eq!(plan.file(&mut store, 39, 1), Filed::Refused(7));
    // s above every radix.
    let plan = Owned::mixed(13, 13, &[2, 3], 0, 0);
    assert_eq!(plan.run(&[], &[2, 0]), Err(12));
    assert_eq!(plan.run(&[], &[0, 3]), Err(12));
    assert!(plan.run(&[], &[1, 2]).is_ok());
    let mut store = plan.empty_store();
    assert_eq!(plan.file(&mut store, 5, 13), Filed::Refused(8));
    assert_eq!(plan.file(&mut store, 5, 12), Filed::New(0));
    assert_eq!(plan.file(&mut store, 6, 0), Filed::Refused(7));
}

/// Counts through all entries like a mileage counter, the last digit fastest,
/// and compares each row.
fn count_through(p: u64, radices: &[u8]) {
    let plan = Owned::mixed(p, 2, radices, 0, 0);
    let mut counter = vec![0; radices.len()];
    for entry in 0..plan.entries() {
        assert_eq!(plan.row(entry), counter, "{radices:?} at {entry}");
        assert_eq!(plan.digits(entry), counter, "{radices:?} at {entry}");
        assert!(plan.run(&[], &counter).is_ok());
        for (digit, &radix) in counter.iter_mut().zip(radices).rev() {
            *digit += 1;
            if *digit < radix {
                break;
            }
            *digit = 0;
        }
    }
    // All digits have come round.
    assert!(counter.iter().all(|&digit| digit == 0));
    let mut row = vec![0; radices.len()];
    assert_eq!(call!(row, plan, plan.entries(), &mut row), 7);
}

#[test]
fn entries_count_through_the_digits() {
    for radices in [
        &[2; 12][..],
        &[12, 2],
        &[2, 12],
        &[63, 65],
        &[251, 16],
        &[16, 251],
        &[7, 24, 24],
        &[2, 3, 4, 5, 6],
        &[6, 5, 4, 3, 2],
        &[251],
    ] {
        count_through(251, radices);
    }
    // Every list of one to four radices from 2 to 5.
    for n in 1..=4 {
        for number in 0..4_u32.pow(n) {
            let radices: Vec<u8> = (0..n)
                .map(|j| 2 + (number / 4_u32.pow(j) % 4) as u8)
                .collect();
            count_through(5, &radices);
        }
    }
}

#[test]
fn a_row_by_hand() {
    // Entry 7 of radices 2 5 is 1 2; the link is table[1 + 3·2 = 2] = 4; d gives
    // 1·1 + 4·4 = 2, and the first block is the variables doubled.
    let mut plan = Owned::mixed(5, 3, &[2, 5], 1, 1);
    plan.weights = vec![1, 3];
    plan.tables = vec![1, 0, 4, 0, 2];
    plan.d = vec![1, 0, 4];
    assert_eq!(plan.row(7), [2, 4, 3, 1, 2, 4]);
}
