//! Document 01, "The store": reduced form, damage of each kind, and that the
//! reduced forms are counted right; in the layout of document 02, C-16, and where
//! the fault is left of the diagonal, which only the old layout has, in that.

mod common;
use common::{call, Owned};
use reference::{Filed, Settled};

/// Plan X and the store of XOR: rows 0 1 2 are led, row 3 is zero.
fn xor() -> (Owned, Vec<u8>) {
    let x = Owned::xor();
    let mut store = x.empty_store();
    for (entry, value) in [(1, 1), (2, 1), (3, 0)] {
        x.file(&mut store, entry, value);
    }
    (x, store)
}

/// The same in the old layout.
const FULL: [u8; 20] = [
    1, 0, 0, 2, 0, //
    0, 1, 0, 1, 1, //
    0, 0, 1, 1, 1, //
    0, 0, 0, 0, 0,
];

/// The store of XOR as rows: x_0·β_0 ... with β_0 + β_2 = 1 and so on.
#[test]
fn the_store_of_xor() {
    let (x, store) = xor();
    assert_eq!(store, [1, 0, 0, 2, 0, 1, 0, 1, 1, 1, 1, 1, 0, 0]);
    assert_eq!(x.rows(&store).concat(), FULL);
    assert_eq!(x.test(&store), 0);
    assert_eq!(x.to_full(&store, &[9; 20]).as_deref(), Ok(&FULL[..]));
    assert_eq!(x.to_half(&FULL, &[9; 14]), Ok(store));
}

/// That a store is damaged for every call that is lent one, and left alone.
fn damaged(plan: &Owned, store: &[u8]) {
    assert_eq!(plan.test(store), 6);
    let mut after = store.to_vec();
    // Cause 6 comes before 7 and 8.
    assert_eq!(plan.file(&mut after, 0, 0), Filed::Refused(6));
    assert_eq!(plan.file(&mut after, u64::MAX, u64::MAX), Filed::Refused(6));
    assert_eq!(after, store);
    assert_eq!(plan.settle(store, 0), Settled::Refused(6));
    assert_eq!(plan.settle(store, u64::MAX), Settled::Refused(6));
    let mut beta = vec![77; plan.columns()];
    assert_eq!(call!(coefficients, plan, store, &mut beta), 6);
    assert!(beta.iter().all(|&x| x == 77));
    assert_eq!(plan.to_full(store, &plan.empty_full()), Err(6));
}

/// Damages the store of XOR by setting one byte: in the old layout, and in the
/// new one where that keeps the byte.
fn damage(row: usize, column: usize, byte: u8) {
    let (plan, store) = xor();
    let mut rows = plan.rows(&store);
    rows[row][column] = byte;
    let old_bytes = [0, 1, 2, 3, 77, 255, 1, 0, 1, 2, 0, 1, 2, 1];
    assert_eq!(plan.to_half(&rows.concat(), &old_bytes), Err(6));
    if column >= row {
        damaged(&plan, &plan.store(&rows));
    }
}

#[test]
fn a_byte_not_below_p() {
    for row in 0..4 {
        for column in 0..5 {
            for byte in [3, 4, 255] {
                damage(row, column, byte);
            }
        }
    }
}

#[test]
fn a_lead_that_is_not_1() {
    damage(0, 0, 2);
    damage(2, 2, 2);
}

#[test]
fn no_coefficient_but_a_right_hand_side() {
    damage(3, 4, 1);
    damage(3, 4, 2);
}

#[test]
fn a_lead_left_of_its_column() {
    damage(3, 0, 1);
    damage(3, 2, 1);
    damage(2, 1, 1);
}

#[test]
fn a_lead_right_of_its_column() {
    // Row 0 loses its 1 and is then led by the 2 in column 3.
    damage(0, 0, 0);
    damage(1, 1, 0);
}

#[test]
fn a_pivot_column_with_a_second_nonzero() {
    damage(0, 1, 1);
    damage(0, 2, 2);
    damage(1, 2, 1);
}

#[test]
fn a_right_row_in_the_wrong_place() {
    // Row 2 again as row 3, where its lead is left of the diagonal.
    let (plan, _) = xor();
    let mut full = FULL;
    full.copy_within(10..15, 15);
    assert_eq!(plan.to_half(&full, &plan.empty_store()), Err(6));
    full[10..15].fill(0);
    assert_eq!(plan.to_half(&full, &plan.empty_store()), Err(6));
    // Row 2 as row 1, where its lead is right of it.
    let (plan, store) = xor();
    let mut rows = plan.rows(&store);
    rows[1] = rows[2].clone();
    damaged(&plan, &plan.store(&rows));
    rows[2].fill(0);
    damaged(&plan, &plan.store(&rows));
}

#[test]
fn what_reduced_form_leaves_free() {
    // Right-hand sides, and columns that lead no row.
    for row in 0..3 {
        for column in [3, 4] {
            for byte in 0..3 {
                let (plan, store) = xor();
                let mut rows = plan.rows(&store);
                rows[row][column] = byte;
                assert_eq!(plan.test(&plan.store(&rows)), 0);
            }
        }
    }
    // Any one row alone, the others being zero.
    for row in 0..3 {
        let (plan, store) = xor();
        let mut rows = plan.rows(&store);
        for (q, other) in rows.iter_mut().enumerate() {
            if q != row {
                other.fill(0);
            }
        }
        assert_eq!(plan.test(&plan.store(&rows)), 0);
    }
}

/// The solutions of a store modulo 3, as one bit for each β.
fn solutions(plan: &Owned, store: &[u8]) -> u64 {
    let (columns, rows) = (plan.columns(), plan.rows(store));
    let mut set = 0;
    for number in 0..3usize.pow(columns as u32) {
        let beta: Vec<usize> = (0..columns)
            .map(|j| number / 3usize.pow(j as u32) % 3)
            .collect();
        let satisfied = rows.iter().all(|row| {
            let sum: usize = (0..columns).map(|j| row[j] as usize * beta[j]).sum();
            sum % 3 == row[columns] as usize
        });
        if satisfied {
            set |= 1 << number;
        }
    }
    set
}

/// Tries every store of bytes below `bytes`: the reduced ones have pairwise
/// different solutions, never none, and there are as many as the space has
/// points, lines, planes and so on.
fn count_reduced(plan: &Owned, bytes: usize, affine_subspaces: usize) {
    let mut sets = Vec::new();
    let mut store = plan.empty_store();
    loop {
        if plan.test(&store) == 0 {
            sets.push(solutions(plan, &store));
        }
        // The next store, counting up with the first byte fastest.
        let Some(place) = store.iter().position(|&x| (x as usize) < bytes - 1) else {
            break;
        };
        store[..place].fill(0);
        store[place] += 1;
    }
    assert_eq!(sets.len(), affine_subspaces);
    assert!(!sets.contains(&0));
    sets.sort();
    sets.dedup();
    assert_eq!(sets.len(), affine_subspaces);
}

#[test]
fn every_store_of_two_columns() {
    // Nine points, twelve lines, the plane. Byte 3 is never reduced.
    count_reduced(&Owned::zeros(3, 3, 2, 0, 0), 4, 9 + 12 + 1);
}

#[test]
fn every_store_of_three_columns() {
    // 27 points, 13·9 lines, 13·3 planes, the space.
    count_reduced(&Owned::zeros(3, 2, 3, 0, 0), 3, 27 + 117 + 39 + 1);
}
