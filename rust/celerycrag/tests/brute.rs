//! Filing and settling against brute force: for tiny plans every β is
//! enumerated. An entry is refused with 9 exactly when none fits it together
//! with all kept before, and forced exactly when all that fit agree on it.
//! Nothing here comes from the reference.

mod common;
use celerycrag::raw;
use common::plans::{product, radices, Owned};
use common::random::{cases, Random};
use common::tiny::{every_beta, row, satisfies, TINY};

/// The residue and the column that settling tells of a row, by the β that fit
/// alone, in the order of `every_beta`.
///
/// The column is the first one such that two β which agree behind it give
/// different values. The last column counts up the slowest, so the first β that
/// gives another value than the first of all differs from it in that column,
/// and in none behind.
fn settled(plan: &Owned, fitting: &[&Vec<u8>], row: &[u8]) -> (u8, usize) {
    let first = fitting[0];
    let residue = plan.product(row, first);
    let other = fitting
        .iter()
        .find(|beta| plan.product(row, beta) != residue);
    match other {
        None => (residue, plan.columns()),
        Some(other) => {
            let column = (0..plan.columns()).rfind(|&j| first[j] != other[j]);
            (plan.p as u8, column.expect("two different lists"))
        }
    }
}

/// Settles every entry and compares with the β that fit, and with a filing on a
/// copy of the store.
fn check_settled(plan: &Owned, store: &[u8], fitting: &[&Vec<u8>], rows: &[Vec<u8>]) {
    for (entry, row) in rows.iter().enumerate() {
        let expected = settled(plan, fitting, row);
        let (mut residue, mut column) = (255, 999);
        let answer = raw::settle(plan.lent(), store, entry, &mut residue, &mut column);
        assert_eq!(answer, 0);
        assert_eq!((residue, column), expected, "entry {entry} of {plan:?}");

        let value = entry % plan.s;
        let (mut copy, mut pivot) = (store.to_vec(), 999);
        let filed = raw::file(plan.lent(), &mut copy, entry, value, &mut pivot);
        let contradicts = column == plan.columns() && residue as usize != value;
        let expected = if contradicts { (9, 999) } else { (0, column) };
        assert_eq!((filed, pivot), expected, "entry {entry} of {plan:?}");
    }
}

/// Files the list on an empty store and checks each answer, each store, what is
/// settled before and after, and the program at the end against the β that
/// still fit.
fn check_list(plan: &Owned, list: &[(usize, usize)]) {
    let columns = plan.columns();
    let rows: Vec<Vec<u8>> = (0..plan.entries()).map(|entry| row(plan, entry)).collect();
    let all = every_beta(plan);
    let mut fitting: Vec<&Vec<u8>> = all.iter().collect();
    let mut kept = Vec::new();
    let mut store = plan.empty_store();
    for &(entry, value) in list {
        let before = store.clone();
        check_settled(plan, &store, &fitting, &rows);
        assert_eq!(store, before);
        let row = &rows[entry];
        let mut lent_row = vec![0; columns];
        assert_eq!(raw::row(plan.lent(), entry, &mut lent_row), 0);
        assert_eq!(lent_row, *row);

        let fits = |beta: &&Vec<u8>| plan.product(row, beta) as usize == value;
        let both: Vec<&Vec<u8>> = fitting.iter().copied().filter(fits).collect();
        let mut column = 999;
        let answer = raw::file(plan.lent(), &mut store, entry, value, &mut column);
        if both.is_empty() {
            assert_eq!((answer, column), (9, 999));
            assert_eq!(store, before);
        } else {
            assert_eq!(answer, 0);
            assert_eq!(column == columns, both.len() == fitting.len());
            if column == columns {
                assert_eq!(store, before);
            } else {
                assert!(plan.rows(&before)[column].iter().all(|&x| x == 0));
                assert_eq!(plan.rows(&store)[column][column], 1);
            }
            kept.push((entry, value));
            fitting = both;
        }
        assert_eq!(raw::test(plan.lent(), &store), 0);
        let stored = plan.rows(&store);
        let satisfying = all.iter().filter(|beta| satisfies(plan, &stored, beta));
        assert!(satisfying.eq(fitting.iter().copied()));
    }

    check_settled(plan, &store, &fitting, &rows);
    let mut beta = vec![255; columns];
    assert_eq!(raw::coefficients(plan.lent(), &store, &mut beta), 0);
    assert!(fitting.contains(&&beta));
    let mut steps = vec![0; 4 * plan.step_count()];
    let mut written = 0;
    assert_eq!(raw::write(plan.lent(), &beta, &mut steps, &mut written), 0);
    for (entry, row) in rows.iter().enumerate() {
        let (mut y, mut bootstraps) = (99, 99);
        let (steps, digits) = (&steps[..written], plan.digits(entry));
        let answer = raw::run(plan.lent(), steps, &digits, &mut y, &mut bootstraps);
        assert_eq!((answer, bootstraps), (0, plan.bootstraps()));
        assert_eq!(y, plan.product(row, &beta));
        for &(i, v) in &kept {
            assert!(i != entry || v == y as usize);
        }
    }

    // The reduced form does not depend on the order of filing.
    let mut backwards = plan.empty_store();
    for &(entry, value) in kept.iter().rev() {
        let answer = raw::file(plan.lent(), &mut backwards, entry, value, &mut 0);
        assert_eq!(answer, 0);
    }
    assert_eq!(backwards, store);
}

fn list(random: &mut Random, plan: &Owned, length: usize) -> Vec<(usize, usize)> {
    (0..length)
        .map(|_| (random.below(plan.entries()), random.below(plan.s)))
        .collect()
}

#[test]
fn random_tiny_plans() {
    cases("tiny plans", 1_000, |random| {
        let mut plan = Owned::zeros(random.pick(&TINY));
        if random.one_in(2) {
            plan.radices = radices(random, plan.p, plan.n);
        }
        let plan = plan.drawn(random);
        let list = list(random, &plan, 10);
        check_list(&plan, &list);
    });
}

#[test]
fn every_list_of_three_filings_of_xor() {
    let pairs: Vec<(usize, usize)> = (0..4).flat_map(|i| [(i, 0), (i, 1)]).collect();
    check_list(&Owned::xor(), &[]);
    for &first in &pairs {
        for &second in &pairs {
            for &third in &pairs {
                check_list(&Owned::xor(), &[first, second, third]);
            }
        }
    }
}

#[test]
fn every_table_of_two_bits_under_every_d() {
    for d in 0..9 {
        let plan = Owned {
            d: vec![d / 3, d % 3],
            ..Owned::xor()
        };
        for table in 0..16 {
            let list: Vec<(usize, usize)> = (0..4).map(|i| (i, table >> i & 1)).collect();
            check_list(&plan, &list);
        }
    }
}

#[test]
fn every_plan_of_one_digit_and_one_link() {
    // p = 3, s = 2: all weights, all link tables, all tables of two entries.
    for weight in 0..3 {
        for number in 0..27 {
            let plan = Owned {
                weights: vec![weight],
                tables: vec![number / 9, number / 3 % 3, number % 3],
                ..Owned::zeros([3, 2, 1, 1, 0])
            };
            for table in 0..4 {
                check_list(&plan, &[(0, table & 1), (1, table >> 1), (0, 1), (1, 1)]);
            }
        }
    }
}

#[test]
fn every_table_of_a_trit_and_a_bit() {
    // Either order of the radices, every value of every entry, one d.
    for order in [[3, 2], [2, 3]] {
        let plan = Owned::xor().with_radices(&order);
        for table in 0..64 {
            let list: Vec<(usize, usize)> = (0..6).map(|i| (i, table >> i & 1)).collect();
            check_list(&plan, &list);
        }
    }
}

/// Counts through the digits, the last the fastest: entry after entry has the
/// digits that the count shows, and where the count is through, no entry is
/// left. The run takes these digits, and no digit as large as its radix.
fn count_through(plan: &Owned) {
    let mut digits = vec![0; plan.n];
    let mut row = vec![0; plan.columns()];
    let run = |digits: &[u8]| raw::run(plan.lent(), &[], digits, &mut 0, &mut 0);
    let mut entry = 0;
    loop {
        assert_eq!(raw::row(plan.lent(), entry, &mut row), 0, "{plan:?}");
        assert_eq!(row[..plan.n], digits, "entry {entry} of {plan:?}");
        assert_eq!(run(&digits), 0, "entry {entry} of {plan:?}");
        entry += 1;
        let mut place = plan.n;
        while place > 0 {
            place -= 1;
            digits[place] += 1;
            if digits[place] < plan.radices[place] {
                break;
            }
            assert_eq!(run(&digits), 12, "{digits:?} of {plan:?}");
            digits[place] = 0;
        }
        if digits.iter().all(|&digit| digit == 0) {
            break;
        }
    }
    assert_eq!(raw::row(plan.lent(), entry, &mut row), 7, "{plan:?}");
    assert_eq!(entry, plan.entries());
}

#[test]
fn entries_count_through_their_digits() {
    // Every list of up to four radices from 2 to 7, and some of many entries.
    for n in 1..=4 {
        for number in 0..6usize.pow(n as u32) {
            let list: Vec<u8> = (0..n as u32)
                .map(|j| (number / 6usize.pow(j) % 6) as u8 + 2)
                .collect();
            count_through(&Owned::zeros([7, 2, n, 0, 0]).with_radices(&list));
        }
    }
    let many: [&[u8]; 8] = [
        &[251],
        &[12, 2],
        &[2, 12],
        &[251, 16],
        &[16, 251],
        &[12, 31, 2],
        &[2, 64, 32],
        &[2, 3, 2, 2, 2, 2, 2, 2, 2, 2, 2],
    ];
    for list in many {
        assert!(product(list) <= 4_096);
        count_through(&Owned::zeros([251, 2, list.len(), 0, 0]).with_radices(list));
    }
}

/// Tries every store of two columns and bytes 0 to 3 under p = 3: the reduced
/// ones are as many as the plane has points, lines and itself. Each settles
/// every row, since the rows are all lists of two residues.
#[test]
fn every_store_of_two_columns() {
    let plan = Owned::zeros([3, 3, 2, 0, 0]);
    let rows: Vec<Vec<u8>> = (0..9).map(|entry| row(&plan, entry)).collect();
    let all = every_beta(&plan);
    let mut sets = Vec::new();
    for number in 0..4usize.pow(5) {
        let store: Vec<u8> = (0..5).map(|j| (number >> (2 * j) & 3) as u8).collect();
        match raw::test(plan.lent(), &store) {
            0 => {
                let stored = plan.rows(&store);
                let fits = |beta: &Vec<u8>| satisfies(&plan, &stored, beta);
                sets.push(all.iter().map(fits).collect::<Vec<bool>>());
                let fitting: Vec<&Vec<u8>> = all.iter().filter(|beta| fits(beta)).collect();
                check_settled(&plan, &store, &fitting, &rows);
            }
            answer => assert_eq!(answer, 6),
        }
    }
    assert_eq!(sets.len(), 9 + 12 + 1);
    assert!(sets.iter().all(|set| set.contains(&true)));
    sets.sort();
    sets.dedup();
    assert_eq!(sets.len(), 9 + 12 + 1);
}

/// Tries every full store of two columns and bytes 0 to 3 under p = 3: those that
/// move are as many, have the same solutions as the stores that they become, and
/// come back as they were. All others are refused with 6, and the target is left.
#[test]
fn every_full_store_of_two_columns() {
    let plan = Owned::zeros([3, 3, 2, 0, 0]);
    let all = every_beta(&plan);
    let mut moved = Vec::new();
    for number in 0..4usize.pow(6) {
        let full: Vec<u8> = (0..6).map(|j| (number >> (2 * j) & 3) as u8).collect();
        let (mut half, mut back) = ([9; 5], [9; 6]);
        match raw::to_half(plan.lent(), &full, &mut half) {
            0 => {
                assert_eq!(raw::test(plan.lent(), &half), 0);
                assert_eq!(raw::to_full(plan.lent(), &half, &mut back), 0);
                assert_eq!(back[..], full);
                let solves = |beta: &Vec<u8>| {
                    let solved = |row: &[u8]| plan.product(&row[..2], beta) == row[2];
                    full.chunks(3).all(solved)
                };
                let stored = plan.rows(&half);
                for beta in &all {
                    assert_eq!(solves(beta), satisfies(&plan, &stored, beta));
                }
                moved.push(half);
            }
            answer => assert_eq!((answer, half), (6, [9; 5])),
        }
    }
    assert_eq!(moved.len(), 9 + 12 + 1);
    moved.sort();
    moved.dedup();
    assert_eq!(moved.len(), 9 + 12 + 1);
}
