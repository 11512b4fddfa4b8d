//! Filing and settling against brute force: for tiny plans with p = 3 every β
//! is enumerated; a filing is refused exactly when none fits, and an entry is
//! forced exactly when all that fit agree on it. About half of the random plans
//! have a radix of its own for each digit.

mod common;
use common::{Owned, Random};
use reference::{Filed, Settled};

/// Every list of C residues modulo p.
fn every_beta(plan: &Owned) -> Vec<Vec<u8>> {
    let (p, columns) = (plan.p, plan.columns() as u32);
    let beta = |number: u64| {
        (0..columns)
            .map(|j| (number / p.pow(j) % p) as u8)
            .collect()
    };
    (0..p.pow(columns)).map(beta).collect()
}

/// Row times β, summed, modulo p.
fn product(plan: &Owned, row: &[u8], beta: &[u8]) -> u8 {
    let sum: usize = row
        .iter()
        .zip(beta)
        .map(|(&x, &y)| x as usize * y as usize)
        .sum();
    (sum % plan.p as usize) as u8
}

/// Whether β satisfies every row of a store.
fn satisfies(plan: &Owned, rows: &[Vec<u8>], beta: &[u8]) -> bool {
    let columns = plan.columns();
    rows.iter()
        .all(|row| product(plan, &row[..columns], beta) == row[columns])
}

/// What every entry settles to, by the β that fit alone, in the order in which
/// they are enumerated.
///
/// The column is the first one such that two β which agree behind it give the
/// entry different values. The last column counts up the slowest, so the first
/// β that gives another value than the first of all differs from it in that
/// column, and in none behind.
fn settled_by(plan: &Owned, fitting: &[Vec<u8>]) -> Vec<Settled> {
    let settled = |entry| {
        let (row, first) = (plan.row(entry), &fitting[0]);
        let value = product(plan, &row, first);
        match fitting
            .iter()
            .find(|&beta| product(plan, &row, beta) != value)
        {
            None => Settled::Forced(value as usize),
            Some(other) => {
                let column = (0..plan.columns()).rfind(|&j| first[j] != other[j]);
                Settled::Free(column.expect("two different lists"))
            }
        }
    };
    (0..plan.entries()).map(settled).collect()
}

/// Files the list on an empty store and checks each answer, each store, what is
/// settled before and after, and the program written at the end against the set
/// of β that still fit.
fn check_list(plan: &Owned, list: &[(u64, u64)]) {
    let all = every_beta(plan);
    let mut fitting = all.clone();
    let mut kept = Vec::new();
    let mut store = plan.empty_store();
    for &(entry, value) in list {
        let before = store.clone();
        assert_eq!(plan.settled(&store), settled_by(plan, &fitting));
        let row = plan.row(entry);
        let also = |beta: &&Vec<u8>| product(plan, &row, beta) as u64 == value;
        let both: Vec<Vec<u8>> = fitting.iter().filter(also).cloned().collect();
        let answer = plan.file(&mut store, entry, value);

        assert_eq!(answer == Filed::Refused(9), both.is_empty());
        assert_eq!(answer == Filed::Implied, both.len() == fitting.len());
        match answer {
            Filed::New(column) => {
                assert!(both.len() < fitting.len());
                assert!(plan.rows(&before)[column].iter().all(|&x| x == 0));
                assert_eq!(plan.rows(&store)[column][column], 1);
            }
            _ => assert_eq!(store, before),
        }
        if answer != Filed::Refused(9) {
            fitting = both;
            kept.push((entry, value));
        }
        assert_eq!(plan.test(&store), 0);
        let stored = plan.rows(&store);
        let satisfying = all.iter().filter(|beta| satisfies(plan, &stored, beta));
        assert!(satisfying.eq(&fitting));
    }

    assert_eq!(plan.settled(&store), settled_by(plan, &fitting));
    for &(entry, value) in &kept {
        let forced = Settled::Forced(value as usize);
        assert_eq!(plan.settle(&store, entry), forced);
    }
    let beta = plan.beta(&store);
    assert!(fitting.contains(&beta));
    let steps = plan.steps(&beta);
    for entry in 0..plan.entries() {
        let digits = plan.digits(entry);
        let ran = plan.run(&steps, &digits).unwrap();
        assert_eq!(ran.bootstraps, plan.m + 2 * plan.t);
        assert_eq!(ran.y, plan.equation_1(&beta, &digits));
        assert_eq!(ran.y, product(plan, &plan.row(entry), &beta));
        for &(i, v) in &kept {
            assert!(i != entry || v == ran.y as u64);
        }
    }

    // The reduced form does not depend on the order of filing.
    let mut backwards = plan.empty_store();
    for &(entry, value) in kept.iter().rev() {
        assert!(!matches!(
            plan.file(&mut backwards, entry, value),
            Filed::Refused(_)
        ));
    }
    assert_eq!(backwards, store);
}

#[test]
fn random_plans_and_lists() {
    let shapes = [
        (2, 2, 0, 1),
        (2, 1, 1, 1),
        (3, 1, 1, 1),
        (2, 2, 1, 0),
        (3, 2, 1, 0),
        (2, 1, 2, 1),
        (2, 2, 1, 1),
        (3, 2, 0, 1),
        (2, 2, 0, 2),
        (3, 1, 0, 3),
        (2, 3, 2, 0),
        (3, 1, 4, 0),
    ];
    let mut random = Random::new(1);
    for (s, n, m, t) in shapes {
        for _ in 0..25 {
            let plan = Owned::random(&mut random, 3, s, n, m, t);
            assert_eq!(plan.check(), 0);
            let list: Vec<(u64, u64)> = (0..10)
                .map(|_| (random.below(plan.entries()), random.below(s)))
                .collect();
            check_list(&plan, &list);
        }
    }
}

#[test]
fn every_list_of_three_filings_of_xor() {
    let x = Owned::xor();
    let pairs: Vec<(u64, u64)> = (0..4).flat_map(|i| [(i, 0), (i, 1)]).collect();
    check_list(&x, &[]);
    for &first in &pairs {
        for &second in &pairs {
            for &third in &pairs {
                check_list(&x, &[first, second, third]);
            }
        }
    }
}

#[test]
fn every_table_of_two_bits_under_every_d() {
    for d in 0..9 {
        let plan = Owned {
            d: vec![d / 3, d % 3],
            ..Owned::xor()
        };
        for table in 0..16 {
            let list: Vec<(u64, u64)> = (0..4).map(|i| (i, table >> i & 1)).collect();
            check_list(&plan, &list);
        }
    }
}

#[test]
fn every_table_of_a_digit_and_a_bit_under_every_d() {
    for radices in [[3, 2], [2, 3]] {
        for d in 0..9 {
            let plan = Owned {
                d: vec![d / 3, d % 3],
                ..Owned::mixed(3, 2, &radices, 0, 1)
            };
            assert_eq!(plan.entries(), 6);
            for table in 0..64 {
                let list: Vec<(u64, u64)> = (0..6).map(|i| (i, table >> i & 1)).collect();
                check_list(&plan, &list);
            }
        }
    }
}

#[test]
fn every_choice_of_radices_with_random_tables() {
    // s and the radices have nothing to do with each other.
    let mut random = Random::new(5);
    for n in 1..=3 {
        for choice in 0..1 << n {
            let radices: Vec<u8> = (0..n).map(|j| 2 + (choice >> j & 1)).collect();
            for s in [2, 3] {
                for (m, t) in [(0, 1), (1, 0), (2, 0)] {
                    let mut plan = Owned::random(&mut random, 3, s, n, m, t);
                    plan.radices = radices.clone();
                    let list: Vec<(u64, u64)> =
                        (0..plan.entries()).map(|i| (i, random.below(s))).collect();
                    check_list(&plan, &list);
                }
            }
        }
    }
}

#[test]
fn larger_random_plans_reproduce_what_they_keep() {
    // Too large for every β; the run still has to give back what was kept.
    let mut random = Random::new(2);
    for (p, s, n, m, t) in [
        (5, 4, 2, 3, 2),
        (7, 7, 2, 4, 1),
        (17, 16, 1, 6, 2),
        (251, 3, 3, 5, 3),
        (3, 2, 5, 4, 3),
    ] {
        for _ in 0..8 {
            let plan = Owned::random(&mut random, p, s, n, m, t);
            let mut store = plan.empty_store();
            let mut kept = Vec::new();
            for entry in 0..plan.entries() {
                let value = random.below(s);
                if !matches!(plan.file(&mut store, entry, value), Filed::Refused(_)) {
                    kept.push((entry, value));
                }
            }
            let beta = plan.beta(&store);
            let steps = plan.steps(&beta);
            for (entry, value) in kept {
                let digits = plan.digits(entry);
                let ran = plan.run(&steps, &digits).unwrap();
                assert_eq!(ran.y as u64, value);
                assert_eq!(ran.y, plan.equation_1(&beta, &digits));
                assert_eq!(ran.bootstraps, m + 2 * t);
            }
        }
    }
}

/// Every store of three columns, and every row: with no links and products and
/// three radices of 3, the rows are all lists of three residues.
#[test]
fn every_store_of_three_columns_settles_every_row() {
    let plan = Owned::zeros(3, 3, 3, 0, 0);
    let all = every_beta(&plan);
    let mut reduced = 0;
    for number in 0..3_usize.pow(9) {
        let store: Vec<u8> = (0..9)
            .map(|j| (number / 3_usize.pow(j) % 3) as u8)
            .collect();
        if plan.test(&store) == 0 {
            let stored = plan.rows(&store);
            let fits = |beta: &&Vec<u8>| satisfies(&plan, &stored, beta);
            let fitting: Vec<Vec<u8>> = all.iter().filter(fits).cloned().collect();
            assert_eq!(plan.settled(&store), settled_by(&plan, &fitting));
            reduced += 1;
        }
    }
    assert_eq!(reduced, 27 + 117 + 39 + 1);
}

/// How many of the entries, filed in order with value 0, are New.
fn new_filings(plan: &Owned) -> u64 {
    let mut store = plan.empty_store();
    let answers = (0..plan.entries()).map(|entry| plan.file(&mut store, entry, 0));
    answers
        .filter(|answer| matches!(answer, Filed::New(_)))
        .count() as u64
}

#[test]
fn columns_are_never_independent_with_two_products() {
    // At most (t+1)L - t(t-1)/2 filings are New, where t is at most L.
    let mut random = Random::new(3);
    for (n, m, t) in [(5, 1, 2), (5, 1, 3), (5, 0, 4)] {
        let most = (t + 1) * (n + m) - t * (t - 1) / 2;
        for _ in 0..10 {
            let plan = Owned::random(&mut random, 5, 2, n, m, t);
            assert!(new_filings(&plan) <= most);
        }
    }
    // With t above L the formula falls again, and the rank of d stands for t:
    // here L = 1 and t = 3, the formula says 1, and x^2 and x are independent.
    let plan = Owned {
        d: vec![1; 3],
        ..Owned::zeros(3, 3, 1, 0, 3)
    };
    assert_eq!(new_filings(&plan), 2);
}

#[test]
fn the_largest_plan_files() {
    let mut random = Random::new(4);
    let plan = Owned::random(&mut random, 251, 2, 12, 52, 15);
    assert_eq!(plan.columns(), 1_024);
    let mut store = plan.empty_store();
    let kept = [(4_095, 1), (1, 0), (2_048, 1), (0, 1)];
    for (entry, value) in kept {
        assert!(matches!(plan.file(&mut store, entry, value), Filed::New(_)));
    }
    let beta = plan.beta(&store);
    let steps = plan.steps(&beta);
    for (entry, value) in kept {
        let ran = plan.run(&steps, &plan.digits(entry)).unwrap();
        assert_eq!((ran.y as u64, ran.bootstraps), (value, 52 + 2 * 15));
    }
}
