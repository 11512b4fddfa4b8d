//! Document 02, C-17: plans that suit every table. Cases by hand, the answer
//! beside all tables and all β of small plans, what is refused in which order,
//! and how many filings can be New under a plan, which says that many shapes have
//! no such plan. In tests/refusals.rs the causes are put right one by one; wrong
//! radices are in tests/radices.rs.

mod common;
use common::{every_beta, Owned, Random};
use reference::Filed;
use std::collections::HashSet;

#[test]
fn xor_is_not_general() {
    // Entry 0 has a row of zeros: it is implied, and no β gives it a 1.
    let x = Owned::xor();
    assert_eq!(x.file(&mut x.empty_store(), 0, 0), Filed::Implied);
    assert!(!x.general());
}

#[test]
fn without_links_no_plan_is_general() {
    // All digits of entry 0 are 0, and there is nothing else in its row.
    let mut random = Random::new(19);
    for (p, n, t) in [(3, 1, 0), (3, 2, 1), (5, 1, 4), (251, 2, 3), (17, 6, 20)] {
        let plan = Owned::random(&mut random, p, 2, n, 0, t);
        assert!(!plan.general());
    }
}

/// One digit x of this radix, a link that is 1 where x is 0 and 0 elsewhere, and
/// so many products, each by x.
fn digit_and_link(p: u64, radix: u64, t: u64) -> Owned {
    let mut tables = vec![0; p as usize];
    tables[0] = 1;
    Owned {
        weights: vec![1],
        tables,
        d: [1, 0].repeat(t as usize),
        ..Owned::mixed(p, 2, &[radix as u8], 1, t)
    }
}

#[test]
fn one_digit_and_one_link() {
    for p in [3, 5, 7, 31, 251] {
        for radix in 2..=p {
            // The rows are 0 1, and x 0 for every other x: multiples of each
            // other, so that there may be one of them.
            assert_eq!(digit_and_link(p, radix, 0).general(), radix == 2);
            // The rows are 0 0 0 1, and x^2 0 x 0 for every other x: two of them
            // are independent, and never three. The same product once more is
            // the same columns once more.
            assert_eq!(digit_and_link(p, radix, 1).general(), radix <= 3);
            assert_eq!(digit_and_link(p, radix, 2).general(), radix <= 3);
        }
    }
}

#[test]
fn as_many_entries_as_columns_and_one_more() {
    // One digit x, and link k is 1 where x is k and 0 elsewhere. The row of x is
    // x and then a 1 in its own place, but for x = m, whose row is m 0 .. 0.
    let p = 13;
    for m in 1..p - 1 {
        let mut plan = Owned::mixed(p, 2, &[m as u8 + 1], m, 0);
        let mut first = 0;
        for k in 0..m as usize {
            plan.weights[first] = 1;
            first += 1 + k;
            plan.tables[k * p as usize + k] = 1;
        }
        assert_eq!(plan.entries() as usize, plan.columns());
        assert!(plan.general());
        // With one entry more there are more rows than columns.
        plan.radices[0] += 1;
        assert!(!plan.general());
    }
}

/// Bytes of all kinds.
fn noise(random: &mut Random, count: usize) -> Vec<u8> {
    (0..count).map(|_| random.next() as u8).collect()
}

#[test]
fn the_work_store() {
    // Whatever it held, the answer is the same, and all of it is zero afterwards,
    // which general_in looks at; in another length it is refused and left.
    let mut random = Random::new(20);
    for (plan, general) in [
        (Owned::xor(), false),
        (digit_and_link(5, 2, 0), true),
        (digit_and_link(5, 3, 0), false),
        (digit_and_link(5, 3, 1), true),
        (digit_and_link(251, 4, 1), false),
        (Owned::zeros(3, 2, 1, 0, 0), false),
    ] {
        let length = plan.empty_store().len();
        for byte in [0, 1, 2, 255] {
            assert_eq!(plan.general_in(&vec![byte; length]), Ok(general));
        }
        for _ in 0..5 {
            let work = noise(&mut random, length);
            assert_eq!(plan.general_in(&work), Ok(general));
        }
        for wrong in [0, 1, length - 1, length + 1, 2 * length] {
            if wrong != length {
                assert_eq!(plan.general_in(&noise(&mut random, wrong)), Err(4));
            }
        }
        if plan.columns() > 1 {
            assert_eq!(plan.general_in(&plan.empty_full()), Err(4));
        }
    }
}

#[test]
fn a_store_of_filings_as_work_store() {
    // What is filed in it neither counts nor stays.
    let plan = digit_and_link(5, 3, 1);
    let mut store = plan.empty_store();
    for (entry, value) in [(0, 1), (1, 0), (2, 1)] {
        assert!(matches!(plan.file(&mut store, entry, value), Filed::New(_)));
    }
    assert_eq!(plan.general_in(&store), Ok(true));
}

/// Whether every table with values below s is that of some β: all β are tried, by
/// Equation 1.
fn by_every_beta(plan: &Owned) -> bool {
    let digits: Vec<Vec<u8>> = (0..plan.entries()).map(|i| plan.digits(i)).collect();
    let mut tables = HashSet::new();
    for beta in every_beta(plan) {
        let value = |digits: &Vec<u8>| plan.equation_1(&beta, digits);
        let table: Vec<u8> = digits.iter().map(value).collect();
        if table.iter().all(|&value| u64::from(value) < plan.s) {
            tables.insert(table);
        }
    }
    tables.len() == (plan.s as usize).pow(digits.len() as u32)
}

#[test]
fn every_table_of_small_plans() {
    let mut random = Random::new(21);
    let mut answers = [0, 0];
    for (p, radices, m, t) in [
        (3, [2, 2], 1, 0),
        (3, [2, 2], 2, 0),
        (3, [2, 2], 1, 1),
        (3, [2, 2], 0, 2),
        (3, [2, 2], 1, 2),
        (3, [2, 3], 1, 1),
        (3, [3, 2], 2, 1),
        // As many columns as entries, of which at most 8 are independent.
        (3, [3, 3], 1, 2),
        (5, [2, 2], 2, 0),
        (5, [2, 2], 1, 1),
        (7, [2, 2], 2, 0),
        (11, [2, 2], 2, 0),
    ] {
        for s in [2, 3] {
            for _ in 0..6 {
                let mut plan = Owned::random(&mut random, p, s, 2, m, t);
                plan.radices = radices.to_vec();
                let general = plan.general();
                assert_eq!(general, by_every_beta(&plan), "{radices:?}, {m}, {t}");
                answers[usize::from(general)] += 1;
            }
        }
    }
    assert!(answers.iter().all(|&count| count >= 20), "{answers:?}");
}

#[test]
fn every_plan_of_one_digit_and_one_link() {
    // p = 3, all weights, all tables of the link, all rows of d.
    let mut answers = [0, 0];
    for (weight, d) in (0..3).flat_map(|weight| (0..9).map(move |d| (weight, d))) {
        for table in 0..27 {
            for radix in [2, 3] {
                let plan = Owned {
                    weights: vec![weight],
                    tables: vec![table / 9, table / 3 % 3, table % 3],
                    d: vec![d / 3, d % 3],
                    ..Owned::mixed(3, 2, &[radix], 1, 1)
                };
                let general = plan.general();
                assert_eq!(general, by_every_beta(&plan));
                answers[usize::from(general)] += 1;
            }
        }
    }
    assert!(answers.iter().all(|&count| count >= 100), "{answers:?}");
}

#[test]
fn s_does_not_matter() {
    let mut random = Random::new(22);
    for _ in 0..50 {
        let mut plan = Owned::random(&mut random, 7, 2, 1, 2, 1);
        let general = plan.general();
        for s in 2..=7 {
            plan.s = s;
            assert_eq!(plan.general(), general);
        }
    }
}

/// A call: p s n m t = 5 2 2 1 1, and a work store with something in it.
#[derive(Clone)]
struct Call {
    plan: Owned,
    work: Vec<u8>,
}

impl Call {
    fn new() -> Call {
        let plan = Owned {
            weights: vec![1, 2],
            tables: vec![1, 0, 2, 4, 3],
            d: vec![1, 1, 1],
            ..Owned::zeros(5, 2, 2, 1, 1)
        };
        let work = vec![77; plan.empty_store().len()];
        Call { plan, work }
    }

    /// Makes the call meet this cause, whatever others it meets.
    fn spoil(&mut self, cause: u32) {
        match cause {
            1 => self.plan.p = 9,
            2 => self.plan.s = 1,
            3 => self.plan.t = 33,
            4 => self.work.push(0),
            _ => self.plan.d[0] = 255,
        }
    }

    fn answer(&self) -> Result<bool, u32> {
        self.plan.general_in(&self.work)
    }
}

#[test]
fn every_set_of_causes_gives_the_first() {
    // Pairs among them: with the first put right, the second is answered.
    for set in 0..1 << 5 {
        let mut call = Call::new();
        let met: Vec<u32> = (1..=5)
            .filter(|cause| set >> (cause - 1) & 1 == 1)
            .collect();
        met.iter().for_each(|&cause| call.spoil(cause));
        let expected = met.first().map_or(Ok(true), |&cause| Err(cause));
        assert_eq!(call.answer(), expected, "{met:?}");
    }
}

#[test]
fn every_part_in_another_length_is_4_and_every_large_byte_5() {
    type Part = fn(&mut Call) -> &mut Vec<u8>;
    let parts: [Part; 4] = [
        |call| &mut call.plan.weights,
        |call| &mut call.plan.tables,
        |call| &mut call.plan.d,
        |call| &mut call.work,
    ];
    for (place, part) in parts.into_iter().enumerate() {
        let mut call = Call::new();
        part(&mut call).push(0);
        assert_eq!(call.answer(), Err(4));
        part(&mut call).pop();
        assert_eq!(call.answer(), Ok(true));
        part(&mut call).pop();
        assert_eq!(call.answer(), Err(4));
        part(&mut call).clear();
        assert_eq!(call.answer(), Err(4));

        // In the work store any byte will do.
        let expected = if place < 3 { Err(5) } else { Ok(true) };
        for byte in [5, 255] {
            let mut call = Call::new();
            part(&mut call)[0] = byte;
            assert_eq!(call.answer(), expected);
        }
    }
}

/// The most filings that can be New under a plan of L variables and t products.
///
/// The blocks of two products a and b are dependent: the sum over j of d_a[j]
/// times column j of block b is (d_a x)(d_b x), and so is the same with a and b
/// exchanged. So of q products each takes a column from every other, and where
/// there are more products than variables, the d rows beyond the first L that are
/// independent give nothing new.
fn most_new(plan: &Owned) -> u64 {
    let l = plan.n + plan.m;
    let q = plan.t.min(l);
    (q + 1) * l - (0..q).sum::<u64>()
}

/// How many of these filings are New.
fn new_filings(plan: &Owned, list: impl Iterator<Item = (u64, u64)>) -> u64 {
    let mut store = plan.empty_store();
    let answers = list.map(|(entry, value)| plan.file(&mut store, entry, value));
    answers
        .filter(|answer| matches!(answer, Filed::New(_)))
        .count() as u64
}

/// The same of the whole table, with the value 0.
fn new_in_table(plan: &Owned) -> u64 {
    new_filings(plan, (0..plan.entries()).map(|entry| (entry, 0)))
}

#[test]
fn never_more_are_new() {
    let mut random = Random::new(23);
    for round in 0..150 {
        let p = [3, 5, 7, 31, 251][round % 5];
        let (n, m, t) = (1 + random.below(3), random.below(3), random.below(7));
        let mut plan = Owned::random(&mut random, p, 2, n, m, t);
        plan.radices = random.radices(p.min(5), n);
        let most = most_new(&plan);
        assert!(new_in_table(&plan) <= most);
        // Any entries in any order, with values that may contradict.
        let mut list = Vec::new();
        for _ in 0..3 * most {
            list.push((random.below(plan.entries()), random.below(2)));
        }
        assert!(new_filings(&plan, list.into_iter()) <= most);
        // So with more entries than that no plan is general.
        assert!(plan.entries() <= most || !plan.general());
    }
}

#[test]
fn as_many_are_new_as_can_be() {
    // From no product to more than there are variables: with enough entries some
    // plan of the first few reaches the bound.
    let mut random = Random::new(24);
    for (p, radices, m) in [
        (251, &[100][..], 1),
        (17, &[5, 6], 0),
        (13, &[4, 7], 1),
        (31, &[3, 3, 3, 3], 0),
    ] {
        let n = radices.len() as u64;
        for t in 0..=n + m + 3 {
            let reached = (0..10).any(|_| {
                let mut plan = Owned::random(&mut random, p, 2, n, m, t);
                plan.radices = radices.to_vec();
                new_in_table(&plan) == most_new(&plan)
            });
            assert!(reached, "n = {n}, m = {m}, t = {t}");
        }
    }
}

#[test]
fn more_products_than_variables() {
    // A digit x of radix 5, and a link y which is 1 0 0 1 2 for x from 0 to 4.
    // Whatever the products, a row has sums of x^2, xy, y^2, x and y alone, and
    // with two products or more the five entries have five independent ones.
    let plan = |t: usize| Owned {
        weights: vec![1],
        tables: vec![1, 0, 0, 1, 2],
        d: [1, 0, 0, 1, 1, 1, 2, 3, 0, 0].repeat(t)[..2 * t].to_vec(),
        ..Owned::mixed(5, 2, &[5], 1, t as u64)
    };
    for t in 0..=32 {
        let plan = plan(t);
        // One product is by x alone: x^2, xy, x and y.
        assert_eq!(most_new(&plan), [2, 4, 5][t.min(2)]);
        assert_eq!(new_in_table(&plan), [2, 4, 5][t.min(2)]);
        assert_eq!(plan.general(), t >= 2);
    }
    // With t in place of the smaller of t and L, the number falls again: four
    // products would leave four entries, where five are New.
    let with_t = |t: u64| (t + 1) * 2 - t * (t - 1) / 2;
    assert_eq!([1, 2, 3, 4].map(with_t), [4, 5, 5, 4]);
    assert_eq!(new_in_table(&plan(4)), 5);

    // With a sixth entry no plan is general, whatever the link and the products.
    let mut random = Random::new(25);
    for t in 0..=6 {
        for _ in 0..10 {
            let mut plan = Owned::random(&mut random, 7, 2, 1, 1, t);
            plan.radices = vec![6];
            assert!(!plan.general());
        }
    }
}
