//! Plans that suit every table: the library with the reference on plans of which
//! about half are general, with all tables and all β of tiny ones, and with its
//! own filing on the largest; then where a plan has as many entries as can be new
//! and one more. Work stores are random bytes before, and compared whole after:
//! zeros where the call accepts, untouched where it refuses.

mod common;
use celerycrag::{raw, Plan, Shape};
use common::layout::LAYOUTS;
use common::lots::pairs;
use common::plans::{primes, radices, reduced, Owned};
use common::random::{cases, Random};
use common::tally::Tally;
use common::twins;

/// The one call, with the causes that it can meet.
const CAUSES: [(&str, &[u8]); 1] = [("general", &[1, 2, 3, 4, 5])];

/// Whether an accepted plan is general, in a work store of random bytes.
fn general(random: &mut Random, plan: &Owned, tally: &mut Tally) -> bool {
    let mut work = random.bytes(plan.empty_store().len(), 256);
    let answer = twins::general(plan, &mut work, tally);
    answer.unwrap_or_else(|number| panic!("refused with {number}: {plan:?}"))
}

/// What the library alone answers in this work store, which is zeros afterwards.
fn by_library(plan: &Owned, work: &mut [u8]) -> bool {
    let mut general = 9;
    assert_eq!(raw::general(plan.lent(), work, &mut general), 0);
    assert!(work.iter().all(|&x| x == 0), "the work store is left");
    assert!(general < 2, "neither yes nor no");
    general == 1
}

/// A plan of few variables, with at most one entry more than can be new: both
/// answers are frequent.
fn small(random: &mut Random) -> Owned {
    loop {
        let p = random.pick(&[3, 5, 7, 13, 17, 31, 127, 251]);
        let (s, n) = (random.within(2, p), random.within(1, 3));
        let m = random.pick(&[0, 1, 1, 2, 3, 4, 5]);
        let t = random.pick(&[0, 0, 1, 1, 2, 3, 5, 9]);
        let plan = Owned::zeros([p, s, n, m, t]);
        let plan = plan.with_radices(&radices(random, p, n));
        if plan.columns() <= 40 && plan.entries() <= plan.most_new() + 1 {
            return plan.drawn(random);
        }
    }
}

/// The answer goes with filing: under a general plan the entries of any table are
/// all new, in any order; under another some are not, whatever the values.
fn goes_with_filing(random: &mut Random, plan: &Owned, general: bool) {
    let mut list = pairs(random, plan, 0..plan.entries());
    random.shuffle(&mut list);
    let (mut store, columns) = (plan.empty_store(), plan.columns());
    let new = list.iter().filter(|&&(entry, value)| {
        let mut column = columns;
        let number = raw::file(plan.lent(), &mut store, entry, value, &mut column);
        number == 0 && column < columns
    });
    let new = new.count();
    assert_eq!(new == plan.entries(), general, "{new} are new: {plan:?}");
    assert!(new <= plan.most_new(), "{new} are new: {plan:?}");
}

#[test]
fn small_plans() {
    let mut tally = Tally::default();
    let mut answers = [0, 0];
    cases("small plans", 200, |random| {
        let mut plan = small(random);
        let answer = general(random, &plan, &mut tally);
        goes_with_filing(random, &plan, answer);
        // s does not matter.
        plan.s = random.within(2, plan.p);
        assert_eq!(by_library(&plan, &mut plan.empty_store()), answer);
        answers[usize::from(answer)] += 1;
    });
    println!("not general: {}, general: {}", answers[0], answers[1]);
    let enough = answers[0] + answers[1] >= 1_000;
    assert!(!enough || answers.iter().all(|&count| count >= 250));
}

/// What the work store held does not matter: a store of the same entries with other
/// values, one in reduced form that no filings left, a damaged one, one byte.
#[test]
fn what_the_work_store_held() {
    let mut tally = Tally::default();
    cases("work stores", 40, |random| {
        let plan = small(random);
        let answer = general(random, &plan, &mut tally);
        let mut filed = plan.empty_store();
        for (entry, value) in pairs(random, &plan, 0..plan.entries()) {
            raw::file(plan.lent(), &mut filed, entry, value, &mut 0);
        }
        let mut works = vec![filed, reduced(random, &plan, 2), reduced(random, &plan, 1)];
        works.extend([0, 1, 2, 255].map(|byte| vec![byte; plan.empty_store().len()]));
        // A single byte that is not zero, first, last and anywhere.
        let last = plan.empty_store().len() - 1;
        for place in [0, last, random.below(last)] {
            let mut work = plan.empty_store();
            work[place] = 1;
            works.push(work);
        }
        for mut work in works {
            assert_eq!(twins::general(&plan, &mut work, &mut tally), Ok(answer));
        }
    });
}

/// Work stores in every length about the right one, in those of the full layout,
/// and in others far off: only their own is accepted.
#[test]
fn lengths() {
    let (mut random, mut tally) = (Random::new(19, 0), Tally::default());
    for columns in [1, 2, 3, 4, 16, 40, 64] {
        let plan = Owned::of_columns(17, columns).drawn(&mut random);
        let [half, full] = LAYOUTS.map(|layout| layout.length(columns));
        let around = |length: usize| length.saturating_sub(9)..=length + 9;
        let mut lengths: Vec<usize> = around(half).chain(around(full)).collect();
        lengths.extend([
            0,
            1,
            columns,
            columns * columns,
            2 * half,
            half + 256,
            half + 65_536,
        ]);
        for length in lengths {
            let mut work = random.bytes(length, 256);
            let answer = twins::general(&plan, &mut work, &mut tally);
            let number = answer.err().unwrap_or(0);
            assert_eq!(number, if length == half { 0 } else { 4 }, "{length} bytes");
        }
    }
}

/// What the call is lent, with nothing wrong at first.
struct Call {
    plan: Owned,
    work: Vec<u8>,
}

impl Call {
    fn new(random: &mut Random) -> Call {
        let plan = Owned::zeros([5, 2, 2, 1, 1]).drawn(random);
        let work = random.bytes(plan.empty_store().len(), 256);
        Call { plan, work }
    }

    /// Makes the call meet this cause, whatever others it meets.
    fn spoil(&mut self, random: &mut Random, cause: u8) {
        let plan = &mut self.plan;
        match (cause, random.below(4)) {
            (1, _) => plan.p = random.pick(&[0, 1, 4, 9, 253, 261, usize::MAX]),
            (2, 0) => plan.s = 1,
            (2, 1) => plan.radices[1] = 1,
            (2, _) => plan.radices = vec![2, 2, 0],
            (3, 0) => plan.t = 33,
            (3, 1) => plan.m = 63,
            // Of 2, which no s and no p forbids.
            (3, _) => plan.radices = [&plan.radices[..], &[2; 13]].concat(),
            (4, 0) => self.work.push(0),
            (4, 1) => drop(self.work.pop()),
            (4, 2) => self.work.clear(),
            (4, _) => plan.d.push(0),
            (5, 0) => plan.weights[0] = 255,
            (5, 1) => plan.tables[4] = 255,
            (_, _) => plan.d[2] = 255,
        }
    }
}

/// Every set of the causes 1 to 5: the first is answered. Pairs are among them, so
/// that with the first put right the second is answered.
#[test]
fn every_set_of_causes() {
    let mut tally = Tally::default();
    cases("sets of causes", 5, |random| {
        for set in 0..1 << 5 {
            let mut lent = Call::new(random);
            let met: Vec<u8> = (1..=5)
                .filter(|cause| set >> (cause - 1) & 1 == 1)
                .collect();
            met.iter().for_each(|&cause| lent.spoil(random, cause));
            let answer = twins::general(&lent.plan, &mut lent.work, &mut tally);
            let number = answer.err().unwrap_or(0);
            assert_eq!(number, met.first().copied().unwrap_or(0), "{met:?}");
        }
    });
    tally.complete(&CAUSES, 0);
}

/// The variables of an entry by the definition.
fn variables(plan: &Owned, entry: usize) -> Vec<u8> {
    let mut variables = plan.digits(entry);
    let mut weights = plan.weights.as_slice();
    for table in plan.tables.chunks(plan.p) {
        let (own, rest) = weights.split_at(variables.len());
        variables.push(table[plan.product(own, &variables) as usize]);
        weights = rest;
    }
    variables
}

/// The value that β gives to these variables, by the definition.
fn value(plan: &Owned, variables: &[u8], beta: &[u8]) -> usize {
    let l = variables.len();
    let sum = |weights| plan.product(weights, variables) as usize;
    let (products, last) = beta.split_at(plan.t * l);
    let products = products.chunks(l).zip(plan.d.chunks(l));
    let products = products.map(|(beta, d)| sum(beta) * sum(d));
    (products.sum::<usize>() + sum(last)) % plan.p
}

/// Whether every table with values below s is that of some β: all β are tried.
/// Nothing of it is an elimination, and nothing comes from the reference.
fn suits_every_table(plan: &Owned) -> bool {
    let (s, entries) = (plan.s, plan.entries());
    let all: Vec<Vec<u8>> = (0..entries).map(|entry| variables(plan, entry)).collect();
    let mut met = vec![false; s.pow(entries as u32)];
    let mut beta = vec![0; plan.columns()];
    loop {
        // The table by its number in radix s, where all its values are below s.
        let table = all.iter().try_fold(0, |number, variables| {
            let value = value(plan, variables, &beta);
            (value < s).then_some(number * s + value)
        });
        if let Some(table) = table {
            met[table] = true;
        }
        let Some(place) = beta.iter().position(|&x| usize::from(x) + 1 < plan.p) else {
            break;
        };
        beta[..place].fill(0);
        beta[place] += 1;
    }
    met.into_iter().all(|met| met)
}

/// Shapes with at most 20,000 lists of coefficients: p, the radices, m and t.
const TINY: [(usize, &[u8], usize, usize); 17] = [
    (3, &[2], 1, 0),
    (3, &[3], 1, 1),
    (3, &[3], 1, 3),
    (3, &[3], 2, 0),
    (3, &[2, 2], 2, 0),
    (3, &[2, 2], 1, 1),
    (3, &[2, 2], 1, 2),
    (3, &[2, 3], 1, 1),
    (3, &[3, 2], 2, 1),
    (3, &[3, 3], 1, 2),
    (3, &[2, 2, 2], 1, 1),
    (5, &[2, 2], 2, 0),
    (5, &[4], 1, 1),
    (5, &[5], 1, 2),
    (7, &[2, 2], 2, 0),
    (7, &[4], 1, 1),
    (11, &[2, 2], 2, 0),
];

#[test]
fn every_table_of_tiny_plans() {
    let mut answers = [0, 0];
    cases("all tables of tiny plans", 30, |random| {
        let (p, radices, m, t) = random.pick(&TINY);
        let s = random.within(2, 3);
        let plan = Owned::zeros([p, s, radices.len(), m, t]).with_radices(radices);
        let plan = plan.drawn(random);
        let mut work = random.bytes(plan.empty_store().len(), 256);
        let general = by_library(&plan, &mut work);
        assert_eq!(general, suits_every_table(&plan), "{plan:?}");
        answers[usize::from(general)] += 1;
    });
    println!("not general: {}, general: {}", answers[0], answers[1]);
    let enough = answers[0] + answers[1] >= 300;
    assert!(!enough || answers.iter().all(|&count| count >= 75));
}

/// One digit x of this radix, a link that is 1 where x is 0 and else 0, and a
/// product by x: the rows are 0 0 0 1, and x^2 0 x 0 for every other x.
fn digit_and_link(p: usize, radix: usize) -> Owned {
    let mut plan = Owned::zeros([p, 2, 1, 1, 1]).with_radices(&[radix as u8]);
    (plan.weights, plan.d) = (vec![1], vec![1, 0]);
    plan.tables[0] = 1;
    plan
}

/// Up to three entries are new there, and the fourth is not, nor any behind it. So
/// one entry decides, the last, though four could be new.
#[test]
fn the_last_entry_decides() {
    let (mut random, mut tally) = (Random::new(20, 0), Tally::default());
    for p in primes() {
        for radix in 2..=p.min(9) {
            let plan = digit_and_link(p, radix);
            assert_eq!(plan.most_new(), 4);
            assert_eq!(general(&mut random, &plan, &mut tally), radix <= 3);
        }
    }
}

/// The first entry decides where its row is zero: with no links, and with links
/// that are all 0 there. All other rows are independent.
#[test]
fn the_first_entry_decides() {
    let (mut random, mut tally) = (Random::new(21, 0), Tally::default());
    // Two bits x and y with the product x y, and a bit with a link of its own.
    let two_bits = Owned {
        d: vec![1, 0],
        ..Owned::xor()
    };
    let mut a_link = digit_and_link(5, 3);
    a_link.tables = vec![0, 1, 0, 0, 0];
    for plan in [two_bits, a_link] {
        let mut store = plan.empty_store();
        for entry in 0..plan.entries() {
            let filed = twins::file(&plan, &mut store, entry, 0, &mut tally);
            let column = filed.expect("an accepted filing");
            assert_eq!(column == plan.columns(), entry == 0, "entry {entry}");
        }
        assert!(!general(&mut random, &plan, &mut tally));
    }
    cases("plans without links", 20, |random| {
        let mut plan = small(random);
        let shape = [plan.p, plan.s, plan.n, 0, plan.t];
        plan = Owned::zeros(shape)
            .with_radices(&plan.radices)
            .drawn(random);
        assert!(!general(random, &plan, &mut tally));
    });
}

/// The first plan of a shape that is general, of at most so many.
fn drawn_general(random: &mut Random, plan: &Owned, draws: usize) -> Owned {
    let mut work = plan.empty_store();
    for _ in 0..draws {
        let plan = plan.clone().drawn(random);
        if by_library(&plan, &mut work) {
            return plan;
        }
    }
    panic!("{draws} plans, and none is general: {plan:?}");
}

/// One digit with links: as many entries as can be new, which some plan has, and
/// with the same parts one more, of which then the last alone is not new; so it is
/// under every other plan. From no product to many more than there are variables.
#[test]
fn as_many_entries_as_can_be_new_and_one_more() {
    let (mut random, mut tally) = (Random::new(22, 0), Tally::default());
    for l in [2, 3, 4, 5, 7, 9, 12] {
        for t in [0, 1, 2, 3, l - 1, l, l + 1, l + 2, l + 5, 20, 32] {
            let most = Owned::zeros([3, 2, 1, l - 1, t]).most_new();
            let least_p = primes().into_iter().find(|&p| p > most);
            for p in [least_p.unwrap_or(251), 251] {
                if most >= p || (t + 1) * l > 256 {
                    continue;
                }
                let shape = Owned::zeros([p, 2, 1, l - 1, t]).with_radices(&[most as u8]);
                let mut plan = drawn_general(&mut random, &shape, 40);
                assert!(general(&mut random, &plan, &mut tally));
                plan.radices[0] += 1;
                assert!(!general(&mut random, &plan, &mut tally));
                let other = plan.drawn(&mut random);
                assert!(!general(&mut random, &other, &mut tally));
            }
        }
    }
}

/// Large plans with exactly as many entries as can be new: shapes p s n m t and
/// radices. The last two have more products than variables, where a bound by t
/// alone would be too small by one, and by many.
const EXACT: [([usize; 5], &[u8], usize); 9] = [
    ([17, 2, 6, 58, 0], &[2, 2, 2, 2, 2, 2], 64),
    ([67, 3, 2, 62, 0], &[8, 8], 64),
    ([251, 2, 7, 57, 1], &[2, 2, 2, 2, 2, 2, 2], 128),
    ([31, 2, 2, 62, 3], &[11, 23], 253),
    ([251, 251, 2, 62, 14], &[11, 79], 869),
    ([43, 2, 2, 30, 31], &[13, 43], 559),
    ([251, 2, 2, 29, 32], &[17, 31], 527),
    ([101, 2, 3, 27, 32], &[5, 9, 11], 495),
    ([17, 2, 2, 8, 32], &[5, 13], 65),
];

#[test]
fn large_plans_with_as_many_entries_as_can_be_new() {
    let (mut random, mut tally) = (Random::new(23, 0), Tally::default());
    for (shape, radices, most) in EXACT {
        let plan = Owned::zeros(shape).with_radices(radices);
        assert_eq!((plan.most_new(), plan.entries()), (most, most));
        let plan = drawn_general(&mut random, &plan, 10);
        assert!(general(&mut random, &plan, &mut tally));
    }
}

/// The most columns, variables, products and entries that a plan may have. With
/// more entries than columns none is general; with fewer, as its entries file.
#[test]
fn the_largest_plans() {
    let (mut random, mut tally) = (Random::new(24, 0), Tally::default());
    let mut answers = [0, 0];
    let shapes: [([usize; 5], &[u8]); 11] = [
        ([251, 2, 12, 52, 15], &[2; 12]),
        ([3, 2, 12, 52, 15], &[2; 12]),
        ([17, 16, 3, 61, 15], &[16, 16, 16]),
        ([67, 2, 2, 62, 15], &[64, 64]),
        ([241, 8, 4, 27, 32], &[8, 8, 8, 8]),
        ([31, 2, 12, 20, 31], &[2; 12]),
        ([3, 3, 7, 57, 0], &[3; 7]),
        ([251, 251, 1, 63, 15], &[251]),
        ([251, 2, 2, 62, 15], &[27, 34]),
        ([3, 2, 1, 63, 15], &[2]),
        ([251, 2, 1, 30, 32], &[251]),
    ];
    for (shape, radices) in shapes {
        let plan = Owned::zeros(shape).with_radices(radices);
        let plan = plan.drawn(&mut random);
        let answer = general(&mut random, &plan, &mut tally);
        answers[usize::from(answer)] += 1;
    }
    assert!(answers[0] >= 7 && answers[1] >= 2, "{answers:?}");
}

/// All residues p - 1, and all zero: rows that are all alike.
#[test]
fn plans_of_one_byte() {
    let (mut random, mut tally) = (Random::new(25, 0), Tally::default());
    for shape in [
        [251, 2, 12, 52, 15],
        [251, 251, 1, 30, 32],
        [3, 2, 5, 4, 3],
        [5, 2, 1, 1, 0],
    ] {
        for byte in [0, 1, shape[0] as u8 - 1] {
            let mut plan = Owned::zeros(shape);
            for part in [&mut plan.weights, &mut plan.tables, &mut plan.d] {
                part.fill(byte);
            }
            // A digit and a link that is the same everywhere: 0 b, 1 b.
            let expected = plan.columns() == 2 && byte != 0;
            assert_eq!(general(&mut random, &plan, &mut tally), expected);
        }
    }
}

/// The wrapper gives the library's answer, and the bound of every shape.
#[test]
fn the_wrapper() {
    let mut yes = 0;
    cases("plans of the wrapper", 20, |random| {
        let owned = small(random);
        let plan = wrapped(&owned);
        let expected = by_library(&owned, &mut owned.empty_store());
        assert_eq!(plan.is_general(), Ok(expected), "{owned:?}");
        assert_eq!(plan.most_new(), owned.most_new());
        yes += usize::from(expected);
    });
    println!("general: {yes}");
    for l in 1..=64 {
        let mut before = 0;
        for t in 0..=32 {
            if (t + 1) * l > 1_024 {
                break;
            }
            let most = wrapped(&Owned::zeros([3, 2, 1, l - 1, t])).most_new();
            assert_eq!(most, Owned::zeros([3, 2, 1, l - 1, t]).most_new());
            // Each product adds fewer than the one before, and none from t = L on.
            let added = if t == 0 { l } else { (l + 1).saturating_sub(t) };
            assert_eq!(most, before + added, "L = {l}, t = {t}");
            before = most;
        }
    }
}

fn wrapped(plan: &Owned) -> Plan {
    let Owned { p, s, n, m, t, .. } = *plan;
    let shape = Shape { p, s, n, m, t };
    let [radices, weights, tables, d] =
        [&plan.radices, &plan.weights, &plan.tables, &plan.d].map(Vec::clone);
    Plan::new(shape, radices, weights, tables, d).expect("an accepted plan")
}
