//! The library against the reference on the largest shapes that a plan may
//! have, and on those just beyond. The reference is slow there, so the cases
//! are few.

mod common;
use celerycrag::{raw, Record};
use common::faults::fault;
use common::layout::Layout;
use common::lots::lot_of;
use common::plans::{outline, primes, product, reduced, Owned};
use common::random::{cases, Random};
use common::recorded::Recorded;
use common::tally::Tally;
use common::twins::{self, Lot};
use reference::Settled;

/// Shapes p s n m t at the limits of L, t, C and s^n, with s for every radix.
const LARGEST: [[usize; 5]; 12] = [
    [251, 2, 12, 52, 15],
    [3, 2, 12, 52, 15],
    [17, 16, 3, 61, 15],
    [251, 251, 1, 63, 15],
    [127, 64, 2, 62, 15],
    [5, 2, 1, 30, 32],
    [241, 8, 4, 27, 32],
    [3, 3, 7, 57, 0],
    [251, 2, 1, 0, 32],
    [67, 64, 2, 0, 0],
    [11, 8, 4, 36, 24],
    [31, 2, 12, 20, 31],
];
/// Shapes with radices of their own, whose product is at the limit or near.
const MIXED: [([usize; 5], &[u8]); 6] = [
    ([67, 67, 2, 62, 15], &[63, 65]),
    ([251, 2, 2, 62, 15], &[251, 16]),
    ([251, 251, 2, 62, 15], &[2, 251]),
    ([17, 2, 11, 53, 15], &[2, 2, 2, 2, 2, 4, 2, 2, 2, 2, 2]),
    ([31, 4, 3, 59, 11], &[12, 31, 2]),
    ([241, 3, 5, 26, 32], &[2, 3, 4, 5, 34]),
];

/// All seventeen calls on a lot of this plan with other residues, a few more
/// filings, and a program.
fn large(random: &mut Random, plan: Owned, tally: &mut Tally) {
    let mut lot = lot_of(random, plan);
    let plan = lot.plan.clone();
    assert_eq!(twins::check(&plan, tally), 0, "{:?}", plan.lent());
    twins::all(&lot, tally);

    let mut kept = Vec::new();
    let mut store = plan.empty_store();
    for _ in 0..3 {
        let (entry, value) = (random.below(plan.entries()), random.below(plan.s));
        if twins::file(&plan, &mut store, entry, value, tally).is_ok() {
            kept.push((entry, value));
        }
    }
    let mut beta = vec![255; plan.columns()];
    assert_eq!(twins::coefficients(&plan, &store, &mut beta, tally), 0);
    let steps = twins::write(&plan, &beta, &lot.room, tally).expect("an accepted writing");
    for (entry, value) in kept {
        let ran = twins::run(&plan, &steps, &plan.digits(entry), tally).expect("an accepted run");
        assert_eq!(
            (ran.y as usize, ran.bootstraps),
            (value, plan.bootstraps() as u64)
        );
    }

    // Empty, half full, and full, where every entry is forced.
    let (half, full) = (reduced(random, &plan, 2), reduced(random, &plan, 1));
    for (store, is_full) in [(plan.empty_store(), false), (half, false), (full, true)] {
        for entry in [lot.entry, random.below(plan.entries())] {
            let settled = twins::settle(&plan, &store, entry, tally).expect("an accepted call");
            assert!(!is_full || matches!(settled, Settled::Forced(_)));
        }
    }

    // With every other row led, an equation and a clearing have most to do.
    lot.store = reduced(random, &plan, 2);
    let _ = twins::file(&plan, &mut lot.store, lot.entry, lot.value, tally);
    for _ in 0..2 {
        let mut wrong = lot.clone();
        fault(random, &mut wrong);
        twins::all(&wrong, tally);
    }
}

#[test]
fn the_largest_shapes() {
    let mut tally = Tally::default();
    cases("the largest shapes", 3, |random| {
        let plan = if random.one_in(2) {
            Owned::zeros(random.pick(&LARGEST))
        } else {
            let (shape, radices) = random.pick(&MIXED);
            Owned::zeros(shape).with_radices(radices)
        };
        large(random, plan, &mut tally);
    });
}

#[test]
fn c_1024() {
    let mut tally = Tally::default();
    let mut random = Random::new(1, 0);
    for shape in [LARGEST[0], LARGEST[1]] {
        large(&mut random, Owned::zeros(shape), &mut tally);
    }
    let (shape, radices) = MIXED[0];
    let plan = Owned::zeros(shape).with_radices(radices);
    large(&mut random, plan, &mut tally);
}

/// The longest list of records that there can be, 4,096 with C = 1,024. The
/// reference would take long: the stores have to be those that the library
/// leaves without records.
#[test]
fn the_longest_list() {
    let mut random = Random::new(4, 0);
    let mut plan = Owned::zeros([17, 2, 12, 52, 15]).drawn(&mut random);
    // The first link counts the digits that are 1, and is 1 where there are
    // none: at entry 0 alone, which therefore no others imply.
    plan.weights[..12].fill(1);
    plan.tables[..17].fill(0);
    plan.tables[0] = 1;
    // All values are 0, so that all entries are kept.
    let others = (1..4_096).map(|entry| (entry, 0));
    let without = Recorded::filed(&mut random, &plan, others);
    let mut full = without.store.clone();
    let mut pivot = 9_999;
    assert_eq!(raw::file(plan.lent(), &mut full, 0, 1, &mut pivot), 0);
    assert!(without.count == 4_095 && pivot < 1_024);

    // Its record first, and the others close the gap.
    let (entry, value) = (0, 1);
    let mut records = vec![Record { entry, value }];
    records.extend(without.listed());
    let (mut store, mut work, mut count) = (full.clone(), vec![0xA5; full.len()], 4_096);
    let (list, end, mut told) = (&mut records, &mut count, 9);
    let lent = plan.lent();
    let answer = raw::withdraw(lent, &mut store, &mut work, list, end, 0, &mut told);
    assert_eq!((answer, told, *end), (0, 1, 4_095));
    assert!(store == without.store && work.iter().all(|&x| x == 0));
    assert!(list[..4_095] == *without.listed() && list[4_095] == Record::default());

    // Filed again it is new, and the last of the list.
    let mut column = 9_999;
    work.fill(0xA5);
    let (kept, spare) = (&mut store, &mut work);
    let answer = raw::file_recorded(lent, kept, spare, list, end, 0, 1, &mut column);
    assert_eq!((answer, column, *end), (0, pivot, 4_096));
    assert!(store == full && work.iter().all(|&x| x == 0));
    assert_eq!(records[4_095], Record { entry, value });

    // In place of entry 4,095, which the others imply: the first of the list once
    // more, what is no entry, and no value.
    let [first, implied] = [records[0], records[4_094]];
    assert_eq!([first.entry, implied.entry], [1, 4_095]);
    for (entry, value) in [(1, 0), (4_096, 0), (4_095, 2)] {
        let mut wrong = records.clone();
        wrong[4_094] = Record { entry, value };
        let (spare, list) = (&mut work, &mut wrong);
        let answer = raw::withdraw(lent, &mut store, spare, list, &mut count, 7, &mut told);
        assert_eq!((answer, count, told), (16, 4_096, 1));
        assert!(store == full && work.iter().all(|&x| x == 0));
    }
}

/// The largest numbers that the sums can meet: all bytes p - 1.
#[test]
fn nothing_overflows() {
    let (mut random, mut tally) = (Random::new(3, 0), Tally::default());
    for shape in [
        [251, 2, 12, 52, 15],
        [251, 251, 1, 30, 32],
        [3, 2, 12, 52, 15],
    ] {
        let mut plan = Owned::zeros(shape);
        let most = (plan.p - 1) as u8;
        for part in [&mut plan.weights, &mut plan.tables, &mut plan.d] {
            part.fill(most);
        }
        let beta = vec![most; plan.columns()];
        let last = plan.entries() - 1;
        // Every other row led, and all that reduced form leaves free at p - 1.
        let columns = plan.columns();
        let mut rows = vec![vec![0; columns + 1]; columns];
        for q in (0..columns).step_by(2) {
            rows[q][q] = 1;
            for j in (q + 1..=columns).filter(|j| j % 2 == 1 || *j == columns) {
                rows[q][j] = most;
            }
        }
        let lot = Lot {
            entry: last,
            value: plan.s - 1,
            row: vec![0; columns],
            store: Layout::Half.store(&rows),
            full: Layout::Full.store(&rows),
            recorded: Recorded::filed(&mut random, &plan, [(last, plan.s - 1), (1, 0)]),
            room: vec![7; 4 * plan.step_count()],
            steps: vec![],
            digits: plan.digits(last),
            text: twins::listing(&plan, &beta),
            beta,
            plan,
        };
        twins::all(&lot, &mut tally);
        let plan = &lot.plan;
        // Every row led, so that the coefficients are those of β.
        let mut rows = vec![vec![0; columns + 1]; columns];
        for (q, row) in rows.iter_mut().enumerate() {
            (row[q], row[columns]) = (1, most);
        }
        let full = Layout::Half.store(&rows);
        let mut row = vec![0; columns];
        assert_eq!(twins::row(plan, last, &mut row, &mut tally), 0);
        let forced = Settled::Forced(plan.product(&row, &lot.beta) as usize);
        assert_eq!(twins::settle(plan, &full, last, &mut tally), Ok(forced));
        let steps = twins::write(plan, &lot.beta, &lot.room, &mut tally).expect("accepted");
        assert!(twins::run(plan, &steps, &lot.digits, &mut tally).is_ok());
        let mut back = vec![255; columns];
        assert_eq!(twins::read_steps(plan, &steps, &mut back, &mut tally), 0);
        assert_eq!(back, lot.beta, "read back");
        // Each weight counts as -1 there; the largest norm is in norms.rs.
        let norm = twins::worst_norm(plan, &lot.beta, &mut tally);
        assert_eq!(norm, Ok(plan.variables()));
    }
}

/// Every prime, every residue: the reduction, the inverse and the opposite of
/// each.
#[test]
fn every_residue_of_every_prime() {
    let mut tally = Tally::default();
    for p in primes() {
        // One digit of radix p: x_0 is any residue, and the row of entry x with
        // value v asks for the inverse of x.
        let plan = Owned::zeros([p, p.min(64), 1, 1, 0]);
        for x in 0..p {
            let mut plan = plan.clone();
            // The link's table is x everywhere, so that column 1 holds x.
            plan.tables.fill(x as u8);
            let mut store = plan.empty_store();
            for (entry, value) in [(0, 1), (1, 0)] {
                let _ = twins::file(&plan, &mut store, entry, value, &mut tally);
            }
            let mut beta = vec![0; 2];
            assert_eq!(twins::coefficients(&plan, &store, &mut beta, &mut tally), 0);
        }
        // The tables of squares at every residue, and every product of two.
        let plan = Owned::zeros([p, 2, 1, 0, 0]);
        for z in 0..p as u16 {
            for by in 0..2 {
                let steps = [1, 1, 0, z, 2, 5, 1, by];
                assert!(twins::run(&plan, &steps, &[1], &mut tally).is_ok());
            }
            for w in 0..p as u16 {
                let steps = [1, 1, 0, z, 1, 5, 1, w];
                let ran = twins::run(&plan, &steps, &[1], &mut tally).expect("accepted");
                assert_eq!(ran.y as usize, z as usize * w as usize % p);
            }
        }
        // One digit and one coefficient: entry z times w.
        let plan = Owned::zeros([p, 2, 1, 0, 0]).with_radices(&[p as u8]);
        for z in 0..p {
            for w in 0..p {
                let settled = twins::settle(&plan, &[1, w as u8], z, &mut tally);
                assert_eq!(settled, Ok(Settled::Forced(z * w % p)));
            }
            let settled = twins::settle(&plan, &[0, 0], z, &mut tally);
            let expected = match z {
                0 => Settled::Forced(0),
                _ => Settled::Free(0),
            };
            assert_eq!(settled, Ok(expected));
        }
    }
}

/// Radices whose product is 1,024 modulo 2^64.
const WRAPS: [u8; 30] = [
    49, 221, 185, 13, 193, 157, 13, 189, 185, 101, 25, 213, 157, 233, 129, 173, 17, 81, 137, 109,
    141, 13, 57, 149, 161, 101, 53, 101, 32, 32,
];

/// Lists of radices at and beside every limit: of their size, of their number,
/// and of their product, with products that only look small where they wrap.
fn lists_of_radices(p: usize) -> Vec<Vec<u8>> {
    let byte = |number: usize| number.min(255) as u8;
    let mut lists: Vec<Vec<u8>> = vec![vec![], vec![64, 64, 64], vec![67, 67, 68]];
    // 4,095, 4,096 and 4,097 in different ways.
    lists.extend([
        vec![63, 65],
        vec![65, 63],
        vec![3, 3, 5, 7, 13],
        vec![64, 64],
        vec![16, 16, 16],
        vec![2, 128, 16],
        vec![17, 241],
        vec![241, 17],
        vec![2, 2, 2, 2, 2, 2, 2, 2, 2, 2, 2, 2, 1],
    ]);
    // 844 modulo 2^32, and 1,024 modulo 2^64.
    lists.push(vec![146, 215, 86, 43, 37]);
    lists.push(WRAPS.to_vec());
    for radix in [0, 1, 2, 3, 4, 16, 64, 128, p - 1, p, p + 1, 251, 252, 255] {
        for count in [
            1, 2, 3, 4, 11, 12, 13, 16, 32, 33, 63, 64, 65, 128, 255, 256, 4_097,
        ] {
            lists.push(vec![byte(radix); count]);
        }
    }
    // One bad radix behind, before and amid as many as any product may have.
    for bad in [0, 1, p + 1, 255] {
        for place in [0, 1, 12, 63] {
            let mut list = vec![byte(p); 63];
            list.insert(place, byte(bad));
            lists.push(list);
            let mut list = vec![2, 2];
            list.insert(place.min(2), byte(bad));
            lists.push(list);
        }
    }
    lists
}

#[test]
fn radices_at_the_limits() {
    let wrapped = |product: u64, &radix: &u8| product.wrapping_mul(radix.into());
    assert_eq!(WRAPS.iter().fold(1, wrapped), 1_024);
    let mut tally = Tally::default();
    for p in [3, 5, 17, 67, 127, 241, 251] {
        for list in lists_of_radices(p) {
            for n in [1, 2, 3, 11, 12, 13, 63, 64, 65, list.len().clamp(1, 64)] {
                let plan = Owned::zeros([p, 2, n, 0, 0]).with_radices(&list);
                let answer = twins::check(&plan, &mut tally);
                let fits = |&radix: &u8| (2..=p).contains(&usize::from(radix));
                let expected = match () {
                    () if !list.iter().all(fits) => 2,
                    () if n > 64 || product(&list) > 4_096 => 3,
                    () if list.len() != n => 4,
                    () => 0,
                };
                assert_eq!(answer, expected, "p = {p}, n = {n}, radices {list:?}");
            }
        }
    }
}

/// The same lists in all seventeen calls, where the rest of a lot fits n
/// digits.
#[test]
fn radices_at_the_limits_in_every_call() {
    let mut tally = Tally::default();
    let mut random = Random::new(2, 0);
    for n in [1, 2, 3, 12] {
        for list in lists_of_radices(67) {
            let mut lot = lot_of(&mut random, Owned::zeros([67, 2, n, 1, 1]));
            lot.plan.radices = list;
            twins::all(&lot, &mut tally);
        }
    }
}

/// s bounds values alone: any s from 2 to p goes with any radices, and only
/// filing looks at it.
#[test]
fn s_and_the_radices_are_apart() {
    let mut tally = Tally::default();
    cases("s apart from the radices", 20, |random| {
        let plan = outline(random, 12).drawn(random);
        let mut rows = Vec::new();
        for s in 2..=plan.p {
            let plan = Owned { s, ..plan.clone() };
            assert_eq!(twins::check(&plan, &mut tally), 0);
            let mut row = vec![0; plan.columns()];
            let entry = plan.entries() - 1;
            assert_eq!(twins::row(&plan, entry, &mut row, &mut tally), 0);
            rows.push(row);
            let mut store = plan.empty_store();
            let most = twins::file(&plan, &mut store, entry, s - 1, &mut tally);
            assert!(matches!(most, Ok(_) | Err(9)));
            let over = twins::file(&plan, &mut store, entry, s, &mut tally);
            assert_eq!(over, Err(8));
        }
        rows.dedup();
        assert_eq!(rows.len(), 1);
    });
}

/// The five numbers alone, at and beside every limit.
#[test]
fn numbers_at_the_limits() {
    let mut tally = Tally::default();
    let near = |limit: usize| [limit - 1, limit, limit + 1];
    let far = [0, 1, 1 << 32, 1 << 63, usize::MAX - 1, usize::MAX];
    let primes = [
        far.as_slice(),
        &[2, 3, 4, 9, 249, 251, 253, 257, 259, 1 << 32 | 3],
    ]
    .concat();
    let radices = [far.as_slice(), &[2, 3, 4, 64, 65, 250, 251, 252, 258]].concat();
    let digits = [far.as_slice(), &[2, 3, 16, 32], &near(12), &near(64)].concat();
    let links = [far.as_slice(), &[2, 31, 52], &near(63), &near(64)].concat();
    let products = [far.as_slice(), &[2, (1 << 58) - 1], &near(15), &near(32)].concat();
    for &p in &primes {
        for &s in &radices {
            for &n in &digits {
                for &m in &links {
                    for &t in &products {
                        let small = p < 300 && n < 300 && m < 300 && t < 300;
                        let plan = if small {
                            Owned::zeros([p, s, n, m, t])
                        } else {
                            Owned {
                                p,
                                s,
                                n,
                                m,
                                t,
                                ..Owned::xor()
                            }
                        };
                        twins::check(&plan, &mut tally);
                    }
                }
            }
        }
    }
}
