//! Stores moved between the layout of the calls and the full one of before: there
//! and back after every filing, with bytes damaged, in wrong lengths, with every
//! cause and each pair of causes; and filings on the new layout beside those on
//! the old one, which is kept here by the book. Targets are random bytes before,
//! and compared whole after: written on acceptance, untouched on refusal.

mod common;
use celerycrag::raw;
use common::layout::{Layout, LAYOUTS};
use common::lots::pairs;
use common::old::Old;
use common::plans::{outline, reduced, Owned};
use common::random::{cases, Random};
use common::recorded::Recorded;
use common::tally::Tally;
use common::twins;

/// The two moves, with the causes that each can meet.
const CAUSES: [(&str, &[u8]); 2] = [
    ("to_half", &[1, 2, 3, 4, 5, 6]),
    ("to_full", &[1, 2, 3, 4, 5, 6]),
];
/// The most columns that a plan may have, in some shapes p s n m t.
const LARGEST: [[usize; 5]; 3] = [
    [3, 2, 12, 52, 15],
    [251, 2, 12, 52, 15],
    [17, 16, 3, 61, 15],
];

/// The full store of a store, into random bytes; it has to be the one that the
/// store stands for.
fn full_of(random: &mut Random, plan: &Owned, half: &[u8], tally: &mut Tally) -> Vec<u8> {
    let expected = plan.widened(half);
    let mut full = random.bytes(expected.len(), 256);
    assert_eq!(twins::to_full(plan, half, &mut full, tally), 0);
    assert!(full == expected, "the full store");
    full
}

/// A store moved there and back, into random bytes each time.
fn there_and_back(random: &mut Random, plan: &Owned, half: &[u8], tally: &mut Tally) -> Vec<u8> {
    let full = full_of(random, plan, half, tally);
    let mut back = random.bytes(half.len(), 256);
    assert_eq!(twins::to_half(plan, &full, &mut back, tally), 0);
    assert!(back == half, "there and back");
    back
}

/// Files entries one by one, with what the old layout answers beside; the store
/// is moved there and back between filings, now and then or always, and goes on
/// as one that was not moved.
fn sequence(
    random: &mut Random,
    plan: &Owned,
    list: &[(usize, usize)],
    one_in: usize,
    tally: &mut Tally,
) {
    let columns = plan.columns();
    let (mut store, mut stays) = (plan.empty_store(), plan.empty_store());
    let mut old = Old::empty(plan.p, columns);
    let mut row = vec![0; columns];
    for &(entry, value) in list {
        let answer = twins::file(plan, &mut store, entry, value, tally);
        assert_eq!(twins::row(plan, entry, &mut row, tally), 0);
        assert_eq!(answer, old.file(&row, value).ok_or(9), "entry {entry}");
        assert!(store == old.bytes(Layout::Half), "the store after a filing");

        let (mut column, unmoved) = (usize::MAX, stays.clone());
        let number = raw::file(plan.lent(), &mut stays, entry, value, &mut column);
        match answer {
            Ok(told) => assert_eq!((number, column), (0, told)),
            Err(told) => assert!((number, column) == (told, usize::MAX) && stays == unmoved),
        }
        assert!(stays == store, "moved, and not");

        if random.one_in(one_in) {
            let full = full_of(random, plan, &store, tally);
            assert!(full == old.bytes(Layout::Full), "the old store");
            store = random.bytes(store.len(), 256);
            assert_eq!(twins::to_half(plan, &full, &mut store, tally), 0);
            assert!(stays == store, "there and back");
        }
    }
    let mut beta = random.bytes(columns, 256);
    assert_eq!(twins::coefficients(plan, &store, &mut beta, tally), 0);
    assert_eq!(beta, old.coefficients());
}

#[test]
fn filings_with_moves_between() {
    let mut tally = Tally::default();
    cases("filings with moves between", 60, |random| {
        let plan = outline(random, 36).drawn(random);
        let entries: Vec<usize> = (0..30).map(|_| random.below(plan.entries())).collect();
        let list = pairs(random, &plan, entries);
        let one_in = random.pick(&[1, 1, 3]);
        sequence(random, &plan, &list, one_in, &mut tally);
    });
}

#[test]
fn filings_under_the_largest_plans() {
    let (mut random, mut tally) = (Random::new(13, 0), Tally::default());
    for shape in LARGEST {
        let plan = Owned::zeros(shape).drawn(&mut random);
        let entries: Vec<usize> = (0..5).map(|_| random.below(plan.entries())).collect();
        let list = pairs(&mut random, &plan, entries);
        sequence(&mut random, &plan, &list, 2, &mut tally);
    }
}

/// Random stores in reduced form, as no list of filings need have left them.
#[test]
fn any_store_in_reduced_form() {
    let mut tally = Tally::default();
    cases("stores there and back", 300, |random| {
        let plan = outline(random, 60).drawn(random);
        let one_row_in = random.pick(&[1, 2, 2, 5]);
        let store = reduced(random, &plan, one_row_in);
        there_and_back(random, &plan, &store, &mut tally);
    });
    let mut random = Random::new(14, 0);
    for shape in LARGEST {
        for one_row_in in [1, 2, 9] {
            let plan = Owned::zeros(shape).drawn(&mut random);
            let store = reduced(&mut random, &plan, one_row_in);
            there_and_back(&mut random, &plan, &store, &mut tally);
        }
    }
}

/// Some bytes changed before a move, in a place of its own each.
fn changed(random: &mut Random, p: usize, store: &mut [u8]) {
    for _ in 0..random.pick(&[1, 1, 1, 2, 3]) {
        let place = random.below(store.len());
        let edge = random.pick(&[0, 1, 2, p - 1, p, p + 1, 255]);
        let any = random.below(256);
        store[place] = random.pick(&[any, any % p, edge]) as u8;
    }
}

/// A store of a plan with some bytes changed, moved from either layout.
fn damaged(random: &mut Random, plan: &Owned, layout: Layout, tally: &mut Tally) {
    let one_row_in = random.pick(&[1, 2, 2, 5]);
    let store = reduced(random, plan, one_row_in);
    match layout {
        Layout::Half => {
            let mut half = store;
            changed(random, plan.p, &mut half);
            let mut full = random.bytes(Layout::Full.length(plan.columns()), 256);
            let answer = twins::to_full(plan, &half, &mut full, tally);
            assert_eq!(answer, twins::test(plan, &half, tally));
        }
        Layout::Full => {
            let mut full = plan.widened(&store);
            changed(random, plan.p, &mut full);
            let mut half = random.bytes(store.len(), 256);
            let answer = twins::to_half(plan, &full, &mut half, tally);
            // What moves is the store of the rows that it came from.
            if answer == 0 {
                assert!(plan.widened(&half) == full, "the rows");
            }
        }
    }
}

#[test]
fn with_bytes_changed() {
    let mut tally = Tally::default();
    cases("bytes changed before a move", 2_000, |random| {
        let plan = outline(random, 24).drawn(random);
        let layout = random.pick(&LAYOUTS);
        damaged(random, &plan, layout, &mut tally);
    });
    tally.complete(&[("to_half", &[6]), ("to_full", &[6])], 2_000);
    let mut random = Random::new(15, 0);
    for shape in LARGEST {
        for layout in LAYOUTS {
            let plan = Owned::zeros(shape).drawn(&mut random);
            damaged(&mut random, &plan, layout, &mut tally);
        }
    }
}

/// Both buffers in every pair of lengths: their own, one more and one fewer, the
/// other's, none, and twice as many. Only their own are accepted.
#[test]
fn lengths() {
    let (mut random, mut tally) = (Random::new(16, 0), Tally::default());
    for columns in [1, 2, 3, 4, 16, 40] {
        let plan = Owned::of_columns(17, columns);
        let [half, full] = LAYOUTS.map(|layout| layout.length(columns));
        let around = |length: usize| [length - 1, length, length + 1, 2 * length];
        let mut lengths = [&around(half)[..], &around(full), &[0, 1]].concat();
        lengths.sort();
        lengths.dedup();
        for &of_full in &lengths {
            for &of_half in &lengths {
                let right = (of_full, of_half) == (full, half);
                let expected = if right { 0 } else { 4 };
                let mut target = random.bytes(of_half, 256);
                let answer = twins::to_half(&plan, &vec![0; of_full], &mut target, &mut tally);
                assert_eq!(answer, expected, "C = {columns}, {of_full} to {of_half}");
                let mut target = random.bytes(of_full, 256);
                let answer = twins::to_full(&plan, &vec![0; of_half], &mut target, &mut tally);
                assert_eq!(answer, expected, "C = {columns}, {of_half} to {of_full}");
            }
        }
    }
}

/// What the two moves are lent, with nothing wrong at first.
struct Moves {
    plan: Owned,
    full: Vec<u8>,
    half: Vec<u8>,
}

impl Moves {
    fn new(random: &mut Random) -> Moves {
        let plan = Owned::zeros([5, 2, 2, 1, 1]).drawn(random);
        let half = reduced(random, &plan, 2);
        let full = plan.widened(&half);
        Moves { plan, full, half }
    }

    /// Makes both moves meet this cause, whatever others they meet.
    fn spoil(&mut self, random: &mut Random, cause: u8) {
        let plan = &mut self.plan;
        match (cause, random.below(4)) {
            (1, _) => plan.p = random.pick(&[0, 1, 4, 9, 253, 261, usize::MAX]),
            (2, 0) => plan.s = 1,
            (2, 1) => plan.radices[1] = 1,
            (2, _) => plan.radices = vec![2, 2, 0],
            (3, 0) => plan.t = 33,
            (3, 1) => plan.m = 63,
            // Of 2, which no s and no p forbids.
            (3, _) => plan.radices = [&plan.radices[..], &[2; 13]].concat(),
            (4, 0) => self.full.push(0),
            (4, 1) => drop(self.full.pop()),
            (4, 2) => self.half.push(0),
            (4, _) => drop(self.half.pop()),
            (5, 0) => plan.weights[0] = 255,
            (5, 1) => plan.tables[4] = 255,
            (5, _) => plan.d[2] = 255,
            // In row 0, which both layouts have at their front.
            (_, 0) => (self.full[0], self.half[0]) = (2, 2),
            (_, 1) => (self.full[6], self.half[6]) = (5, 5),
            (_, _) => (self.full[3], self.half[3]) = (255, 255),
        }
    }
}

/// Every set of the causes 1 to 6: the first is answered. Pairs are among them, so
/// that with the first put right the second is answered.
#[test]
fn every_set_of_causes() {
    let mut tally = Tally::default();
    cases("sets of causes", 5, |random| {
        for set in 0..1 << 6 {
            let mut lent = Moves::new(random);
            let met: Vec<u8> = (1..=6)
                .filter(|cause| set >> (cause - 1) & 1 == 1)
                .collect();
            met.iter().for_each(|&cause| lent.spoil(random, cause));
            let first = met.first().copied().unwrap_or(0);
            let Moves { plan, full, half } = lent;
            let mut target = random.bytes(half.len(), 256);
            let answer = twins::to_half(&plan, &full, &mut target, &mut tally);
            assert_eq!(answer, first, "to_half, {met:?}");
            let mut target = random.bytes(full.len(), 256);
            let answer = twins::to_full(&plan, &half, &mut target, &mut tally);
            assert_eq!(answer, first, "to_full, {met:?}");
        }
    });
    tally.complete(&CAUSES, 0);
}

/// A store in the full layout is refused with 4 by every other call, but for one
/// column, where the layouts are the same.
#[test]
fn a_full_store_in_other_calls() {
    let (mut random, mut tally) = (Random::new(17, 0), Tally::default());
    for shape in [
        [5, 2, 1, 0, 0],
        [3, 2, 2, 0, 0],
        [3, 2, 2, 0, 1],
        [251, 2, 3, 3, 2],
        [17, 2, 8, 24, 8],
        LARGEST[0],
    ] {
        let plan = Owned::zeros(shape).drawn(&mut random);
        for one_row_in in [1, 3] {
            let half = reduced(&mut random, &plan, one_row_in);
            let mut full = full_of(&mut random, &plan, &half, &mut tally);
            if plan.columns() == 1 {
                assert_eq!(full, half);
                assert_eq!(twins::test(&plan, &full, &mut tally), 0);
                continue;
            }
            let (entry, value) = (random.below(plan.entries()), random.below(plan.s));
            assert_eq!(twins::test(&plan, &full, &mut tally), 4);
            let filed = twins::file(&plan, &mut full, entry, value, &mut tally);
            assert_eq!(filed, Err(4));
            let settled = twins::settle(&plan, &full, entry, &mut tally);
            assert_eq!(settled.err(), Some(4));
            let general = twins::general(&plan, &mut full, &mut tally);
            assert_eq!(general, Err(4));
            // As the store with records, and as the work store.
            let empty = Recorded::empty(&mut random, &plan);
            let (mut store, mut work) = (empty.clone(), empty);
            (store.store, work.work) = (full.clone(), full.clone());
            for mut wrong in [store, work] {
                let filed = wrong.file(&plan, entry, value, &mut tally);
                assert_eq!(filed, Err(4));
                assert_eq!(wrong.withdraw(&plan, entry, &mut tally), Err(4));
            }
            let mut beta = random.bytes(plan.columns(), 256);
            let read_off = twins::coefficients(&plan, &full, &mut beta, &mut tally);
            assert_eq!(read_off, 4);
        }
    }
}

/// Every pair of bytes under p = 3 with one column: the moves copy what the test
/// accepts, both ways.
#[test]
fn one_column() {
    let (mut random, mut tally) = (Random::new(18, 0), Tally::default());
    let plan = Owned::zeros([3, 2, 1, 0, 0]);
    for first in 0..=255 {
        for second in 0..=255 {
            let store = [first, second];
            let sound = second < 3 && (first == 1 || first == 0 && second == 0);
            let expected = if sound { 0 } else { 6 };
            for to in [twins::to_half, twins::to_full] {
                let old = random.bytes(2, 256);
                let mut target = old.clone();
                assert_eq!(to(&plan, &store, &mut target, &mut tally), expected);
                assert_eq!(target, if sound { store.to_vec() } else { old });
            }
        }
    }
}
