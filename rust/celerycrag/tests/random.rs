//! The library against the reference on random plans and calls: answers, every
//! byte written, and that a refused call changes nothing.
//!
//!     CELERYCRAG_CASES=100000 CELERYCRAG_SEED=7 cargo test --release --test random -- --nocapture

mod common;
use celerycrag::raw;
use common::faults::{fault, no_radix};
use common::lots::{lot, noise, pairs};
use common::plans::{outline, product, Owned};
use common::random::{cases, Random};
use common::recorded::Recorded;
use common::tally::{Tally, CAUSES};
use common::twins::{self, Lot};
use reference::Settled;

/// Settles an entry, which is forced where it was kept. Then files it with every
/// value, each on a copy of the store: of a forced entry its residue alone is
/// implied, where it is a value at all, and a free one is new in its column.
fn settle(
    plan: &Owned,
    store: &[u8],
    entry: usize,
    kept: Option<usize>,
    tally: &mut Tally,
) -> Settled {
    let settled = twins::settle(plan, store, entry, tally).expect("an accepted call");
    if let Some(value) = kept {
        assert_eq!(settled, Settled::Forced(value), "entry {entry}");
    }
    let none = usize::MAX;
    for value in 0..plan.s {
        let (mut copy, mut column) = (store.to_vec(), none);
        let answer = raw::file(plan.lent(), &mut copy, entry, value, &mut column);
        let expected = match settled {
            Settled::Forced(residue) if residue == value => (0, plan.columns()),
            Settled::Forced(_) => (9, none),
            Settled::Free(column) => (0, column),
            Settled::Refused(number) => (number as u8, none),
        };
        assert_eq!((answer, column), expected, "{settled:?}, value {value}");
    }
    settled
}

/// Files a whole table, with repeated and contradicting entries, faulty calls
/// and settling between, then writes its program and runs it on all inputs.
fn whole_table(random: &mut Random, plan: &Owned, tally: &mut Tally) {
    let mut list = pairs(random, plan, 0..plan.entries());
    if random.one_in(2) {
        random.shuffle(&mut list);
    }
    let mut store = plan.empty_store();
    let mut kept = vec![None; plan.entries()];
    for (entry, value) in list {
        if random.one_in(10) {
            foreign_call(random, plan, &store, tally);
        }
        if random.one_in(10) {
            // The one that is filed next, and any.
            for entry in [entry, random.below(plan.entries())] {
                settle(plan, &store, entry, kept[entry], tally);
            }
        }
        if twins::file(plan, &mut store, entry, value, tally).is_ok() {
            kept[entry] = Some(value);
        }
        if random.one_in(10) {
            // Again, perhaps with another value.
            let (entry, value) = (random.below(entry + 1), random.below(plan.s));
            let answer = twins::file(plan, &mut store, entry, value, tally);
            match kept[entry] {
                Some(before) if before == value => assert_eq!(answer, Ok(plan.columns())),
                Some(_) => assert_eq!(answer, Err(9)),
                None if answer.is_ok() => kept[entry] = Some(value),
                None => {}
            }
        }
    }

    assert_eq!(twins::test(plan, &store, tally), 0);
    let mut beta = random.bytes(plan.columns(), 256);
    assert_eq!(twins::coefficients(plan, &store, &mut beta, tally), 0);
    assert!(twins::worst_norm(plan, &beta, tally).is_ok());
    let slack = random.below(9);
    let room = vec![random.next() as u16; 4 * plan.step_count() + slack];
    let steps = twins::write(plan, &beta, &room, tally).expect("an accepted writing");
    assert_eq!(steps.len(), 4 * plan.step_count());
    let mut back = random.bytes(plan.columns(), 256);
    assert_eq!(twins::read_steps(plan, &steps, &mut back, tally), 0);
    assert_eq!(back, beta, "read back");

    let mut row = vec![0; plan.columns()];
    for (entry, kept) in kept.into_iter().enumerate() {
        let digits = plan.digits(entry);
        let ran = twins::run(plan, &steps, &digits, tally).expect("an accepted run");
        assert_eq!(ran.bootstraps, plan.bootstraps() as u64);
        assert_eq!(twins::row(plan, entry, &mut row, tally), 0);
        assert_eq!(ran.y, plan.product(&row, &beta));
        if let Some(value) = kept {
            assert_eq!(ran.y as usize, value, "entry {entry}");
        }
        if random.one_in(8) {
            if let Settled::Forced(residue) = settle(plan, &store, entry, kept, tally) {
                assert_eq!(ran.y as usize, residue, "entry {entry}");
            }
        }
    }
}

/// A filing on a copy of the store that is lent something else in one place
/// or more.
fn foreign_call(random: &mut Random, plan: &Owned, store: &[u8], tally: &mut Tally) {
    let mut lot = Lot {
        entry: random.below(plan.entries()),
        value: random.below(plan.s),
        row: vec![0; plan.columns()],
        store: store.to_vec(),
        recorded: Recorded::empty(random, plan),
        full: plan.widened(store),
        beta: vec![0; plan.columns()],
        room: vec![],
        steps: vec![],
        digits: vec![0; plan.n],
        text: vec![],
        plan: plan.clone(),
    };
    for _ in 0..random.within(1, 2) {
        fault(random, &mut lot);
    }
    let _ = twins::file(&lot.plan, &mut lot.store, lot.entry, lot.value, tally);
}

#[test]
fn whole_tables() {
    let mut tally = Tally::default();
    cases("whole tables", 1_000, |random| {
        // Long tables take long in the reference; a few are enough.
        let plan = loop {
            let plan = outline(random, 40);
            if plan.entries() <= 64 || random.one_in(12) {
                break plan.drawn(random);
            }
        };
        whole_table(random, &plan, &mut tally);
    });
}

#[test]
fn calls_with_faults() {
    let mut tally = Tally::default();
    cases("calls with faults", 10_000, |random| {
        let mut lot = lot(random, 40);
        for _ in 0..random.pick(&[0, 1, 1, 1, 2, 3]) {
            fault(random, &mut lot);
        }
        twins::all(&lot, &mut tally);
    });
    tally.complete(&CAUSES, 50_000);
}

/// Radices that are wrong in one way, and the answer of every call to them,
/// where all else is right.
fn wrong_radices(random: &mut Random, plan: &Owned) -> (Vec<u8>, u8) {
    let mut radices = plan.radices.clone();
    let place = random.below(plan.n);
    match random.below(7) {
        // One too many, which may also make too many entries; and one too few.
        0 => {
            radices.insert(place, random.within(2, plan.p) as u8);
            let answer = if product(&radices) > 4_096 { 3 } else { 4 };
            (radices, answer)
        }
        1 => {
            radices.remove(place);
            (radices, 4)
        }
        2 => (vec![], 4),
        // One out of range, among n, among too many, and among too many entries.
        3 => {
            radices[place] = no_radix(random, plan.p);
            (radices, 2)
        }
        4 => {
            radices.insert(place, no_radix(random, plan.p));
            (radices, 2)
        }
        5 => {
            radices.resize(plan.n + 13, plan.p as u8);
            radices.insert(random.below(plan.n + 14), no_radix(random, plan.p));
            (radices, 2)
        }
        // Too many entries.
        _ => {
            let most = random.pick(&[13, 16, 32, 64, 300]);
            let radix = random.pick(&[2, plan.p.min(4), plan.p.min(16), plan.p]);
            radices.resize(plan.n + most, radix as u8);
            (radices, 3)
        }
    }
}

#[test]
fn wrong_radices_in_every_call() {
    cases("wrong radices", 300, |random| {
        let mut lot = lot(random, 30);
        let (radices, answer) = wrong_radices(random, &lot.plan);
        lot.plan.radices = radices;
        let mut tally = Tally::default();
        twins::all(&lot, &mut tally);
        assert!(tally.only(answer), "not {answer} alone: {:?}", lot.plan);
    });
}

#[test]
fn noise_of_all_kinds() {
    let mut tally = Tally::default();
    cases("noise", 10_000, |random| {
        twins::all(&noise(random), &mut tally);
    });
}
