//! Document 02, C-12: the digit an unfiled entry already has. Cases by hand, how
//! the reply goes with filing, and what is refused in which order. The reply
//! beside every β of tiny plans is in tests/brute.rs, damage of each kind in
//! tests/reduced.rs, wrong radices in tests/radices.rs.

mod common;
use common::{Owned, Random};
use reference::Filed;
use reference::Settled::{Forced, Free, Refused};

#[test]
fn xor_step_by_step() {
    // The rows are 0 0 0 0, 0 1 0 1, 1 0 1 0 and 2 2 1 1.
    let x = Owned::xor();
    let mut store = x.empty_store();
    assert_eq!(x.settled(&store), [Forced(0), Free(1), Free(0), Free(0)]);
    x.file(&mut store, 1, 1);
    assert_eq!(x.settled(&store), [Forced(0), Forced(1), Free(0), Free(0)]);
    x.file(&mut store, 2, 1);
    let after_two = [Forced(0), Forced(1), Forced(1), Free(2)];
    assert_eq!(x.settled(&store), after_two);
    x.file(&mut store, 3, 0);
    let after_three = [Forced(0), Forced(1), Forced(1), Forced(0)];
    assert_eq!(x.settled(&store), after_three);
}

#[test]
fn a_refused_filing_settles_nothing() {
    let x = Owned::xor();
    let mut store = x.empty_store();
    x.file(&mut store, 1, 1);
    assert_eq!(x.file(&mut store, 1, 0), Filed::Refused(9));
    assert_eq!(x.settled(&store), [Forced(0), Forced(1), Free(0), Free(0)]);
}

#[test]
fn a_residue_may_be_s_or_more() {
    let plan = Owned::mixed(5, 2, &[5], 0, 0);
    let mut store = plan.empty_store();
    assert_eq!(plan.file(&mut store, 1, 1), Filed::New(0));
    assert_eq!(plan.settle(&store, 3), Forced(3));
    assert_eq!(
        plan.settled(&store),
        [Forced(0), Forced(1), Forced(2), Forced(3), Forced(4)]
    );
    // So no value can be filed there.
    assert_eq!(plan.file(&mut store, 3, 0), Filed::Refused(9));
    assert_eq!(plan.file(&mut store, 3, 1), Filed::Refused(9));
    assert_eq!(plan.file(&mut store, 3, 3), Filed::Refused(8));
}

#[test]
fn a_row_of_zeros_is_forced_0_on_any_store() {
    // p = 5 with one product; the link gives 0 at entry 0.
    let plan = Owned {
        weights: vec![1, 1],
        tables: vec![0, 4, 3, 2, 1],
        d: vec![1, 2, 3],
        ..Owned::zeros(5, 2, 2, 1, 1)
    };
    assert_eq!(plan.row(0), [0; 6]);
    let mut store = plan.empty_store();
    assert_eq!(plan.settle(&store, 0), Forced(0));
    for (entry, value) in [(3, 1), (1, 0), (2, 1)] {
        assert!(matches!(plan.file(&mut store, entry, value), Filed::New(_)));
        assert_eq!(plan.settle(&store, 0), Forced(0));
    }
    // A full store that no list of filings left.
    let columns = plan.columns();
    let mut rows = plan.rows(&plan.empty_store());
    for (q, row) in rows.iter_mut().enumerate() {
        (row[q], row[columns]) = (1, 4);
    }
    assert_eq!(plan.settle(&plan.store(&rows), 0), Forced(0));
}

#[test]
fn on_a_full_store_every_entry_is_forced() {
    // β is 3 5 6 modulo 7, and the row is the digits.
    let plan = Owned::mixed(7, 2, &[7, 2, 7], 0, 0);
    let full = [1, 0, 0, 3, 1, 0, 5, 1, 6];
    for entry in 0..plan.entries() {
        let row = plan.row(entry);
        let sum = 3 * row[0] as usize + 5 * row[1] as usize + 6 * row[2] as usize;
        assert_eq!(plan.settle(&full, entry), Forced(sum % 7));
    }
}

#[test]
fn a_month_and_a_bit() {
    // Entry 2 is the month 1 with the bit 0.
    let plan = Owned::mixed(13, 4, &[12, 2], 0, 0);
    let mut store = plan.empty_store();
    assert_eq!(plan.settle(&store, 1), Free(1));
    assert_eq!(plan.settle(&store, 23), Free(0));
    assert_eq!(plan.file(&mut store, 2, 3), Filed::New(0));
    for month in 0..12 {
        let forced = Forced(3 * month as usize % 13);
        assert_eq!(plan.settle(&store, 2 * month), forced);
        assert_eq!(plan.settle(&store, 2 * month + 1), Free(1));
    }
    assert_eq!(plan.settle(&store, 24), Refused(7));

    // With the bit first it is the bit 0 with the month 2, and 2 times 8 is 3.
    let turned = Owned::mixed(13, 4, &[2, 12], 0, 0);
    let mut store = turned.empty_store();
    assert_eq!(turned.file(&mut store, 2, 3), Filed::New(1));
    for month in 0..12 {
        let forced = Forced(8 * month as usize % 13);
        assert_eq!(turned.settle(&store, month), forced);
        assert_eq!(turned.settle(&store, 12 + month), Free(0));
    }
    assert_eq!(turned.settle(&store, 24), Refused(7));
}

#[test]
fn a_link_and_a_product_by_hand() {
    // The rows, entry after entry: 0 0 4 0 0 1, 0 0 0 0 1 0, 0 0 0 0 2 0,
    // 0 4 1 0 3 2, 0 4 4 0 4 4, 1 0 0 1 0 0, 4 4 3 1 1 2, 2 4 3 1 2 4,
    // 0 0 0 1 3 1, 1 4 0 1 4 0.
    let plan = Owned {
        weights: vec![1, 3],
        tables: vec![1, 0, 4, 0, 2],
        d: vec![1, 0, 4],
        ..Owned::mixed(5, 3, &[2, 5], 1, 1)
    };
    let mut store = plan.empty_store();
    let leads = [2, 4, 4, 1, 1, 0, 0, 0, 3, 0];
    assert_eq!(plan.settled(&store), leads.map(Free));

    let news = [(1, 2, 4), (5, 1, 0), (0, 1, 2), (9, 0, 1)];
    for (entry, value, column) in news {
        assert_eq!(plan.settle(&store, entry), Free(column));
        assert_eq!(plan.file(&mut store, entry, value), Filed::New(column));
    }
    // The rows led: 1 0 0 1 0 0 = 1, 0 1 0 0 0 0 = 4, 0 0 1 0 0 4 = 4 and
    // 0 0 0 0 1 0 = 2. Entry 2 is forced beyond s.
    let settled = [
        Forced(1),
        Forced(2),
        Forced(4),
        Free(5),
        Free(5),
        Forced(1),
        Free(3),
        Free(3),
        Free(3),
        Forced(0),
    ];
    assert_eq!(plan.settled(&store), settled);

    assert_eq!(plan.file(&mut store, 3, 0), Filed::New(5));
    let mut settled = settled;
    (settled[3], settled[4]) = (Forced(0), Forced(4));
    assert_eq!(plan.settled(&store), settled);
}

/// That filing answers what the reply says, whatever the value.
fn goes_with_filing(plan: &Owned, store: &[u8], entry: u64) {
    let reply = plan.settle(store, entry);
    if let Forced(residue) = reply {
        let given = plan.equation_1(&plan.beta(store), &plan.digits(entry));
        assert_eq!(given as usize, residue);
    }
    for value in 0..plan.s {
        let mut copy = store.to_vec();
        let filed = plan.file(&mut copy, entry, value);
        let expected = match reply {
            Forced(residue) if residue as u64 == value => Filed::Implied,
            Forced(_) => Filed::Refused(9),
            Free(column) => Filed::New(column),
            Refused(number) => Filed::Refused(number),
        };
        assert_eq!(filed, expected, "entry {entry}, value {value}, {reply:?}");
        if let Free(_) = reply {
            assert_eq!(plan.settle(&copy, entry), Forced(value as usize));
        }
    }
}

#[test]
fn the_reply_goes_with_filing() {
    let mut random = Random::new(6);
    for (p, s, n, m, t) in [
        (5, 4, 2, 3, 2),
        (7, 7, 2, 4, 1),
        (17, 16, 1, 6, 2),
        (251, 3, 3, 5, 3),
        (3, 2, 5, 4, 3),
    ] {
        for _ in 0..8 {
            let plan = Owned::random(&mut random, p, s, n, m, t);
            let mut store = plan.empty_store();
            for entry in 0..plan.entries() {
                goes_with_filing(&plan, &store, entry);
                goes_with_filing(&plan, &store, random.below(plan.entries()));
                plan.file(&mut store, entry, random.below(s));
            }
            goes_with_filing(&plan, &store, random.below(plan.entries()));
            goes_with_filing(&plan, &store, plan.entries());
        }
    }
}

#[test]
fn the_largest_plan_settles() {
    let mut random = Random::new(7);
    let plan = Owned::random(&mut random, 251, 2, 12, 52, 15);
    assert_eq!(plan.columns(), 1_024);
    let mut store = plan.empty_store();
    for (entry, value) in [(4_095, 1), (1, 0), (2_048, 1)] {
        goes_with_filing(&plan, &store, entry);
        plan.file(&mut store, entry, value);
        assert_eq!(plan.settle(&store, entry), Forced(value as usize));
    }
    assert_eq!(plan.settle(&store, 4_096), Refused(7));
}

/// A call: p s n m t = 5 2 2 1 1, the empty store, and an entry whose row is
/// 1 1 4 1 1 4.
#[derive(Clone)]
struct Call {
    plan: Owned,
    store: Vec<u8>,
    entry: u64,
}

impl Call {
    fn new() -> Call {
        let plan = Owned {
            weights: vec![1, 2],
            tables: vec![1, 0, 2, 4, 3],
            d: vec![1, 1, 1],
            ..Owned::zeros(5, 2, 2, 1, 1)
        };
        let (store, entry) = (plan.empty_store(), 3);
        Call { plan, store, entry }
    }

    /// Makes the call meet this cause, whatever others it meets.
    fn spoil(&mut self, cause: u32) {
        match cause {
            1 => self.plan.p = 9,
            2 => self.plan.s = 1,
            3 => self.plan.t = 33,
            4 => self.store.push(0),
            5 => self.plan.d[0] = 255,
            6 => self.store[0] = 2,
            _ => self.entry = 4,
        }
    }
}

#[test]
fn every_set_of_causes_gives_the_first() {
    // Pairs among them: with the first put right, the second is answered.
    for set in 0..1 << 7 {
        let mut call = Call::new();
        let met: Vec<u32> = (1..=7)
            .filter(|cause| set >> (cause - 1) & 1 == 1)
            .collect();
        met.iter().for_each(|&cause| call.spoil(cause));
        let expected = met.first().map_or(Free(0), |&cause| Refused(cause));
        let answer = call.plan.settle(&call.store, call.entry);
        assert_eq!(answer, expected, "{met:?}");
    }
}

#[test]
fn every_part_in_another_length_is_4_and_every_large_byte_5() {
    type Part = fn(&mut Call) -> &mut Vec<u8>;
    let parts: [Part; 4] = [
        |call| &mut call.plan.weights,
        |call| &mut call.plan.tables,
        |call| &mut call.plan.d,
        |call| &mut call.store,
    ];
    let settle = |call: &Call| call.plan.settle(&call.store, call.entry);
    for (place, part) in parts.into_iter().enumerate() {
        let mut call = Call::new();
        part(&mut call).push(0);
        assert_eq!(settle(&call), Refused(4));
        part(&mut call).pop();
        assert_eq!(settle(&call), Free(0));
        part(&mut call).pop();
        assert_eq!(settle(&call), Refused(4));
        part(&mut call).clear();
        assert_eq!(settle(&call), Refused(4));

        // In the store a byte of p is damage.
        let number = if place < 3 { 5 } else { 6 };
        for byte in [5, 255] {
            let mut call = Call::new();
            part(&mut call)[0] = byte;
            assert_eq!(settle(&call), Refused(number));
        }
    }
}

#[test]
fn a_damaged_store_comes_before_the_entry() {
    let x = Owned::xor();
    let mut store = x.empty_store();
    for (entry, value) in [(1, 1), (2, 1), (3, 0)] {
        x.file(&mut store, entry, value);
    }
    let whole = store.clone();
    store[0] = 2;
    for entry in [0, 3, 4, u64::MAX] {
        assert_eq!(x.settle(&store, entry), Refused(6));
    }
    assert_eq!(x.settle(&whole, 4), Refused(7));
    assert_eq!(x.settle(&whole, u64::MAX), Refused(7));
    assert_eq!(x.settle(&whole, 3), Forced(0));
}
