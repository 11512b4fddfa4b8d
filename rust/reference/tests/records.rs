//! Document 02, C-18: entries withdrawn. Cases by hand, each way to be turned
//! away, the order of the causes, and lists of filings and withdrawals on small
//! plans beside all β.

mod common;
use common::{call, every_beta, Owned, Random};
use reference::{Filed, Record, Withdrawn};
use std::collections::HashSet;

/// What the two calls are lent to write.
#[derive(Clone, Debug, PartialEq)]
struct Lent {
    store: Vec<u8>,
    work: Vec<u8>,
    records: Vec<Record>,
    count: u64,
}

const NOTHING: Record = Record { entry: 0, value: 0 };

fn record(&(entry, value): &(u16, u16)) -> Record {
    Record { entry, value }
}

fn zeros(bytes: &[u8]) -> bool {
    bytes.iter().all(|&x| x == 0)
}

impl Lent {
    /// An empty store and a count of 0. The work store and the records hold
    /// something, which is not tested.
    fn new(plan: &Owned) -> Lent {
        let (entry, value) = (0xABCD, 0x1234);
        Lent {
            store: plan.empty_store(),
            work: vec![77; plan.empty_store().len()],
            records: vec![Record { entry, value }; plan.entries() as usize],
            count: 0,
        }
    }

    /// The same with this list, and the store that filing it leaves.
    fn of(plan: &Owned, list: &[(u16, u16)]) -> Lent {
        let mut lent = Lent::new(plan);
        for &(entry, value) in list {
            let filed = plan.file(&mut lent.store, entry.into(), value.into());
            assert!(!matches!(filed, Filed::Refused(_)), "{filed:?}");
        }
        for (place, one) in lent.records.iter_mut().zip(list) {
            *place = record(one);
        }
        lent.count = list.len() as u64;
        lent
    }

    /// The list.
    fn listed(&self) -> &[Record] {
        &self.records[..self.count as usize]
    }

    /// What has to be so after every answer: the work store is all zeros once
    /// cause 5 is passed, and all is as it was where the call is refused.
    fn left(&self, before: &Lent, number: u32) {
        match number {
            1..=5 => assert_eq!(self.work, before.work, "the work store"),
            _ => assert!(zeros(&self.work), "the work store is left"),
        }
        if number != 0 {
            let before = Lent {
                work: self.work.clone(),
                ..before.clone()
            };
            assert_eq!(*self, before, "refused with {number}");
        }
    }

    fn file(&mut self, plan: &Owned, entry: u64, value: u64) -> Filed {
        let before = self.clone();
        let Lent {
            store,
            work,
            records,
            count,
        } = self;
        let answer = call!(
            file_recorded,
            plan,
            store,
            work,
            records,
            count,
            entry,
            value
        );
        let number = match answer {
            Filed::Refused(number) => number,
            _ => 0,
        };
        self.left(&before, number);
        if number == 0 {
            // At most the record at the end is another.
            let end = before.count as usize;
            assert_eq!(self.records[..end], before.records[..end]);
            assert!(self.count == before.count || self.count == before.count + 1);
            let behind = self.count as usize;
            assert_eq!(self.records[behind..], before.records[behind..]);
        }
        answer
    }

    fn withdraw(&mut self, plan: &Owned, entry: u64) -> Result<u16, u32> {
        let before = self.clone();
        let Lent {
            store,
            work,
            records,
            count,
        } = self;
        match call!(withdraw, plan, store, work, records, count, entry) {
            Withdrawn::Refused(number) => {
                self.left(&before, number);
                Err(number)
            }
            Withdrawn::Value(value) => {
                self.left(&before, 0);
                let end = before.count as usize;
                assert_eq!(self.count + 1, before.count);
                assert_eq!(self.records[end - 1], NOTHING, "the freed record");
                assert_eq!(self.records[end..], before.records[end..]);
                Ok(value)
            }
        }
    }

    /// What both calls are refused with, whatever the entry.
    fn refused(&self, plan: &Owned) -> u32 {
        let mut numbers = Vec::new();
        for entry in [0, 1, plan.entries(), u64::MAX] {
            let (mut filing, mut withdrawal) = (self.clone(), self.clone());
            numbers.extend(match filing.file(plan, entry, 0) {
                Filed::Refused(number) => Some(number),
                _ => None,
            });
            numbers.extend(withdrawal.withdraw(plan, entry).err());
        }
        assert_eq!(numbers, vec![numbers[0]; 8], "not refused alike");
        numbers[0]
    }
}

/// The value that β gives to each entry.
fn outputs(plan: &Owned, beta: &[u8]) -> Vec<u8> {
    let steps = plan.steps(beta);
    let run = |entry| plan.run(&steps, &plan.digits(entry)).expect("a run").y;
    (0..plan.entries()).map(run).collect()
}

#[test]
fn xor_with_one_output_corrected() {
    let x = Owned::xor();
    let mut lent = Lent::new(&x);
    assert_eq!(lent.file(&x, 1, 1), Filed::New(1));
    assert_eq!(lent.file(&x, 2, 1), Filed::New(0));
    assert_eq!(lent.file(&x, 3, 0), Filed::New(2));
    assert_eq!(lent.file(&x, 0, 0), Filed::Implied);
    assert_eq!(
        lent.listed(),
        [(1, 1), (2, 1), (3, 0), (0, 0)].map(|x| record(&x))
    );
    assert_eq!(outputs(&x, &x.beta(&lent.store)), [0, 1, 1, 0]);
    // As long as entry 1 is kept, it cannot be 0.
    assert_eq!(lent.file(&x, 1, 0), Filed::Refused(9));

    assert_eq!(lent.withdraw(&x, 1), Ok(1));
    assert_eq!(lent.count, 3);
    assert_eq!(
        lent.records,
        [(2, 1), (3, 0), (0, 0), (0, 0)].map(|x| record(&x))
    );
    let without = Lent::of(&x, &[(2, 1), (3, 0), (0, 0)]);
    assert_eq!(lent.store, without.store);

    assert_eq!(lent.file(&x, 1, 0), Filed::New(2));
    assert_eq!(lent.count, 4);
    assert_eq!(lent.records[3], record(&(1, 0)));
    assert_eq!(outputs(&x, &x.beta(&lent.store)), [0, 0, 1, 0]);
}

/// One digit of radix 5, p = s = 5: the value of an entry is its number times
/// β.
fn digit() -> Owned {
    Owned::zeros(5, 5, 1, 0, 0)
}

#[test]
fn an_implied_entry_carries_the_store() {
    let plan = digit();
    let mut lent = Lent::new(&plan);
    assert_eq!(lent.file(&plan, 1, 2), Filed::New(0));
    assert_eq!(lent.file(&plan, 3, 1), Filed::Implied);
    assert_eq!(lent.file(&plan, 0, 0), Filed::Implied);
    assert_eq!(lent.store, [1, 2]);

    // Without the entry that was New the store stays, since 3 times β is 1 for
    // β = 2 alone: entry 1 still has no other value.
    assert_eq!(lent.withdraw(&plan, 1), Ok(2));
    assert_eq!(lent.store, [1, 2]);
    assert_eq!(lent.listed(), [(3, 1), (0, 0)].map(|x| record(&x)));
    assert_eq!(lent.file(&plan, 1, 0), Filed::Refused(9));
    assert_eq!(lent.file(&plan, 1, 2), Filed::Implied);
    assert_eq!(lent.withdraw(&plan, 1), Ok(2));

    // Without that one too, entry 0 is kept, and the store is empty.
    assert_eq!(lent.withdraw(&plan, 3), Ok(1));
    assert_eq!(lent.store, [0, 0]);
    assert_eq!(lent.listed(), [record(&(0, 0))]);
    assert_eq!(lent.file(&plan, 1, 0), Filed::New(0));
    assert_eq!(lent.withdraw(&plan, 0), Ok(0));
    assert_eq!(lent.listed(), [record(&(1, 0))]);
    assert_eq!(lent.withdraw(&plan, 1), Ok(0));
    assert_eq!((lent.count, zeros(&lent.store)), (0, true));
}

#[test]
fn a_listed_entry_filed_again() {
    let plan = digit();
    let mut lent = Lent::of(&plan, &[(3, 1), (0, 0), (2, 4)]);
    let before = lent.clone();
    for (entry, value) in [(3, 1), (0, 0), (2, 4)] {
        assert_eq!(lent.file(&plan, entry, value), Filed::Implied);
        for other in (0..5).filter(|&other| other != value) {
            assert_eq!(lent.file(&plan, entry, other), Filed::Refused(9));
        }
    }
    assert_eq!((&lent.records, lent.count), (&before.records, before.count));
    assert_eq!(lent.store, before.store);
}

#[test]
fn from_no_entry_to_all_of_them_and_back() {
    let mut random = Random::new(26);
    for (p, s, n, m, t) in [
        (3, 2, 2, 0, 1),
        (5, 3, 2, 1, 1),
        (7, 2, 4, 2, 0),
        (13, 13, 1, 0, 0),
    ] {
        let plan = Owned::random(&mut random, p, s, n, m, t);
        let entries = plan.entries();
        let mut lent = Lent::new(&plan);
        // With the value 0 each entry is kept.
        for entry in 0..entries {
            assert!(!matches!(lent.file(&plan, entry, 0), Filed::Refused(_)));
            assert_eq!(lent.count, entry + 1);
        }
        let full = lent.clone();
        for entry in 0..entries {
            assert_eq!(lent.file(&plan, entry, 0), Filed::Implied);
        }
        assert_eq!(lent, full);
        // The first, the last and those between, until none is left.
        let mut left: Vec<u64> = (0..entries).collect();
        while !left.is_empty() {
            let place = match left.len() % 3 {
                0 => 0,
                1 => left.len() - 1,
                _ => random.below(left.len() as u64) as usize,
            };
            let entry = left.remove(place);
            assert_eq!(lent.withdraw(&plan, entry), Ok(0));
            assert_eq!(lent.withdraw(&plan, entry), Err(17));
            let listed = lent.listed().iter().map(|record| u64::from(record.entry));
            assert!(listed.eq(left.iter().copied()));
        }
        assert_eq!((lent.count, zeros(&lent.store)), (0, true));
        assert!(lent.records.iter().all(|&record| record == NOTHING));
    }
}

#[test]
fn an_entry_that_is_not_listed_is_17() {
    let x = Owned::xor();
    let mut empty = Lent::new(&x);
    for entry in 0..4 {
        assert_eq!(empty.withdraw(&x, entry), Err(17));
    }
    // Not one that the store implies, nor one behind the count.
    let mut lent = Lent::of(&x, &[(1, 1), (2, 1)]);
    lent.records[2] = record(&(3, 0));
    assert_eq!(lent.withdraw(&x, 0), Err(17));
    assert_eq!(lent.withdraw(&x, 3), Err(17));
    for entry in [4, 256, 65_536, 65_537, 1 << 32, u64::MAX] {
        assert_eq!(lent.withdraw(&x, entry), Err(7));
        assert_eq!(lent.file(&x, entry, 0), Filed::Refused(7));
    }
    for value in [2, 256, 257, 65_536, 65_537, u64::MAX] {
        assert_eq!(lent.file(&x, 1, value), Filed::Refused(8));
        assert_eq!(lent.file(&x, 3, value), Filed::Refused(8));
    }
    assert_eq!(lent.withdraw(&x, 2), Ok(1));
    assert_eq!(lent.withdraw(&x, 2), Err(17));
}

/// The list with one record in place of another.
fn with(lent: &Lent, place: usize, one: (u16, u16)) -> Lent {
    let mut lent = lent.clone();
    lent.records[place] = record(&one);
    lent
}

#[test]
fn every_way_to_be_16() {
    let x = Owned::xor();
    let lent = Lent::of(&x, &[(1, 1), (2, 1), (0, 0)]);
    assert_eq!(lent.clone().file(&x, 3, 0), Filed::New(2));
    // An entry twice: with the same value, and with another. Filed in order,
    // the first leaves the lent store.
    assert_eq!(with(&lent, 2, (1, 1)).refused(&x), 16);
    assert_eq!(with(&lent, 2, (1, 0)).refused(&x), 16);
    assert_eq!(
        with(&Lent::of(&x, &[(0, 0), (0, 0)]), 2, (3, 0)).refused(&x),
        16
    );
    // No entry, also where its last bits are one.
    for entry in [4, 5, 255, 256, 260, 32_768, 65_535] {
        assert_eq!(with(&lent, 2, (entry, 0)).refused(&x), 16);
    }
    // No value, also where it is one modulo 3, or its last byte is.
    for value in [2, 3, 255, 256, 257, 32_768, 65_535] {
        assert_eq!(with(&lent, 2, (0, value)).refused(&x), 16);
    }
    for value in [3, 4, 257, 65_535] {
        assert_eq!(with(&lent, 0, (1, value)).refused(&x), 16);
    }
    // A contradiction: entry 0 can only be 0.
    assert_eq!(with(&lent, 2, (0, 1)).refused(&x), 16);
    assert_eq!(with(&lent, 0, (0, 1)).refused(&x), 16);
    // The store of another list: another value, another entry, one more, one
    // fewer.
    assert_eq!(with(&lent, 1, (2, 0)).refused(&x), 16);
    assert_eq!(with(&lent, 1, (3, 1)).refused(&x), 16);
    for count in [0, 1, 4] {
        let mut other = Lent {
            count,
            ..lent.clone()
        };
        other.records[3] = record(&(3, 0));
        assert_eq!(other.refused(&x), 16, "{count}");
    }
    // Entry 0 adds nothing, so that a list without it has the same store.
    let mut fewer = Lent {
        count: 2,
        ..lent.clone()
    };
    assert_eq!(fewer.withdraw(&x, 1), Ok(1));
    // In another order it is another list with the same store.
    let mut other = Lent {
        store: lent.store.clone(),
        ..Lent::of(&x, &[(0, 0), (2, 1), (1, 1)])
    };
    assert_eq!(other.withdraw(&x, 2), Ok(1));
    // A store that no list gives: 3 times 2 is s or more.
    let plan = Owned { s: 2, ..digit() };
    let none = Lent {
        store: vec![1, 2],
        ..Lent::new(&plan)
    };
    assert_eq!(none.refused(&plan), 16);
    assert_eq!(
        with(&Lent { count: 1, ..none }, 0, (1, 2)).refused(&plan),
        16
    );
}

#[test]
fn every_other_length_and_count_is_4() {
    let x = Owned::xor();
    let lent = Lent::of(&x, &[(1, 1), (2, 1)]);
    for length in [0, 1, 2, 3, 5, 8, 256, 4_100] {
        let mut other = lent.clone();
        other.records.resize(length, NOTHING);
        assert_eq!(other.refused(&x), 4, "{length} records");
    }
    for count in [5, 6, 256, 260, 65_536, 1 << 32, 1 << 63, u64::MAX] {
        let other = Lent {
            count,
            ..lent.clone()
        };
        assert_eq!(other.refused(&x), 4, "a count of {count}");
    }
    for length in [0, 1, 13, 15, 20, 28] {
        let mut other = lent.clone();
        other.work.resize(length, 1);
        assert_eq!(other.refused(&x), 4, "{length} bytes of work store");
        let mut other = lent.clone();
        other.store.resize(length, 0);
        assert_eq!(other.refused(&x), 4, "{length} bytes of store");
    }
    // A count of all records is right, if they are all listed; here the last
    // two are no entries.
    assert_eq!(Lent { count: 4, ..lent }.refused(&x), 16);
}

/// A call: p s n m t = 5 2 2 1 1, and a list of two of the four entries.
#[derive(Clone)]
struct Call {
    plan: Owned,
    lent: Lent,
    entry: u64,
    value: u64,
}

impl Call {
    fn new() -> Call {
        let plan = Owned {
            weights: vec![1, 2],
            tables: vec![1, 0, 2, 4, 3],
            d: vec![1, 1, 1],
            ..Owned::zeros(5, 2, 2, 1, 1)
        };
        let lent = Lent::of(&plan, &[(2, 1), (0, 1)]);
        let (entry, value) = (2, 1);
        Call {
            plan,
            lent,
            entry,
            value,
        }
    }

    /// Makes the call meet this cause, whatever others it was made to meet
    /// before.
    fn spoil(&mut self, cause: u32) {
        match cause {
            1 => self.plan.p = 9,
            2 => self.plan.s = 1,
            3 => self.plan.t = 33,
            4 => self.lent.count = 5,
            5 => self.plan.d[0] = 255,
            6 => self.lent.store[0] = 2,
            7 => self.entry = 4,
            8 => self.value = 2,
            9 => self.value ^= 1,
            16 => self.lent.records[1] = record(&(2, 1)),
            _ => self.entry = self.entry.max(3),
        }
    }
}

/// Every set of these causes gives the first, in the order in which they stand.
fn every_set_gives_the_first(causes: &[u32], answer: impl Fn(&mut Call) -> u32) {
    for set in 0..1 << causes.len() {
        let met = (0..causes.len()).filter(|place| set >> place & 1 == 1);
        let met: Vec<u32> = met.map(|place| causes[place]).collect();
        let mut call = Call::new();
        met.iter().for_each(|&cause| call.spoil(cause));
        let first = met.first().copied().unwrap_or(0);
        assert_eq!(answer(&mut call), first, "{met:?}");
    }
}

#[test]
fn every_set_of_causes() {
    every_set_gives_the_first(&[1, 2, 3, 4, 5, 6, 16, 7, 8, 9], |call| {
        match call.lent.file(&call.plan, call.entry, call.value) {
            Filed::Refused(number) => number,
            _ => 0,
        }
    });
    every_set_gives_the_first(&[1, 2, 3, 4, 5, 6, 16, 7, 17], |call| {
        let answer = call.lent.withdraw(&call.plan, call.entry);
        answer.err().unwrap_or(0)
    });
}

#[test]
fn lengths_come_before_values() {
    let mut call = Call::new();
    call.plan.weights[0] = 5;
    assert_eq!(call.lent.refused(&call.plan), 5);
    type Change = fn(&mut Lent);
    let changes: [Change; 4] = [
        |lent| lent.store.push(0),
        |lent| lent.work.push(0),
        |lent| lent.records.push(NOTHING),
        |lent| lent.count = 5,
    ];
    for change in changes {
        let mut lent = call.lent.clone();
        change(&mut lent);
        assert_eq!(lent.refused(&call.plan), 4);
    }
}

/// Random filings and withdrawals from an empty store on, each beside all β:
/// what is kept is what was filed and not withdrawn since. Tells how often an
/// entry that had been new was withdrawn, and the others carried the store.
fn beside_every_beta(random: &mut Random, plan: &Owned, length: usize) -> usize {
    let digits: Vec<Vec<u8>> = (0..plan.entries()).map(|i| plan.digits(i)).collect();
    let table = |beta: &Vec<u8>| -> Vec<u64> {
        let value = |digits: &Vec<u8>| plan.equation_1(beta, digits).into();
        digits.iter().map(value).collect()
    };
    let betas = every_beta(plan);
    let all: Vec<Vec<u64>> = betas.iter().map(table).collect();
    // The β, by their numbers, that give these entries their values.
    let fitting = |kept: &[(u64, u64)]| -> Vec<usize> {
        let gives = |table: &Vec<u64>| kept.iter().all(|&(i, value)| table[i as usize] == value);
        (0..all.len()).filter(|&k| gives(&all[k])).collect()
    };

    let mut lent = Lent::new(plan);
    let mut kept: Vec<(u64, u64)> = Vec::new();
    let (mut new, mut carried) = (HashSet::new(), 0);
    for _ in 0..length {
        let entry = random.below(plan.entries());
        let place = kept.iter().position(|&(i, _)| i == entry);
        if random.below(3) == 0 {
            let before = lent.store.clone();
            let answer = lent.withdraw(plan, entry);
            let expected = match place {
                Some(place) => Ok(kept.remove(place).1 as u16),
                None => Err(17),
            };
            assert_eq!(answer, expected);
            let was_new = answer.is_ok() && new.remove(&entry);
            carried += usize::from(was_new && lent.store == before);
        } else {
            let value = random.below(plan.s);
            let before = fitting(&kept);
            let after = fitting(&[&kept[..], &[(entry, value)]].concat());
            let answer = lent.file(plan, entry, value);
            assert_eq!(answer == Filed::Refused(9), after.is_empty());
            assert_eq!(answer == Filed::Implied, after == before);
            if !after.is_empty() && place.is_none() {
                kept.push((entry, value));
            }
            if matches!(answer, Filed::New(_)) {
                new.insert(entry);
            }
        }
        let listed = lent.listed().iter();
        let listed = listed.map(|record| (u64::from(record.entry), u64::from(record.value)));
        assert!(listed.eq(kept.iter().copied()), "the list");

        // The store has the solutions of what is kept, and no others.
        assert_eq!(plan.test(&lent.store), 0);
        let rows = plan.rows(&lent.store);
        let solves = |beta: &[u8]| {
            rows.iter().all(|row| {
                let (left, right) = row.split_at(plan.columns());
                let terms = left
                    .iter()
                    .zip(beta)
                    .map(|(&x, &y)| u64::from(x) * u64::from(y));
                terms.sum::<u64>() % plan.p == u64::from(right[0])
            })
        };
        let solving = (0..all.len()).filter(|&k| solves(&betas[k]));
        assert!(solving.eq(fitting(&kept)), "the solutions");
    }
    let given = outputs(plan, &plan.beta(&lent.store));
    for (entry, value) in kept {
        assert_eq!(u64::from(given[entry as usize]), value);
    }
    carried
}

#[test]
fn filings_and_withdrawals_beside_every_beta() {
    let mut random = Random::new(27);
    let mut carried = 0;
    for (p, s, n, m, t) in [
        (3, 2, 2, 0, 1),
        (3, 3, 1, 1, 1),
        (3, 2, 2, 1, 0),
        (3, 3, 2, 0, 1),
        (3, 2, 2, 1, 1),
        (3, 3, 1, 4, 0),
        (5, 4, 2, 0, 1),
        (5, 5, 1, 1, 0),
        (7, 3, 2, 1, 0),
        (23, 5, 2, 0, 0),
    ] {
        for _ in 0..12 {
            let plan = Owned::random(&mut random, p, s, n, m, t);
            carried += beside_every_beta(&mut random, &plan, 25);
        }
    }
    assert!(carried >= 20, "{carried}");
}

#[test]
fn the_store_of_a_list_goes_with_any_way_to_it() {
    // Filed here with records, there without, and taken away again in any
    // order.
    let mut random = Random::new(28);
    for round in 0..40 {
        let p = [3, 5, 17, 251][round % 4];
        let (n, m, t) = (1 + random.below(3), random.below(4), random.below(3));
        let plan = Owned::random(&mut random, p, 2, n, m, t);
        let mut lent = Lent::new(&plan);
        for _ in 0..30 {
            let entry = random.below(plan.entries().min(40));
            if random.below(3) == 0 {
                let _ = lent.withdraw(&plan, entry);
            } else {
                let _ = lent.file(&plan, entry, random.below(2));
            }
            let list: Vec<(u16, u16)> = lent.listed().iter().map(|r| (r.entry, r.value)).collect();
            assert_eq!(lent.store, Lent::of(&plan, &list).store);
        }
    }
}
