//! Entries withdrawn: the library with the reference on lists of filings,
//! withdrawals and calls that are lent something wrong; each way to be turned
//! away, every set of causes, lengths and counts, and the wrapper's ledger.
//! Store, work store, records with those behind the count, the count, and what
//! is told are compared whole after each call.

mod common;
use celerycrag::{Filed, Ledger, Plan, Record, Refusal, Shape, Store};
use common::faults::fault;
use common::lots::{lot_of, pairs};
use common::plans::{outline, reduced, Owned};
use common::random::{cases, Random};
use common::recorded::{any_record, Recorded};
use common::tally::Tally;

/// The two calls, with the causes that each can meet, in their order.
const CAUSES: [(&str, &[u8]); 2] = [
    ("file_recorded", &[1, 2, 3, 4, 5, 6, 16, 7, 8, 9]),
    ("withdraw", &[1, 2, 3, 4, 5, 6, 16, 7, 17]),
];

/// A plan with few enough entries that a list soon has most of them.
fn small(random: &mut Random, most_columns: usize, most_entries: usize) -> Owned {
    loop {
        let plan = outline(random, most_columns);
        if plan.entries() <= most_entries {
            return plan.drawn(random);
        }
    }
}

/// What is kept, told by what was filed and withdrawn.
#[derive(Default)]
struct Book(Vec<(usize, usize)>);

impl Book {
    fn value(&self, entry: usize) -> Option<usize> {
        let kept = self.0.iter().find(|kept| kept.0 == entry);
        kept.map(|kept| kept.1)
    }

    /// That the list has these, in this order.
    fn is_listed_in(&self, recorded: &Recorded) {
        let listed = recorded.listed().iter();
        let listed = listed.map(|record| (record.entry.into(), record.value.into()));
        assert!(listed.eq(self.0.iter().copied()), "the list");
    }
}

/// A call on a copy that is lent something else in one place or more. The copy
/// is left to itself; what it is taken from goes on.
fn foreign_call(random: &mut Random, plan: &Owned, recorded: &Recorded, tally: &mut Tally) {
    let mut lot = lot_of(random, Owned::zeros([3, 2, 1, 0, 0]));
    lot.plan = plan.clone();
    lot.recorded = recorded.clone();
    lot.entry = random.below(plan.entries());
    lot.value = random.below(plan.s);
    for _ in 0..random.within(1, 3) {
        fault(random, &mut lot);
    }
    let _ = lot
        .recorded
        .clone()
        .file(&lot.plan, lot.entry, lot.value, tally);
    let _ = lot.recorded.withdraw(&lot.plan, lot.entry, tally);
}

/// Files and withdraws so many times, with other calls between. Withdrawals are
/// as frequent as filings, or fewer, so that lists are short and long.
fn list_of_calls(random: &mut Random, plan: &Owned, calls: usize, tally: &mut Tally) {
    let mut recorded = Recorded::empty(random, plan);
    let mut book = Book::default();
    let withdraw_one_in = random.pick(&[2, 3, 6]);
    let table = pairs(random, plan, 0..plan.entries());
    for _ in 0..calls {
        if random.one_in(12) {
            foreign_call(random, plan, &recorded, tally);
        }
        // What the work store holds does not matter; else it is zeros.
        match random.below(8) {
            0 => recorded.work = random.bytes(recorded.store.len(), 256),
            1 => recorded.work.clone_from(&recorded.store),
            _ => {}
        }
        let entry = match book.0.as_slice() {
            [] => random.below(plan.entries()),
            _ if random.one_in(2) => random.below(plan.entries()),
            kept => random.pick(kept).0,
        };
        if random.one_in(withdraw_one_in) {
            let answer = recorded.withdraw(plan, entry, tally);
            assert_eq!(answer, book.value(entry).ok_or(17), "entry {entry}");
            book.0.retain(|kept| kept.0 != entry);
        } else {
            let value = if random.one_in(8) {
                random.below(plan.s)
            } else {
                table[entry].1
            };
            let answer = recorded.file(plan, entry, value, tally);
            match book.value(entry) {
                Some(kept) if kept == value => assert_eq!(answer, Ok(plan.columns())),
                Some(_) => assert_eq!(answer, Err(9)),
                None if answer.is_ok() => book.0.push((entry, value)),
                None => assert_eq!(answer, Err(9)),
            }
        }
        book.is_listed_in(&recorded);
    }
    // The store is that of the list, filed by itself in any order.
    random.shuffle(&mut book.0);
    let again = Recorded::filed(random, plan, book.0.iter().copied());
    assert_eq!((again.count, again.store), (book.0.len(), recorded.store));
}

#[test]
fn lists_of_calls() {
    let mut tally = Tally::default();
    cases("lists of filings and withdrawals", 60, |random| {
        let plan = small(random, 24, 64);
        let calls = random.pick(&[5, 20, 60]);
        list_of_calls(random, &plan, calls, &mut tally);
    });
    tally.complete(&CAUSES, 20_000);
}

/// Whole tables, of which then entries are withdrawn from the front, from the
/// end, and from anywhere, until none is left.
#[test]
fn whole_tables_withdrawn() {
    let mut tally = Tally::default();
    cases("whole tables withdrawn", 10, |random| {
        let plan = small(random, 20, 40);
        let list = pairs(random, &plan, 0..plan.entries());
        let mut recorded = Recorded::filed(random, &plan, list);
        let way = random.below(3);
        while recorded.count > 0 {
            let last = recorded.count - 1;
            let place = [0, last, random.below(last + 1)][way];
            let Record { entry, value } = recorded.records[place];
            let withdrawn = recorded.withdraw(&plan, entry.into(), &mut tally);
            assert_eq!(withdrawn, Ok(value.into()));
            let again = recorded.withdraw(&plan, entry.into(), &mut tally);
            assert_eq!(again, Err(17));
        }
        assert_eq!(recorded.store, plan.empty_store());
    });
}

/// What both calls answer to a list that is at fault, whatever the entry: on
/// copies.
fn refused(recorded: &Recorded, plan: &Owned, number: u8, tally: &mut Tally) {
    for entry in [0, plan.entries() - 1, plan.entries(), usize::MAX] {
        let filed = recorded.clone().file(plan, entry, 0, tally);
        assert_eq!(filed, Err(number), "entry {entry}: {:?}", recorded.listed());
        let withdrawn = recorded.clone().withdraw(plan, entry, tally);
        assert_eq!(withdrawn, Err(number), "entry {entry}");
    }
}

/// A list with one record in place of another.
fn with(recorded: &Recorded, place: usize, record: Record) -> Recorded {
    let mut recorded = recorded.clone();
    recorded.records[place] = record;
    recorded
}

/// Each record of a list in turn: an entry twice, no entry, no value, a
/// contradiction, another store.
#[test]
fn every_way_to_be_16() {
    let mut tally = Tally::default();
    cases("lists that are not those of their store", 15, |random| {
        let plan = small(random, 16, 32);
        let list = pairs(random, &plan, 0..plan.entries());
        let mut recorded = Recorded::filed(random, &plan, list);
        let drop = random.below(recorded.count);
        let dropped = recorded.records[drop];
        let filed = recorded.withdraw(&plan, dropped.entry.into(), &mut tally);
        assert_eq!(filed, Ok(dropped.value.into()));

        let (s, entries) = (plan.s as u16, plan.entries() as u16);
        for place in 0..recorded.count {
            let Record { entry, value } = recorded.records[place];
            let mut expect = |entry, value| {
                let wrong = with(&recorded, place, Record { entry, value });
                refused(&wrong, &plan, 16, &mut tally);
            };
            // What would be right with fewer bits.
            for far in [1 << 8, 1 << 12, 1 << 15] {
                expect(entry, value | far);
                if entry | far >= entries {
                    expect(entry | far, value);
                }
            }
            for none in [entries, entries + 1, u16::MAX] {
                expect(none, value);
            }
            for none in [s, s + 1, plan.p as u16, 255, 256, u16::MAX] {
                if none >= s {
                    expect(entry, none);
                }
            }
            // Another entry of the list again, with its value and with another.
            for other in recorded.listed().to_vec() {
                if other.entry != entry {
                    expect(other.entry, other.value);
                    expect(other.entry, (other.value + 1) % s);
                }
            }
        }
        // The same entry behind its list once more, though it says the same.
        if recorded.count > 0 {
            let mut twice = with(&recorded, recorded.count, recorded.records[0]);
            twice.count += 1;
            refused(&twice, &plan, 16, &mut tally);
        }
        // A store that is not that of the list.
        let other = reduced(random, &plan, 2);
        if other != recorded.store {
            let store = other;
            let wrong = Recorded { store, ..recorded };
            refused(&wrong, &plan, 16, &mut tally);
        }
    });
}

/// A list goes with its store alone: with another value, one entry fewer and
/// one more, it is refused exactly where that is another store, or a
/// contradiction.
#[test]
fn lists_beside_those_of_a_store() {
    let mut tally = Tally::default();
    let mut answers = [0, 0];
    cases("lists beside those of a store", 40, |random| {
        let plan = small(random, 12, 32);
        let some = random.within(1, plan.entries());
        let list = pairs(random, &plan, 0..some);
        let recorded = Recorded::filed(random, &plan, list);
        let mut other = recorded.clone();
        match random.below(4) {
            0 => other.count = random.below(recorded.count + 1),
            1 if other.count < plan.entries() => {
                let place = other.count;
                let entry = random.below(plan.entries());
                if recorded.place(entry).is_none() {
                    let (entry, value) = (entry as u16, random.below(plan.s) as u16);
                    other.records[place] = Record { entry, value };
                    other.count += 1;
                }
            }
            2 if other.count > 0 => {
                let place = random.below(other.count);
                other.records[place].value = random.below(plan.s) as u16;
            }
            _ => random.shuffle(&mut other.records[..recorded.count]),
        }
        let pairs = other.listed().iter();
        let pairs: Vec<_> = pairs.map(|r| (r.entry.into(), r.value.into())).collect();
        let filed = Recorded::filed(random, &plan, pairs);
        let sound = filed.count == other.count && filed.store == other.store;
        // To what is no entry, 7 is answered where the list is in order.
        let expected = Err(if sound { 7 } else { 16 });
        let entry = plan.entries();
        assert_eq!(other.file(&plan, entry, 0, &mut tally), expected);
        assert_eq!(other.withdraw(&plan, entry, &mut tally), expected);
        answers[usize::from(sound)] += 1;
    });
    println!(
        "another list: {}, the same store: {}",
        answers[0], answers[1]
    );
    let enough = answers[0] + answers[1] >= 400;
    assert!(!enough || answers.iter().all(|&count| count >= 60));
}

/// What is behind the count is neither tested nor changed: any bytes will do,
/// also those of listed entries.
#[test]
fn behind_the_count() {
    let mut tally = Tally::default();
    cases("records behind the count", 20, |random| {
        let plan = small(random, 12, 32);
        let some = random.below(plan.entries());
        let list = pairs(random, &plan, 0..some);
        let mut recorded = Recorded::filed(random, &plan, list);
        let count = recorded.count;
        for place in count..plan.entries() {
            recorded.records[place] = match random.below(4) {
                0 if count > 0 => random.pick(recorded.listed()),
                1 => Record::default(),
                _ => any_record(random),
            };
        }
        let entry = random.below(plan.entries());
        let mut copy = recorded.clone();
        let answer = copy.file(&plan, entry, random.below(plan.s), &mut tally);
        assert!(matches!(answer, Ok(_) | Err(9)));
        assert_eq!(copy.records[copy.count..], recorded.records[copy.count..]);
        let expected = recorded.place(entry).ok_or(17);
        let answer = recorded.withdraw(&plan, entry, &mut tally);
        assert_eq!(answer.err(), expected.err());
    });
}

/// Records, work stores and stores in every length about the right one, and
/// counts about the number of records and far above.
#[test]
fn lengths_and_counts() {
    let (mut random, mut tally) = (Random::new(26, 0), Tally::default());
    for columns in [1, 2, 4, 16, 40] {
        let plan = Owned::of_columns(17, columns).drawn(&mut random);
        let list = pairs(&mut random, &plan, 0..2);
        let recorded = Recorded::filed(&mut random, &plan, list);
        let bytes = recorded.store.len();
        for length in [0, 1, bytes - 1, bytes + 1, 2 * bytes, bytes + 256] {
            let (mut store, mut work) = (recorded.clone(), recorded.clone());
            store.store.resize(length, 0);
            work.work.resize(length, 0);
            refused(&store, &plan, 4, &mut tally);
            refused(&work, &plan, 4, &mut tally);
        }
        let entries = plan.entries();
        for length in [0, 1, entries - 1, entries + 1, 2 * entries, entries + 256] {
            let mut wrong = recorded.clone();
            wrong.records.resize(length, Record::default());
            // The count may be above it then; both are 4.
            refused(&wrong, &plan, 4, &mut tally);
            wrong.count = length;
            refused(&wrong, &plan, 4, &mut tally);
        }
        for far in [1, 2, 256, 1 << 16, 1 << 32, 1 << 63, usize::MAX - entries] {
            let count = entries + far;
            refused(
                &Recorded {
                    count,
                    ..recorded.clone()
                },
                &plan,
                4,
                &mut tally,
            );
        }
        // All of them may be listed, where they are entries.
        let all = pairs(&mut random, &plan, 0..entries);
        let all = all.into_iter().map(|(entry, _)| (entry, 0));
        let mut full = Recorded::filed(&mut random, &plan, all);
        assert_eq!(full.count, entries);
        for entry in [0, entries - 1] {
            let again = full.file(&plan, entry, 0, &mut tally);
            assert_eq!(again, Ok(columns));
        }
        assert_eq!(full.withdraw(&plan, 0, &mut tally), Ok(0));
    }
}

/// What a call is lent, with nothing wrong at first.
struct Call {
    plan: Owned,
    recorded: Recorded,
    entry: usize,
    value: usize,
}

impl Call {
    /// Two of four entries are listed, of which one is asked about with its
    /// value.
    fn new(random: &mut Random) -> Call {
        let plan = Owned::zeros([5, 2, 2, 1, 1]).drawn(random);
        let recorded = Recorded::filed(random, &plan, [(2, 0), (1, 0)]);
        assert_eq!(recorded.count, 2);
        let (entry, value) = (2, 0);
        Call {
            plan,
            recorded,
            entry,
            value,
        }
    }

    /// Makes the call meet this cause, whatever others it was made to meet
    /// before.
    fn spoil(&mut self, random: &mut Random, cause: u8) {
        let (plan, recorded) = (&mut self.plan, &mut self.recorded);
        match (cause, random.below(4)) {
            (1, _) => plan.p = random.pick(&[0, 1, 4, 9, 253, 261, usize::MAX]),
            (2, 0) => plan.s = 1,
            (2, 1) => plan.radices[1] = 1,
            (2, _) => plan.radices = vec![2, 2, 0],
            (3, 0) => plan.t = 33,
            (3, 1) => plan.m = 63,
            // Of 2, which no s and no p forbids.
            (3, _) => plan.radices = [&plan.radices[..], &[2; 13]].concat(),
            (4, 0) => recorded.count = random.pick(&[5, 260, 1 << 32, usize::MAX]),
            (4, 1) => recorded.records.push(Record::default()),
            (4, 2) => recorded.work.push(0),
            (4, _) => recorded.store.push(0),
            (5, 0) => plan.weights[0] = 255,
            (5, 1) => plan.tables[4] = 255,
            (5, _) => plan.d[2] = 255,
            (6, _) => recorded.store[0] = 2,
            (7, _) => self.entry = random.pick(&[4, 260, 1 << 16, 1 << 32 | 2, usize::MAX]),
            (8, _) => self.value = random.pick(&[2, 256, 1 << 16, 1 << 32, usize::MAX - 1]),
            (9, _) => self.value ^= 1,
            (16, 0) => recorded.records[1] = recorded.records[0],
            (16, 1) => recorded.records[1].entry |= 256,
            (16, 2) => recorded.records[0].value |= 256,
            (16, _) => recorded.records[0].value = 2,
            (_, _) => self.entry = self.entry.max(3),
        }
    }
}

/// Every set of the causes of a call: the first in their order is answered.
/// Pairs are among them, so that with the first put right the second is
/// answered.
#[test]
fn every_set_of_causes() {
    let mut tally = Tally::default();
    cases("sets of causes", 1, |random| {
        for (call, causes) in CAUSES {
            for set in 0..1 << causes.len() {
                let met = (0..causes.len()).filter(|place| set >> place & 1 == 1);
                let met: Vec<u8> = met.map(|place| causes[place]).collect();
                let mut lent = Call::new(random);
                met.iter().for_each(|&cause| lent.spoil(random, cause));
                let (plan, recorded) = (&lent.plan, &mut lent.recorded);
                let answer = match call {
                    "withdraw" => recorded.withdraw(plan, lent.entry, &mut tally),
                    _ => recorded.file(plan, lent.entry, lent.value, &mut tally),
                };
                let number = answer.err().unwrap_or(0);
                let first = met.first().copied().unwrap_or(0);
                assert_eq!(number, first, "{call}: {met:?}");
            }
        }
    });
    tally.complete(&CAUSES, 0);
}

fn wrapped(plan: &Owned) -> Plan {
    let Owned { p, s, n, m, t, .. } = *plan;
    let shape = Shape { p, s, n, m, t };
    let [radices, weights, tables, d] =
        [&plan.radices, &plan.weights, &plan.tables, &plan.d].map(Vec::clone);
    Plan::new(shape, radices, weights, tables, d).expect("an accepted plan")
}

/// The wrapper's ledger gives the library's answers, and lists what the calls
/// list.
#[test]
fn the_wrapper() {
    let mut tally = Tally::default();
    cases("ledgers of the wrapper", 20, |random| {
        let owned = small(random, 16, 32);
        let plan = wrapped(&owned);
        let (mut ledger, mut recorded) = (Ledger::new(&plan), Recorded::empty(random, &owned));
        for _ in 0..20 {
            let entry = random.below(plan.entries() + 1);
            let number = |refusal: Refusal| refusal.number();
            if random.one_in(3) {
                let answer = ledger.withdraw(entry).map_err(number);
                assert_eq!(answer, recorded.withdraw(&owned, entry, &mut tally));
            } else {
                let value = random.below(owned.s.min(3) + 1);
                let answer = ledger.file(entry, value).map_err(number);
                let column = recorded.file(&owned, entry, value, &mut tally);
                let filed = column.map(|column| match column < plan.columns() {
                    true => Filed::New { column },
                    false => Filed::Implied,
                });
                assert_eq!(answer, filed);
            }
            assert_eq!(ledger.entries(), recorded.listed());
            assert_eq!(ledger.count(), recorded.count);
            assert_eq!(ledger.store().as_bytes(), recorded.store);
        }
        let store = Store::from_bytes(&plan, recorded.store.clone()).expect("a store");
        let again = Ledger::from_store(store.clone(), recorded.listed());
        assert_eq!(again, Ok(ledger));

        // With one record more, of what is no entry or of one that is listed,
        // the store comes back.
        let (entry, value) = (plan.entries() as u16, 0);
        let none = Record { entry, value };
        let more = random.pick(&[&[none], recorded.listed()].concat());
        let list = [recorded.listed(), &[more]].concat();
        let turned_down = Ledger::from_store(store.clone(), &list).expect_err("a wrong list");
        let number = if list.len() > plan.entries() { 4 } else { 16 };
        assert_eq!(turned_down.refusal().number(), number);
        assert_eq!(turned_down.into_store(), store);
    });
}
