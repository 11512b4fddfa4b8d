//! Filing and withdrawing beside records, with all entries of a table listed
//! but one, and with all: beside the filing of the same entry without records,
//! and beside the reference.

use crate::calls::numbers;
use crate::plans::Case;
use crate::timing::{nanoseconds, race, rounds, shown, Contender};
use celerycrag::{raw, Plan, Record, Store};
use std::hint::black_box;

/// With more entries than this, the reference would take long and is left out.
const WHOLE: usize = 256;

/// What stands above the table.
pub const INTRODUCTION: &str = "\
One entry through `celery_file_recorded`, the last of the table, with all others \
listed; and one through `celery_withdraw`, from the middle of the list, with all \
listed. Both file the whole list in a work store to test it, and a withdrawal files \
it once more without the entry. *Listed* is the length of the list, *an entry* the \
time by that length. *celery_file* is the filing of the same entry on the same store \
without records; of a withdrawn one, which the store implies. What the calls change is \
put back before the time starts. The reference is left out for more than 256 entries; \
its store and records are compared with the library's and are the same.

| call | C | p | listed | library | an entry | celery_file | reference | times |
|---|---|---|---|---|---|---|---|---|";

/// A store and the records of its entries, as the calls are lent them.
#[derive(Clone, PartialEq)]
struct Listed {
    store: Vec<u8>,
    records: Vec<Record>,
    count: usize,
}

/// A call with records.
#[derive(Clone, Copy)]
enum Call {
    File { entry: usize, value: usize },
    Withdraw { entry: usize },
}

impl Listed {
    /// The first entries of the table, so many of them.
    fn new(case: &Case, count: usize) -> Listed {
        let mut store = Store::new(&case.plan);
        let mut records = vec![Record::default(); case.plan.entries()];
        for (entry, &value) in case.values.iter().enumerate().take(count) {
            store.file(entry, value).expect("an entry kept");
            let (entry, value) = (entry as u16, value as u16);
            records[usize::from(entry)] = Record { entry, value };
        }
        let store = store.into_bytes();
        Listed {
            store,
            records,
            count,
        }
    }

    /// Takes over what another has, in its own place.
    fn put(&mut self, other: &Listed) {
        self.store.copy_from_slice(&other.store);
        self.records.copy_from_slice(&other.records);
        self.count = other.count;
    }

    /// Makes the call by the library.
    fn by_library(&mut self, plan: &Plan, work: &mut [u8], call: Call) {
        let (store, records, count) = (&mut self.store, &mut self.records, &mut self.count);
        let plan = plan.lent();
        let number = match call {
            Call::File { entry, value } => {
                let column = &mut 0;
                raw::file_recorded(plan, store, work, records, count, entry, value, column)
            }
            Call::Withdraw { entry } => {
                raw::withdraw(plan, store, work, records, count, entry, &mut 0)
            }
        };
        assert_eq!(black_box(number), 0, "an accepted call");
    }

    /// Makes the call by the reference.
    fn by_reference(&mut self, plan: &Plan, work: &mut [u8], call: Call) {
        let [p, s, n, m, t] = numbers(plan);
        let (radices, weights) = (plan.radices(), plan.weights());
        let (tables, d) = (plan.tables(), plan.d());
        let theirs = |&Record { entry, value }: &_| reference::Record { entry, value };
        let mut list: Vec<reference::Record> = self.records.iter().map(theirs).collect();
        let (store, mut end) = (&mut self.store, self.count as u64);
        let (records, count) = (&mut list, &mut end);
        match call {
            Call::File { entry, value } => {
                let (entry, value) = (entry as u64, value as u64);
                black_box(reference::file_recorded(
                    p, s, n, m, t, radices, weights, tables, d, store, work, records, count, entry,
                    value,
                ));
            }
            Call::Withdraw { entry } => {
                let entry = entry as u64;
                black_box(reference::withdraw(
                    p, s, n, m, t, radices, weights, tables, d, store, work, records, count, entry,
                ));
            }
        }
        self.count = end as usize;
        let ours = |&reference::Record { entry, value }: &_| Record { entry, value };
        self.records = list.iter().map(ours).collect();
    }
}

/// A line of the table: the call on this list, and the entry's filing with this
/// value.
fn line(name: &str, case: &Case, listed: &Listed, call: Call) -> String {
    let plan = &case.plan;
    let [mut work, mut other_work] = [(); 2].map(|()| Store::new(plan).into_bytes());
    let [mut lent, mut other] = [(); 2].map(|()| listed.clone());
    let mut store = listed.store.clone();
    let whole = plan.entries() <= WHOLE;
    if whole {
        lent.by_library(plan, &mut work, call);
        other.by_reference(plan, &mut other_work, call);
        assert!(lent == other, "what {name} leaves");
    }
    let library: Contender = Box::new(|| {
        lent.put(listed);
        nanoseconds(|| lent.by_library(plan, black_box(&mut work), call))
    });
    let (entry, value) = match call {
        Call::File { entry, value } => (entry, value),
        Call::Withdraw { entry } => (entry, case.values[entry]),
    };
    let filing: Contender = Box::new(|| {
        store.copy_from_slice(&listed.store);
        nanoseconds(|| {
            let store = black_box(&mut store[..]);
            black_box(raw::file(plan.lent(), store, entry, value, &mut 0));
        })
    });
    let mut contenders = vec![library, filing];
    if whole {
        contenders.push(Box::new(|| {
            other.put(listed);
            nanoseconds(|| other.by_reference(plan, black_box(&mut other_work), call))
        }));
    }
    let least = race(rounds(plan.entries()), contenders);

    let (library, filing) = (least[0], least[1]);
    let reference = match least.get(2) {
        Some(&reference) => format!("{} | {:.1}", shown(reference), reference / library),
        None => "– | –".to_string(),
    };
    format!(
        "| {name} | {} | {} | {} | {} | {} | {} | {reference} |",
        plan.columns(),
        plan.shape().p,
        listed.count,
        shown(library),
        shown(library / listed.count as f64),
        shown(filing),
    )
}

/// The last entry, filed with all others listed.
pub fn file_line(case: &Case) -> String {
    let entry = case.plan.entries() - 1;
    let value = case.values[entry];
    let listed = Listed::new(case, entry);
    line("file", case, &listed, Call::File { entry, value })
}

/// An entry withdrawn from the middle of the list of all.
pub fn withdraw_line(case: &Case) -> String {
    let entries = case.plan.entries();
    let listed = Listed::new(case, entries);
    let entry = entries / 2;
    line("withdraw", case, &listed, Call::Withdraw { entry })
}
