//! Settling entries, free and forced, beside the store test that it begins
//! with, the filing of the same entries, and the reference.

use crate::calls::numbers;
use crate::plans::Case;
use crate::timing::{calls, race, rounds, shown};
use celerycrag::{raw, Filed, Settled, Store};
use std::hint::black_box;

/// The reference is timed on at most so many of the entries, evenly spaced.
const PART: usize = 32;

/// What stands above the table.
pub const INTRODUCTION: &str = "\
Whether an entry is settled, through `celery_settle`, the mean over the entries \
asked. *Forced*: all entries, on the store of the whole table. *Free*: on the store \
of the first tenth of the table, those entries that are free there, with the mean \
of the columns told. *Filed* is how many entries the store was made of. *Store \
test* is its share of the time: the test of the same store by itself, by settle. \
*Filing* is that of the same entries with their values, which the store implies; a \
free entry would change it. The reference is timed on at most 32 of the entries, \
evenly spaced; its replies are compared with the library's and are the same.

| reply | C | p | filed | asked | mean column | settle | store test | filing | reference | times |
|---|---|---|---|---|---|---|---|---|---|---|";

/// What the reference replies.
fn by_reference(store: &Store, entry: usize) -> reference::Settled {
    let plan = store.plan();
    let [p, s, n, m, t] = numbers(plan);
    let (radices, weights) = (plan.radices(), plan.weights());
    let (tables, d) = (plan.tables(), plan.d());
    let (store, entry) = (store.as_bytes(), entry as u64);
    reference::settle(p, s, n, m, t, radices, weights, tables, d, store, entry)
}

/// Whether the two reply the same of an entry.
fn same(store: &Store, entry: usize) -> bool {
    let by_library = match store.settled(entry).expect("an entry") {
        Settled::Forced { residue } => reference::Settled::Forced(residue.into()),
        Settled::Free { column } => reference::Settled::Free(column),
    };
    by_library == by_reference(store, entry)
}

/// A line of the table: the entries asked on a store of so many filings, the
/// mean of their columns where they are free, and their values where they are
/// filed beside.
fn line(
    reply: &str,
    store: &Store,
    filed: usize,
    entries: &[usize],
    mean_column: Option<f64>,
    values: Option<&[usize]>,
) -> String {
    let (plan, bytes) = (store.plan(), store.as_bytes());
    let every = entries.len().div_ceil(PART);
    let part: Vec<usize> = entries.iter().copied().step_by(every).collect();
    assert!(part.iter().all(|&entry| same(store, entry)), "a reply");

    let settle = calls(entries.len(), || {
        for &entry in entries {
            let (mut residue, mut column) = (0, 0);
            let store = black_box(bytes);
            raw::settle(plan.lent(), store, entry, &mut residue, &mut column);
            black_box((residue, column));
        }
    });
    let test = calls(1, || {
        black_box(raw::test(plan.lent(), black_box(bytes)));
    });
    let reference = calls(part.len(), || {
        for &entry in &part {
            black_box(by_reference(store, entry));
        }
    });
    let mut copy = bytes.to_vec();
    let mut contenders = vec![settle, test, reference];
    if let Some(values) = values {
        contenders.push(calls(entries.len(), || {
            for &entry in entries {
                let (value, mut column) = (values[entry], 0);
                let store = black_box(&mut copy[..]);
                raw::file(plan.lent(), store, entry, value, &mut column);
                black_box(column);
            }
        }));
    }
    let least = race(rounds(entries.len()), contenders);

    let (settle, test, reference) = (least[0], least[1], least[2]);
    let none = "–".to_string();
    format!(
        "| settle, {reply} | {} | {} | {filed} | {} | {} | {} | {:.0} % | {} | {} | {:.1} |",
        plan.columns(),
        plan.shape().p,
        entries.len(),
        mean_column.map_or(none.clone(), |mean| format!("{mean:.1}")),
        shown(settle),
        100.0 * test / settle,
        least.get(3).map_or(none, |&filing| shown(filing)),
        shown(reference),
        reference / settle,
    )
}

/// The store of the first tenth of the table, and how many entries that is.
pub fn first_tenth(case: &Case) -> (Store, usize) {
    let filed = case.values.len().div_ceil(10);
    let mut store = Store::new(&case.plan);
    for (entry, &value) in case.values.iter().take(filed).enumerate() {
        store.file(entry, value).expect("an entry kept");
    }
    (store, filed)
}

/// The entries that are free, each with its column.
pub fn free_entries(store: &Store) -> Vec<(usize, usize)> {
    let free = |entry| match store.settled(entry).expect("an entry") {
        Settled::Free { column } => Some((entry, column)),
        Settled::Forced { .. } => None,
    };
    (0..store.plan().entries()).filter_map(free).collect()
}

/// The entries that are free once the first tenth of the table is filed.
pub fn free_line(case: &Case, _full: &Store) -> String {
    let (store, filed) = first_tenth(case);
    let (entries, columns): (Vec<usize>, Vec<usize>) = free_entries(&store).into_iter().unzip();
    assert!(!entries.is_empty(), "no entry is free");
    let mean = columns.iter().sum::<usize>() as f64 / columns.len() as f64;
    line("free", &store, filed, &entries, Some(mean), None)
}

/// All entries on the store of the whole table.
pub fn forced_line(case: &Case, full: &Store) -> String {
    let values = &case.values;
    let entries: Vec<usize> = (0..values.len()).collect();
    let mut copy = full.clone();
    for &entry in &entries {
        assert_eq!(copy.file(entry, values[entry]), Ok(Filed::Implied));
    }
    line("forced", full, values.len(), &entries, None, Some(values))
}
