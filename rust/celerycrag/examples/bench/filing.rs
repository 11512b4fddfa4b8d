//! Filing a whole table, one entry at a time with every check, beside the
//! reference and, in batch and without checks, FLINT.

use crate::flint::Flint;
use crate::plans::Case;
use crate::timing::{nanoseconds, race, rounds, shown, Contender};
use celerycrag::{raw, Filed, Plan, Store};
use std::hint::black_box;

/// With more entries than this, the reference is timed on a part of the table.
const WHOLE: usize = 256;
/// The filings of that part.
const PART: usize = 32;

/// Files the whole table in a store that is all zeros.
fn by_library(case: &Case, store: &mut [u8]) {
    let plan = case.plan.lent();
    let mut column = 0;
    for (entry, &value) in case.values.iter().enumerate() {
        let answer = raw::file(plan, store, entry, value, &mut column);
        assert_eq!(answer, 0, "entry {entry}");
    }
}

/// Files one entry with the reference.
fn by_reference(plan: &Plan, store: &mut [u8], entry: usize, value: usize) {
    let shape = plan.shape();
    let [p, s, n, m, t] = [shape.p, shape.s, shape.n, shape.m, shape.t].map(|x| x as u64);
    let (radices, weights) = (plan.radices(), plan.weights());
    let (tables, d) = (plan.tables(), plan.d());
    let (entry, value) = (entry as u64, value as u64);
    let filed = reference::file(
        p, s, n, m, t, radices, weights, tables, d, store, entry, value,
    );
    assert!(!matches!(filed, reference::Filed::Refused(_)));
}

/// The store after the whole table, how many entries were new, and the store
/// before each of PART entries, evenly spaced.
fn stages(case: &Case) -> (Store, usize, Vec<(usize, Vec<u8>)>) {
    let mut store = Store::new(&case.plan);
    let mut new = 0;
    let mut stages = Vec::new();
    let every = (case.values.len() / PART).max(1);
    for (entry, &value) in case.values.iter().enumerate() {
        if entry % every == every / 2 {
            stages.push((entry, store.as_bytes().to_vec()));
        }
        if let Ok(Filed::New { .. }) = store.file(entry, value) {
            new += 1;
        }
    }
    (store, new, stages)
}

/// Whether FLINT's rows are those of the store that are not zero.
fn same(store: &Store, rows: &[u8]) -> bool {
    let width = store.plan().columns() + 1;
    let full = store.to_full_bytes().expect("a store of filings");
    let led = full.chunks(width).filter(|row| row.iter().any(|&x| x != 0));
    led.eq(rows.chunks(width))
}

/// One line of the table.
pub fn line(case: &Case, flint: &mut Option<Flint>) -> (String, Store) {
    let plan = &case.plan;
    let (full, new, stages) = stages(case);
    let entries = case.values.len();
    let size = full.as_bytes().len();

    // Each call of these two clears its store first, outside the time.
    let mut store = vec![0; size];
    let library: Contender = Box::new(|| {
        store.fill(0);
        nanoseconds(|| by_library(case, black_box(&mut store)))
    });
    let mut other = vec![0; size];
    let reference: Contender = if entries <= WHOLE {
        Box::new(|| {
            other.fill(0);
            nanoseconds(|| {
                for (entry, &value) in case.values.iter().enumerate() {
                    by_reference(plan, black_box(&mut other), entry, value);
                }
            })
        })
    } else {
        Box::new(|| {
            let mut sum = 0.0;
            for (entry, before) in &stages {
                other.copy_from_slice(before);
                let value = case.values[*entry];
                sum += nanoseconds(|| by_reference(plan, black_box(&mut other), *entry, value));
            }
            sum * entries as f64 / stages.len() as f64
        })
    };
    let mut contenders = vec![library, reference];
    if let Some(flint) = flint.as_mut() {
        let matrix = case.matrix();
        let full = &full;
        contenders.push(Box::new(move || {
            let reduced = flint.reduce(plan.shape().p, plan.columns() + 1, &matrix);
            let reduced = reduced.expect("FLINT answers");
            assert!(same(full, &reduced.rows), "FLINT has another reduced form");
            reduced.nanoseconds as f64
        }));
    }
    let least = race(rounds(entries), contenders);

    let (library, reference) = (least[0], least[1]);
    let scaled = if entries <= WHOLE { "" } else { " (scaled)" };
    let flint = match least.get(2) {
        Some(&flint) => format!("{} | {:.2}", shown(flint), library / flint),
        None => "– | –".to_string(),
    };
    let line = format!(
        "| {entries} | {} | {} | {new} | {} | {} | {}{scaled} | {:.1} | {flint} |",
        plan.columns(),
        plan.shape().p,
        shown(library),
        shown(library / entries as f64),
        shown(reference),
        reference / library,
    );
    (line, full)
}
