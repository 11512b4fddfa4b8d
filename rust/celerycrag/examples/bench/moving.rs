//! The moves of a store between the two layouts, beside the store test, which the
//! one begins with, and beside the reference.

use crate::calls::numbers;
use crate::timing::{calls, race, shown, ROUNDS};
use celerycrag::{raw, Store};
use std::hint::black_box;

/// What stands above the table.
pub const INTRODUCTION: &str = "\
The store of the whole table moved from the full layout, C rows of C + 1 bytes, by \
`celery_to_half`, and back by `celery_to_full`. Each tests what it moves. *Store \
test* is `celery_test` on the same store. What the library and the reference move is \
compared and is the same.

| move | C | p | bytes from | to | library | store test | reference | times |
|---|---|---|---|---|---|---|---|---|";

/// A line for each move.
pub fn lines(store: &Store) -> [String; 2] {
    let plan = store.plan();
    let [p, s, n, m, t] = numbers(plan);
    let (radices, weights) = (plan.radices(), plan.weights());
    let (tables, d) = (plan.tables(), plan.d());
    let half = store.as_bytes();
    let full = store.to_full_bytes().expect("a store of filings");
    let full = &full[..];
    let to_half =
        |out: &mut [u8]| reference::to_half(p, s, n, m, t, radices, weights, tables, d, full, out);
    let to_full =
        |out: &mut [u8]| reference::to_full(p, s, n, m, t, radices, weights, tables, d, half, out);
    let (mut halves, mut fulls) = ([half, half].map(Vec::from), [full, full].map(Vec::from));
    halves
        .iter_mut()
        .chain(&mut fulls)
        .for_each(|bytes| bytes.fill(9));
    let [by_library, by_reference] = &mut halves;
    assert_eq!(raw::to_half(plan.lent(), full, by_library), 0);
    assert_eq!(to_half(by_reference), 0);
    assert!(by_library == half && by_reference == half, "moved");
    let [of_library, of_reference] = &mut fulls;
    assert_eq!(to_full(of_reference), 0);
    assert!(of_reference == full, "moved");

    let test = calls(1, || {
        black_box(raw::test(plan.lent(), black_box(half)));
    });
    let there = calls(1, || {
        let out = black_box(&mut by_library[..]);
        black_box(raw::to_half(plan.lent(), black_box(full), out));
    });
    let there_by_reference = calls(1, || {
        black_box(to_half(black_box(&mut by_reference[..])));
    });
    let back = calls(1, || {
        let out = black_box(&mut of_library[..]);
        black_box(raw::to_full(plan.lent(), black_box(half), out));
    });
    let back_by_reference = calls(1, || {
        black_box(to_full(black_box(&mut of_reference[..])));
    });
    let contenders = vec![test, there, there_by_reference, back, back_by_reference];
    let least = race(ROUNDS, contenders);
    let line = |name: &str, from: &[u8], to: &[u8], library: f64, reference: f64| {
        format!(
            "| {name} | {} | {} | {} | {} | {} | {} | {} | {:.1} |",
            plan.columns(),
            plan.shape().p,
            from.len(),
            to.len(),
            shown(library),
            shown(least[0]),
            shown(reference),
            reference / library,
        )
    };
    [
        line("to the new layout", full, half, least[1], least[2]),
        line("to the full layout", half, full, least[3], least[4]),
    ]
}
