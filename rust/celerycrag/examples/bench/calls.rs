//! Single calls beside the reference: the store test, a row, the writer, the
//! run.

use crate::timing::{calls, race, ROUNDS};
use celerycrag::{raw, Plan, Program, Store};
use std::hint::black_box;

/// The numbers of a plan as the reference takes them.
pub fn numbers(plan: &Plan) -> [u64; 5] {
    let shape = plan.shape();
    [shape.p, shape.s, shape.n, shape.m, shape.t].map(|x| x as u64)
}

/// The store test on the store of the whole table.
pub fn test_line(store: &Store) -> String {
    let plan = store.plan();
    let [p, s, n, m, t] = numbers(plan);
    let (radices, weights) = (plan.radices(), plan.weights());
    let (tables, d) = (plan.tables(), plan.d());
    let bytes = store.as_bytes();
    let library = calls(1, || {
        black_box(raw::test(plan.lent(), black_box(bytes)));
    });
    let reference = calls(1, || {
        let bytes = black_box(bytes);
        black_box(reference::test_store(
            p, s, n, m, t, radices, weights, tables, d, bytes,
        ));
    });
    crate::call_line("store test", plan, &race(ROUNDS, vec![library, reference]))
}

/// The row of an entry, over all entries by turns.
pub fn row_line(plan: &Plan) -> String {
    let [p, s, n, m, t] = numbers(plan);
    let (radices, weights) = (plan.radices(), plan.weights());
    let (tables, d) = (plan.tables(), plan.d());
    let entries = plan.entries();
    let (mut row, mut other) = (vec![0; plan.columns()], vec![0; plan.columns()]);
    let library = calls(entries, || {
        for entry in 0..entries {
            black_box(raw::row(plan.lent(), entry, black_box(&mut row)));
        }
    });
    let reference = calls(entries, || {
        for entry in 0..entries as u64 {
            let row = black_box(&mut other);
            black_box(reference::row(
                p, s, n, m, t, radices, weights, tables, d, entry, row,
            ));
        }
    });
    crate::call_line("row", plan, &race(ROUNDS, vec![library, reference]))
}

/// The writer, for a whole program.
pub fn write_line(store: &Store) -> String {
    let plan = store.plan();
    let [p, s, n, m, t] = numbers(plan);
    let (radices, weights) = (plan.radices(), plan.weights());
    let (tables, d) = (plan.tables(), plan.d());
    let beta = store.coefficients().expect("coefficients");
    let length = 4 * plan.step_count();
    let (mut steps, mut other) = (vec![0; length], vec![0; length]);
    let library = calls(1, || {
        let mut written = 0;
        black_box(raw::write(
            plan.lent(),
            &beta,
            black_box(&mut steps),
            &mut written,
        ));
    });
    let reference = calls(1, || {
        let steps = black_box(&mut other);
        black_box(reference::write(
            p, s, n, m, t, radices, weights, tables, d, &beta, steps,
        ));
    });
    let least = race(ROUNDS, vec![library, reference]);
    crate::call_line("write a program", plan, &least)
}

/// The run of a written program, for each step of it.
pub fn run_line(store: &Store) -> String {
    let plan = store.plan();
    let [p, s, n, m, t] = numbers(plan);
    let (radices, weights) = (plan.radices(), plan.weights());
    let (tables, d) = (plan.tables(), plan.d());
    let beta = store.coefficients().expect("coefficients");
    let program = Program::write(plan, &beta).expect("a program");
    let steps = program.numbers();
    let digits = plan.digits(plan.entries() - 1).expect("digits");
    let count = plan.step_count();
    let library = calls(count, || {
        let (mut y, mut bootstraps) = (0, 0);
        let steps = black_box(steps);
        raw::run(plan.lent(), steps, &digits, &mut y, &mut bootstraps);
        black_box((y, bootstraps));
    });
    let reference = calls(count, || {
        let steps = black_box(steps);
        let ran = reference::run(p, s, n, m, t, radices, weights, tables, d, steps, &digits);
        black_box(ran.is_ok());
    });
    let least = race(ROUNDS, vec![library, reference]);
    crate::call_line("run, a step", plan, &least)
}
