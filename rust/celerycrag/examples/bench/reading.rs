//! Reading back: the coefficients from a program and from its listing, beside
//! writing the program, and beside the reference, which also prints the listing.

use crate::calls::numbers;
use crate::timing::{calls, race, shown, ROUNDS};
use celerycrag::{raw, Plan, Program, Shape, Store};
use reference::random::SplitMix;
use std::hint::black_box;

/// What stands above the table.
pub const INTRODUCTION: &str = "\
The coefficients from a program, through `celery_read_steps`, and from its listing, \
through `celery_read_listing`, which also judges every line. *Write* is \
`celery_write` for the same program, which reading back does once more to compare. \
The library prints no listing by a call: *prints* is the reference's printer, which \
made the listing. The first plan is that of the exclusive or; the last has the most \
steps that a plan can have, 1 digit and 63 links with 15 products; between them those \
from above with the coefficients of their tables. What is read back is compared with the \
coefficients and is the same.

| C | p | steps | write | read steps | of write | reference | times | listing's bytes | read listing | of read steps | reference | times | prints |
|---|---|---|---|---|---|---|---|---|---|---|---|---|---|";

/// Calls the reference with the plan, then the call's own.
macro_rules! by_reference {
    ($name:ident, $plan:expr $(, $own:expr)*) => {{
        let plan: &Plan = $plan;
        let [p, s, n, m, t] = numbers(plan);
        let (radices, weights) = (plan.radices(), plan.weights());
        reference::$name(p, s, n, m, t, radices, weights, plan.tables(), plan.d() $(, $own)*)
    }};
}

/// The plans with their coefficients: the exclusive or, those of the stores, and
/// the one with the most steps.
pub fn programs(stores: &[Store]) -> Vec<(Plan, Vec<u8>)> {
    let (p, s, n, m, t) = (3, 2, 2, 0, 1);
    let xor = Plan::with_radix(Shape { p, s, n, m, t }, vec![], vec![], vec![1, 1]);
    let mut programs = vec![(xor.expect("a plan"), vec![0, 1, 1, 0])];
    for store in stores {
        let beta = store.coefficients().expect("coefficients");
        programs.push((store.plan().clone(), beta));
    }
    let (p, s, n, m, t) = (251, 2, 1, 63, 15);
    let random = &mut SplitMix(4_307);
    let mut bytes = |count: usize| -> Vec<u8> {
        let byte = |_| (random.bits() % p as u64) as u8;
        (0..count).map(byte).collect()
    };
    let (weights, tables, d, beta) = (bytes(2_016), bytes(63 * 251), bytes(960), bytes(1_024));
    let most = Plan::with_radix(Shape { p, s, n, m, t }, weights, tables, d);
    programs.push((most.expect("a plan"), beta));
    programs
}

/// A line of the table.
pub fn line(plan: &Plan, beta: &[u8]) -> String {
    let program = Program::write(plan, beta).expect("a program");
    let steps = program.numbers();
    let text = by_reference!(listing, plan, beta).expect("a listing");
    let text = text.as_bytes();
    assert_eq!(plan.read_steps(steps).as_deref(), Ok(beta), "read back");
    assert_eq!(plan.read_listing(text).as_deref(), Ok(beta), "read back");

    let mut room = vec![0; steps.len()];
    let write = calls(1, || {
        let (mut written, room) = (0, black_box(&mut room));
        black_box(raw::write(plan.lent(), black_box(beta), room, &mut written));
    });
    let mut found = vec![0; beta.len()];
    let read_steps = calls(1, || {
        let (steps, found) = (black_box(steps), black_box(&mut found));
        black_box(raw::read_steps(plan.lent(), steps, found));
    });
    let mut others = vec![0; beta.len()];
    let steps_by_reference = calls(1, || {
        let (steps, found) = (black_box(steps), black_box(&mut others));
        black_box(by_reference!(read_steps, plan, steps, found));
    });
    let mut read = vec![0; beta.len()];
    let read_listing = calls(1, || {
        let (text, found, mut line) = (black_box(text), black_box(&mut read), 0);
        black_box(raw::read_listing(plan.lent(), text, found, &mut line));
    });
    let mut others = vec![0; beta.len()];
    let listing_by_reference = calls(1, || {
        let (text, found) = (black_box(text), black_box(&mut others));
        black_box(by_reference!(read_listing, plan, text, found));
    });
    let prints = calls(1, || {
        black_box(by_reference!(listing, plan, black_box(beta)).is_ok());
    });
    let contenders = vec![
        write,
        read_steps,
        steps_by_reference,
        read_listing,
        listing_by_reference,
        prints,
    ];
    let least = race(ROUNDS, contenders);
    let (write, read_steps, read_listing) = (least[0], least[1], least[3]);
    format!(
        "| {} | {} | {} | {} | {} | {:.2} | {} | {:.1} | {} | {} | {:.2} | {} | {:.1} | {} |",
        plan.columns(),
        plan.shape().p,
        plan.step_count(),
        shown(write),
        shown(read_steps),
        read_steps / write,
        shown(least[2]),
        least[2] / read_steps,
        text.len(),
        shown(read_listing),
        read_listing / read_steps,
        shown(least[4]),
        least[4] / read_listing,
        shown(least[5]),
    )
}
