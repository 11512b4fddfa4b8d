//! Random lots for the seventeen calls, with nothing wrong and of noise, and
//! random entries with values.

use super::faults::EDGES;
use super::listings;
use super::plans::{outline, reduced, residues, Owned};
use super::random::Random;
use super::recorded::{any_record, Recorded};
use super::twins::{listing, Lot};
use celerycrag::raw;

/// A lot with nothing wrong, of a plan of at most so many columns.
pub fn lot(random: &mut Random, most_columns: usize) -> Lot {
    let plan = outline(random, most_columns);
    lot_of(random, plan)
}

/// A lot with nothing wrong, of this plan with other residues; but half of the
/// lists of steps are no program of it, which only reading back refuses, and
/// the entry need not be listed, which only withdrawing refuses.
pub fn lot_of(random: &mut Random, plan: Owned) -> Lot {
    let plan = plan.drawn(random);
    let store = some_store(random, &plan);
    let full = some_store(random, &plan);
    let recorded = some_list(random, &plan);
    // Half of the time an entry that can be withdrawn.
    let entry = match recorded.listed() {
        [] => random.below(plan.entries()),
        _ if random.one_in(2) => random.below(plan.entries()),
        listed => random.pick(listed).entry.into(),
    };
    let beta = residues(random, plan.columns(), plan.p);
    let slack = random.pick(&[0, 0, 1, 4, 50]);
    let room: Vec<u16> = (0..4 * plan.step_count() + slack)
        .map(|_| random.next() as u16)
        .collect();
    let steps = if random.one_in(2) {
        written(&plan, &beta)
    } else {
        let count = random.below(60);
        well_formed(random, &plan, count)
    };
    let kept = residues(random, plan.columns(), plan.p);
    Lot {
        entry,
        value: random.below(plan.s),
        row: random.bytes(plan.columns(), 256),
        store,
        recorded,
        full: plan.widened(&full),
        beta,
        room,
        steps,
        digits: plan.digits(random.below(plan.entries())),
        text: listing(&plan, &kept),
        plan,
    }
}

/// A store in reduced form: empty, after a few filings, or any.
fn some_store(random: &mut Random, plan: &Owned) -> Vec<u8> {
    match random.below(4) {
        0 => plan.empty_store(),
        1 => filed(random, plan),
        _ => {
            let one_row_in = random.pick(&[1, 2, 2, 5]);
            reduced(random, plan, one_row_in)
        }
    }
}

/// A store with its list: of no entry, a few, or as many as the plan has. Many
/// take long in the reference where there are many columns.
fn some_list(random: &mut Random, plan: &Owned) -> Recorded {
    let few = if plan.columns() > 100 { 3 } else { 8 };
    let entries: Vec<usize> = match random.below(8) {
        0 => vec![],
        1 if plan.entries() <= 4 * few => (0..plan.entries()).collect(),
        _ => (0..random.below(few + 1))
            .map(|_| random.below(plan.entries()))
            .collect(),
    };
    let list = pairs(random, plan, entries);
    Recorded::filed(random, plan, list)
}

/// The store after a few filings.
fn filed(random: &mut Random, plan: &Owned) -> Vec<u8> {
    let mut store = plan.empty_store();
    for _ in 0..random.below(12) {
        let (entry, value) = (random.below(plan.entries()), random.below(plan.s));
        raw::file(plan.lent(), &mut store, entry, value, &mut 0);
    }
    store
}

/// The program of a plan and β.
pub fn written(plan: &Owned, beta: &[u8]) -> Vec<u16> {
    let mut steps = vec![0; 4 * plan.step_count()];
    raw::write(plan.lent(), beta, &mut steps, &mut 0);
    steps
}

/// A foreign list: so many steps, each in order, of any kind.
pub fn well_formed(random: &mut Random, plan: &Owned, count: usize) -> Vec<u16> {
    let registers = plan.variables() + 5;
    let mut steps = Vec::new();
    for _ in 0..count {
        let kind = random.below(3);
        let (to, from) = (random.below(registers), random.below(registers));
        let step = match kind {
            0 => [0, to, 0, 0],
            1 => [1, to, from, random.below(plan.p)],
            _ => [2, to, from, random.below(plan.m + 2)],
        };
        steps.extend(step.map(|number| number as u16));
    }
    steps
}

/// These entries with values: any; those of one β where it gives values; or
/// those of one variable where they are values.
pub fn pairs(
    random: &mut Random,
    plan: &Owned,
    entries: impl IntoIterator<Item = usize>,
) -> Vec<(usize, usize)> {
    let beta = residues(random, plan.columns(), plan.p);
    let variable = plan.columns() - 1 - random.below(plan.variables());
    let kind = random.below(3);
    let mut row = vec![0; plan.columns()];
    let pair = |entry| {
        raw::row(plan.lent(), entry, &mut row);
        let wanted = match kind {
            0 => plan.p,
            1 => plan.product(&row, &beta) as usize,
            _ => row[variable] as usize,
        };
        let value = if wanted < plan.s {
            wanted
        } else {
            random.below(plan.s)
        };
        (entry, value)
    };
    entries.into_iter().map(pair).collect()
}

/// Numbers and bytes without any plan behind them.
pub fn noise(random: &mut Random) -> Lot {
    let mut lot = lot(random, 12);
    if random.one_in(2) {
        let any = |random: &mut Random, count: usize| {
            let (count, k) = (random.below(count), random.pick(&[2, 3, 8, 256]));
            random.bytes(count, k)
        };
        let count = random.below(5);
        lot.plan.radices = (0..count)
            .map(|_| random.pick(&[2, 2, 3, 3, 5, 16, 64, 255, 1, 0]))
            .collect();
        lot.plan.weights = any(random, 5);
        lot.plan.tables = any(random, 12);
        lot.plan.d = any(random, 9);
        lot.row = any(random, 13);
        lot.beta = any(random, 13);
        lot.digits = any(random, 4);
        lot.store = any(random, 90);
        lot.full = any(random, 160);
        lot.recorded.store = any(random, 90);
        lot.recorded.work = any(random, 90);
        let count = random.below(20);
        lot.recorded.records = (0..count).map(|_| any_record(random)).collect();
    }
    let numbers = [
        &mut lot.plan.p,
        &mut lot.plan.s,
        &mut lot.plan.n,
        &mut lot.plan.m,
        &mut lot.plan.t,
        &mut lot.entry,
        &mut lot.value,
        &mut lot.recorded.count,
    ];
    for number in numbers {
        match random.below(6) {
            0 => *number = random.pick(&EDGES),
            1 => *number = random.below(8),
            _ => {}
        }
    }
    let below = random.pick(&[3, 8, 65_536]);
    for steps in [&mut lot.steps, &mut lot.room] {
        let count = random.below(5) * 4 + random.pick(&[0, 0, 0, 1]);
        *steps = (0..count).map(|_| random.below(below) as u16).collect();
    }
    match random.below(4) {
        0 => lot.text.truncate(random.below(200)),
        1 => {
            let (count, k) = (random.below(200), random.pick(&[2, 64, 128, 256]));
            lot.text = random.bytes(count, k);
        }
        2 => listings::spoil(random, &mut lot.text),
        _ => {}
    }
    lot
}
