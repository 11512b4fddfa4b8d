//! What can be wrong with a lot.

use super::layout::{Layout, LAYOUTS};
use super::listings;
use super::plans::{product, Owned};
use super::random::Random;
use super::recorded::{any_record, Recorded};
use super::twins::Lot;
use celerycrag::Record;

/// Numbers at and beside the limits, and where narrower types end.
pub const EDGES: [usize; 45] = [
    0,
    1,
    2,
    3,
    4,
    9,
    12,
    13,
    16,
    31,
    32,
    33,
    63,
    64,
    65,
    249,
    250,
    251,
    252,
    253,
    255,
    256,
    257,
    359,
    360,
    361,
    1_023,
    1_024,
    1_025,
    4_095,
    4_096,
    4_097,
    (1 << 16) - 1,
    1 << 16,
    (1 << 16) + 3,
    1 << 31,
    (1 << 32) - 1,
    1 << 32,
    (1 << 32) + 3,
    (1 << 58) - 1,
    1 << 63,
    (1 << 63) + 3,
    usize::MAX - 2,
    usize::MAX - 1,
    usize::MAX,
];

/// A number that is likely wrong in place of this one: an edge, a neighbour,
/// or one that a narrower type would take for the right one.
fn another(random: &mut Random, right: usize) -> usize {
    match random.below(4) {
        0 => right.wrapping_add(1),
        1 => right.wrapping_sub(1),
        2 => right.wrapping_add(1 << random.pick(&[8, 16, 32, 48, 63])),
        _ => random.pick(&EDGES),
    }
}

/// Makes one thing wrong, or at least likely to be.
pub fn fault(random: &mut Random, lot: &mut Lot) {
    match random.below(19) {
        0 => number(random, &mut lot.plan),
        1 => wrap(random, &mut lot.plan),
        2 | 3 => length(random, lot),
        4 | 5 => large_byte(random, lot),
        6 | 7 => damage(random, lot),
        8 => lot.entry = another(random, product(&lot.plan.radices)),
        9 => lot.value = another(random, lot.plan.s),
        10 => bad_step(random, lot),
        11 => bad_digit(random, lot),
        12 | 13 => listings::spoil(random, &mut lot.text),
        14..=16 => bad_record(random, &lot.plan, &mut lot.recorded),
        _ => radices(random, &mut lot.plan),
    }
}

/// Another number in place of one of the plan's five.
fn number(random: &mut Random, plan: &mut Owned) {
    let numbers = [
        &mut plan.p,
        &mut plan.s,
        &mut plan.n,
        &mut plan.m,
        &mut plan.t,
    ];
    let place = random.below(5);
    for number in numbers.into_iter().skip(place).take(1) {
        *number = another(random, *number);
    }
}

/// Numbers whose sum or product only looks right where it wraps around.
fn wrap(random: &mut Random, plan: &mut Owned) {
    let sum = plan.n.wrapping_add(plan.m);
    match random.below(3) {
        0 => {
            plan.n = plan.n.wrapping_add(1 << random.within(32, 63));
            plan.m = sum.wrapping_sub(plan.n);
        }
        1 => {
            plan.m = (random.next() as usize) | 1 << 63;
            plan.n = sum.wrapping_sub(plan.m);
        }
        _ => plan.t = plan.t.wrapping_add(1 << random.within(32, 63)),
    }
}

/// What is no radix under p, whatever else is right.
pub fn no_radix(random: &mut Random, p: usize) -> u8 {
    random.pick(&[0, 1, p.saturating_add(1), 255]).min(255) as u8
}

/// A radix too many or too few, one that is none, or so large ones that the
/// entries are too many. Some of these may still be in order.
fn radices(random: &mut Random, plan: &mut Owned) {
    let p = plan.p;
    let place = random.below(plan.radices.len() + 1);
    match random.below(6) {
        0 => plan.radices.insert(place, 2),
        1 => drop(plan.radices.pop()),
        2 => plan.radices.insert(place, no_radix(random, p)),
        3 => plan.radices.fill(p.min(255) as u8),
        4 => plan.radices.resize(random.pick(&[12, 13, 64, 65]), 2),
        _ => {
            if let Some(radix) = plan.radices.get_mut(place) {
                *radix = no_radix(random, p);
            }
        }
    }
}

/// A part in another length, the radices apart. The step slices belong to
/// causes 10 and 11.
fn length(random: &mut Random, lot: &mut Lot) {
    match random.below(16) {
        0 => relength(random, &mut lot.plan.weights),
        1 => relength(random, &mut lot.plan.tables),
        2 => relength(random, &mut lot.plan.d),
        3 => relength(random, &mut lot.row),
        4 => relength(random, &mut lot.store),
        5 => relength(random, &mut lot.beta),
        6 => relength(random, &mut lot.digits),
        7 => relength(random, &mut lot.room),
        8 => relength(random, &mut lot.full),
        9 => lot.store.resize(lot.full.len(), 0),
        10 => lot.full.resize(lot.store.len(), 0),
        11 => relength(random, &mut lot.recorded.store),
        12 => relength(random, &mut lot.recorded.work),
        13 => relength(random, &mut lot.recorded.records),
        14 => lot.recorded.count = another(random, lot.recorded.records.len()),
        _ => relength(random, &mut lot.steps),
    }
}

fn relength<T: Clone + Default>(random: &mut Random, part: &mut Vec<T>) {
    let length = match random.below(6) {
        0 => 0,
        1 => part.len() + 1,
        2 => part.len().saturating_sub(1),
        3 => 2 * part.len(),
        4 => part.len() + random.below(70),
        _ => random.below(part.len() + 1),
    };
    part.resize(length, T::default());
}

/// A byte that is no residue, in a weight, table value or β.
fn large_byte(random: &mut Random, lot: &mut Lot) {
    let p = lot.plan.p;
    let part = match random.below(4) {
        0 => &mut lot.plan.weights,
        1 => &mut lot.plan.tables,
        2 => &mut lot.plan.d,
        _ => &mut lot.beta,
    };
    if !part.is_empty() {
        let place = random.below(part.len());
        part[place] = random.pick(&[p, p + 1, 128 | p, 255]).min(255) as u8;
    }
}

/// Damages the store, the one with records, or the full one, in one of the ways
/// that reduced form forbids; where it has no row for it, and in some ways anyway,
/// it may still be reduced.
fn damage(random: &mut Random, lot: &mut Lot) {
    let p = lot.plan.p;
    let columns = lot.plan.columns_if_small();
    let layout = random.pick(&LAYOUTS);
    let store = match layout {
        Layout::Half if random.one_in(2) => &mut lot.recorded.store,
        Layout::Half => &mut lot.store,
        Layout::Full => &mut lot.full,
    };
    if store.is_empty() || store.len() != layout.length(columns) || p < 3 {
        return;
    }
    let mut rows = layout.rows(columns, store);
    let leads: Vec<usize> = (0..columns).filter(|&q| rows[q][q] != 0).collect();
    let zeros: Vec<usize> = (0..columns).filter(|&q| rows[q][q] == 0).collect();
    let led = (!leads.is_empty()).then(|| random.pick(&leads));
    let zero = (!zeros.is_empty()).then(|| random.pick(&zeros));
    let nonzero = random.within(1, p.min(256) - 1) as u8;
    let any = random.below(columns);
    // A column that the row keeps.
    let kept = random.within(layout.first(any), columns - 1);
    match (random.below(13), led, zero) {
        // A byte not below p, among the coefficients and at the right-hand side.
        (0, ..) => rows[any][kept] = p.min(255) as u8,
        (1, ..) => rows[any][columns] = random.pick(&[p.min(255), 255]) as u8,
        // A lead that is not 1.
        (2, Some(q), _) => rows[q][q] = random.within(2, p.min(256) - 1) as u8,
        // A right-hand side without coefficients.
        (3, _, Some(q)) => rows[q][columns] = nonzero,
        // A coefficient left of the lead's place, and right of it.
        (4, Some(q), _) if layout.first(q) < q => rows[q][random.below(q)] = nonzero,
        (5, _, Some(q)) if q + 1 < columns => {
            rows[q][random.within(q + 1, columns - 1)] = nonzero;
        }
        // The lead lost.
        (6, Some(q), _) => rows[q][q] = 0,
        // A second number in a pivot's column.
        (7, Some(q), _) if any != q && q >= layout.first(any) => rows[any][q] = nonzero,
        // A row in the wrong place, or there twice; of what is left of what the
        // row there keeps, nothing comes along.
        (8, Some(q), _) => rows.swap(q, any),
        (9, Some(q), _) => rows[any] = rows[q].clone(),
        // Anything at all.
        (10, ..) => rows.fill_with(|| random.bytes(columns + 1, p.min(256))),
        (11, ..) => rows.fill_with(|| random.bytes(columns + 1, 256)),
        _ => rows[any][kept] = random.below(p.min(256)) as u8,
    }
    for (q, row) in rows.iter_mut().enumerate() {
        row[..layout.first(q)].fill(0);
    }
    *store = layout.store(&rows);
}

/// A list that is likely not that of its store, or names no entries and values.
fn bad_record(random: &mut Random, plan: &Owned, recorded: &mut Recorded) {
    let listed = recorded.count.min(recorded.records.len());
    if listed == 0 {
        // What is behind the count is not tested; with a count of 1 it is.
        recorded.count = random.below(2);
        return;
    }
    let (place, other) = (random.below(listed), random.below(listed));
    let entries = product(&plan.radices);
    let Record { entry, value } = recorded.records[place];
    let far = 1 << random.within(8, 15);
    let changed = match random.below(8) {
        // An entry twice, where the two are not one.
        0 => recorded.records[other],
        // No entry, and one that a byte would take for the right one.
        1 => Record {
            entry: another(random, entries) as u16,
            value,
        },
        2 => Record {
            entry: entry ^ far,
            value,
        },
        // No value, and the same.
        3 => Record {
            entry,
            value: another(random, plan.s) as u16,
        },
        4 => Record {
            entry,
            value: value ^ far,
        },
        // Another value, and another entry.
        5 => Record {
            entry,
            value: value.wrapping_add(1),
        },
        6 => Record {
            entry: random.below(entries.clamp(1, 4_096)) as u16,
            value,
        },
        _ => any_record(random),
    };
    match random.below(4) {
        // The list is cut, or has one more.
        0 => recorded.count = random.below(listed + 2),
        _ => recorded.records[place] = changed,
    }
}

/// A step list with one fault, which need not be one for every step.
fn bad_step(random: &mut Random, lot: &mut Lot) {
    let plan = &lot.plan;
    let steps = &mut lot.steps;
    if steps.len() < 4 {
        steps.resize(random.below(4), 0);
        return;
    }
    let step = 4 * random.below(steps.len() / 4);
    let last = plan.n.wrapping_add(plan.m).wrapping_add(4) as u16;
    let after_last = random.pick(&[last.wrapping_add(1), last | 256, u16::MAX]);
    match random.below(8) {
        0 => steps[step] = random.pick(&[3, 4, 256, 257, 258, u16::MAX]),
        1 => steps[step + 1] = after_last,
        2 => steps[step + 2] = after_last,
        3 => steps[step + 3] = random.pick(&[plan.p as u16, plan.p as u16 + 1, 256, u16::MAX]),
        4 => steps[step + 3] = random.pick(&[plan.m as u16, 0]).wrapping_add(2),
        5 => steps[step + 2] = 1,
        6 => steps.truncate(step + random.below(4)),
        _ => steps[step + random.below(4)] = random.next() as u16,
    }
}

/// A digit that is not below its radix, or one that is compared with something
/// else in its place.
fn bad_digit(random: &mut Random, lot: &mut Lot) {
    if lot.digits.is_empty() {
        return;
    }
    let place = random.below(lot.digits.len());
    let radix = lot.plan.radices.get(place).copied().unwrap_or(255);
    let other = lot.plan.radices.first().copied().unwrap_or(255);
    let most = [lot.plan.s, lot.plan.p].map(|number| number.min(255) as u8);
    let digit = random.pick(&[radix, other, most[0], most[1], 255]);
    lot.digits[place] = digit.wrapping_sub(random.pick(&[0, 0, 0, 1]));
}
