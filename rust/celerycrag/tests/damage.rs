//! The verdict on a store in reduced form of which one byte is changed: that of
//! the store test and of the move to the full layout, and for a store in the full
//! layout that of the move from it. What it has to be is known from the place of
//! the byte, and compared with the reference.
//!
//! The test takes the rows one by one, row 0 first, and has no answer before the
//! last. So the fault is in every byte of small stores, and in wide ones in row
//! 0, in the last row and between. Left of the diagonal, where only the full
//! layout has bytes, every one but 0 is a fault.

mod common;
use common::layout::{Layout, LAYOUTS};
use common::random::Random;
use common::stores::{ways, Sound, VERDICTS};
use common::tally::Tally;
use std::cmp::Ordering;

const PRIMES: [usize; 3] = [3, 17, 251];

/// Whether the store stays in reduced form with this byte in this place, which
/// has another now.
fn stays_sound(sound: &Sound, row: usize, column: usize, byte: u8) -> bool {
    let columns = sound.columns();
    match column.cmp(&row) {
        Ordering::Less => false,
        // A row may lose its 1 where that is all it has, and a row of zeros may
        // get one where no row above has anything in the column.
        Ordering::Equal if sound.led[row] => {
            byte == 0 && (row + 1..=columns).all(|j| sound.at(row, j) == 0)
        }
        Ordering::Equal => byte == 1 && (0..row).all(|q| sound.at(q, column) == 0),
        Ordering::Greater => {
            let free = column == columns || !sound.led[column];
            sound.led[row] && free && usize::from(byte) < sound.plan.p
        }
    }
}

/// Each byte with each of these values in turn. The reference is asked once in
/// so many times.
fn every_byte(sound: &mut Sound, values: &[u8], once_in: usize, tally: &mut Tally) {
    let mut asked = 0;
    for (row, column) in sound.layout.places(sound.columns()) {
        for &byte in values {
            let same = byte == sound.at(row, column);
            let answer = match same || stays_sound(sound, row, column, byte) {
                true => 0,
                false => 6,
            };
            let change = [(row, column, byte)];
            if asked % once_in == 0 {
                sound.expect(answer, &change, tally);
            } else {
                let given = sound.test_library(&change, tally);
                assert_eq!(given, answer, "p = {}, {change:?}", sound.plan.p);
            }
            asked += 1;
        }
    }
}

#[test]
fn every_byte_with_every_value() {
    let (mut random, mut tally) = (Random::new(6, 0), Tally::default());
    let values: Vec<u8> = (0..=255).collect();
    for columns in [1, 2, 3, 4, 7, 8, 15, 16, 17, 31, 32, 33] {
        for (number, led) in ways(columns).into_iter().enumerate() {
            // Each way under every prime, in the wider stores under one.
            let primes = match columns {
                ..16 => &PRIMES[..],
                _ => &PRIMES[number % 3..][..1],
            };
            let once_in = match columns {
                ..8 => 1,
                8..16 => 5,
                _ => 61,
            };
            for &p in primes {
                for layout in LAYOUTS {
                    let mut sound = Sound::new(&mut random, layout, p, led.clone());
                    every_byte(&mut sound, &values, once_in, &mut tally);
                }
            }
        }
    }
    tally.complete(&VERDICTS, 0);
}

#[test]
fn every_byte_of_wide_stores() {
    let (mut random, mut tally) = (Random::new(7, 0), Tally::default());
    for columns in [63, 64, 65, 128] {
        for (number, led) in ways(columns).into_iter().enumerate() {
            let p = PRIMES[number % 3];
            let near_p = [p - 2, p - 1, p, p + 1].map(|byte| byte as u8);
            let others = [0, 1, 2, 4, 31, 32, 64, 127, 128, 129, 254, 255];
            let values = [&near_p[..], &others].concat();
            // The full layout has twice the bytes: every other way is enough.
            let layouts = if number % 2 == 0 { 2 } else { 1 };
            for &layout in &LAYOUTS[..layouts] {
                let mut sound = Sound::new(&mut random, layout, p, led.clone());
                every_byte(&mut sound, &values, 83, &mut tally);
            }
        }
    }
    tally.complete(&VERDICTS, 0);
}

/// Of these places the first, the last, and the one between.
fn some(places: impl Iterator<Item = usize>) -> Vec<usize> {
    let all: Vec<usize> = places.collect();
    let mut chosen = Vec::new();
    if let (Some(&first), Some(&last)) = (all.first(), all.last()) {
        chosen.extend([first, all[all.len() / 2], last]);
    }
    chosen.dedup();
    chosen
}

/// A change of one row: its name, the column, the byte, and the answer.
type Named = (&'static str, usize, u8, u8);

/// What can be wrong with a row by a single byte, and what cannot, of each kind
/// in a few columns.
fn changes(sound: &Sound, row: usize) -> Vec<Named> {
    let (columns, p) = (sound.columns(), sound.plan.p as u8);
    let led = |column: &usize| sound.led[*column];
    let open = |column: &usize| !sound.led[*column];
    // What the row keeps left of its diagonal.
    let left = || sound.layout.first(row)..row;
    let mut all = Vec::new();
    let mut add = |name, columns: &[usize], bytes: &[u8], answer| {
        for &column in columns {
            all.extend(bytes.iter().map(|&byte| (name, column, byte, answer)));
        }
    };
    if sound.led[row] {
        add("a lead of 2", &[row], &[2], 6);
        add("a right-hand side of p - 1", &[columns], &[p - 1], 0);
        add("a right-hand side of p", &[columns], &[p, 255], 6);
        add("below a pivot", &some(left().filter(led)), &[1, p], 6);
        add("below no pivot", &some(left().filter(open)), &[1, p], 6);
        let (led, open) = (
            some((row + 1..columns).filter(led)),
            some((row + 1..columns).filter(open)),
        );
        add("above a pivot", &led, &[1, p - 1], 6);
        add("a coefficient of p - 1", &open, &[p - 1], 0);
        add("a coefficient of p", &open, &[p, 255], 6);
    } else {
        add("zero but for a 2 on the diagonal", &[row], &[2], 6);
        add("zero but for the right-hand side", &[columns], &[1, p], 6);
        add("zero but for a byte left", &some(left()), &[1, p - 1], 6);
        let right = some(row + 1..columns);
        add("zero but for a byte right", &right, &[1, p - 1], 6);
    }
    all
}

/// What any row can have.
const ANYWHERE: [&str; 5] = [
    "a lead of 2",
    "a right-hand side of p - 1",
    "a right-hand side of p",
    "zero but for a 2 on the diagonal",
    "zero but for the right-hand side",
];
/// What a row can have that is not the last.
const RIGHT: [&str; 4] = [
    "above a pivot",
    "a coefficient of p - 1",
    "a coefficient of p",
    "zero but for a byte right",
];
/// What a row of the full layout can have that is not row 0.
const LEFT: [&str; 3] = [
    "below a pivot",
    "below no pivot",
    "zero but for a byte left",
];

/// Changes a byte in one of these rows, all others being sound, in stores of so
/// many columns. Each change of these names has to be among them.
fn one_row(layout: Layout, columns: usize, rows: &[usize], names: &[&[&'static str]]) {
    let (mut random, mut tally) = (Random::new(8, 0), Tally::default());
    // The reference is slow on the largest: there no row is led, two of three
    // are, and the last alone.
    let one_in = if columns < 1_024 { 1 } else { 4 };
    for led in ways(columns).into_iter().step_by(one_in) {
        for p in PRIMES {
            let mut sound = Sound::new(&mut random, layout, p, led.clone());
            sound.expect(0, &[], &mut tally);
            for &row in rows {
                for (name, column, byte, answer) in changes(&sound, row) {
                    sound.expect(answer, &[(row, column, byte)], &mut tally);
                    tally.add(name, answer);
                }
            }
        }
    }
    for name in names.concat() {
        let answer = if name.ends_with("p - 1") { 0 } else { 6 };
        let count = tally.count(name, answer);
        println!("C = {columns}, {layout:?}, {name}: {count}");
        assert!(count > 0, "C = {columns}, {layout:?}, never {name}");
    }
}

/// LEFT, where the layout has bytes left of the diagonal.
fn left(layout: Layout) -> &'static [&'static str] {
    match layout {
        Layout::Half => &[],
        Layout::Full => &LEFT,
    }
}

#[test]
fn row_0_alone() {
    for layout in LAYOUTS {
        one_row(layout, 1, &[0], &[&ANYWHERE]);
        for columns in [2, 33, 64, 256, 1_024] {
            one_row(layout, columns, &[0], &[&ANYWHERE, &RIGHT]);
        }
    }
}

#[test]
fn the_last_row_alone() {
    for layout in LAYOUTS {
        for columns in [2, 33, 64, 256, 1_024] {
            let rows = [columns - 1];
            one_row(layout, columns, &rows, &[&ANYWHERE, left(layout)]);
        }
    }
}

#[test]
fn a_row_between_alone() {
    for layout in LAYOUTS {
        for columns in [33, 64, 256, 1_024] {
            let rows = [1, columns / 2, columns - 2];
            one_row(layout, columns, &rows, &[&ANYWHERE, &RIGHT, left(layout)]);
        }
    }
}
