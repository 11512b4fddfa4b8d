//! The verdict on a store in reduced form of which two bytes are changed, or
//! more, in either layout: faults that could hide each other from a test that
//! keeps a little of the rows it has seen. Compared with the reference, and with
//! what is known where each change by itself is a fault.

mod common;
use common::layout::{Layout, LAYOUTS};
use common::plans::primes;
use common::random::{cases, Random};
use common::stores::{ways, Change, Sound, VERDICTS};
use common::tally::Tally;

const PRIMES: [usize; 3] = [3, 17, 251];

type Place = (usize, usize);

/// Each two of these places once, the earlier one first.
fn pairs(places: &[Place]) -> impl Iterator<Item = (Place, Place)> + '_ {
    let with_earlier = |(number, &later)| places[..number].iter().map(move |&one| (one, later));
    places.iter().enumerate().flat_map(with_earlier)
}

/// Every pair of bytes of tiny stores, all ways to lead their rows. Among them
/// are changes that are a fault only without the other.
#[test]
fn every_pair_of_bytes() {
    let (mut random, mut tally) = (Random::new(9, 0), Tally::default());
    let mut made_good = 0;
    let shapes = [(2, 3), (3, 17), (4, 3), (4, 17), (4, 251)];
    let shapes = shapes.map(|shape| LAYOUTS.map(|layout| (layout, shape)));
    for (layout, (columns, p)) in shapes.concat() {
        let near_p = [p - 1, p, 256 - p].map(|byte| byte as u8);
        let values = [&near_p[..], &[0, 1, 2, 127, 128, 129, 254, 255]].concat();
        for set in 0..1 << columns {
            let led = (0..columns).map(|q| set >> q & 1 == 1).collect();
            let mut sound = Sound::new(&mut random, layout, p, led);
            for (one, other) in pairs(&layout.places(columns)) {
                for &byte in &values {
                    for &second in &values {
                        let changes = [(one.0, one.1, byte), (other.0, other.1, second)];
                        if sound.test(&changes, &mut tally) == 0 {
                            let alone = |change| sound.test(&[change], &mut tally);
                            made_good += usize::from(changes.map(alone).contains(&6));
                        }
                    }
                }
            }
        }
    }
    tally.complete(&VERDICTS, 0);
    println!("a fault only without the other: {made_good}");
    assert!(made_good > 0);
}

/// Whether every byte but 0 is a fault in this place.
fn closed(sound: &Sound, (row, column): Place) -> bool {
    let pivot = column < sound.columns() && sound.led[column];
    column < row || column > row && (pivot || !sound.led[row])
}

/// Two faults in one column, and two in one row: the same byte twice, and two
/// bytes that add up to 256.
#[test]
fn two_in_one_column_or_row() {
    let (mut random, mut tally) = (Random::new(10, 0), Tally::default());
    for (columns, layout) in [5, 16, 17]
        .map(|c| LAYOUTS.map(|layout| (c, layout)))
        .concat()
    {
        for (number, led) in ways(columns).into_iter().enumerate() {
            let mut sound = Sound::new(&mut random, layout, PRIMES[number % 3], led);
            sound.expect(0, &[], &mut tally);
            let mut places = layout.places(columns);
            places.retain(|&place| closed(&sound, place));
            for (one, other) in pairs(&places) {
                if one.0 != other.0 && one.1 != other.1 {
                    continue;
                }
                for byte in [1, 2, 16, 17, 64, 127, 128, 255_u8] {
                    for second in [byte, byte.wrapping_neg()] {
                        let changes = [(one.0, one.1, byte), (other.0, other.1, second)];
                        sound.expect(6, &changes, &mut tally);
                    }
                }
            }
        }
    }
    tally.complete(&VERDICTS, 0);
}

/// A byte that differs from the old one: any, a residue, or an edge.
fn another(random: &mut Random, p: usize, old: u8) -> u8 {
    loop {
        let edge = random.pick(&[0, 1, 2, p - 1, p, p + 1, 127, 128, 254, 255]);
        let any = random.below(256);
        let byte = random.pick(&[any, any % p, edge]) as u8;
        if byte != old {
            return byte;
        }
    }
}

/// A row and a column that the layout keeps, three times in four on the diagonal
/// or right of it.
fn place(random: &mut Random, layout: Layout, columns: usize) -> Place {
    let (row, column) = (random.below(columns), random.below(columns + 1));
    if column < row && (layout == Layout::Half || !random.one_in(4)) {
        (column, row)
    } else {
        (row, column)
    }
}

/// Where the second of two faults stands to the first. Of a place and its
/// mirror, one is left of the diagonal, where only the full layout has bytes.
const RELATIONS: [&str; 5] = ["one row", "one column", "row 0", "anywhere", "mirrored"];

#[test]
fn random_pairs() {
    let mut tally = Tally::default();
    cases("two faults", 5_000, |random| {
        let (p, one_row_in) = (random.pick(&primes()), random.pick(&[1, 2, 2, 5]));
        let columns = match random.below(20) {
            0 => random.pick(&[65, 96, 128]),
            _ => random.within(2, 64),
        };
        let led = (0..columns).map(|_| random.one_in(one_row_in)).collect();
        let layout = random.pick(&LAYOUTS);
        let mut sound = Sound::new(random, layout, p, led);
        let [one, any] = [(), ()].map(|()| place(random, layout, columns));
        let relation = random.pick(&RELATIONS);
        let other = match relation {
            "one row" => (one.0, any.1),
            "one column" => (any.0, one.1),
            "row 0" => (0, any.1),
            "mirrored" => (one.1, one.0),
            _ => any,
        };
        // Not a right-hand side's mirror, and nothing that the layout lacks.
        if other.0 >= columns || layout.place(columns, other.0, other.1).is_none() {
            return;
        }
        let byte = another(random, p, sound.at(one.0, one.1));
        let old = sound.at(other.0, other.1);
        let second = match random.below(5) {
            0 => byte,
            1 => byte.wrapping_neg(),
            2 => (p as u8).wrapping_sub(byte),
            _ => another(random, p, old),
        };
        if one == other || second == old {
            return;
        }
        let changes = [(one.0, one.1, byte), (other.0, other.1, second)];
        let answer = sound.test(&changes, &mut tally);
        tally.add(relation, answer);
    });
    tally.complete(&VERDICTS, 10_000);
    for relation in RELATIONS {
        let [sound, damaged] = [0, 6].map(|answer| tally.count(relation, answer));
        println!("{relation}: {sound} sound, {damaged} damaged");
        let few = tally.total() < 10_000;
        assert!(few || damaged > 0, "{relation}: never damaged");
        let mirrored = relation == "mirrored";
        assert!(few || (sound == 0) == mirrored, "{relation}: {sound} sound");
    }
}

/// Three values below the diagonals in three columns, of which the second has no
/// pivot: in one row, and each in a row of its own. Only the full layout has bytes
/// there.
#[test]
fn three_columns_at_once() {
    let (mut random, mut tally) = (Random::new(11, 0), Tally::default());
    for columns in [4, 33, 64, 256, 1_024] {
        for p in PRIMES {
            let led = (0..columns).map(|q| q % 3 != 1).collect();
            let mut sound = Sound::new(&mut random, Layout::Full, p, led);
            sound.expect(0, &[], &mut tally);
            let last = columns - 1;
            for byte in [1, p - 1, p].map(|byte| byte as u8) {
                let one_row = [0, 1, 2].map(|column| (last, column, byte));
                sound.expect(6, &one_row, &mut tally);
                let own_rows = [(last, 0, byte), (last - 1, 1, byte), (last, 2, byte)];
                sound.expect(6, &own_rows, &mut tally);
            }
        }
    }
    tally.complete(&[("to_half", &[6])], 0);
}

/// Faults of which the number or the sum is 0 modulo 256.
#[test]
fn as_many_as_a_byte_holds() {
    let (mut random, mut tally) = (Random::new(12, 0), Tally::default());
    let (columns, last) = (600, 599);
    // In one column above the diagonal, and below it; in one row right of the
    // diagonal, and left of it; and in right-hand sides, where no row is led.
    let lines: [&dyn Fn(usize) -> Place; 5] = [
        &|k| (k, last),
        &|k| (last - k, 0),
        &|k| (0, k + 1),
        &|k| (last, k),
        &|k| (k, columns),
    ];
    for (layout, led) in LAYOUTS
        .map(|layout| [true, false].map(|led| (layout, led)))
        .concat()
    {
        let mut sound = Sound::new(&mut random, layout, 251, vec![led; columns]);
        sound.expect(0, &[], &mut tally);
        for (number, line) in lines.iter().enumerate() {
            let (_, column) = line(0);
            if (layout == Layout::Half && [1, 3].contains(&number)) || (led && column == columns) {
                continue;
            }
            for (byte, count) in [
                (1, 256),
                (1, 512),
                (2, 128),
                (4, 64),
                (16, 16),
                (64, 4),
                (128, 2),
                (255, 256),
            ] {
                let places = (0..count).map(line);
                let changes: Vec<Change> = places.map(|at| (at.0, at.1, byte)).collect();
                sound.expect(6, &changes, &mut tally);
            }
        }
    }
    tally.complete(&VERDICTS, 0);
}
