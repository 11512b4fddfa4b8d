//! Stores in reduced form, led in the rows that are wanted, and the same with
//! some bytes changed; in either layout.

use super::layout::Layout;
use super::plans::{reduced_with, Owned};
use super::random::Random;
use super::tally::Tally;
use super::twins;
use celerycrag::raw;

/// A row, a column, and the byte that is put there.
pub type Change = (usize, usize, u8);

/// A store in reduced form.
pub struct Sound {
    pub plan: Owned,
    pub layout: Layout,
    /// The rows that are led; the others are zero.
    pub led: Vec<bool>,
    bytes: Vec<u8>,
    /// What a move is lent to write: nothing that a store holds.
    target: Vec<u8>,
}

/// The target of a move, whose old bytes are untested.
fn target(random: &mut Random, layout: Layout, columns: usize) -> Vec<u8> {
    let length = match layout {
        Layout::Half => Layout::Full.length(columns),
        Layout::Full => Layout::Half.length(columns),
    };
    random.bytes(length, 256)
}

impl Sound {
    /// With these rows led, and random where reduced form leaves it free.
    pub fn new(random: &mut Random, layout: Layout, p: usize, led: Vec<bool>) -> Sound {
        let plan = Owned::of_columns(p, led.len());
        let half = reduced_with(random, &plan, &led);
        let bytes = match layout {
            Layout::Half => half,
            Layout::Full => plan.widened(&half),
        };
        let target = target(random, layout, led.len());
        Sound {
            plan,
            layout,
            led,
            bytes,
            target,
        }
    }

    /// C, which is also the place of a right-hand side in its row.
    pub fn columns(&self) -> usize {
        self.led.len()
    }

    /// What is there; 0 where the layout keeps nothing.
    pub fn at(&self, row: usize, column: usize) -> u8 {
        let place = self.layout.place(self.columns(), row, column);
        place.map_or(0, |place| self.bytes[place])
    }

    /// Puts a byte in its place, and tells what was there.
    fn put(&mut self, (row, column, byte): Change) -> Change {
        let place = self.layout.place(self.columns(), row, column);
        let place = place.expect("a byte that the layout keeps");
        let old = std::mem::replace(&mut self.bytes[place], byte);
        (row, column, old)
    }

    /// What is answered to the store with these changes, which are undone.
    fn with(&mut self, changes: &[Change], answer: impl FnOnce(&Sound) -> u8) -> u8 {
        let old: Vec<Change> = changes.iter().map(|&change| self.put(change)).collect();
        let answer = answer(self);
        for &change in old.iter().rev() {
            self.put(change);
        }
        answer
    }

    /// The verdict, the same by library and reference: of the store test, which
    /// the move to the full layout shares, or of the move from it.
    pub fn test(&mut self, changes: &[Change], tally: &mut Tally) -> u8 {
        self.with(changes, |store| {
            let (plan, bytes, mut target) = (&store.plan, &store.bytes, store.target.clone());
            match store.layout {
                Layout::Half => {
                    let answer = twins::test(plan, bytes, tally);
                    let moved = raw::to_full(plan.lent(), bytes, &mut target);
                    tally.add("to_full", moved);
                    assert_eq!(moved, answer, "the move, and the test");
                    let written = target != store.target;
                    assert!(moved == 0 || !written, "a refused move wrote");
                    answer
                }
                Layout::Full => twins::to_half(plan, bytes, &mut target, tally),
            }
        })
    }

    /// The verdict of the library alone, where the reference would take long.
    pub fn test_library(&mut self, changes: &[Change], tally: &mut Tally) -> u8 {
        let mut target = std::mem::take(&mut self.target);
        let answer = self.with(changes, |store| {
            let plan = store.plan.lent();
            match store.layout {
                Layout::Half => {
                    let moved = raw::to_full(plan, &store.bytes, &mut target);
                    tally.add("to_full", moved);
                    let answer = raw::test(plan, &store.bytes);
                    tally.add("test", answer);
                    assert_eq!(moved, answer, "the move, and the test");
                    answer
                }
                Layout::Full => {
                    let answer = raw::to_half(plan, &store.bytes, &mut target);
                    tally.add("to_half", answer);
                    answer
                }
            }
        });
        self.target = target;
        answer
    }

    /// That library and reference give this answer.
    pub fn expect(&mut self, answer: u8, changes: &[Change], tally: &mut Tally) {
        let given = self.test(changes, tally);
        let (p, layout, led) = (self.plan.p, self.layout, &self.led);
        let asked = format!("p = {p}, {layout:?}, {changes:?}, rows led: {led:?}");
        assert_eq!(given, answer, "{asked}");
    }
}

/// The verdicts on a store in either layout.
pub const VERDICTS: [(&str, &[u8]); 3] = [("test", &[6]), ("to_full", &[6]), ("to_half", &[6])];

/// Ways to lead rows: none; all; every other, row 0 among them or not; two of
/// three; the one half and the other; row 0 alone; the last row alone.
pub fn ways(columns: usize) -> Vec<Vec<bool>> {
    let ways: [fn(usize, usize) -> bool; 9] = [
        |_, _| false,
        |_, _| true,
        |q, _| q % 2 == 0,
        |q, _| q % 2 == 1,
        |q, _| q % 3 != 1,
        |q, columns| 2 * q < columns,
        |q, columns| 2 * q >= columns,
        |q, _| q == 0,
        |q, columns| q == columns - 1,
    ];
    let led = |way: &fn(usize, usize) -> bool| (0..columns).map(|q| way(q, columns)).collect();
    ways.iter().map(led).collect()
}
