//! Settling on stores of which the reply is known beforehand. Which rows are led
//! is chosen, and the store is drawn so that an entry's row, once cleared, is
//! zero in every column before a chosen one, or in all.
//!
//! A search from the left may stop at the first column that is not zero, and may
//! give way to a clearing of the whole row where it has looked at too much. So
//! rows are led few and many, at the front, at the end and all over, and entries
//! are free early, late and nowhere: from C = 10 to 1,024, and in all tiny stores.

mod common;
use common::layout::Layout;
use common::plans::{reduced_with, Owned};
use common::random::{cases, Random};
use common::tally::Tally;
use common::twins;
use reference::Settled;

/// A plan with the row of one of its entries, which is not zero.
struct Asked {
    plan: Owned,
    entry: usize,
    row: Vec<u8>,
    /// The first column in which the row is not zero.
    first: usize,
}

impl Asked {
    /// An entry of this plan with other residues.
    fn new(random: &mut Random, plan: &Owned, tally: &mut Tally) -> Asked {
        loop {
            let plan = plan.clone().drawn(random);
            let entry = random.below(plan.entries());
            let mut row = vec![0; plan.columns()];
            assert_eq!(twins::row(&plan, entry, &mut row, tally), 0);
            if let Some(first) = row.iter().position(|&x| x != 0) {
                return Asked {
                    plan,
                    entry,
                    row,
                    first,
                };
            }
        }
    }

    /// What the row is in a column without a pivot once the rows led have
    /// cleared it.
    fn residual(&self, store: &[u8], led: &[bool], column: usize) -> usize {
        let before = (0..column).filter(|&q| led[q]);
        let taken = before.map(|q| self.row[q] as usize * store[self.place(q, column)] as usize);
        let p = self.plan.p;
        (self.row[column] as usize + p - taken.sum::<usize>() % p) % p
    }

    /// The place of a column of a row, on the diagonal or right of it.
    fn place(&self, row: usize, column: usize) -> usize {
        let place = Layout::Half.place(self.plan.columns(), row, column);
        place.expect("a byte of the row")
    }

    /// A random store with these rows led, that of the first column among them,
    /// on which the entry is free in `column`, or forced where that is C.
    fn store(&self, random: &mut Random, led: &[bool], column: usize) -> Vec<u8> {
        assert!(led[self.first]);
        let (p, columns) = (self.plan.p, self.plan.columns());
        let mut store = reduced_with(random, &self.plan, led);
        // The row led in the first column makes each later one what it shall be.
        for j in (self.first..columns).filter(|&j| !led[j]) {
            let wanted = match j {
                j if j < column => 0,
                j if j == column => random.within(1, p - 1),
                _ => random.below(p),
            };
            let place = self.place(self.first, j);
            store[place] = 0;
            let without = self.residual(&store, led, j);
            let lead = self.row[self.first] as usize;
            let taken = (0..p).find(|x| (wanted + lead * x) % p == without);
            store[place] = taken.expect("a residue times another") as u8;
        }
        store
    }

    /// What the coefficients on the right of the rows led give the entry.
    fn given(&self, store: &[u8]) -> usize {
        let columns = self.plan.columns();
        let right = (0..columns).map(|q| store[self.place(q, columns)]);
        self.plan.product(&self.row, &right.collect::<Vec<u8>>()) as usize
    }

    /// Settles the entry on a store with these rows led: free in each of these
    /// columns in turn, then forced.
    fn ask(&self, random: &mut Random, led: &[bool], columns: &[usize], tally: &mut Tally) {
        for &column in columns.iter().chain([&self.plan.columns()]) {
            let store = self.store(random, led, column);
            let expected = if column < self.plan.columns() {
                Settled::Free(column)
            } else {
                Settled::Forced(self.given(&store))
            };
            let settled = twins::settle(&self.plan, &store, self.entry, tally);
            assert_eq!(settled, Ok(expected), "{led:?}");
        }
    }

    /// The columns in which the entry can be free with these rows led.
    fn open(&self, led: &[bool]) -> Vec<usize> {
        (self.first..led.len()).filter(|&j| !led[j]).collect()
    }
}

/// Ways to lead rows, few and many.
fn patterns(random: &mut Random, columns: usize) -> Vec<Vec<bool>> {
    let mut all: Vec<Vec<bool>> = Vec::new();
    let mut add = |led: &dyn Fn(usize) -> bool| all.push((0..columns).map(led).collect());
    for few in [0, 1, 2, 3, 4, 5, 6, 9, 17] {
        add(&|q| q < few);
    }
    for free in [2, 3, 8] {
        add(&|q| q % free == 0);
        add(&|q| q % free != 1);
    }
    // Half of them, and all but a few.
    add(&|q| q < columns / 2);
    add(&|q| q >= columns / 2);
    add(&|q| q < columns.saturating_sub(3));
    add(&|q| q != columns / 2);
    add(&|q| q != columns - 1);
    add(&|_| true);
    let drawn: Vec<bool> = (0..columns).map(|_| random.one_in(2)).collect();
    add(&|q| drawn[q]);
    all
}

/// Of these columns the first, the last and some between.
fn some(random: &mut Random, open: &[usize]) -> Vec<usize> {
    let mut chosen = Vec::new();
    if let (Some(&first), Some(&last)) = (open.first(), open.last()) {
        chosen.extend([first, last, open[open.len() / 2], random.pick(open)]);
        for near in [64, 90, 181, 256, 512] {
            chosen.extend(open.iter().find(|&&j| j >= near));
            chosen.extend(open.iter().rfind(|&&j| j < near));
        }
    }
    chosen.sort();
    chosen.dedup();
    chosen
}

/// All ways to lead rows, with the columns that are chosen from the open ones.
fn sweep(shape: [usize; 5], choose: impl Fn(&mut Random, &[usize]) -> Vec<usize>) {
    let (mut random, mut tally) = (Random::new(3, 0), Tally::default());
    let plan = Owned::zeros(shape);
    for mut led in patterns(&mut random, plan.columns()) {
        let asked = Asked::new(&mut random, &plan, &mut tally);
        led[asked.first] = true;
        let columns = choose(&mut random, &asked.open(&led));
        asked.ask(&mut random, &led, &columns, &mut tally);

        // Without a pivot in its first column the entry is free there.
        led[asked.first] = false;
        let store = reduced_with(&mut random, &asked.plan, &led);
        let settled = twins::settle(&asked.plan, &store, asked.entry, &mut tally);
        assert_eq!(settled, Ok(Settled::Free(asked.first)));
    }
}

#[test]
fn c_10_to_64_in_every_column() {
    for shape in [
        [3, 2, 2, 3, 1],
        [7, 2, 2, 2, 2],
        [251, 3, 2, 2, 3],
        [5, 4, 3, 3, 2],
        [13, 2, 2, 3, 3],
        [31, 2, 4, 4, 3],
        [127, 2, 3, 7, 3],
        [3, 2, 6, 26, 1],
        [17, 2, 6, 26, 1],
        [251, 2, 6, 26, 1],
    ] {
        sweep(shape, |_, open| open.to_vec());
    }
}

#[test]
fn c_256() {
    for p in [3, 17, 251] {
        sweep([p, 2, 8, 56, 3], |random, open| {
            let mut columns = some(random, open);
            columns.extend(open.iter().step_by(7));
            columns
        });
    }
}

#[test]
fn c_1024() {
    for p in [3, 251] {
        sweep([p, 2, 12, 52, 15], some);
    }
}

/// Every way to lead rows, and every column, where there are at most nine.
#[test]
fn tiny_stores() {
    let shapes = [
        [5, 2, 1, 0, 0],
        [3, 2, 2, 0, 0],
        [7, 3, 1, 2, 0],
        [3, 2, 2, 0, 1],
        [251, 2, 1, 1, 1],
        [13, 4, 2, 1, 1],
        [11, 5, 1, 3, 1],
        [3, 2, 2, 1, 2],
    ];
    let mut tally = Tally::default();
    cases("tiny stores", 5, |random| {
        for shape in shapes {
            let asked = Asked::new(random, &Owned::zeros(shape), &mut tally);
            let columns = asked.plan.columns();
            for set in 0..1_usize << columns {
                let led: Vec<bool> = (0..columns).map(|q| set >> q & 1 == 1).collect();
                if led[asked.first] {
                    asked.ask(random, &led, &asked.open(&led), &mut tally);
                }
            }
        }
    });
}

/// A row of zeros is forced to 0, whatever the store.
#[test]
fn a_row_of_zeros() {
    let (mut random, mut tally) = (Random::new(4, 0), Tally::default());
    for shape in [
        [5, 2, 1, 0, 0],
        [3, 2, 2, 0, 1],
        [251, 2, 6, 26, 1],
        [17, 2, 8, 56, 3],
        [251, 2, 12, 52, 15],
    ] {
        // Every link is 0 at entry 0, where the digits are.
        let mut plan = Owned::zeros(shape).drawn(&mut random);
        plan.tables.iter_mut().step_by(plan.p).for_each(|x| *x = 0);
        let mut row = vec![9; plan.columns()];
        assert_eq!(twins::row(&plan, 0, &mut row, &mut tally), 0);
        assert!(row.iter().all(|&x| x == 0));
        for led in patterns(&mut random, plan.columns()) {
            let store = reduced_with(&mut random, &plan, &led);
            let settled = twins::settle(&plan, &store, 0, &mut tally);
            assert_eq!(settled, Ok(Settled::Forced(0)));
        }
    }
}

/// Tables that fill up entry by entry: what is free is filed as new in its
/// column, and is forced to its value from then on.
#[test]
fn tables_fill_up() {
    let (mut random, mut tally) = (Random::new(5, 0), Tally::default());
    for shape in [[17, 2, 6, 26, 1], [3, 2, 8, 56, 3], [251, 2, 8, 56, 3]] {
        let plan = Owned::zeros(shape).drawn(&mut random);
        let mut store = plan.empty_store();
        let mut known = Vec::new();
        for entry in 0..plan.entries() {
            let settled = twins::settle(&plan, &store, entry, &mut tally);
            known.push(match settled.expect("an accepted call") {
                Settled::Free(column) => {
                    let value = random.below(plan.s);
                    let filed = twins::file(&plan, &mut store, entry, value, &mut tally);
                    assert_eq!(filed, Ok(column));
                    Settled::Forced(value)
                }
                forced => forced,
            });
            for before in [entry, random.below(entry + 1)] {
                let settled = twins::settle(&plan, &store, before, &mut tally);
                assert_eq!(settled, Ok(known[before]), "entry {before}");
            }
        }
    }
}
