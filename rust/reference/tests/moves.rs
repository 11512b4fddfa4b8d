//! Document 02, C-16: the moves of a store between the layout of 01 and the new
//! one, there and back, each cause of each move, and what they leave in the
//! target; and that a call on a new store is that on the old one it stands for.
//! What the layouts are is said here once more, by their rows.

mod common;
use common::{call, Owned, Random};
use reference::{halved, widened, Filed, Record, Withdrawn};

/// A random store in the old layout, in reduced form: about every other row is
/// led.
fn reduced(random: &mut Random, plan: &Owned) -> Vec<u8> {
    let columns = plan.columns();
    let led: Vec<bool> = (0..columns).map(|_| random.below(2) == 1).collect();
    let mut full = plan.empty_full();
    for (q, row) in full.chunks_mut(columns + 1).enumerate() {
        for (j, byte) in row.iter_mut().enumerate().skip(q) {
            if led[q] && (j == columns || !led[j]) {
                *byte = random.below(plan.p) as u8;
            }
        }
        row[q] = led[q].into();
    }
    full
}

/// Bytes of all kinds.
fn noise(random: &mut Random, count: usize) -> Vec<u8> {
    (0..count).map(|_| random.next() as u8).collect()
}

#[test]
fn the_lengths() {
    // 02, C-16: C(C+1)/2 + C bytes; 65,340 where C is 360.
    for (plan, columns, half, full) in [
        (Owned::zeros(3, 2, 1, 0, 0), 1, 2, 2),
        (Owned::zeros(3, 2, 2, 0, 0), 2, 5, 6),
        (Owned::xor(), 4, 14, 20),
        (Owned::zeros(3, 2, 12, 0, 29), 360, 65_340, 129_960),
        (Owned::zeros(3, 2, 12, 52, 15), 1_024, 525_824, 1_049_600),
    ] {
        assert_eq!(plan.columns(), columns);
        let zeros = |count: usize| vec![0; count];
        assert_eq!(plan.test(&zeros(half)), 0);
        assert_eq!(plan.to_half(&zeros(full), &zeros(half)), Ok(zeros(half)));
        assert_eq!(plan.to_full(&zeros(half), &zeros(full)), Ok(zeros(full)));
        for wrong in [half - 1, half + 1, 0, full + 1] {
            assert_eq!(plan.test(&zeros(wrong)), 4);
            assert_eq!(plan.to_half(&zeros(full), &zeros(wrong)), Err(4));
            assert_eq!(plan.to_full(&zeros(wrong), &zeros(full)), Err(4));
        }
        for wrong in [full - 1, full + 1, 0] {
            assert_eq!(plan.to_half(&zeros(wrong), &zeros(half)), Err(4));
            assert_eq!(plan.to_full(&zeros(half), &zeros(wrong)), Err(4));
        }
        // Each in the other's place, but for C = 1, where they are the same.
        let swapped = if columns == 1 { Ok(zeros(2)) } else { Err(4) };
        assert_eq!(plan.to_half(&zeros(half), &zeros(full)), swapped);
        assert_eq!(plan.to_full(&zeros(full), &zeros(half)), swapped);
        assert_eq!(plan.test(&zeros(full)), if columns == 1 { 0 } else { 4 });
    }
}

#[test]
fn a_store_by_hand() {
    // Rows 0 and 2 are led, columns 1 and 3 hold anything.
    let x = Owned::xor();
    let full = [
        1, 2, 0, 1, 2, //
        0, 0, 0, 0, 0, //
        0, 0, 1, 2, 1, //
        0, 0, 0, 0, 0,
    ];
    let half = [1, 2, 0, 1, 2, 0, 0, 0, 0, 1, 2, 1, 0, 0];
    assert_eq!(x.to_half(&full, &[255; 14]).as_deref(), Ok(&half[..]));
    assert_eq!(x.to_full(&half, &[255; 20]).as_deref(), Ok(&full[..]));
    assert_eq!(halved(4, &full), half);
    assert_eq!(widened(4, &half), full);
}

/// Random stores there and back, both ways, into random bytes.
#[test]
fn there_and_back() {
    let mut random = Random::new(16);
    for round in 0..300 {
        let p = [3, 5, 17, 31, 251][round % 5];
        let (n, m, t) = (1 + random.below(3), random.below(4), random.below(4));
        let plan = Owned::zeros(p, 2, n, m, t);
        let full = reduced(&mut random, &plan);
        let target = noise(&mut random, plan.empty_store().len());
        let half = plan.to_half(&full, &target).expect("a move");
        assert_eq!(plan.rows(&half).concat(), full);
        assert_eq!(plan.test(&half), 0);
        let target = noise(&mut random, full.len());
        assert_eq!(plan.to_full(&half, &target).as_ref(), Ok(&full));
        let target = noise(&mut random, half.len());
        assert_eq!(plan.to_half(&full, &target), Ok(half));
    }
}

/// The next list of bytes below `below`, counting up with the first fastest.
fn next(bytes: &mut [u8], below: u8) -> bool {
    let Some(place) = bytes.iter().position(|&x| x < below - 1) else {
        return false;
    };
    bytes[..place].fill(0);
    bytes[place] += 1;
    true
}

/// Every store of bytes 0 to 3 in the old layout under p = 3, of one column and
/// of two: it moves exactly when it is reduced, which is said here once more, and
/// then as many as the line or the plane has points, lines and so on. Every store
/// of the new layout moves exactly when the test accepts it, and none has more.
#[test]
fn every_tiny_store() {
    for (columns, all) in [(1, 3 + 1), (2, 9 + 12 + 1)] {
        let plan = Owned::zeros(3, 3, columns, 0, 0);
        let columns = plan.columns();
        let sound = |full: &[u8]| {
            let row = |q: usize| &full[q * (columns + 1)..][..columns + 1];
            let below = full.iter().all(|&x| x < 3);
            let led = |q: usize| {
                let left = row(q)[..q].iter().all(|&x| x == 0);
                left && row(q)[q] == 1 && (0..columns).all(|r| r == q || row(r)[q] == 0)
            };
            below && (0..columns).all(|q| row(q).iter().all(|&x| x == 0) || led(q))
        };
        let (mut full, mut moved) = (plan.empty_full(), 0);
        loop {
            let half = plan.to_half(&full, &vec![77; plan.empty_store().len()]);
            match sound(&full) {
                true => {
                    let half = half.expect("a store in reduced form");
                    assert_eq!(
                        plan.to_full(&half, &vec![77; full.len()]).as_ref(),
                        Ok(&full)
                    );
                    moved += 1;
                }
                false => assert_eq!(half, Err(6)),
            }
            if !next(&mut full, 4) {
                break;
            }
        }
        assert_eq!(moved, all);

        let (mut half, mut moved) = (plan.empty_store(), 0);
        loop {
            let full = plan.to_full(&half, &vec![77; plan.empty_full().len()]);
            assert_eq!(sound(&plan.rows(&half).concat()), full.is_ok());
            match plan.test(&half) {
                0 => {
                    let full = full.expect("a store in reduced form");
                    assert_eq!(
                        plan.to_half(&full, &vec![77; half.len()]).as_ref(),
                        Ok(&half)
                    );
                    moved += 1;
                }
                number => assert_eq!((number, full), (6, Err(6))),
            }
            if !next(&mut half, 4) {
                break;
            }
        }
        assert_eq!(moved, all);
    }
}

/// Every byte left of the diagonal with every value: 6, and the target untouched.
#[test]
fn left_of_the_diagonal() {
    let mut random = Random::new(17);
    let plan = Owned::zeros(5, 2, 2, 1, 1);
    let columns = plan.columns();
    let mut full = reduced(&mut random, &plan);
    for row in 1..columns {
        for column in 0..row {
            for byte in 1..=255 {
                full[row * (columns + 1) + column] = byte;
                let target = noise(&mut random, plan.empty_store().len());
                assert_eq!(plan.to_half(&full, &target), Err(6));
            }
            full[row * (columns + 1) + column] = 0;
        }
    }
    assert!(plan.to_half(&full, &plan.empty_store()).is_ok());
}

/// A move that meets the causes of a set: p s n m t = 5 2 2 1 1, C = 6.
struct Move {
    plan: Owned,
    full: Vec<u8>,
    half: Vec<u8>,
}

impl Move {
    fn new() -> Move {
        let plan = Owned {
            weights: vec![1, 2],
            tables: vec![1, 0, 2, 4, 3],
            d: vec![1, 1, 1],
            ..Owned::zeros(5, 2, 2, 1, 1)
        };
        let (full, half) = (plan.empty_full(), plan.empty_store());
        Move { plan, full, half }
    }

    /// Makes both moves meet this cause, whatever others they meet; 4 by the one
    /// buffer or the other.
    fn spoil(&mut self, cause: u32, by_half: bool) {
        match cause {
            1 => self.plan.p = 9,
            2 => self.plan.s = 1,
            3 => self.plan.t = 33,
            4 if by_half => self.half.push(0),
            4 => self.full.push(0),
            5 => self.plan.d[0] = 255,
            _ => (self.full[0], self.half[0]) = (2, 2),
        }
    }
}

#[test]
fn every_set_of_causes_gives_the_first() {
    // Pairs among them: with the first put right, the second is answered.
    for set in 0..1 << 6 {
        for by_half in [false, true] {
            let mut lent = Move::new();
            let met: Vec<u32> = (1..=6)
                .filter(|cause| set >> (cause - 1) & 1 == 1)
                .collect();
            met.iter().for_each(|&cause| lent.spoil(cause, by_half));
            let first = met.first().copied().unwrap_or(0);
            let answered = |moved: Result<Vec<u8>, u32>| moved.err().unwrap_or(0);
            let Move { plan, full, half } = lent;
            assert_eq!(answered(plan.to_half(&full, &half)), first, "{met:?}");
            assert_eq!(answered(plan.to_full(&half, &full)), first, "{met:?}");
        }
    }
}

/// The target's old bytes are untested: any will do, and all are written.
#[test]
fn the_target_is_untested() {
    let lent = Move::new();
    for byte in [1, 5, 77, 255] {
        let (half, full) = (vec![byte; lent.half.len()], vec![byte; lent.full.len()]);
        let moved = lent.plan.to_half(&lent.full, &half);
        assert_eq!(moved, Ok(lent.plan.empty_store()));
        let moved = lent.plan.to_full(&lent.half, &full);
        assert_eq!(moved, Ok(lent.plan.empty_full()));
    }
}

/// Elimination by the book on the old layout, without the reference: the reduced
/// rows after these equations, or None where they contradict each other.
fn eliminate(p: usize, columns: usize, equations: &[Vec<usize>]) -> Option<Vec<u8>> {
    let mut rows = equations.to_vec();
    let mut full = vec![0; columns * (columns + 1)];
    for column in 0..columns {
        let Some(found) = rows
            .iter()
            .position(|row| row[..column].iter().all(|&x| x == 0) && row[column] != 0)
        else {
            continue;
        };
        let mut pivot = rows.swap_remove(found);
        let inverse = (1..p)
            .find(|x| x * pivot[column] % p == 1)
            .expect("a prime");
        pivot.iter_mut().for_each(|x| *x = *x * inverse % p);
        for row in &mut rows {
            let factor = p - row[column];
            for (x, y) in row.iter_mut().zip(&pivot) {
                *x = (*x + factor * y) % p;
            }
        }
        rows.push(pivot);
    }
    for row in rows {
        match row[..columns].iter().position(|&x| x != 0) {
            Some(q) => {
                let bytes = row.iter().map(|&x| x as u8);
                full.splice(q * (columns + 1)..(q + 1) * (columns + 1), bytes);
            }
            None if row[columns] != 0 => return None,
            None => {}
        }
    }
    Some(full)
}

/// Filing on the new layout keeps the store whose old one has the reduced rows of
/// all entries kept; moved there and back on the way, it goes on as if it had not
/// been moved.
#[test]
fn filing_is_that_of_the_old_layout() {
    let mut random = Random::new(18);
    for (p, s, n, m, t) in [
        (3, 2, 3, 1, 1),
        (5, 4, 2, 2, 1),
        (7, 7, 1, 3, 1),
        (251, 3, 2, 1, 2),
    ] {
        for _ in 0..6 {
            let plan = Owned::random(&mut random, p, s, n, m, t);
            let (columns, mut store) = (plan.columns(), plan.empty_store());
            let mut kept: Vec<Vec<usize>> = Vec::new();
            for _ in 0..20 {
                let (entry, value) = (random.below(plan.entries()), random.below(s));
                let mut equation: Vec<usize> =
                    plan.row(entry).iter().map(|&x| x as usize).collect();
                equation.push(value as usize);
                kept.push(equation);
                let answer = plan.file(&mut store, entry, value);
                let expected = eliminate(p as usize, columns, &kept);
                assert_eq!(answer == Filed::Refused(9), expected.is_none());
                if expected.is_none() {
                    kept.pop();
                }
                let full = eliminate(p as usize, columns, &kept).expect("kept entries");
                assert_eq!(plan.rows(&store).concat(), full);
                let target = noise(&mut random, full.len());
                assert_eq!(plan.to_full(&store, &target).as_ref(), Ok(&full));
                let target = noise(&mut random, store.len());
                store = plan.to_half(&full, &target).expect("a move");
                let right = full.chunks(columns + 1).map(|row| row[columns]);
                assert!(right.eq(plan.beta(&store)));
            }
        }
    }
}

/// An old store lent to a call on a store is 4, and left as it was.
#[test]
fn an_old_store_in_a_call() {
    let x = Owned::xor();
    let mut full = x.empty_full();
    assert_eq!(x.test(&full), 4);
    assert_eq!(x.file(&mut full, 1, 1), Filed::Refused(4));
    assert_eq!(x.settle(&full, 1), reference::Settled::Refused(4));
    assert_eq!(x.general_in(&full), Err(4));
    // As the store, and as the work store.
    let mut records = [Record::default(); 4];
    for store_is_full in [true, false] {
        let (mut store, mut work) = (x.empty_store(), x.empty_store());
        if store_is_full {
            store.clone_from(&full);
        } else {
            work.clone_from(&full);
        }
        let (store, work, records, count) = (&mut store, &mut work, &mut records, &mut 0);
        let filed = call!(file_recorded, x, store, work, records, count, 1, 1);
        assert_eq!(filed, Filed::Refused(4));
        let withdrawn = call!(withdraw, x, store, work, records, count, 1);
        assert_eq!(withdrawn, Withdrawn::Refused(4));
    }
    let mut beta = [9; 4];
    assert_eq!(call!(coefficients, x, &full, &mut beta), 4);
    assert_eq!((full, beta), (x.empty_full(), [9; 4]));
}
