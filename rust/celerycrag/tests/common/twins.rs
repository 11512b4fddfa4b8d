//! Every call made twice on the same arguments, on the library and on the
//! reference: the answers and all bytes have to be the same, a refused call
//! has to leave everything as it was, and no call may write beside its slice.

use super::plans::Owned;
use super::recorded::Recorded;
use super::tally::Tally;
use celerycrag::raw;
use reference::{Filed, General, Ran, Reread, Settled};
use std::fmt::Debug;

/// What a single number that is lent holds before the call; no call answers it.
pub const OLD: usize = 0x5EED_5EED_5EED_5EED;
/// The same of a byte that is at most p, and so at most 251.
const OLD_BYTE: u8 = 0xFE;
/// The elements beside a slice that is lent to be written.
const MARGIN: usize = 37;

/// Everything that the seventeen calls take.
#[derive(Clone, Debug)]
pub struct Lot {
    pub plan: Owned,
    pub entry: usize,
    pub value: usize,
    pub row: Vec<u8>,
    /// What the calls on a store take, the target of one move, and the work
    /// store of the question whether a plan is general.
    pub store: Vec<u8>,
    /// What the calls with records take: a store of their own, with its list.
    pub recorded: Recorded,
    /// A store in the full layout: what that move takes, and the target of the
    /// other.
    pub full: Vec<u8>,
    pub beta: Vec<u8>,
    /// What the writer is lent.
    pub room: Vec<u16>,
    /// What is run, and read back.
    pub steps: Vec<u16>,
    pub digits: Vec<u8>,
    /// What is read back.
    pub text: Vec<u8>,
}

/// Calls the reference with the plan's numbers and parts, then the call's own.
macro_rules! by_reference {
    ($name:ident, $plan:expr $(, $own:expr)*) => {{
        let plan: &Owned = $plan;
        reference::$name(
            plan.p as u64, plan.s as u64, plan.n as u64, plan.m as u64, plan.t as u64,
            &plan.radices, &plan.weights, &plan.tables, &plan.d $(, $own)*
        )
    }};
}

pub(crate) use by_reference;

/// Lends a copy of the slice with a margin on each side; the copy afterwards,
/// and what the call answered.
pub fn fenced<T, A>(slice: &[T], mark: T, call: impl FnOnce(&mut [T]) -> A) -> (Vec<T>, A)
where
    T: Copy + PartialEq + Debug,
{
    let fence = [mark; MARGIN];
    let mut all = [&fence, slice, &fence].concat();
    let end = MARGIN + slice.len();
    let answer = call(&mut all[MARGIN..end]);
    assert_eq!(all[..MARGIN], fence, "written before the slice");
    assert_eq!(all[end..], fence, "written behind the slice");
    (all[MARGIN..end].to_vec(), answer)
}

/// What both answered, and that the library answered the same.
pub fn agreed(call: &'static str, library: u8, reference: u32, tally: &mut Tally) -> u8 {
    assert_eq!(library as u32, reference, "{call}: library, then reference");
    tally.add(call, library);
    library
}

pub fn check(plan: &Owned, tally: &mut Tally) -> u8 {
    let expected = by_reference!(check_plan, plan);
    agreed("check", raw::check(plan.lent()), expected, tally)
}

/// Makes the call on `row`, and leaves there what both made of it.
pub fn row(plan: &Owned, entry: usize, row: &mut Vec<u8>, tally: &mut Tally) -> u8 {
    let mut expected = row.clone();
    let number = by_reference!(row, plan, entry as u64, &mut expected);
    let (after, answer) = fenced(row, 0xA5, |row| raw::row(plan.lent(), entry, row));
    assert_eq!(after, expected, "row");
    assert!(answer == 0 || after == *row, "a refused row was written");
    *row = after;
    agreed("row", answer, number, tally)
}

pub fn test(plan: &Owned, store: &[u8], tally: &mut Tally) -> u8 {
    let expected = by_reference!(test_store, plan, store);
    let (after, answer) = fenced(store, 0xA5, |store| raw::test(plan.lent(), store));
    assert!(after == store, "the test wrote to the store");
    agreed("test", answer, expected, tally)
}

/// Files in `store`, and leaves there what both made of it. An accepted filing
/// tells its column, C where the entry was implied.
pub fn file(
    plan: &Owned,
    store: &mut Vec<u8>,
    entry: usize,
    value: usize,
    tally: &mut Tally,
) -> Result<usize, u8> {
    let mut expected = store.clone();
    let filed = by_reference!(file, plan, &mut expected, entry as u64, value as u64);
    let (number, expected_column) = match filed {
        Filed::New(column) => (0, column),
        Filed::Implied => (0, plan.columns()),
        Filed::Refused(number) => (number, OLD),
    };
    let mut column = OLD;
    let (after, answer) = fenced(store, 0xA5, |store| {
        raw::file(plan.lent(), store, entry, value, &mut column)
    });
    agreed("file", answer, number, tally);
    assert_eq!(column, expected_column, "the column of a filing");
    assert!(after == expected, "the store after a filing");
    let kept_as_it_was = answer != 0 || column == plan.columns();
    assert!(!kept_as_it_was || after == *store, "a store was written");
    *store = after;
    match answer {
        0 => Ok(column),
        number => Err(number),
    }
}

/// Makes the call on `beta`, and leaves there what both made of it.
pub fn coefficients(plan: &Owned, store: &[u8], beta: &mut Vec<u8>, tally: &mut Tally) -> u8 {
    let mut expected = beta.clone();
    let number = by_reference!(coefficients, plan, store, &mut expected);
    let (store_after, (after, answer)) = fenced(store, 0xA5, |store| {
        fenced(beta, 0xA5, |beta| {
            raw::coefficients(plan.lent(), store, beta)
        })
    });
    assert!(store_after == store, "reading off wrote to the store");
    agreed("coefficients", answer, number, tally);
    assert_eq!(after, expected, "the coefficients");
    assert!(answer == 0 || after == *beta, "a refused β was written");
    *beta = after;
    answer
}

/// What both reply of an entry. An accepted call tells the residue and C, or p
/// and the column, and writes nothing else.
pub fn settle(plan: &Owned, store: &[u8], entry: usize, tally: &mut Tally) -> Result<Settled, u8> {
    let settled = by_reference!(settle, plan, store, entry as u64);
    let (number, expected) = match settled {
        Settled::Forced(residue) => (0, (residue as u8, plan.columns())),
        Settled::Free(column) => (0, (plan.p as u8, column)),
        Settled::Refused(number) => (number, (OLD_BYTE, OLD)),
    };
    let before = store.to_vec();
    let (residue, (column, answer)) = fenced(&[OLD_BYTE], 0xA5, |residue| {
        fenced(&[OLD], !OLD, |column| {
            raw::settle(plan.lent(), store, entry, &mut residue[0], &mut column[0])
        })
    });
    agreed("settle", answer, number, tally);
    assert_eq!((residue[0], column[0]), expected, "{settled:?}");
    assert!(store == before, "settling wrote to the store");
    match answer {
        0 => Ok(settled),
        number => Err(number),
    }
}

/// The most columns of a plan that the reference is asked about whether it is
/// general: it takes long for more.
const GENERAL: usize = 64;

/// What the reference answers. Under a plan of more columns than GENERAL the
/// entries are filed by the library in its place, which other tests compare with
/// it; where they are more than the columns, one depends on the others.
fn general_by_reference(plan: &Owned, work: &mut [u8]) -> General {
    if plan.columns_if_small() <= GENERAL {
        return by_reference!(general, plan, work);
    }
    // An empty store of this length is refused for the causes 1 to 5 alone.
    let number = by_reference!(test_store, plan, &vec![0; work.len()]);
    if number != 0 {
        return General::Refused(number);
    }
    work.fill(0);
    match plan.entries() <= plan.columns() && is_general(plan) {
        true => General::Yes,
        false => General::No,
    }
}

/// Whether each entry is new, filed by the library with the value 0.
pub fn is_general(plan: &Owned) -> bool {
    let mut store = plan.empty_store();
    (0..plan.entries()).all(|entry| {
        let mut column = OLD;
        let answer = raw::file(plan.lent(), &mut store, entry, 0, &mut column);
        assert_eq!(answer, 0, "entry {entry}, filed with 0");
        column < plan.columns()
    })
}

/// Whether the plan is general. An accepted call leaves zeros in `work`, a refused
/// one what was there.
pub fn general(plan: &Owned, work: &mut Vec<u8>, tally: &mut Tally) -> Result<bool, u8> {
    let mut expected = work.clone();
    let (number, told) = match general_by_reference(plan, &mut expected) {
        General::Yes => (0, 1),
        General::No => (0, 0),
        General::Refused(number) => (number, OLD_BYTE),
    };
    let (after, (general, answer)) = fenced(work, 0xA5, |work| {
        fenced(&[OLD_BYTE], 0xA5, |general| {
            raw::general(plan.lent(), work, &mut general[0])
        })
    });
    agreed("general", answer, number, tally);
    assert_eq!(general[0], told, "whether the plan is general");
    assert!(after == expected, "the work store");
    let left = match answer {
        0 => after.iter().all(|&x| x == 0),
        _ => after == *work,
    };
    assert!(left, "the work store after answer {answer}");
    *work = after;
    match answer {
        0 => Ok(told == 1),
        number => Err(number),
    }
}

/// A move, by library and reference.
type Move = fn(raw::Lent, &[u8], &mut [u8]) -> u8;

/// Makes a move on `target`, and leaves there what both made of it. The reference
/// has answered already, and left its own target.
fn moved(
    call: (&'static str, Move),
    plan: &Owned,
    source: &[u8],
    target: &mut Vec<u8>,
    expected: (u32, Vec<u8>),
    tally: &mut Tally,
) -> u8 {
    let (name, library) = call;
    let (source_after, (after, answer)) = fenced(source, 0xA5, |source| {
        fenced(target, 0xA5, |target| library(plan.lent(), source, target))
    });
    assert!(source_after == source, "{name} wrote to its source");
    agreed(name, answer, expected.0, tally);
    assert!(after == expected.1, "the target of {name}");
    assert!(answer == 0 || after == *target, "{name} refused, and wrote");
    *target = after;
    answer
}

/// Moves a full store to `half`.
pub fn to_half(plan: &Owned, full: &[u8], half: &mut Vec<u8>, tally: &mut Tally) -> u8 {
    let mut expected = half.clone();
    let number = by_reference!(to_half, plan, full, &mut expected);
    let call: (_, Move) = ("to_half", raw::to_half);
    moved(call, plan, full, half, (number, expected), tally)
}

/// Moves a store to `full`.
pub fn to_full(plan: &Owned, half: &[u8], full: &mut Vec<u8>, tally: &mut Tally) -> u8 {
    let mut expected = full.clone();
    let number = by_reference!(to_full, plan, half, &mut expected);
    let call: (_, Move) = ("to_full", raw::to_full);
    moved(call, plan, half, full, (number, expected), tally)
}

/// Makes the checking call and the writing one, which have to agree. An
/// accepted writing gives the numbers written.
pub fn write(plan: &Owned, beta: &[u8], room: &[u16], tally: &mut Tally) -> Result<Vec<u16>, u8> {
    let number = by_reference!(check_writing, plan, beta, room);
    let checked = raw::check_writing(plan.lent(), beta, room);
    agreed("check_writing", checked, number, tally);

    let mut expected = room.to_vec();
    let expected_part = by_reference!(write, plan, beta, &mut expected).len();
    let mut written = OLD;
    let (after, answer) = fenced(room, 0xA5A5, |room| {
        raw::write(plan.lent(), beta, room, &mut written)
    });
    agreed("write", answer, number, tally);
    assert!(after == expected, "the steps after a writing");
    if answer != 0 {
        assert_eq!(written, OLD, "a refused writing told a length");
        assert!(after == room, "a refused writing wrote");
        return Err(answer);
    }
    assert_eq!(written, expected_part, "the length written");
    assert!(
        after[written..] == room[written..],
        "written behind the program"
    );
    Ok(after[..written].to_vec())
}

pub fn run(plan: &Owned, steps: &[u16], digits: &[u8], tally: &mut Tally) -> Result<Ran, u8> {
    let expected = by_reference!(run, plan, steps, digits);
    let (mut y, mut bootstraps) = (0xA5, OLD);
    let answer = raw::run(plan.lent(), steps, digits, &mut y, &mut bootstraps);
    agreed("run", answer, expected.err().unwrap_or(0), tally);
    match expected {
        Ok(ran) => {
            assert_eq!((y, bootstraps as u64), (ran.y, ran.bootstraps), "a run");
            Ok(ran)
        }
        Err(_) => {
            assert_eq!((y, bootstraps), (0xA5, OLD), "a refused run told something");
            Err(answer)
        }
    }
}

pub fn worst_norm(plan: &Owned, beta: &[u8], tally: &mut Tally) -> Result<usize, u8> {
    let expected = by_reference!(worst_norm, plan, beta);
    let mut norm = OLD;
    let answer = raw::worst_norm(plan.lent(), beta, &mut norm);
    agreed("worst_norm", answer, expected.err().unwrap_or(0), tally);
    match expected {
        Ok(worst) => {
            assert_eq!(norm as u64, worst, "the worst norm");
            Ok(norm)
        }
        Err(_) => {
            assert_eq!(norm, OLD, "a refused worst norm told one");
            Err(answer)
        }
    }
}

/// Makes the call on `beta`, and leaves there what both made of it. What is
/// accepted is the program that the library writes from it.
pub fn read_steps(plan: &Owned, steps: &[u16], beta: &mut Vec<u8>, tally: &mut Tally) -> u8 {
    let mut expected = beta.clone();
    let number = by_reference!(read_steps, plan, steps, &mut expected);
    let lent = steps.to_vec();
    let (after, answer) = fenced(beta, 0xA5, |beta| raw::read_steps(plan.lent(), &lent, beta));
    agreed("read_steps", answer, number, tally);
    assert_eq!(after, expected, "the coefficients of a program");
    assert!(answer == 0 || after == *beta, "a refused β was written");
    assert!(lent == steps, "reading back wrote to the steps");
    if answer == 0 {
        let mut again = vec![0xA5A5; steps.len()];
        let mut written = OLD;
        assert_eq!(raw::write(plan.lent(), &after, &mut again, &mut written), 0);
        assert!(again == steps && written == steps.len(), "written again");
    }
    *beta = after;
    answer
}

/// Makes the call on `beta`, and leaves there what both made of it; a refusal
/// comes with the line that it tells. What is accepted is the listing that the
/// reference prints of it.
pub fn read_listing(
    plan: &Owned,
    text: &[u8],
    beta: &mut Vec<u8>,
    tally: &mut Tally,
) -> Result<(), (u8, Option<usize>)> {
    let mut expected = beta.clone();
    let (number, told) = match by_reference!(read_listing, plan, text, &mut expected) {
        Reread::Read => (0, None),
        Reread::Refused(number) => (number, None),
        Reread::RefusedAt(number, line) => (number, Some(line as usize)),
    };
    let lent = text.to_vec();
    let (after, (line, answer)) = fenced(beta, 0xA5, |beta| {
        fenced(&[OLD], !OLD, |line| {
            raw::read_listing(plan.lent(), &lent, beta, &mut line[0])
        })
    });
    agreed("read_listing", answer, number, tally);
    assert_eq!(line[0], told.unwrap_or(OLD), "the line of answer {answer}");
    assert_eq!(after, expected, "the coefficients of a listing");
    assert!(answer == 0 || after == *beta, "a refused β was written");
    assert!(lent == text, "reading back wrote to the text");
    *beta = after;
    if answer != 0 {
        return Err((answer, told));
    }
    assert!(listing(plan, beta) == text, "printed again");
    Ok(())
}

/// The listing of an accepted plan and β, by the reference.
pub fn listing(plan: &Owned, beta: &[u8]) -> Vec<u8> {
    let listing = by_reference!(listing, plan, beta);
    listing.expect("a plan and its β").into_bytes()
}

/// All seventeen calls on one lot, which stays as it is.
pub fn all(lot: &Lot, tally: &mut Tally) {
    let plan = &lot.plan;
    check(plan, tally);
    row(plan, lot.entry, &mut lot.row.clone(), tally);
    test(plan, &lot.store, tally);
    let _ = file(plan, &mut lot.store.clone(), lot.entry, lot.value, tally);
    let _ = lot.recorded.clone().file(plan, lot.entry, lot.value, tally);
    let _ = lot.recorded.clone().withdraw(plan, lot.entry, tally);
    coefficients(plan, &lot.store, &mut lot.beta.clone(), tally);
    let _ = settle(plan, &lot.store, lot.entry, tally);
    let _ = general(plan, &mut lot.store.clone(), tally);
    to_half(plan, &lot.full, &mut lot.store.clone(), tally);
    to_full(plan, &lot.store, &mut lot.full.clone(), tally);
    let _ = write(plan, &lot.beta, &lot.room, tally);
    let _ = run(plan, &lot.steps, &lot.digits, tally);
    let _ = worst_norm(plan, &lot.beta, tally);
    read_steps(plan, &lot.steps, &mut lot.beta.clone(), tally);
    let _ = read_listing(plan, &lot.text, &mut lot.beta.clone(), tally);
}
