//! Document 02, C-18: entries withdrawn.
//!
//! "Beside the store the caller lends a list of entry records, as many as the
//! plan has entries, with a count": the records before the count are the list,
//! and what is behind it is neither tested nor changed, but for the one that a
//! withdrawal frees. Within, the list is pairs of numbers, and the store is
//! always made by filing them.

use crate::layout::{halved, widened};
use crate::plan::{accept, Part, Plan};
use crate::store::{file_entry, is_reduced, rows_of, Filed};

/// An entry and its value.
#[derive(Clone, Copy, Debug, Default, PartialEq, Eq)]
pub struct Record {
    pub entry: u16,
    pub value: u16,
}

/// What a withdrawal answers.
#[derive(Clone, Copy, Debug, PartialEq, Eq)]
pub enum Withdrawn {
    /// "The value withdrawn".
    Value(u16),
    /// Nothing is withdrawn, for the cause of this number.
    Refused(u32),
}

/// C rows of C coefficients and a right-hand side.
type Rows = Vec<Vec<usize>>;

/// What both calls need once they are past cause 16.
struct Sound<'a> {
    plan: Plan<'a>,
    /// Those of the lent store.
    rows: Rows,
}

/// The rows that filing the list in order on an empty store gives, or None
/// where an entry of it is refused.
fn filed_in_order(plan: &Plan, list: &[Record]) -> Option<Rows> {
    let mut rows = vec![vec![0; plan.columns() + 1]; plan.columns()];
    for record in list {
        let (entry, value) = (record.entry.into(), record.value.into());
        if let Filed::Refused(_) = file_entry(plan, &mut rows, entry, value) {
            return None;
        }
    }
    Some(rows)
}

/// Whether the list names an entry twice.
fn names_one_twice(list: &[Record]) -> bool {
    let earlier = |k: usize| list[..k].iter().any(|one| one.entry == list[k].entry);
    (0..list.len()).any(earlier)
}

/// The causes 1 to 6 and then 16: the plan and the rows of the store, or the
/// number. The work store is all zeros from cause 6 on.
fn sound<'a>(
    numbers: [u64; 5],
    parts: [&'a [u8]; 4],
    store: &[u8],
    work: &mut [u8],
    records: &[Record],
    count: u64,
) -> Result<Sound<'a>, u32> {
    let ([p, s, n, m, t], [radices, weights, tables, d]) = (numbers, parts);
    let own = [
        (Part::Store, store.len()),
        (Part::Store, work.len()),
        (Part::Records, records.len()),
    ];
    let accepted = accept(p, s, n, m, t, radices, weights, tables, d, &own, &[]);
    // "A list of records of another length, or a count above it, is cause 4",
    // and so comes before 5.
    let plan = match accepted {
        Ok(_) | Err(5) if count > records.len() as u64 => return Err(4),
        accepted => accepted?,
    };
    work.fill(0);
    let rows = rows_of(plan.columns(), &widened(plan.columns(), store));
    if !is_reduced(plan.p, plan.columns(), &rows) {
        return Err(6);
    }
    // "16, when the list names an entry twice, or an entry of it is refused
    // when filed in order on an empty work store, or the outcome isn't the lent
    // store, after 6".
    let list = &records[..count as usize];
    if names_one_twice(list) || filed_in_order(&plan, list).as_ref() != Some(&rows) {
        return Err(16);
    }
    Ok(Sound { plan, rows })
}

/// Writes rows to a store.
fn put(store: &mut [u8], columns: usize, rows: Rows) {
    let full: Vec<u8> = rows.into_iter().flatten().map(|x| x as u8).collect();
    store.copy_from_slice(&halved(columns, &full));
}

/// Files an entry with its value, as [`file`](crate::file()) does. 02, C-18:
/// "an accepted entry not yet listed joins its end with its value"; the count
/// is then the new one.
/// Causes 1 2 3 4 5 6 16 7 8 9, in this order.
pub fn file_recorded(
    p: u64,
    s: u64,
    n: u64,
    m: u64,
    t: u64,
    radices: &[u8],
    weights: &[u8],
    tables: &[u8],
    d: &[u8],
    store: &mut [u8],
    work: &mut [u8],
    records: &mut [Record],
    count: &mut u64,
    entry: u64,
    value: u64,
) -> Filed {
    let (numbers, parts) = ([p, s, n, m, t], [radices, weights, tables, d]);
    let Sound { plan, mut rows } = match sound(numbers, parts, store, work, records, *count) {
        Ok(sound) => sound,
        Err(number) => return Filed::Refused(number),
    };
    let answer = file_entry(&plan, &mut rows, entry, value);
    if let Filed::Refused(_) = answer {
        return answer;
    }
    put(store, plan.columns(), rows);
    let end = *count as usize;
    let listed = |record: &Record| u64::from(record.entry) == entry;
    if !records[..end].iter().any(listed) {
        let (entry, value) = (entry as u16, value as u16);
        records[end] = Record { entry, value };
        *count += 1;
    }
    answer
}

/// Withdraws an entry. 02, C-18: it "removes its record, closes the gap, sets
/// the freed last record to zeros, and leaves the store that filing the
/// remaining list on an empty one gives"; the count is then the new one.
/// Causes 1 2 3 4 5 6 16 7 17, in this order.
pub fn withdraw(
    p: u64,
    s: u64,
    n: u64,
    m: u64,
    t: u64,
    radices: &[u8],
    weights: &[u8],
    tables: &[u8],
    d: &[u8],
    store: &mut [u8],
    work: &mut [u8],
    records: &mut [Record],
    count: &mut u64,
    entry: u64,
) -> Withdrawn {
    let (numbers, parts) = ([p, s, n, m, t], [radices, weights, tables, d]);
    let plan = match sound(numbers, parts, store, work, records, *count) {
        Ok(sound) => sound.plan,
        Err(number) => return Withdrawn::Refused(number),
    };
    if entry >= plan.entries() as u64 {
        return Withdrawn::Refused(7);
    }
    let mut list = records[..*count as usize].to_vec();
    let is_it = |record: &Record| u64::from(record.entry) == entry;
    let Some(place) = list.iter().position(is_it) else {
        return Withdrawn::Refused(17);
    };
    let withdrawn = list.remove(place);
    let rows = filed_in_order(&plan, &list).expect("fewer equations are solved as well");
    put(store, plan.columns(), rows);
    list.push(Record::default());
    records[..list.len()].copy_from_slice(&list);
    *count -= 1;
    Withdrawn::Value(withdrawn.value)
}
