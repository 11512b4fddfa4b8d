//! Who makes the calls with records: the reference, here, or the archive, by a
//! test of the wrapper.

use crate::{Filed, Record, Withdrawn};

/// A plan as it is lent, of any numbers and bytes.
#[derive(Clone, Copy, Debug)]
pub struct Lent<'a> {
    /// p, s, n, m and t.
    pub numbers: [u64; 5],
    /// The radices, the weights, the tables and d.
    pub parts: [&'a [u8]; 4],
}

/// What a call with records is lent to write, but for the number that it tells.
#[derive(Debug)]
pub struct Recorded<'a> {
    pub store: &'a mut [u8],
    pub work: &'a mut [u8],
    pub records: &'a mut [Record],
    pub count: &'a mut u64,
}

/// The calls with records. The C functions tell a number, the column or the
/// value, through a pointer, so it is lent to these too: after a refusal it is
/// as the call left it, and after an accepted call the answer has it.
pub trait Calls {
    fn file_recorded(
        &self,
        plan: Lent,
        own: Recorded,
        entry: u64,
        value: u64,
        column: &mut u64,
    ) -> Filed;

    fn withdraw(&self, plan: Lent, own: Recorded, entry: u64, value: &mut u16) -> Withdrawn;
}

/// The calls made by the reference. Its answers have the number, so it leaves
/// the lent one alone.
#[derive(Clone, Copy, Debug, Default)]
pub struct Reference;

impl Calls for Reference {
    fn file_recorded(
        &self,
        plan: Lent,
        own: Recorded,
        entry: u64,
        value: u64,
        _column: &mut u64,
    ) -> Filed {
        let ([p, s, n, m, t], [radices, weights, tables, d]) = (plan.numbers, plan.parts);
        let (store, work, records, count) = (own.store, own.work, own.records, own.count);
        crate::file_recorded(
            p, s, n, m, t, radices, weights, tables, d, store, work, records, count, entry, value,
        )
    }

    fn withdraw(&self, plan: Lent, own: Recorded, entry: u64, _value: &mut u16) -> Withdrawn {
        let ([p, s, n, m, t], [radices, weights, tables, d]) = (plan.numbers, plan.parts);
        let (store, work, records, count) = (own.store, own.work, own.records, own.count);
        crate::withdraw(
            p, s, n, m, t, radices, weights, tables, d, store, work, records, count, entry,
        )
    }
}
