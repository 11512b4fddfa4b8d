//! The two calls with records, made by the library and by the reference as in
//! `twins`, on one store with its list; and lists of entries that go with it.

use super::plans::Owned;
use super::random::Random;
use super::tally::Tally;
use super::twins::{agreed, by_reference, fenced, OLD};
use celerycrag::{raw, Record};
use reference::{Filed, Withdrawn};
use std::fmt::Debug;

/// What a call with records is lent to write, but for the number that it tells.
#[derive(Clone, Debug, PartialEq)]
pub struct Recorded {
    pub store: Vec<u8>,
    pub work: Vec<u8>,
    pub records: Vec<Record>,
    pub count: usize,
}

/// A call on a store, a work store, records and a count: its number, and what
/// it tells.
type Call<'a, R, T> = &'a dyn Fn(&mut [u8], &mut [u8], &mut [R], &mut usize) -> (u32, T);

/// What the value of a withdrawal holds before the call: it is above every s.
const NO_VALUE: u16 = 0xFEFE;

/// Any numbers at all.
pub fn any_record(random: &mut Random) -> Record {
    let bits = random.next();
    let (entry, value) = (bits as u16, (bits >> 16) as u16);
    Record { entry, value }
}

impl Recorded {
    /// An empty store and list. The work store, and the records behind the
    /// count, hold any bytes.
    pub fn empty(random: &mut Random, plan: &Owned) -> Recorded {
        Recorded {
            store: plan.empty_store(),
            work: random.bytes(plan.empty_store().len(), 256),
            records: (0..plan.entries()).map(|_| any_record(random)).collect(),
            count: 0,
        }
    }

    /// The same after those of these entries that the store takes, each listed
    /// once. They are filed without records.
    pub fn filed(
        random: &mut Random,
        plan: &Owned,
        list: impl IntoIterator<Item = (usize, usize)>,
    ) -> Recorded {
        let mut recorded = Recorded::empty(random, plan);
        for (entry, value) in list {
            let kept = raw::file(plan.lent(), &mut recorded.store, entry, value, &mut 0) == 0;
            let (entry, value) = (entry as u16, value as u16);
            if kept && recorded.place(entry.into()).is_none() {
                recorded.records[recorded.count] = Record { entry, value };
                recorded.count += 1;
            }
        }
        recorded
    }

    /// The list.
    pub fn listed(&self) -> &[Record] {
        &self.records[..self.count]
    }

    /// Where the entry is in the list.
    pub fn place(&self, entry: usize) -> Option<usize> {
        let is_it = |record: &Record| usize::from(record.entry) == entry;
        self.listed().iter().position(is_it)
    }

    /// Makes a call by both, and leaves what both made of it. A refusal leaves
    /// all but the work store, which is zeros from cause 6 on.
    fn by_both<T: PartialEq + Debug>(
        &mut self,
        call: &'static str,
        library: Call<Record, T>,
        reference: Call<reference::Record, T>,
        tally: &mut Tally,
    ) -> (u8, T) {
        let mut expected = self.clone();
        let theirs = |&Record { entry, value }: &_| reference::Record { entry, value };
        let mut records: Vec<_> = self.records.iter().map(theirs).collect();
        let (store, work) = (&mut expected.store, &mut expected.work);
        let (number, told) = reference(store, work, &mut records, &mut expected.count);
        let ours = |&reference::Record { entry, value }: &_| Record { entry, value };
        expected.records = records.iter().map(ours).collect();

        let (entry, value) = (0xA5A5, 0x5A5A);
        let beside = Record { entry, value };
        let (store, (work, (records, (count, answer)))) = fenced(&self.store, 0xA5, |store| {
            fenced(&self.work, 0xA5, |work| {
                fenced(&self.records, beside, |records| {
                    fenced(&[self.count], OLD, |count| {
                        library(store, work, records, &mut count[0])
                    })
                })
            })
        });
        let count = count[0];
        let after = Recorded {
            store,
            work,
            records,
            count,
        };
        let answered = agreed(call, answer.0 as u8, number, tally);
        assert_eq!(answer.1, told, "what {call} tells with {number}");
        assert_eq!(after.count, expected.count, "the count after {call}");
        assert!(after.records == expected.records, "the records of {call}");
        assert!(after.store == expected.store, "the store after {call}");
        assert!(after.work == expected.work, "the work store after {call}");
        let work_is_left = match number {
            1..=5 => after.work == self.work,
            _ => after.work.iter().all(|&x| x == 0),
        };
        assert!(work_is_left, "the work store after answer {number}");
        if number != 0 {
            let same = (after.count, &after.records, &after.store);
            let before = (self.count, &self.records, &self.store);
            assert!(same == before, "{call} refused, and wrote");
        }
        *self = after;
        (answered, told)
    }

    /// Files with records. An accepted filing tells its column, C where the
    /// entry was implied.
    pub fn file(
        &mut self,
        plan: &Owned,
        entry: usize,
        value: usize,
        tally: &mut Tally,
    ) -> Result<usize, u8> {
        let library: Call<Record, usize> = &|store, work, records, count| {
            let (column, number) = fenced(&[OLD], !OLD, |column| {
                let (plan, column) = (plan.lent(), &mut column[0]);
                raw::file_recorded(plan, store, work, records, count, entry, value, column)
            });
            (number.into(), column[0])
        };
        let reference: Call<reference::Record, usize> = &|store, work, list, count| {
            let (mut end, entry, value) = (*count as u64, entry as u64, value as u64);
            let filed = by_reference!(
                file_recorded,
                plan,
                store,
                work,
                list,
                &mut end,
                entry,
                value
            );
            *count = end as usize;
            match filed {
                Filed::New(column) => (0, column),
                Filed::Implied => (0, plan.columns()),
                Filed::Refused(number) => (number, OLD),
            }
        };
        match self.by_both("file_recorded", library, reference, tally) {
            (0, column) => Ok(column),
            (number, _) => Err(number),
        }
    }

    /// Withdraws. An accepted withdrawal tells the value.
    pub fn withdraw(&mut self, plan: &Owned, entry: usize, tally: &mut Tally) -> Result<usize, u8> {
        let library: Call<Record, u16> = &|store, work, records, count| {
            let (value, number) = fenced(&[NO_VALUE], !NO_VALUE, |value| {
                let (plan, value) = (plan.lent(), &mut value[0]);
                raw::withdraw(plan, store, work, records, count, entry, value)
            });
            (number.into(), value[0])
        };
        let reference: Call<reference::Record, u16> = &|store, work, list, count| {
            let (mut end, entry) = (*count as u64, entry as u64);
            let withdrawn = by_reference!(withdraw, plan, store, work, list, &mut end, entry);
            *count = end as usize;
            match withdrawn {
                Withdrawn::Value(value) => (0, value),
                Withdrawn::Refused(number) => (number, NO_VALUE),
            }
        };
        match self.by_both("withdraw", library, reference, tally) {
            (0, value) => Ok(value.into()),
            (number, _) => Err(number),
        }
    }
}
