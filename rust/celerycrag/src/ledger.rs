//! Ledgers: a store with the records of its entries, so that entries can be
//! withdrawn.

use crate::store::filed;
use crate::{raw, Filed, Plan, Refusal, Store, StoreRefusal};

/// An entry and its value, as the library keeps them in a list.
#[derive(Clone, Copy, Debug, Default, PartialEq, Eq, Hash)]
#[repr(C)]
pub struct Record {
    /// The entry.
    pub entry: u16,
    /// Its value.
    pub value: u16,
}

/// A store and the list of the entries it was made of, in the order in which
/// they were kept.
///
/// A [`Store`] cannot tell which entries it was made of, so nothing can be
/// taken out of it. A ledger can correct a single output: the entry is
/// withdrawn and filed anew, where the others leave it open, see
/// [`Ledger::withdraw`]. Its store is always the one that filing its list on an
/// empty store gives, and what it promises is that of a store: a filing of a
/// value below s is refused with 9 exactly when no coefficients reproduce it
/// together with the entries listed, and the coefficients reproduce every entry
/// listed.
///
/// ```
/// use celerycrag::{Filed, Ledger, Plan, Program, Refusal, Shape};
///
/// # fn main() -> Result<(), Refusal> {
/// let shape = Shape { p: 3, s: 2, n: 2, m: 0, t: 1 };
/// let plan = Plan::new(shape, vec![2, 2], vec![], vec![], vec![1, 1])?;
/// let mut ledger = Ledger::new(&plan);
/// for (entry, value) in [(1, 1), (2, 1), (3, 0), (0, 0)] {
///     ledger.file(entry, value)?;
/// }
///
/// // The output of entry 1 was meant to be 0; the others leave it open.
/// assert_eq!(ledger.file(1, 0), Err(Refusal::CONTRADICTION));
/// assert_eq!(ledger.withdraw(1)?, 1);
/// assert_eq!(ledger.count(), 3);
/// assert_eq!(ledger.file(1, 0)?, Filed::New { column: 2 });
///
/// let program = Program::write(&plan, &ledger.store().coefficients()?)?;
/// for (entry, y) in [0, 0, 1, 0].into_iter().enumerate() {
///     assert_eq!(program.run(&plan.digits(entry)?)?.y, y);
/// }
/// # Ok(())
/// # }
/// ```
///
/// # Cost
///
/// Each filing tests the list by filing all of it in a work store, and a
/// withdrawal files it twice. That is little for some hundred entries; a table
/// of thousands is filed in a [`Store`] first, which [`Ledger::from_store`]
/// takes with its list.
#[derive(Clone, Debug, PartialEq, Eq, Hash)]
pub struct Ledger {
    store: Store,
    /// As long as the store, and all zeros between calls.
    work: Vec<u8>,
    /// As many as there are entries; all zeros from the count on.
    records: Vec<Record>,
    count: usize,
}

impl Ledger {
    /// An empty store and an empty list.
    pub fn new(plan: &Plan) -> Ledger {
        Ledger {
            store: Store::new(plan),
            work: Store::new(plan).into_bytes(),
            records: vec![Record::default(); plan.entries()],
            count: 0,
        }
    }

    /// A ledger from a store that was filled by itself, or kept elsewhere, and
    /// the list of its entries, which is tested.
    ///
    /// Any list will do that gives this store, in any order, also with entries
    /// that the others imply. Where the list is refused, the store comes back
    /// with the refusal, as it was.
    ///
    /// ```
    /// use celerycrag::{Ledger, Plan, Record, Refusal, Shape, Store};
    ///
    /// # fn main() -> Result<(), Refusal> {
    /// let shape = Shape { p: 3, s: 2, n: 2, m: 0, t: 1 };
    /// let plan = Plan::new(shape, vec![2, 2], vec![], vec![], vec![1, 1])?;
    /// let mut store = Store::new(&plan);
    /// let mut list = Vec::new();
    /// for (entry, value) in [0, 1, 1, 0].into_iter().enumerate() {
    ///     store.file(entry, value)?;
    ///     list.push(Record { entry: entry as u16, value: value as u16 });
    /// }
    /// let mut ledger = Ledger::from_store(store.clone(), &list)?;
    /// assert_eq!(ledger.entries(), list);
    /// assert_eq!(ledger.withdraw(3)?, 0);
    ///
    /// // Without entry 3 this would be another store, so it comes back.
    /// let bytes = store.as_bytes().to_vec();
    /// let turned_down = Ledger::from_store(store, &list[..3]).unwrap_err();
    /// assert_eq!(turned_down.refusal(), Refusal::RECORDS);
    /// assert_eq!(turned_down.into_store().as_bytes(), bytes);
    /// # Ok(())
    /// # }
    /// ```
    ///
    /// # Errors
    /// Cause 4 where there are more records than entries, 16 where the list is
    /// not one of this store: it names an entry twice, or an entry of it is
    /// refused when they are filed in order on an empty store, or that gives
    /// another store. Each with the store: [`StoreRefusal::into_store`].
    pub fn from_store(store: Store, list: &[Record]) -> Result<Ledger, StoreRefusal> {
        let plan = store.plan().clone();
        let mut ledger = Ledger {
            store,
            count: list.len(),
            ..Ledger::new(&plan)
        };
        for (record, &listed) in ledger.records.iter_mut().zip(list) {
            *record = listed;
        }
        // The list is asked about before the entry: to withdraw what no plan
        // has as an entry is refused with 7 where the list is in order. So it is
        // always refused, which leaves the store as it was.
        let refusal = match ledger.withdraw(usize::MAX) {
            Err(Refusal::NO_ENTRY) => return Ok(ledger),
            Err(refusal) => refusal,
            Ok(_) => Refusal::RECORDS,
        };
        let store = ledger.into_store();
        Err(StoreRefusal { refusal, store })
    }

    /// The plan that the ledger belongs to.
    pub fn plan(&self) -> &Plan {
        self.store.plan()
    }

    /// The store of the entries listed: for its coefficients, what it settles,
    /// and its bytes.
    pub fn store(&self) -> &Store {
        &self.store
    }

    /// Gives the store away, without its list.
    pub fn into_store(self) -> Store {
        self.store
    }

    /// The entries kept with their values, in the order in which they were
    /// kept.
    pub fn entries(&self) -> &[Record] {
        &self.records[..self.count]
    }

    /// How many entries are kept.
    pub fn count(&self) -> usize {
        self.count
    }

    /// Files an entry with its value. Accepted, it is listed, also where the
    /// entries listed before imply it; an entry that is listed already keeps
    /// its place.
    ///
    /// # Errors
    /// Cause 7 for the entry, 8 for the value, and 9 exactly when no list of
    /// coefficients reproduces this entry together with all listed. A refused
    /// entry leaves the ledger as it was. Causes 6 and 16 only where memory was
    /// damaged meanwhile.
    pub fn file(&mut self, entry: usize, value: usize) -> Result<Filed, Refusal> {
        let mut column = 0;
        let (plan, store) = self.store.lent_mut();
        let number = raw::file_recorded(
            plan.lent(),
            store,
            &mut self.work,
            &mut self.records,
            &mut self.count,
            entry,
            value,
            &mut column,
        );
        Refusal::unless_0(number)?;
        Ok(filed(self.plan(), column))
    }

    /// Withdraws an entry, and answers its value. Those listed behind it move
    /// up, and the store becomes that of the remaining list.
    ///
    /// An entry that was implied when it was filed can carry the store from
    /// then on.
    ///
    /// # Filing it with another value
    ///
    /// The withdrawn entry can have another value where the remaining ones leave
    /// it open, as [`Store::settled`] on [`Ledger::store`] tells. Free: any value
    /// below s is accepted. Forced: that residue alone, if it is below s, and
    /// every other value below s is refused with 9. Then withdraw other entries
    /// that are to be corrected too, of which its row is a combination, until it
    /// is free; or file the table under another plan, with more columns: under a
    /// general one, see [`Plan::is_general`], every entry that is not listed is
    /// free. With its old value the entry can always be filed again.
    ///
    /// ```
    /// use celerycrag::{Filed, Ledger, Plan, Refusal, Settled, Shape};
    ///
    /// # fn main() -> Result<(), Refusal> {
    /// // The value of a digit is the digit times the one coefficient.
    /// let shape = Shape { p: 5, s: 5, n: 1, m: 0, t: 0 };
    /// let mut ledger = Ledger::new(&Plan::with_radix(shape, vec![], vec![], vec![])?);
    /// assert_eq!(ledger.file(1, 2)?, Filed::New { column: 0 });
    /// assert_eq!(ledger.file(3, 1)?, Filed::Implied);
    ///
    /// // Entry 1 alone forces entry 3 to 1.
    /// assert_eq!(ledger.withdraw(3)?, 1);
    /// assert_eq!(ledger.store().settled(3)?, Settled::Forced { residue: 1 });
    /// assert_eq!(ledger.file(3, 2), Err(Refusal::CONTRADICTION));
    /// assert_eq!(ledger.file(3, 1)?, Filed::Implied);
    ///
    /// // Without entry 1, entry 3 carries the store.
    /// assert_eq!(ledger.withdraw(1)?, 2);
    /// assert_eq!(ledger.store().coefficients()?, [2]);
    /// assert_eq!(ledger.withdraw(1), Err(Refusal::NOT_LISTED));
    ///
    /// // Once both are withdrawn, it is free.
    /// assert_eq!(ledger.withdraw(3)?, 1);
    /// assert_eq!(ledger.store().settled(3)?, Settled::Free { column: 0 });
    /// assert_eq!(ledger.file(3, 2)?, Filed::New { column: 0 });
    /// assert_eq!(ledger.store().coefficients()?, [4]);
    /// # Ok(())
    /// # }
    /// ```
    ///
    /// # Errors
    /// Cause 7 for the entry, 17 where it is not listed; the ledger is then as
    /// it was.
    /// Causes 6 and 16 only where memory was damaged meanwhile.
    pub fn withdraw(&mut self, entry: usize) -> Result<usize, Refusal> {
        let mut value = 0;
        let (plan, store) = self.store.lent_mut();
        let number = raw::withdraw(
            plan.lent(),
            store,
            &mut self.work,
            &mut self.records,
            &mut self.count,
            entry,
            &mut value,
        );
        Refusal::unless_0(number)?;
        Ok(value.into())
    }
}
