//! Stores: the equations of the entries kept, in reduced form.

use crate::{raw, Plan, Refusal};

/// What filing an entry answered; in both cases the entry is kept.
#[derive(Clone, Copy, Debug, PartialEq, Eq, Hash)]
pub enum Filed {
    /// The store has a new row.
    New {
        /// The column of its pivot.
        column: usize,
    },
    /// The entries kept before imply this one; the store is as it was.
    Implied,
}

/// What a filing answered, from the column that it told.
pub(crate) fn filed(plan: &Plan, column: usize) -> Filed {
    if column < plan.columns() {
        Filed::New { column }
    } else {
        Filed::Implied
    }
}

/// What the store says of an entry, kept or not.
#[derive(Clone, Copy, Debug, PartialEq, Eq, Hash)]
pub enum Settled {
    /// The entry is settled: all coefficients that reproduce the store give it
    /// this residue.
    ///
    /// Filing the entry with this residue as its value is answered
    /// [`Filed::Implied`], and every other value below s is a contradiction. Of
    /// a kept entry it is the value. It is below p, and may be s or more: then
    /// no value can be filed for the entry.
    Forced {
        /// The residue, below p.
        residue: u8,
    },
    /// The entry is not settled: the coefficients that reproduce the store do
    /// not agree on it.
    ///
    /// Filing the entry with any value below s is answered [`Filed::New`] with
    /// this column.
    Free {
        /// The first column in which the entry's row is not zero once the rows
        /// of the store have cleared it.
        column: usize,
    },
}

/// The store of a plan: C rows of C coefficients and a right-hand side, of which
/// row q is zero left of column q.
///
/// Its bytes are, row after row, the columns q to C - 1 of row q and then its
/// right-hand side: C (C + 1) / 2 + C bytes. Row q begins at byte
/// q (C + 1) - q (q - 1) / 2.
///
/// A store does not tell which entries it was made of, so none can be taken out
/// of it; a [`Ledger`](crate::Ledger) keeps their list beside it.
///
/// # Stores on disk
///
/// Stores were once kept in the *full* layout, C rows of C + 1 bytes with the
/// zeros. [`Store::from_full_bytes`] takes them over, and
/// [`Store::to_full_bytes`] gives them for a reader of that layout; nothing is
/// lost either way. [`Store::from_bytes`] refuses them for their length, but for
/// C = 1, where the two layouts are the same.
///
/// ```
/// use celerycrag::{Plan, Refusal, Shape, Store};
///
/// # fn main() -> Result<(), Refusal> {
/// let shape = Shape { p: 3, s: 2, n: 2, m: 0, t: 1 };
/// let plan = Plan::new(shape, vec![2, 2], vec![], vec![], vec![1, 1])?;
/// let kept = [1, 0, 0, 2, 0,  0, 1, 0, 1, 1,  0, 0, 1, 1, 1,  0, 0, 0, 0, 0];
/// assert_eq!(Store::from_bytes(&plan, kept.to_vec()), Err(Refusal::LENGTH));
///
/// let store = Store::from_full_bytes(&plan, &kept)?;
/// assert_eq!(store.as_bytes(), [1, 0, 0, 2, 0,  1, 0, 1, 1,  1, 1, 1,  0, 0]);
/// assert_eq!(store.coefficients()?, [0, 1, 1, 0]);
/// assert_eq!(store.to_full_bytes()?, kept);
/// # Ok(())
/// # }
/// ```
#[derive(Clone, Debug, PartialEq, Eq, Hash)]
pub struct Store {
    plan: Plan,
    bytes: Vec<u8>,
}

/// How many bytes the store of a plan has.
fn length(plan: &Plan) -> usize {
    let columns = plan.columns();
    columns * (columns + 1) / 2 + columns
}

impl Store {
    /// The empty store, all zeros.
    pub fn new(plan: &Plan) -> Store {
        Store {
            plan: plan.clone(),
            bytes: vec![0; length(plan)],
        }
    }

    /// A store from bytes kept elsewhere, which are tested.
    ///
    /// # Errors
    /// Cause 4 where there are not C (C + 1) / 2 + C bytes, 6 where they are not
    /// in reduced form.
    pub fn from_bytes(plan: &Plan, bytes: Vec<u8>) -> Result<Store, Refusal> {
        Refusal::unless_0(raw::test(plan.lent(), &bytes))?;
        Ok(Store {
            plan: plan.clone(),
            bytes,
        })
    }

    /// A store from bytes that were kept in the full layout, C rows of C + 1
    /// bytes, which are tested.
    ///
    /// # Errors
    /// Cause 4 where there are not C (C + 1) bytes, 6 where they are not in
    /// reduced form, which includes anything but zeros left of column q in a
    /// row q.
    pub fn from_full_bytes(plan: &Plan, bytes: &[u8]) -> Result<Store, Refusal> {
        let mut half = vec![0; length(plan)];
        Refusal::unless_0(raw::to_half(plan.lent(), bytes, &mut half))?;
        Ok(Store {
            plan: plan.clone(),
            bytes: half,
        })
    }

    /// The bytes in the full layout, C rows of C + 1 bytes.
    ///
    /// # Errors
    /// None while the bytes are those of a store made here: the library tests
    /// them again, and only memory that was damaged meanwhile is refused (6).
    pub fn to_full_bytes(&self) -> Result<Vec<u8>, Refusal> {
        let columns = self.plan.columns();
        let mut full = vec![0; columns * (columns + 1)];
        Refusal::unless_0(raw::to_full(self.plan.lent(), &self.bytes, &mut full))?;
        Ok(full)
    }

    /// The plan that the store belongs to.
    pub fn plan(&self) -> &Plan {
        &self.plan
    }

    /// The bytes, row after row: of row q the columns q to C - 1 and the
    /// right-hand side.
    pub fn as_bytes(&self) -> &[u8] {
        &self.bytes
    }

    /// The plan, and the bytes for a call that writes them.
    pub(crate) fn lent_mut(&mut self) -> (&Plan, &mut [u8]) {
        (&self.plan, &mut self.bytes)
    }

    /// Gives the bytes away.
    pub fn into_bytes(self) -> Vec<u8> {
        self.bytes
    }

    /// Files an entry with its value.
    ///
    /// # Errors
    /// Cause 7 for the entry, 8 for the value, and 9 exactly when no list of
    /// coefficients reproduces this entry together with all kept before. A
    /// refused entry leaves the store as it was.
    pub fn file(&mut self, entry: usize, value: usize) -> Result<Filed, Refusal> {
        let mut column = 0;
        let number = raw::file(self.plan.lent(), &mut self.bytes, entry, value, &mut column);
        Refusal::unless_0(number)?;
        Ok(filed(&self.plan, column))
    }

    /// The coefficients β read off: they reproduce every entry kept.
    ///
    /// # Errors
    /// None while the bytes are those of a store made here: the library tests
    /// them again, and only memory that was damaged meanwhile is refused (6).
    pub fn coefficients(&self) -> Result<Vec<u8>, Refusal> {
        let mut beta = vec![0; self.plan.columns()];
        let number = raw::coefficients(self.plan.lent(), &self.bytes, &mut beta);
        Refusal::unless_0(number)?;
        Ok(beta)
    }

    /// Whether the output of an entry is settled by the entries kept so far, and
    /// to which residue. The store stays as it is.
    ///
    /// It costs what testing the store and making the entry's row cost, and
    /// little more where few columns up to the one told, or few at all, have no
    /// pivot; else about as much as filing an implied entry.
    ///
    /// # Errors
    /// Cause 7. Cause 6 only where memory was damaged meanwhile, as with
    /// [`Store::coefficients`].
    pub fn settled(&self, entry: usize) -> Result<Settled, Refusal> {
        let (mut residue, mut column) = (0, 0);
        let plan = self.plan.lent();
        let number = raw::settle(plan, &self.bytes, entry, &mut residue, &mut column);
        Refusal::unless_0(number)?;
        if column < self.plan.columns() {
            Ok(Settled::Free { column })
        } else {
            Ok(Settled::Forced { residue })
        }
    }
}
