//! Refusals: the number that a call answers, and what it means.

use crate::Store;
use std::error::Error;
use std::fmt;

/// Why a call was turned down.
///
/// A call tests the causes it can meet in the order of their numbers, 16 alone
/// between 6 and 7, and answers the first that it meets. A refused call changes
/// nothing.
///
/// ```
/// use celerycrag::{Plan, Refusal, Shape};
/// let shape = Shape { p: 9, s: 2, n: 2, m: 0, t: 0 };
/// let refusal = Plan::new(shape, vec![2, 2], vec![], vec![], vec![]).unwrap_err();
/// assert_eq!(refusal, Refusal::NO_PRIME);
/// assert_eq!(refusal.number(), 1);
/// assert_eq!(refusal.to_string(), "refused with 1: p is no odd prime from 3 to 251");
/// ```
#[derive(Clone, Copy, Debug, PartialEq, Eq, Hash)]
pub struct Refusal {
    number: u8,
}

impl Refusal {
    /// 1: p is no odd prime from 3 to 251.
    pub const NO_PRIME: Refusal = Refusal { number: 1 };
    /// 2: s or a radix is below 2 or above p.
    pub const RADIX: Refusal = Refusal { number: 2 };
    /// 3: n, L, t, C or the product of the radices is out of range.
    pub const RANGE: Refusal = Refusal { number: 3 };
    /// 4: a part, the radices among them, has another length than the plan
    /// says, or a count is above its list.
    pub const LENGTH: Refusal = Refusal { number: 4 };
    /// 5: a weight, a table value or a given coefficient is not below p.
    pub const NO_RESIDUE: Refusal = Refusal { number: 5 };
    /// 6: the store is not in reduced form.
    pub const DAMAGED: Refusal = Refusal { number: 6 };
    /// 7: the entry is not below the product of the radices.
    pub const NO_ENTRY: Refusal = Refusal { number: 7 };
    /// 8: the value is not below s.
    pub const NO_VALUE: Refusal = Refusal { number: 8 };
    /// 9: no coefficients reproduce the entry together with all kept before.
    pub const CONTRADICTION: Refusal = Refusal { number: 9 };
    /// 10: the step slice is shorter than 4 times the step count.
    pub const NO_ROOM: Refusal = Refusal { number: 10 };
    /// 11: the step list is malformed.
    pub const STEPS: Refusal = Refusal { number: 11 };
    /// 12: a digit is not below its own radix.
    pub const NO_DIGIT: Refusal = Refusal { number: 12 };
    /// 13: a line of the text is malformed or missing.
    pub const MALFORMED: Refusal = Refusal { number: 13 };
    // 14 is the filing program's alone.
    /// 15: no coefficients make the writer give exactly this.
    pub const NOT_WRITTEN: Refusal = Refusal { number: 15 };
    /// 16: the records are not those of the store: they name an entry twice, or
    /// an entry of theirs is refused, or filing them gives another store.
    pub const RECORDS: Refusal = Refusal { number: 16 };
    /// 17: the withdrawn entry is not listed.
    pub const NOT_LISTED: Refusal = Refusal { number: 17 };

    /// The answer of a call as a result: 0 is acceptance.
    pub(crate) fn unless_0(number: u8) -> Result<(), Refusal> {
        match number {
            0 => Ok(()),
            number => Err(Refusal { number }),
        }
    }

    /// The number of the cause: 1 to 13, or 15 to 17. 14 is the filing
    /// program's alone.
    pub fn number(self) -> u8 {
        self.number
    }

    /// What the number means.
    pub fn sentence(self) -> &'static str {
        match self.number {
            1 => "p is no odd prime from 3 to 251",
            2 => "s or a radix is below 2 or above p",
            3 => "n, L, t, C or the product of the radices is out of range",
            4 => "a part has another length than the plan says, or a count is above its list",
            5 => "a weight, a table value or a given coefficient is not below p",
            6 => "the store is not in reduced form",
            7 => "the entry is not below the product of the radices",
            8 => "the value is not below s",
            9 => "no coefficients reproduce the entry together with all kept before",
            10 => "the step slice is shorter than 4 times the step count",
            11 => "the step list is malformed",
            12 => "a digit is not below its own radix",
            13 => "a line of the text is malformed or missing",
            15 => "no coefficients make the writer give exactly this",
            16 => "the records are not those of the store",
            17 => "the withdrawn entry is not listed",
            _ => "a cause that has no sentence here",
        }
    }
}

impl fmt::Display for Refusal {
    fn fmt(&self, f: &mut fmt::Formatter) -> fmt::Result {
        write!(f, "refused with {}: {}", self.number, self.sentence())
    }
}

impl Error for Refusal {}

/// Why a listing was turned down, and for which line.
///
/// ```
/// use celerycrag::{ListingRefusal, Plan, Refusal, Shape};
/// # fn main() -> Result<(), Refusal> {
/// let shape = Shape { p: 3, s: 2, n: 1, m: 0, t: 0 };
/// let plan = Plan::with_radix(shape, vec![], vec![], vec![])?;
/// let text = b"bootstraps steps worst\n0 2 1\nkind to from by\n0 5 0 0\n1  5 0 1\n";
/// let turned_down = plan.read_listing(text).unwrap_err();
/// assert_eq!(turned_down.refusal, Refusal::MALFORMED);
/// assert_eq!(turned_down.line, Some(5));
/// assert_eq!(
///     turned_down.to_string(),
///     "line 5: refused with 13: a line of the text is malformed or missing"
/// );
/// # Ok(())
/// # }
/// ```
#[derive(Clone, Copy, Debug, PartialEq, Eq, Hash)]
pub struct ListingRefusal {
    /// The cause.
    pub refusal: Refusal,
    /// The line at fault, counted from 1; 1 for cause 15, which is met by the
    /// listing as a whole. None where the listing was not looked at.
    pub line: Option<usize>,
}

impl fmt::Display for ListingRefusal {
    fn fmt(&self, f: &mut fmt::Formatter) -> fmt::Result {
        if let Some(line) = self.line {
            write!(f, "line {line}: ")?;
        }
        self.refusal.fmt(f)
    }
}

impl Error for ListingRefusal {
    fn source(&self) -> Option<&(dyn Error + 'static)> {
        Some(&self.refusal)
    }
}

/// Why a ledger was not made of a store and a list, with the store, as
/// [`Ledger::from_store`] gives it back.
///
/// Where the store is not wanted back, `?` makes a [`Refusal`] of it.
///
/// ```
/// use celerycrag::{Ledger, Plan, Record, Refusal, Shape, Store};
/// # fn main() -> Result<(), Refusal> {
/// let shape = Shape { p: 3, s: 2, n: 1, m: 0, t: 0 };
/// let plan = Plan::with_radix(shape, vec![], vec![], vec![])?;
/// let mut store = Store::new(&plan);
/// store.file(1, 1)?;
///
/// let turned_down = Ledger::from_store(store, &[]).unwrap_err();
/// assert_eq!(turned_down.refusal(), Refusal::RECORDS);
/// assert_eq!(
///     turned_down.to_string(),
///     "refused with 16: the records are not those of the store"
/// );
/// let ledger = Ledger::from_store(turned_down.into_store(), &[Record { entry: 1, value: 1 }])?;
/// assert_eq!(ledger.count(), 1);
/// # Ok(())
/// # }
/// ```
///
/// [`Ledger::from_store`]: crate::Ledger::from_store
#[derive(Clone, Debug, PartialEq, Eq, Hash)]
pub struct StoreRefusal {
    pub(crate) refusal: Refusal,
    pub(crate) store: Store,
}

impl StoreRefusal {
    /// The cause.
    pub fn refusal(&self) -> Refusal {
        self.refusal
    }

    /// The store, as it was given.
    pub fn store(&self) -> &Store {
        &self.store
    }

    /// Gives the store back, as it was given.
    pub fn into_store(self) -> Store {
        self.store
    }
}

impl From<StoreRefusal> for Refusal {
    fn from(turned_down: StoreRefusal) -> Refusal {
        turned_down.refusal
    }
}

impl fmt::Display for StoreRefusal {
    fn fmt(&self, f: &mut fmt::Formatter) -> fmt::Result {
        self.refusal.fmt(f)
    }
}

impl Error for StoreRefusal {
    fn source(&self) -> Option<&(dyn Error + 'static)> {
        Some(&self.refusal)
    }
}
