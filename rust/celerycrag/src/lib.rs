//! Look-up tables for data that stays encrypted under TFHE: a safe wrapper over
//! a library whose every function is proved to meet its contract.
//!
//! A [`Plan`] is a small odd prime, a radix for each input digit, a chain of
//! one-input tables fed by weighted sums (links), and the fixed halves of some
//! products. A [`Store`] files the entries of a table under a plan, one by one,
//! and refuses an entry and a value in range exactly when no coefficients
//! reproduce them together with all kept before. A [`Ledger`] is a store with
//! the list of its entries, so that one can be withdrawn. From the coefficients
//! read off, a [`Program`] of sums and bootstraps is written; run on the digits
//! of a kept entry it yields the kept value.
//!
//! All of it is in the clear: encryption, keys, noise and the search for plans
//! are the host's.
//!
//! # Example
//!
//! The exclusive or of two bits with p = 3, no links and one product:
//!
//! ```
//! use celerycrag::{Filed, Plan, Program, Refusal, Shape, Store};
//!
//! # fn main() -> Result<(), Refusal> {
//! let shape = Shape { p: 3, s: 2, n: 2, m: 0, t: 1 };
//! let plan = Plan::new(shape, vec![2, 2], vec![], vec![], vec![1, 1])?;
//!
//! let mut store = Store::new(&plan);
//! assert_eq!(store.file(0, 0)?, Filed::Implied);
//! assert_eq!(store.file(1, 1)?, Filed::New { column: 1 });
//! assert_eq!(store.file(2, 1)?, Filed::New { column: 0 });
//! assert_eq!(store.file(3, 0)?, Filed::New { column: 2 });
//! assert_eq!(store.file(3, 1), Err(Refusal::CONTRADICTION));
//!
//! let beta = store.coefficients()?;
//! assert_eq!(beta, [0, 1, 1, 0]);
//! let program = Program::write(&plan, &beta)?;
//! assert_eq!(program.steps().len(), 19);
//! for entry in 0..plan.entries() {
//!     let digits = plan.digits(entry)?;
//!     let ran = program.run(&digits)?;
//!     assert_eq!(ran.y, digits[0] ^ digits[1]);
//!     assert_eq!(ran.bootstraps, 2);
//! }
//! # Ok(())
//! # }
//! ```
//!
//! # A radix for each digit
//!
//! How many days a month has beyond 28: the month is a digit of radix 12, and a
//! digit of radix 2 says whether the year is a leap year. That makes 24 entries;
//! s = 4 bounds their values and has nothing to do with the digits.
//!
//! ```
//! use celerycrag::{Plan, Program, Refusal, Shape, Store};
//!
//! # fn main() -> Result<(), Refusal> {
//! let common = [3, 0, 3, 2, 3, 2, 3, 3, 2, 3, 2, 3];
//! let days = |month: u8, leap: u8| common[month as usize] + u8::from((month, leap) == (1, 1));
//!
//! // Link 0 is 1 where month + 11 leap is 12 modulo 13: at February of a leap
//! // year. Link 1 is a table of the month.
//! let shape = Shape { p: 13, s: 4, n: 2, m: 2, t: 0 };
//! let weights = vec![1, 11, 1, 0, 0];
//! let mut tables = vec![0; 2 * 13];
//! tables[12] = 1;
//! tables[13..25].copy_from_slice(&common);
//! let plan = Plan::new(shape, vec![12, 2], weights, tables, vec![])?;
//! assert_eq!(plan.entries(), 24);
//! assert_eq!(plan.digits(23)?, [11, 1]);
//! assert_eq!(plan.digits(24), Err(Refusal::NO_ENTRY));
//!
//! let mut store = Store::new(&plan);
//! for entry in 0..plan.entries() {
//!     let digits = plan.digits(entry)?;
//!     store.file(entry, days(digits[0], digits[1]).into())?;
//! }
//! let program = Program::write(&plan, &store.coefficients()?)?;
//! assert_eq!(program.run(&[1, 1])?.y, 1);
//! assert_eq!(program.run(&[7, 0])?.y, 3);
//! assert_eq!(program.run(&[12, 0]), Err(Refusal::NO_DIGIT));
//! assert_eq!(program.run(&[0, 2]), Err(Refusal::NO_DIGIT));
//! # Ok(())
//! # }
//! ```
//!
//! [`Plan::with_radix`] takes one radix, s, for all digits.
//!
//! # Plans that suit every table
//!
//! A plan can be shelved before anyone has a table for it: [`Plan::is_general`]
//! tells whether every table with values below s has coefficients under it.
//! [`Plan::most_new`] bounds the entries of such a plan, so that a shape without
//! one is known before plans of it are drawn.
//!
//! ```
//! use celerycrag::{Filed, Plan, Refusal, Shape, Store};
//!
//! # fn main() -> Result<(), Refusal> {
//! // One digit x, a link that is 1 where x is 0 and else 0, and a product by x.
//! let shape = Shape { p: 5, s: 4, n: 1, m: 1, t: 1 };
//! let plan = |radix| Plan::new(shape, vec![radix], vec![1], vec![1, 0, 0, 0, 0], vec![1, 0]);
//!
//! // With three entries any three values file.
//! let three = plan(3)?;
//! assert!(three.is_general()?);
//! let mut store = Store::new(&three);
//! for (entry, value) in [2, 0, 3].into_iter().enumerate() {
//!     assert!(matches!(store.file(entry, value)?, Filed::New { .. }));
//! }
//!
//! // Four entries could be new under a plan of this shape, though not under this
//! // one; five could not.
//! let (four, five) = (plan(4)?, plan(5)?);
//! assert_eq!((four.entries(), four.most_new()), (4, 4));
//! assert!(!four.is_general()?);
//! assert!(five.entries() > five.most_new());
//! assert!(!five.is_general()?);
//! # Ok(())
//! # }
//! ```
//!
//! # Which outputs are settled
//!
//! While a table is typed in, the entries kept so far may already decide the
//! output of another. [`Store::settled`] tells: an entry is forced where all
//! coefficients that reproduce the store agree on it, and free where they do
//! not.
//!
//! ```
//! use celerycrag::{Filed, Plan, Refusal, Settled, Shape, Store};
//!
//! # fn main() -> Result<(), Refusal> {
//! let shape = Shape { p: 3, s: 2, n: 2, m: 0, t: 1 };
//! let plan = Plan::new(shape, vec![2, 2], vec![], vec![], vec![1, 1])?;
//! let mut store = Store::new(&plan);
//! store.file(1, 1)?;
//! store.file(2, 1)?;
//! assert_eq!(store.settled(0)?, Settled::Forced { residue: 0 });
//! assert_eq!(store.settled(3)?, Settled::Free { column: 2 });
//!
//! // Entry 0 can have no other value, and entry 3 any.
//! assert_eq!(store.file(0, 1), Err(Refusal::CONTRADICTION));
//! assert_eq!(store.file(3, 0)?, Filed::New { column: 2 });
//! for (entry, residue) in [0, 1, 1, 0].into_iter().enumerate() {
//!     assert_eq!(store.settled(entry)?, Settled::Forced { residue });
//! }
//! # Ok(())
//! # }
//! ```
//!
//! A forced residue may be s or more. Then the entry has an output that is no
//! value, and none can be filed for it.
//!
//! # Correcting an output
//!
//! A [`Ledger`] keeps the list of entries beside the store:
//! [`Ledger::withdraw`] takes one out, as if it had never been filed. It can
//! then be filed with another value, where the entries that remain leave it
//! free; [`Store::settled`] tells, and [`Ledger::withdraw`] says what to do where
//! they do not.
//!
//! ```
//! use celerycrag::{Ledger, Plan, Record, Refusal, Settled, Shape};
//!
//! # fn main() -> Result<(), Refusal> {
//! let shape = Shape { p: 3, s: 2, n: 2, m: 0, t: 1 };
//! let plan = Plan::new(shape, vec![2, 2], vec![], vec![], vec![1, 1])?;
//! let mut ledger = Ledger::new(&plan);
//! for (entry, value) in [0, 1, 1, 0].into_iter().enumerate() {
//!     ledger.file(entry, value)?;
//! }
//! assert_eq!(ledger.store().coefficients()?, [0, 1, 1, 0]);
//!
//! // Entry 3 is 1 from now on: the inclusive or.
//! assert_eq!(ledger.withdraw(3)?, 0);
//! assert_eq!(ledger.store().settled(3)?, Settled::Free { column: 2 });
//! ledger.file(3, 1)?;
//! assert_eq!(ledger.count(), 4);
//! assert_eq!(ledger.entries()[3], Record { entry: 3, value: 1 });
//! assert_eq!(ledger.store().coefficients()?, [1, 1, 0, 0]);
//! # Ok(())
//! # }
//! ```
//!
//! # Reading a listing back
//!
//! Who kept the printed program and lost the table gets it back, as long as the
//! plan is there: [`Plan::read_listing`] gives the coefficients of which exactly
//! this listing is printed, and [`Plan::read_steps`] those of a list of steps.
//!
//! ```
//! use celerycrag::{Plan, Program, Shape};
//!
//! # fn main() -> Result<(), Box<dyn std::error::Error>> {
//! let listing = b"bootstraps steps worst
//! 2 19 2
//! kind to from by
//! 0 6 0 0
//! 0 2 0 0
//! 1 2 0 0
//! 1 2 1 1
//! 0 3 0 0
//! 1 3 0 1
//! 1 3 1 1
//! 0 4 0 0
//! 1 4 2 1
//! 1 4 3 1
//! 0 5 0 0
//! 1 5 2 1
//! 1 5 3 2
//! 2 4 4 0
//! 2 5 5 1
//! 1 6 4 1
//! 1 6 5 1
//! 1 6 0 1
//! 1 6 1 0
//! ";
//! let shape = Shape { p: 3, s: 2, n: 2, m: 0, t: 1 };
//! let plan = Plan::new(shape, vec![2, 2], vec![], vec![], vec![1, 1])?;
//! let beta = plan.read_listing(listing)?;
//! assert_eq!(beta, [0, 1, 1, 0]);
//!
//! // The program runs again, and gives the table of the exclusive or.
//! let program = Program::write(&plan, &beta)?;
//! let value = |entry| plan.digits(entry).and_then(|digits| program.run(&digits));
//! for (entry, y) in [0, 1, 1, 0].into_iter().enumerate() {
//!     assert_eq!(value(entry)?.y, y);
//! }
//! # Ok(())
//! # }
//! ```
//!
//! # Refusals
//!
//! A call that is turned down gives a [`Refusal`] with a number and a sentence
//! and changes nothing; of a listing also the line, in a [`ListingRefusal`]. A
//! store that no ledger is made of comes back, in a [`StoreRefusal`]. No call
//! panics, whatever it is given.
//!
//! # Linking
//!
//! The build script links `libcelerycrag.a` from the directory that the
//! environment variable `CELERYCRAG_LIB_DIR` names, else from
//! `target/staticlib` at the root of the repository. `tools/build`,
//! run there, proves the library and puts the archive in that place.

#![warn(missing_docs)]

mod ffi;
mod ledger;
mod plan;
mod program;
pub mod raw;
mod refusal;
mod store;

pub use ledger::{Ledger, Record};
pub use plan::{Plan, Shape};
pub use program::{Program, Ran, Step};
pub use refusal::{ListingRefusal, Refusal, StoreRefusal};
pub use store::{Filed, Settled, Store};
