//! A naive twin of the table library: document 01, with the requests of 02 that
//! have landed (C-11, C-12, C-14 to C-18; C-13 changes no answer), in plain Rust.
//!
//! It is written from the papers alone and shares no line with the library.
//! Tests and benchmarks compare the two, so every function here takes the
//! shortest way from the sentence to the code: primes by trial division,
//! inverses by search, Gauss elimination by the book, the run step by step.
//!
//! | call | its own parts | answer | causes |
//! |---|---|---|---|
//! | [`check_plan`] | | number | 1 2 3 4 5 |
//! | [`row`] | entry, row out | number | 1 2 3 4 5 7 |
//! | [`test_store`] | store | number | 1 2 3 4 5 6 |
//! | [`file()`] | store in and out, entry, value | [`Filed`] | 1 2 3 4 5 6 7 8 9 |
//! | [`coefficients`] | store, β out | number | 1 2 3 4 5 6 |
//! | [`settle`] | store, entry | [`Settled`] | 1 2 3 4 5 6 7 |
//! | [`general()`] | work store | [`General`] | 1 2 3 4 5 |
//! | [`file_recorded`] | store and work store, records and count, all in and out, entry, value | [`Filed`] | 1 2 3 4 5 6 16 7 8 9 |
//! | [`withdraw`] | the same without a value | [`Withdrawn`] | 1 2 3 4 5 6 16 7 17 |
//! | [`to_half`] | full store, store out | number | 1 2 3 4 5 6 |
//! | [`to_full`] | store, full store out | number | 1 2 3 4 5 6 |
//! | [`check_writing`] | β, step slice | number | 1 2 3 4 5 10 |
//! | [`write()`] | β, step slice in and out | the filled part | the same |
//! | [`run`] | steps, digits | [`Ran`], or a number | 1 2 3 4 5 11 12 |
//! | [`worst_norm`] | β | the norm, or a number | 1 2 3 4 5 |
//! | [`listing()`] | β | the listing, or a number | 1 2 3 4 5 |
//! | [`read_steps`] | steps, β out | number | 1 2 3 4 5 15 |
//! | [`read_listing`] | text, β out | [`Reread`] | 1 2 3 4 5 13 15 |
//! | [`filing_program`] | standard input | standard output | 1 2 3 5 7 8 9 13 14 |
//!
//! Every call but the last takes the numbers `p s n m t`, then the plan's
//! parts `radices weights tables d`, then its own parts. Any number may be
//! lent, up to 2^64 - 1. A number answered is 0 where the call accepts. A
//! refused call leaves every lent slice as it was, but for a work store beside
//! records, which from cause 6 on is left all zeros. A store is in the new layout
//! of 02, C-16, and a full store in that of 01; [`halved`] and [`widened`] turn
//! the bytes of one into those of the other without a test.
//!
//! [`vectors`] reads the test vectors, files of calls, and makes what has to be
//! printed for them; [`interface`] does so for calls of the C interface.

// Entry points take the plan's numbers and parts one by one, as the library's do.
#![allow(clippy::too_many_arguments)]

mod field;
mod general;
pub mod interface;
mod layout;
mod lines;
mod listing;
mod norm;
mod plan;
mod program;
pub mod random;
mod readback;
mod records;
mod row;
mod store;
mod text;
pub mod vectors;

pub use field::{inverse, is_odd_prime};
pub use general::{general, General};
pub use layout::{halved, to_full, to_half, widened};
pub use listing::listing;
pub use norm::worst_norm;
pub use plan::{check_plan, Plan};
pub use program::{check_writing, run, write, Ran};
pub use readback::{read_listing, read_steps, Reread};
pub use records::{file_recorded, withdraw, Record, Withdrawn};
pub use row::row;
pub use store::{coefficients, file, settle, test_store, Filed, Settled};
pub use text::filing_program;
