//! What the tests share: random numbers, plans with parts of their own, stores
//! and listings with something changed, the calls made twice, on the library and on the
//! reference, and the program.
#![allow(dead_code)]

pub mod faults;
pub mod kept;
pub mod layout;
pub mod listings;
pub mod lots;
pub mod old;
pub mod plans;
pub mod program;
pub mod random;
pub mod recorded;
pub mod stores;
pub mod tally;
pub mod texts;
pub mod tiny;
pub mod twins;
