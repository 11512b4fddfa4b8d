//! Who makes the calls of the C interface: the reference, or the archive, by a
//! test of the wrapper.

use crate::Record;

/// A plan as it is lent, of any numbers and bytes.
#[derive(Clone, Copy, Debug)]
pub struct Lent<'a> {
    /// p, s, n, m and t.
    pub numbers: [usize; 5],
    /// The radices, the weights, the tables and d.
    pub parts: [&'a [u8]; 4],
}

/// The calls of include/celerycrag.h, each in its terms: it is lent a plan and
/// then its own arguments, in the header's order, and answers its number. What
/// it may write is lent by `&mut`, a number that it tells too.
pub trait Calls {
    fn check(&self, plan: Lent) -> u8;

    fn row(&self, plan: Lent, entry: usize, row: &mut [u8]) -> u8;

    fn test(&self, plan: Lent, store: &[u8]) -> u8;

    fn file(
        &self,
        plan: Lent,
        store: &mut [u8],
        entry: usize,
        value: usize,
        column: &mut usize,
    ) -> u8;

    fn file_recorded(
        &self,
        plan: Lent,
        store: &mut [u8],
        work: &mut [u8],
        records: &mut [Record],
        count: &mut usize,
        entry: usize,
        value: usize,
        column: &mut usize,
    ) -> u8;

    fn withdraw(
        &self,
        plan: Lent,
        store: &mut [u8],
        work: &mut [u8],
        records: &mut [Record],
        count: &mut usize,
        entry: usize,
        value: &mut u16,
    ) -> u8;

    fn coefficients(&self, plan: Lent, store: &[u8], beta: &mut [u8]) -> u8;

    fn settle(
        &self,
        plan: Lent,
        store: &[u8],
        entry: usize,
        residue: &mut u8,
        column: &mut usize,
    ) -> u8;

    fn general(&self, plan: Lent, work: &mut [u8], general: &mut u8) -> u8;

    fn to_half(&self, plan: Lent, full: &[u8], half: &mut [u8]) -> u8;

    fn to_full(&self, plan: Lent, half: &[u8], full: &mut [u8]) -> u8;

    fn check_writing(&self, plan: Lent, beta: &[u8], steps: &[u16]) -> u8;

    fn write(&self, plan: Lent, beta: &[u8], steps: &mut [u16], written: &mut usize) -> u8;

    fn run(
        &self,
        plan: Lent,
        steps: &[u16],
        digits: &[u8],
        y: &mut u8,
        bootstraps: &mut usize,
    ) -> u8;

    fn worst_norm(&self, plan: Lent, beta: &[u8], norm: &mut usize) -> u8;

    fn read_steps(&self, plan: Lent, steps: &[u16], beta: &mut [u8]) -> u8;

    fn read_listing(&self, plan: Lent, text: &[u8], beta: &mut [u8], line: &mut usize) -> u8;
}
