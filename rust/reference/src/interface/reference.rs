//! The calls of the C interface made by the reference. Its functions answer
//! enums and results; here they become what the header says: a number, 0 where
//! the call accepts, and what it tells through the numbers lent to it, which a
//! refusal leaves alone.

use super::{Calls, Lent};
use crate::{Filed, General, Ran, Record, Reread, Settled, Withdrawn};

/// The calls made by the reference.
#[derive(Clone, Copy, Debug, Default)]
pub struct Reference;

/// Calls a function of the reference with the plan, then the call's own
/// arguments.
macro_rules! call {
    ($name:ident, $plan:expr $(, $own:expr)*) => {{
        let [p, s, n, m, t] = $plan.numbers.map(|number| number as u64);
        let [radices, weights, tables, d] = $plan.parts;
        crate::$name(p, s, n, m, t, radices, weights, tables, d $(, $own)*)
    }};
}

/// C, of a plan that was accepted. As a column, which it is not, it says that
/// the call has none to tell.
fn no_column(plan: Lent) -> usize {
    let [_, _, n, m, t] = plan.numbers;
    (t + 1) * (n + m)
}

/// p, of a plan that was accepted: it is no residue.
fn no_residue(plan: Lent) -> u8 {
    plan.numbers[0] as u8
}

/// The answer of a filing.
fn filed(plan: Lent, answer: Filed, column: &mut usize) -> u8 {
    *column = match answer {
        Filed::New(new) => new,
        Filed::Implied => no_column(plan),
        Filed::Refused(number) => return number as u8,
    };
    0
}

impl Calls for Reference {
    fn check(&self, plan: Lent) -> u8 {
        call!(check_plan, plan) as u8
    }

    fn row(&self, plan: Lent, entry: usize, row: &mut [u8]) -> u8 {
        call!(row, plan, entry as u64, row) as u8
    }

    fn test(&self, plan: Lent, store: &[u8]) -> u8 {
        call!(test_store, plan, store) as u8
    }

    fn file(
        &self,
        plan: Lent,
        store: &mut [u8],
        entry: usize,
        value: usize,
        column: &mut usize,
    ) -> u8 {
        let answer = call!(file, plan, store, entry as u64, value as u64);
        filed(plan, answer, column)
    }

    fn file_recorded(
        &self,
        plan: Lent,
        store: &mut [u8],
        work: &mut [u8],
        records: &mut [Record],
        count: &mut usize,
        entry: usize,
        value: usize,
        column: &mut usize,
    ) -> u8 {
        let (mut end, entry, value) = (*count as u64, entry as u64, value as u64);
        let answer = call!(
            file_recorded,
            plan,
            store,
            work,
            records,
            &mut end,
            entry,
            value
        );
        *count = end as usize;
        filed(plan, answer, column)
    }

    fn withdraw(
        &self,
        plan: Lent,
        store: &mut [u8],
        work: &mut [u8],
        records: &mut [Record],
        count: &mut usize,
        entry: usize,
        value: &mut u16,
    ) -> u8 {
        let mut end = *count as u64;
        let answer = call!(withdraw, plan, store, work, records, &mut end, entry as u64);
        *count = end as usize;
        *value = match answer {
            Withdrawn::Value(withdrawn) => withdrawn,
            Withdrawn::Refused(number) => return number as u8,
        };
        0
    }

    fn coefficients(&self, plan: Lent, store: &[u8], beta: &mut [u8]) -> u8 {
        call!(coefficients, plan, store, beta) as u8
    }

    fn settle(
        &self,
        plan: Lent,
        store: &[u8],
        entry: usize,
        residue: &mut u8,
        column: &mut usize,
    ) -> u8 {
        (*residue, *column) = match call!(settle, plan, store, entry as u64) {
            Settled::Forced(forced) => (forced as u8, no_column(plan)),
            Settled::Free(free) => (no_residue(plan), free),
            Settled::Refused(number) => return number as u8,
        };
        0
    }

    fn general(&self, plan: Lent, work: &mut [u8], general: &mut u8) -> u8 {
        *general = match call!(general, plan, work) {
            General::Yes => 1,
            General::No => 0,
            General::Refused(number) => return number as u8,
        };
        0
    }

    fn to_half(&self, plan: Lent, full: &[u8], half: &mut [u8]) -> u8 {
        call!(to_half, plan, full, half) as u8
    }

    fn to_full(&self, plan: Lent, half: &[u8], full: &mut [u8]) -> u8 {
        call!(to_full, plan, half, full) as u8
    }

    fn check_writing(&self, plan: Lent, beta: &[u8], steps: &[u16]) -> u8 {
        call!(check_writing, plan, beta, steps) as u8
    }

    /// The reference's writer hands back the part that it filled, which is empty
    /// where it refuses. The number is that of the check.
    fn write(&self, plan: Lent, beta: &[u8], steps: &mut [u16], written: &mut usize) -> u8 {
        let number = self.check_writing(plan, beta, steps);
        let filled = call!(write, plan, beta, steps).len();
        if number == 0 {
            *written = filled;
        }
        number
    }

    fn run(
        &self,
        plan: Lent,
        steps: &[u16],
        digits: &[u8],
        y: &mut u8,
        bootstraps: &mut usize,
    ) -> u8 {
        (*y, *bootstraps) = match call!(run, plan, steps, digits) {
            Ok(Ran { y, bootstraps }) => (y, bootstraps as usize),
            Err(number) => return number as u8,
        };
        0
    }

    fn worst_norm(&self, plan: Lent, beta: &[u8], norm: &mut usize) -> u8 {
        *norm = match call!(worst_norm, plan, beta) {
            Ok(worst) => worst as usize,
            Err(number) => return number as u8,
        };
        0
    }

    fn read_steps(&self, plan: Lent, steps: &[u16], beta: &mut [u8]) -> u8 {
        call!(read_steps, plan, steps, beta) as u8
    }

    /// The line is the one number that a refusal tells, and no acceptance.
    fn read_listing(&self, plan: Lent, text: &[u8], beta: &mut [u8], line: &mut usize) -> u8 {
        match call!(read_listing, plan, text, beta) {
            Reread::Read => 0,
            Reread::Refused(number) => number as u8,
            Reread::RefusedAt(number, at) => {
                *line = at as usize;
                number as u8
            }
        }
    }
}
