//! Programs: what a host carries out on encrypted digits.

use crate::{raw, Plan, Refusal};

/// One step of a program.
///
/// Registers 0 to L - 1 are the variables; then come u, v, a, b and y.
#[derive(Clone, Copy, Debug, PartialEq, Eq, Hash)]
pub enum Step {
    /// The register becomes 0.
    Clear {
        /// The register.
        to: u16,
    },
    /// The register gains a multiple of another, modulo p.
    Add {
        /// The register that gains.
        to: u16,
        /// The register that is multiplied.
        from: u16,
        /// The factor, below p.
        by: u16,
    },
    /// A bootstrap: the register becomes the value of a table.
    Bootstrap {
        /// The register that is written.
        to: u16,
        /// The register that holds the place in the table.
        from: u16,
        /// The number of the table, as [`Plan::table`] takes it.
        table: u16,
    },
}

/// What a run answers.
#[derive(Clone, Copy, Debug, PartialEq, Eq, Hash)]
pub struct Ran {
    /// Register y after the last step.
    pub y: u8,
    /// The number of bootstraps carried out.
    pub bootstraps: usize,
}

/// A program that the library has written, with its plan.
#[derive(Clone, Debug, PartialEq, Eq, Hash)]
pub struct Program {
    plan: Plan,
    numbers: Vec<u16>,
}

impl Program {
    /// Writes the program of the plan and the coefficients β.
    ///
    /// # Errors
    /// Cause 4 where β has not C coefficients, 5 where one is not below p.
    pub fn write(plan: &Plan, beta: &[u8]) -> Result<Program, Refusal> {
        let mut numbers = vec![0; 4 * plan.step_count()];
        let mut written = 0;
        let number = raw::write(plan.lent(), beta, &mut numbers, &mut written);
        Refusal::unless_0(number)?;
        numbers.truncate(written);
        Ok(Program {
            plan: plan.clone(),
            numbers,
        })
    }

    /// The plan that the program was written under.
    pub fn plan(&self) -> &Plan {
        &self.plan
    }

    /// The steps as the library writes them: kind, to, from and by of each.
    pub fn numbers(&self) -> &[u16] {
        &self.numbers
    }

    /// The steps in order.
    pub fn steps(&self) -> impl ExactSizeIterator<Item = Step> + '_ {
        // The library writes kinds 0, 1 and 2 only.
        self.numbers.chunks_exact(4).map(|step| match step[0] {
            0 => Step::Clear { to: step[1] },
            1 => Step::Add {
                to: step[1],
                from: step[2],
                by: step[3],
            },
            _ => Step::Bootstrap {
                to: step[1],
                from: step[2],
                table: step[3],
            },
        })
    }

    /// Runs the program in the clear on the digits of an input.
    ///
    /// # Errors
    /// Cause 4 where there are not n digits, 12 where one is not below its own
    /// radix.
    pub fn run(&self, digits: &[u8]) -> Result<Ran, Refusal> {
        self.plan.run(&self.numbers, digits)
    }
}
