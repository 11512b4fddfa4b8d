//! A plan and β with the program and the listing of them, and what others in
//! their place are answered when they are read back.

use super::lots::written;
use super::plans::{residues, Owned};
use super::random::Random;
use super::tally::Tally;
use super::twins::{self, listing};

/// What reading a listing answers: β, or the number and the line, if one is told.
pub type Answer = Result<Vec<u8>, (u8, Option<usize>)>;
/// The listing of no β.
pub const NOT_WRITTEN: Answer = Err((15, Some(1)));
/// A line that is malformed or missing.
pub const fn malformed(line: usize) -> Answer {
    Err((13, Some(line)))
}

/// A plan and β with what is written and printed of them.
pub struct Kept {
    pub plan: Owned,
    pub beta: Vec<u8>,
    pub steps: Vec<u16>,
    pub text: Vec<u8>,
}

impl Kept {
    /// This plan with other residues, and some β.
    pub fn new(random: &mut Random, plan: Owned) -> Kept {
        let plan = plan.drawn(random);
        let beta = residues(random, plan.columns(), plan.p);
        Kept::of(plan, beta)
    }

    pub fn of(plan: Owned, beta: Vec<u8>) -> Kept {
        let (steps, text) = (written(&plan, &beta), listing(&plan, &beta));
        Kept {
            plan,
            beta,
            steps,
            text,
        }
    }

    /// What a list of steps is answered, with any bytes in β before.
    pub fn read_steps(
        &self,
        random: &mut Random,
        steps: &[u16],
        tally: &mut Tally,
    ) -> Result<Vec<u8>, u8> {
        let mut beta = random.bytes(self.plan.columns(), 256);
        match twins::read_steps(&self.plan, steps, &mut beta, tally) {
            0 => Ok(beta),
            number => Err(number),
        }
    }

    /// The same of a text.
    pub fn read_listing(&self, random: &mut Random, text: &[u8], tally: &mut Tally) -> Answer {
        let mut beta = random.bytes(self.plan.columns(), 256);
        twins::read_listing(&self.plan, text, &mut beta, tally)?;
        Ok(beta)
    }

    /// That both forms give this β.
    pub fn gives(
        &self,
        random: &mut Random,
        (steps, text): (&[u16], &[u8]),
        beta: &[u8],
        tally: &mut Tally,
    ) {
        let by_steps = self.read_steps(random, steps, tally);
        assert_eq!(by_steps.as_deref(), Ok(beta));
        let by_text = self.read_listing(random, text, tally);
        assert_eq!(by_text.as_deref(), Ok(beta));
    }

    /// That the program and the listing give β back.
    pub fn comes_back(&self, random: &mut Random, tally: &mut Tally) {
        self.gives(random, (&self.steps, &self.text), &self.beta, tally);
    }

    /// That both forms are refused with 15, the text with line 1.
    pub fn refuses(&self, random: &mut Random, (steps, text): (&[u16], &[u8]), tally: &mut Tally) {
        assert_eq!(self.read_steps(random, steps, tally), Err(15));
        assert_eq!(self.read_listing(random, text, tally), NOT_WRITTEN);
    }
}
