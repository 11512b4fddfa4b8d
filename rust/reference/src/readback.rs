//! Document 02, C-15: reading a listing back. "Given a plan and a listing, or
//! its steps, return β."
//!
//! The steps are read from the first to the last, and each has to be the one
//! that 01's order has next; where that is a weight of β, any residue is taken,
//! and kept. Nothing is written again.

use crate::lines::{Lines, Refusal};
use crate::listing::{FIGURES, STEPS};
use crate::norm::worst_norm;
use crate::plan::{accept, Part, Plan};

/// The most digits of a figure. 02, C-15: "They may have 7 digits".
const FIGURE_DIGITS: usize = 7;

/// A step: kind, to, from, by. On a line of a listing a number of 65,536 or
/// more is well-formed, though no step has it.
type Step = [u64; 4];

/// What reading a listing answers.
#[derive(Clone, Copy, Debug, PartialEq, Eq)]
pub enum Reread {
    /// The coefficients are in β.
    Read,
    /// Refused for a cause from 1 to 5, none of which has a line in the text.
    Refused(u32),
    /// Refused with 13 or 15, and a line.
    RefusedAt(u32, u64),
}

/// A program as it is read: the steps ahead, and the coefficients met.
struct Reader<'a> {
    p: u64,
    ahead: std::slice::Iter<'a, Step>,
    beta: Vec<u8>,
}

// None is a step that is missing or another.
impl Reader<'_> {
    /// The next step has to be this one.
    fn step(&mut self, step: Step) -> Option<()> {
        (*self.ahead.next()? == step).then_some(())
    }

    /// The next step has to clear this register.
    fn clear(&mut self, to: u64) -> Option<()> {
        self.step([0, to, 0, 0])
    }

    /// The next step has to add `from` to `to` by this weight.
    fn add(&mut self, to: u64, from: u64, by: u64) -> Option<()> {
        self.step([1, to, from, by])
    }

    /// The next step has to bootstrap this register in place.
    fn bootstrap(&mut self, register: u64, table: u64) -> Option<()> {
        self.step([2, register, register, table])
    }

    /// The next steps have to add the variables from 0 on by these weights.
    fn add_all(&mut self, to: u64, weights: &[u8]) -> Option<()> {
        let mut pairs = (0..).zip(weights);
        pairs.try_for_each(|(j, &weight)| self.add(to, j, weight as u64))
    }

    /// The next steps have to add so many variables, each by some residue: these
    /// are the next coefficients.
    fn add_beta_row(&mut self, to: u64, variables: u64) -> Option<()> {
        for variable in 0..variables {
            let [kind, register, from, by] = *self.ahead.next()?;
            if (kind, register, from) != (1, to, variable) || by >= self.p {
                return None;
            }
            self.beta.push(by as u8);
        }
        Some(())
    }

    /// The whole program, in the order of 01, "The written program".
    fn program(&mut self, plan: &Plan) -> Option<()> {
        let [p, n, m] = [plan.p, plan.n, plan.m].map(|number| number as u64);
        let l = n + m;
        let [u, v, a, b, y] = [l, l + 1, l + 2, l + 3, l + 4];

        // 1. "link k: clear n+k, add each earlier variable by its weight,
        // bootstrap n+k in place by table k"
        for k in 0..m {
            self.clear(n + k)?;
            self.add_all(n + k, plan.link_weights(k as usize))?;
            self.bootstrap(n + k, k)?;
        }
        // 2. "clear y"
        self.clear(y)?;
        // 3. "product: clear u, add β row; clear v, add d row; clear a, add u by
        // 1, v by 1; clear b, add u by 1, v by p−1; bootstrap a by m, b by m+1,
        // each in place; add a, then b, to y by 1"
        for product in 0..plan.t {
            self.clear(u)?;
            self.add_beta_row(u, l)?;
            self.clear(v)?;
            self.add_all(v, plan.d_row(product))?;
            self.clear(a)?;
            self.add(a, u, 1)?;
            self.add(a, v, 1)?;
            self.clear(b)?;
            self.add(b, u, 1)?;
            self.add(b, v, p - 1)?;
            self.bootstrap(a, m)?;
            self.bootstrap(b, m + 1)?;
            self.add(y, a, 1)?;
            self.add(y, b, 1)?;
        }
        // 4. "add the last β block to y"
        self.add_beta_row(y, l)
    }
}

/// The coefficients for which the writer gives exactly these steps, where there
/// are any.
fn read(plan: &Plan, steps: &[Step]) -> Option<Vec<u8>> {
    let mut reader = Reader {
        p: plan.p as u64,
        ahead: steps.iter(),
        beta: Vec::new(),
    };
    reader.program(plan)?;
    // A step more is another list.
    reader.ahead.next().is_none().then_some(reader.beta)
}

/// Reads the coefficients back from a list of steps into `beta`; answers the
/// number of a refusal, or 0. 02, C-15: "Step lists here are not tested for
/// cause 11."
/// Causes 1 2 3 4 5 15.
pub fn read_steps(
    p: u64,
    s: u64,
    n: u64,
    m: u64,
    t: u64,
    radices: &[u8],
    weights: &[u8],
    tables: &[u8],
    d: &[u8],
    steps: &[u16],
    beta: &mut [u8],
) -> u32 {
    let own = [(Part::Beta, beta.len())];
    let plan = match accept(p, s, n, m, t, radices, weights, tables, d, &own, &[]) {
        Ok(plan) => plan,
        Err(number) => return number,
    };
    if !steps.len().is_multiple_of(4) {
        return 15;
    }
    let step = |step: &[u16]| [step[0], step[1], step[2], step[3]].map(u64::from);
    let steps: Vec<Step> = steps.chunks(4).map(step).collect();
    match read(&plan, &steps) {
        Some(found) => {
            beta.copy_from_slice(&found);
            0
        }
        None => 15,
    }
}

/// The figures and the steps of a text whose lines are well-formed, or 13 with
/// the first line that is not. 02, C-15: "step lines run to the end of the
/// text".
fn lines_of(text: &[u8]) -> Result<(Vec<u64>, Vec<Step>), Refusal> {
    let mut lines = Lines::new(text);
    lines.names(FIGURES)?;
    let figures = lines.numbers_of(FIGURE_DIGITS, 3)?;
    lines.names(STEPS)?;
    let mut steps = Vec::new();
    while !lines.at_end() {
        let step = lines.numbers(4)?;
        steps.push([step[0], step[1], step[2], step[3]]);
    }
    Ok((figures, steps))
}

/// Reads the coefficients back from a listing into `beta`. 02, C-15: "The three
/// figures in a listing's second line must be right as well."
/// Causes 1 2 3 4 5 13 15.
pub fn read_listing(
    p: u64,
    s: u64,
    n: u64,
    m: u64,
    t: u64,
    radices: &[u8],
    weights: &[u8],
    tables: &[u8],
    d: &[u8],
    text: &[u8],
    beta: &mut [u8],
) -> Reread {
    let own = [(Part::Beta, beta.len())];
    let plan = match accept(p, s, n, m, t, radices, weights, tables, d, &own, &[]) {
        Ok(plan) => plan,
        Err(number) => return Reread::Refused(number),
    };
    let (figures, steps) = match lines_of(text) {
        Ok(read) => read,
        Err(Refusal { number, line }) => return Reread::RefusedAt(number, line),
    };
    // 02, C-15: "with line 1".
    let not_written = Reread::RefusedAt(15, 1);
    let Some(found) = read(&plan, &steps) else {
        return not_written;
    };
    // A number has one way to be written, so a text that is well-formed is told
    // by its numbers.
    let worst = worst_norm(p, s, n, m, t, radices, weights, tables, d, &found);
    let worst = worst.expect("an accepted plan has a worst norm");
    if figures != [m + 2 * t, steps.len() as u64, worst] {
        return not_written;
    }
    beta.copy_from_slice(&found);
    Reread::Read
}
