//! Plans: checked once, owned, and cheap to share.

use crate::program::Ran;
use crate::raw::{self, Lent};
use crate::{ListingRefusal, Refusal, Store};
use std::sync::Arc;

/// The five numbers of a plan.
///
/// From them come L = n + m, the number of variables, and C = (t + 1) L, the
/// number of columns. The number of entries is the product of the radices,
/// which are a part of the plan and no number of its shape.
#[derive(Clone, Copy, Debug, PartialEq, Eq, Hash)]
pub struct Shape {
    /// The prime, odd, from 3 to 251.
    pub p: usize,
    /// The bound of the values that are filed, which are below s; from 2 to p.
    pub s: usize,
    /// The number of input digits, at least 1.
    pub n: usize,
    /// The number of links; L = n + m is at most 64.
    pub m: usize,
    /// The number of products, at most 32; C is at most 1,024.
    pub t: usize,
}

/// A plan that the library has accepted, with its parts.
///
/// A clone shares the parts, so stores and programs keep their plan with them.
#[derive(Clone, Debug, PartialEq, Eq, Hash)]
pub struct Plan {
    shape: Shape,
    parts: Arc<Parts>,
}

#[derive(Debug, PartialEq, Eq, Hash)]
struct Parts {
    radices: Vec<u8>,
    weights: Vec<u8>,
    tables: Vec<u8>,
    d: Vec<u8>,
}

impl Plan {
    /// Checks the numbers and parts of a plan, and keeps them.
    ///
    /// `radices` has the radix of each of the n digits, the most significant
    /// first, each from 2 to p, their product at most 4,096. The other parts
    /// are residues modulo p: `weights` has n + k weights for link k, link after
    /// link; `tables` has p values for each link, for the sums 0 to p - 1; `d`
    /// has L weights for each product.
    ///
    /// # Errors
    /// Causes 1 to 5.
    pub fn new(
        shape: Shape,
        radices: Vec<u8>,
        weights: Vec<u8>,
        tables: Vec<u8>,
        d: Vec<u8>,
    ) -> Result<Plan, Refusal> {
        let parts = Arc::new(Parts {
            radices,
            weights,
            tables,
            d,
        });
        let plan = Plan { shape, parts };
        Refusal::unless_0(raw::check(plan.lent()))?;
        Ok(plan)
    }

    /// A plan with s for the radix of every digit, so that its entries are the
    /// numbers of n digits in radix s, s^n of them.
    ///
    /// ```
    /// use celerycrag::{Plan, Shape};
    /// let shape = Shape { p: 5, s: 3, n: 4, m: 0, t: 0 };
    /// let plan = Plan::with_radix(shape, vec![], vec![], vec![])?;
    /// assert_eq!(plan.radices(), [3, 3, 3, 3]);
    /// assert_eq!(plan.entries(), 81);
    /// # Ok::<(), celerycrag::Refusal>(())
    /// ```
    ///
    /// # Errors
    /// Causes 1 to 5.
    pub fn with_radix(
        shape: Shape,
        weights: Vec<u8>,
        tables: Vec<u8>,
        d: Vec<u8>,
    ) -> Result<Plan, Refusal> {
        // An s that is no byte is above p (2), and an n above 64 is out of
        // range (3), whatever the radices: a list cut there is refused as the
        // whole one would be.
        let radix = u8::try_from(shape.s).unwrap_or(u8::MAX);
        let radices = vec![radix; shape.n.min(65)];
        Plan::new(shape, radices, weights, tables, d)
    }

    /// The plan as the functions of [`raw`] take it.
    pub fn lent(&self) -> Lent<'_> {
        let Shape { p, s, n, m, t } = self.shape;
        Lent {
            p,
            s,
            n,
            m,
            t,
            radices: &self.parts.radices,
            weights: &self.parts.weights,
            tables: &self.parts.tables,
            d: &self.parts.d,
        }
    }

    /// The five numbers.
    pub fn shape(&self) -> Shape {
        self.shape
    }

    /// The radix of each digit, the most significant first.
    pub fn radices(&self) -> &[u8] {
        &self.parts.radices
    }

    /// The weights of the links, link after link.
    pub fn weights(&self) -> &[u8] {
        &self.parts.weights
    }

    /// The tables of the links, p values each.
    pub fn tables(&self) -> &[u8] {
        &self.parts.tables
    }

    /// The fixed halves of the products, t rows of L.
    pub fn d(&self) -> &[u8] {
        &self.parts.d
    }

    // The sizes below are computed here and not by the library. They choose
    // the lengths of what is lent, which the library tests, so a slip would
    // show as a refusal and never as a wrong answer.

    /// L, the number of variables: the digits, then the links.
    pub fn variables(&self) -> usize {
        self.shape.n + self.shape.m
    }

    /// C, the number of columns, which is the number of coefficients.
    pub fn columns(&self) -> usize {
        (self.shape.t + 1) * self.variables()
    }

    /// The number of entries, which is the product of the radices.
    pub fn entries(&self) -> usize {
        let radices = self.parts.radices.iter();
        radices.map(|&radix| usize::from(radix)).product()
    }

    /// The number of bootstraps of every program written under this plan,
    /// m + 2t.
    pub fn bootstraps(&self) -> usize {
        self.shape.m + 2 * self.shape.t
    }

    /// The number of steps of every program written under this plan.
    pub fn step_count(&self) -> usize {
        let Shape { n, m, t, .. } = self.shape;
        let links = (0..m).map(|k| n + k + 2).sum::<usize>();
        links + 1 + t * (2 * self.variables() + 12) + self.variables()
    }

    /// The most entries that can be new in a store of this plan, whatever is
    /// filed in whichever order: with q the smaller of t and L, it is
    /// (q + 1) L - q (q - 1) / 2.
    ///
    /// With two products or more it is below C, because for any two products one
    /// of their columns follows from the others. A plan with more entries is never
    /// general, see [`Plan::is_general`]; one with as many or fewer may be, where
    /// it has links. The number is for choosing a shape: nothing here rests on it.
    ///
    /// ```
    /// use celerycrag::{Plan, Shape};
    /// // 36 entries of 36 columns; but at most 33 of them can be new.
    /// let shape = Shape { p: 7, s: 6, n: 2, m: 7, t: 3 };
    /// let plan = Plan::with_radix(shape, vec![0; 35], vec![0; 49], vec![0; 27])?;
    /// assert_eq!((plan.entries(), plan.columns()), (36, 36));
    /// assert_eq!(plan.most_new(), 33);
    /// assert!(!plan.is_general()?);
    /// # Ok::<(), celerycrag::Refusal>(())
    /// ```
    pub fn most_new(&self) -> usize {
        let variables = self.variables();
        let products = self.shape.t.min(variables);
        // Product b, counted from 0, adds a column less for each before it.
        let in_products = (0..products).map(|b| variables - b);
        variables + in_products.sum::<usize>()
    }

    /// Whether the plan suits every table: for each table with values below s
    /// there are coefficients that reproduce it.
    ///
    /// That is so exactly when each entry is new to a store of those before it,
    /// whatever s and the values. A plan without links is never general, since
    /// its entry 0 can only be 0, and no plan is that has more entries than
    /// [`Plan::most_new`].
    ///
    /// ```
    /// use celerycrag::{Plan, Refusal, Shape, Store};
    /// # fn main() -> Result<(), Refusal> {
    /// // Two bits, and two links: one is 1 at the entry 0 0 alone, the other at
    /// // 1 1 alone.
    /// let shape = Shape { p: 5, s: 5, n: 2, m: 2, t: 0 };
    /// let (weights, tables) = (vec![1, 1, 1, 1, 0], vec![1, 0, 0, 0, 0, 0, 0, 1, 0, 0]);
    /// let plan = Plan::new(shape, vec![2, 2], weights, tables, vec![])?;
    /// assert!(plan.is_general()?);
    /// let mut store = Store::new(&plan);
    /// for (entry, value) in [4, 0, 3, 3].into_iter().enumerate() {
    ///     store.file(entry, value)?;
    /// }
    ///
    /// // The exclusive or files under its plan, and other tables do not.
    /// let shape = Shape { p: 3, s: 2, n: 2, m: 0, t: 1 };
    /// let plan = Plan::new(shape, vec![2, 2], vec![], vec![], vec![1, 1])?;
    /// assert!(!plan.is_general()?);
    /// # Ok(())
    /// # }
    /// ```
    ///
    /// # Errors
    /// None: a plan was accepted when it was made. The library tests it again,
    /// and only memory that was damaged meanwhile is refused.
    pub fn is_general(&self) -> Result<bool, Refusal> {
        let mut work = Store::new(self).into_bytes();
        let mut general = 0;
        Refusal::unless_0(raw::general(self.lent(), &mut work, &mut general))?;
        Ok(general == 1)
    }

    /// The row of an entry: C residues.
    ///
    /// # Errors
    /// Cause 7.
    pub fn row(&self, entry: usize) -> Result<Vec<u8>, Refusal> {
        let mut row = vec![0; self.columns()];
        Refusal::unless_0(raw::row(self.lent(), entry, &mut row))?;
        Ok(row)
    }

    /// The digits of an entry, the most significant first: what a program is
    /// run on. Each is below its own radix.
    ///
    /// They are the first n variables, which the row's last block holds.
    ///
    /// # Errors
    /// Cause 7.
    pub fn digits(&self, entry: usize) -> Result<Vec<u8>, Refusal> {
        let last_block = self.columns() - self.variables();
        let mut digits = self.row(entry)?.split_off(last_block);
        digits.truncate(self.shape.n);
        Ok(digits)
    }

    /// The p values of a table that bootstraps name by number: a link's, or
    /// number m, the quarter square, or number m + 1, its negative.
    ///
    /// The library has no call for it: each value is what a program of two
    /// steps answers.
    ///
    /// # Errors
    /// Cause 11 where the number is above m + 1.
    pub fn table(&self, number: u16) -> Result<Vec<u8>, Refusal> {
        // With digit 0 at 1, which every radix allows, the first step puts z in
        // register u.
        let [u, y] = [self.variables() as u16, self.variables() as u16 + 4];
        let mut digits = vec![0; self.shape.n];
        digits.iter_mut().take(1).for_each(|digit| *digit = 1);
        let value = |z: usize| {
            let steps = [1, u, 0, z as u16, 2, y, u, number];
            self.run(&steps, &digits).map(|ran| ran.y)
        };
        (0..self.shape.p).map(value).collect()
    }

    /// Runs any list of steps, four numbers each, on the digits.
    ///
    /// # Errors
    /// Cause 4 where there are not n digits, 11 for the list, 12 where a digit
    /// is not below its own radix.
    pub fn run(&self, steps: &[u16], digits: &[u8]) -> Result<Ran, Refusal> {
        let (mut y, mut bootstraps) = (0, 0);
        let number = raw::run(self.lent(), steps, digits, &mut y, &mut bootstraps);
        Refusal::unless_0(number)?;
        Ok(Ran { y, bootstraps })
    }

    /// The largest sum of squares of weights, over the link rows, the d rows
    /// and the rows of β; at most 1,000,000.
    ///
    /// A weight w above (p - 1) / 2 counts as w - p, so that p - 1 counts as
    /// -1. The program's steps have it as it is.
    ///
    /// ```
    /// use celerycrag::{Plan, Shape};
    /// let shape = Shape { p: 5, s: 2, n: 3, m: 0, t: 0 };
    /// let plan = Plan::with_radix(shape, vec![], vec![], vec![])?;
    /// // 2, and 3 as -2, and 4 as -1.
    /// assert_eq!(plan.worst_norm(&[2, 3, 4])?, 4 + 4 + 1);
    /// # Ok::<(), celerycrag::Refusal>(())
    /// ```
    ///
    /// # Errors
    /// Cause 4 where β has not C coefficients, 5 where one is not below p.
    pub fn worst_norm(&self, beta: &[u8]) -> Result<usize, Refusal> {
        let mut norm = 0;
        Refusal::unless_0(raw::worst_norm(self.lent(), beta, &mut norm))?;
        Ok(norm)
    }

    /// The coefficients β back from a written program, four numbers a step, as
    /// [`Program::numbers`] has them: those for which [`Program::write`] gives
    /// exactly this list. There are no others.
    ///
    /// ```
    /// use celerycrag::{Plan, Program, Refusal, Shape};
    /// # fn main() -> Result<(), Refusal> {
    /// let shape = Shape { p: 3, s: 2, n: 2, m: 0, t: 1 };
    /// let plan = Plan::with_radix(shape, vec![], vec![], vec![1, 1])?;
    /// let program = Program::write(&plan, &[0, 1, 1, 0])?;
    /// assert_eq!(plan.read_steps(program.numbers())?, [0, 1, 1, 0]);
    ///
    /// // Without its last step it is no program of this plan.
    /// let shorter = &program.numbers()[..4 * (plan.step_count() - 1)];
    /// assert_eq!(plan.read_steps(shorter), Err(Refusal::NOT_WRITTEN));
    /// # Ok(())
    /// # }
    /// ```
    ///
    /// # Errors
    /// Cause 15 where no coefficients make the writer give exactly this list:
    /// also for a list that [`Plan::run`] would refuse with 11, and for an empty
    /// one.
    ///
    /// [`Program::numbers`]: crate::Program::numbers
    /// [`Program::write`]: crate::Program::write
    pub fn read_steps(&self, steps: &[u16]) -> Result<Vec<u8>, Refusal> {
        let mut beta = vec![0; self.columns()];
        Refusal::unless_0(raw::read_steps(self.lent(), steps, &mut beta))?;
        Ok(beta)
    }

    /// The coefficients β back from a listing, as the filing program prints it:
    /// those of which it prints exactly this text, the three figures too. There
    /// are no others.
    ///
    /// The table comes back with them: the value of an entry is its row times
    /// β, summed modulo p, or what the program written from β answers.
    ///
    /// ```
    /// use celerycrag::{Plan, Refusal, Shape};
    /// # fn main() -> Result<(), Box<dyn std::error::Error>> {
    /// let shape = Shape { p: 5, s: 3, n: 2, m: 0, t: 0 };
    /// let plan = Plan::with_radix(shape, vec![], vec![], vec![])?;
    /// let listing = "bootstraps steps worst\n0 3 5\nkind to from by\n0 6 0 0\n1 6 0 2\n1 6 1 4\n";
    /// assert_eq!(plan.read_listing(listing.as_bytes())?, [2, 4]);
    ///
    /// // The worst norm is 2 times 2 and 1, since 4 counts as -1.
    /// let wrong = listing.replace("0 3 5", "0 3 20");
    /// let turned_down = plan.read_listing(wrong.as_bytes()).unwrap_err();
    /// assert_eq!(turned_down.refusal, Refusal::NOT_WRITTEN);
    /// assert_eq!(turned_down.line, Some(1));
    /// # Ok(())
    /// # }
    /// ```
    ///
    /// # Errors
    /// Cause 13 with the first line that is malformed or missing; where there is
    /// none, cause 15 with line 1 where no coefficients have exactly this
    /// listing.
    pub fn read_listing(&self, text: &[u8]) -> Result<Vec<u8>, ListingRefusal> {
        let mut beta = vec![0; self.columns()];
        // No line has this number.
        let mut line = 0;
        let number = raw::read_listing(self.lent(), text, &mut beta, &mut line);
        let at_line = |refusal| ListingRefusal {
            refusal,
            line: (line > 0).then_some(line),
        };
        Refusal::unless_0(number).map_err(at_line)?;
        Ok(beta)
    }
}
