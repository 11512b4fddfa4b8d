//! Filings and withdrawals against brute force: for tiny plans every β is
//! enumerated. The entries kept are those filed and not withdrawn since; a
//! filing is refused with 9 exactly when no β fits it together with those kept,
//! and the store has the β that fit them for its solutions. Nothing here comes
//! from the reference.

mod common;
use celerycrag::{raw, Record};
use common::plans::{radices, Owned};
use common::random::{cases, Random};
use common::tiny::{every_beta, row, satisfies, TINY};

/// A filing with its value, or a withdrawal.
#[derive(Clone, Copy, Debug)]
enum Step {
    File(usize, usize),
    Withdraw(usize),
}

/// What is lent, and what is known to be kept.
struct Run<'a> {
    plan: &'a Owned,
    rows: Vec<Vec<u8>>,
    all: Vec<Vec<u8>>,
    store: Vec<u8>,
    work: Vec<u8>,
    records: Vec<Record>,
    count: usize,
    kept: Vec<(usize, usize)>,
    /// The entries that were new when they were filed.
    new: Vec<usize>,
    /// How often one of these was withdrawn, and the store stayed as it was.
    carried: usize,
}

/// What is behind the list: no entry and no value.
const BEHIND: Record = Record {
    entry: 0xABCD,
    value: 0xFEDC,
};

impl Run<'_> {
    fn new(plan: &Owned) -> Run<'_> {
        Run {
            plan,
            rows: (0..plan.entries()).map(|entry| row(plan, entry)).collect(),
            all: every_beta(plan),
            store: plan.empty_store(),
            work: vec![0xA5; plan.empty_store().len()],
            records: vec![BEHIND; plan.entries()],
            count: 0,
            kept: vec![],
            new: vec![],
            carried: 0,
        }
    }

    /// Whether β gives each of these entries its value.
    fn gives(&self, beta: &[u8], list: &[(usize, usize)]) -> bool {
        list.iter().all(|&(entry, value)| {
            let given = self.plan.product(&self.rows[entry], beta);
            usize::from(given) == value
        })
    }

    /// How many β give each of these entries its value.
    fn fitting(&self, list: &[(usize, usize)]) -> usize {
        let fits = self.all.iter().filter(|beta| self.gives(beta, list));
        fits.count()
    }

    fn file(&mut self, entry: usize, value: usize) {
        let fit_before = self.fitting(&self.kept);
        let with_it = [&self.kept[..], &[(entry, value)]].concat();
        let fit = self.fitting(&with_it);
        let (before, columns) = (self.store.clone(), self.plan.columns());
        let mut column = 999;
        let answer = raw::file_recorded(
            self.plan.lent(),
            &mut self.store,
            &mut self.work,
            &mut self.records,
            &mut self.count,
            entry,
            value,
            &mut column,
        );
        let expected = if fit == 0 { 9 } else { 0 };
        assert_eq!(answer, expected, "{entry} {value} of {:?}", self.plan);
        if answer != 0 {
            assert_eq!((column, &self.store), (999, &before));
            return;
        }
        // New exactly where it leaves fewer β.
        assert_eq!(column < columns, fit < fit_before);
        assert!(column <= columns);
        if column < columns {
            self.new.push(entry);
        } else {
            assert_eq!(self.store, before);
        }
        if !self.kept.contains(&(entry, value)) {
            self.kept.push((entry, value));
        }
    }

    fn withdraw(&mut self, entry: usize) {
        let place = self.kept.iter().position(|kept| kept.0 == entry);
        let before = self.store.clone();
        let mut told = 0xFEFE;
        let answer = raw::withdraw(
            self.plan.lent(),
            &mut self.store,
            &mut self.work,
            &mut self.records,
            &mut self.count,
            entry,
            &mut told,
        );
        let Some(place) = place else {
            assert_eq!((answer, told), (17, 0xFEFE));
            assert_eq!(self.store, before);
            return;
        };
        let (_, value) = self.kept.remove(place);
        assert_eq!((answer, usize::from(told)), (0, value));
        assert_eq!(self.records[self.kept.len()], Record::default());
        // So that what is behind the list is known again.
        self.records[self.kept.len()] = BEHIND;
        if self.new.contains(&entry) {
            self.new.retain(|&new| new != entry);
            self.carried += usize::from(self.store == before);
        }
    }

    fn step(&mut self, step: Step) {
        match step {
            Step::File(entry, value) => self.file(entry, value),
            Step::Withdraw(entry) => self.withdraw(entry),
        }
        assert!(self.work.iter().all(|&x| x == 0), "the work store");
        self.work.fill(0xA5);
        let record = |&(entry, value): &(usize, usize)| Record {
            entry: entry as u16,
            value: value as u16,
        };
        assert_eq!(self.count, self.kept.len());
        let (list, behind) = self.records.split_at(self.count);
        assert!(list.iter().copied().eq(self.kept.iter().map(record)));
        assert!(behind.iter().all(|&record| record == BEHIND));
        assert_eq!(raw::test(self.plan.lent(), &self.store), 0);
        let stored = self.plan.rows(&self.store);
        for beta in &self.all {
            let solves = satisfies(self.plan, &stored, beta);
            assert_eq!(solves, self.gives(beta, &self.kept), "{step:?}");
        }
    }

    /// The coefficients and the program give back what is kept after the last
    /// call.
    fn end(&self) {
        let plan = self.plan;
        let mut beta = vec![255; plan.columns()];
        assert_eq!(raw::coefficients(plan.lent(), &self.store, &mut beta), 0);
        assert!(self.gives(&beta, &self.kept));
        let mut steps = vec![0; 4 * plan.step_count()];
        assert_eq!(raw::write(plan.lent(), &beta, &mut steps, &mut 0), 0);
        for &(entry, value) in &self.kept {
            let (mut y, digits) = (99, plan.digits(entry));
            let answer = raw::run(plan.lent(), &steps, &digits, &mut y, &mut 0);
            assert_eq!((answer, usize::from(y)), (0, value), "entry {entry}");
        }
    }
}

/// Files what some β gives, where it gives a value, so that many entries are
/// implied; or anything. Withdraws what is kept, or anything.
fn random_step(random: &mut Random, run: &Run, beta: &[u8]) -> Step {
    let (plan, entry) = (run.plan, random.below(run.plan.entries()));
    let given = usize::from(plan.product(&run.rows[entry], beta));
    match random.below(8) {
        0 => Step::Withdraw(entry),
        1 | 2 if !run.kept.is_empty() => Step::Withdraw(random.pick(&run.kept).0),
        3..=6 if given < plan.s => Step::File(entry, given),
        _ => Step::File(entry, random.below(plan.s)),
    }
}

#[test]
fn random_tiny_plans() {
    let (mut lists, mut carried) = (0, 0);
    cases("tiny plans", 100, |random| {
        let mut plan = Owned::zeros(random.pick(&TINY));
        if random.one_in(2) {
            plan.radices = radices(random, plan.p, plan.n);
        }
        let plan = plan.drawn(random);
        let mut run = Run::new(&plan);
        let beta = random.bytes(plan.columns(), plan.p);
        for _ in 0..20 {
            let step = random_step(random, &run, &beta);
            run.step(step);
        }
        run.end();
        lists += 1;
        carried += run.carried;
    });
    println!("{lists} lists, the others carried the store {carried} times");
    assert!(lists < 1_000 || carried >= 75);
}

/// Every list of four calls on XOR's entries 1 to 3 and their two values.
#[test]
fn every_list_of_four_calls_of_xor() {
    let plan = Owned::xor();
    let file = |entry: usize| [0, 1].map(|value| Step::File(entry, value));
    let steps = [1, 2, 3].map(|entry| (file(entry), Step::Withdraw(entry)));
    let steps: Vec<Step> = steps
        .iter()
        .flat_map(|&([zero, one], withdraw)| [zero, one, withdraw])
        .collect();
    for number in 0..steps.len().pow(4) {
        let mut run = Run::new(&plan);
        for place in 0..4 {
            run.step(steps[number / steps.len().pow(place) % steps.len()]);
        }
        run.end();
    }
}

/// Every entry of every table of two bits corrected: withdrawn and filed with
/// the other value, under every d. Entry 0 cannot be 1.
#[test]
fn every_output_corrected() {
    for d in 0..9 {
        let plan = Owned {
            d: vec![d / 3, d % 3],
            ..Owned::xor()
        };
        for table in 0..16 {
            for wrong in 0..4 {
                let mut run = Run::new(&plan);
                let value = |entry: usize| table >> entry & 1;
                for entry in 0..4 {
                    run.step(Step::File(entry, value(entry)));
                }
                run.step(Step::Withdraw(wrong));
                run.step(Step::File(wrong, 1 - value(wrong)));
                run.end();
            }
        }
    }
}
