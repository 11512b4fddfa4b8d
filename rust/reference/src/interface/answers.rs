//! The calls of the C interface, each made with the plan and the parts that are
//! set, and what is printed behind it: its number, each number that it tells,
//! and each part that it may write, as the call left them.

use super::{Calls, Cases};

/// What a number that a call tells holds before it, where it is wider than a
/// byte.
const WIDE: u16 = 9999;
/// The same, where it is a byte.
const BYTE: u8 = 255;

impl<C: Calls> Cases<C> {
    /// A call; None where there is no such call with so many numbers.
    pub(super) fn call(&mut self, word: &str, numbers: &[usize]) -> Option<()> {
        match (word, numbers) {
            ("celery_check", []) => self.check(),
            ("celery_row", [entry]) => self.row(*entry),
            ("celery_test", []) => self.test(),
            ("celery_file", [entry, value]) => self.file(*entry, *value),
            ("celery_file_recorded", [entry, value]) => self.file_recorded(*entry, *value),
            ("celery_withdraw", [entry]) => self.withdraw(*entry),
            ("celery_coefficients", []) => self.coefficients(),
            ("celery_settle", [entry]) => self.settle(*entry),
            ("celery_general", []) => self.general(),
            ("celery_to_half", []) => self.move_to_half(),
            ("celery_to_full", []) => self.move_to_full(),
            ("celery_check_writing", []) => self.check_writing(),
            ("celery_write", []) => self.write(),
            ("celery_run", []) => self.run(),
            ("celery_worst_norm", []) => self.worst_norm(),
            ("celery_read_steps", []) => self.read_steps(),
            ("celery_read_listing", []) => self.read_listing(),
            _ => return None,
        }
        Some(())
    }

    fn check(&mut self) {
        let number = self.calls.check(self.plan.lent());
        self.out.number("number", number);
    }

    fn row(&mut self, entry: usize) {
        let number = self.calls.row(self.plan.lent(), entry, &mut self.row);
        self.out.number("number", number);
        self.out.part("row", &self.row);
    }

    fn test(&mut self) {
        let number = self.calls.test(self.plan.lent(), &self.store);
        self.out.number("number", number);
    }

    fn file(&mut self, entry: usize, value: usize) {
        let (plan, store, mut column) = (self.plan.lent(), &mut self.store, WIDE.into());
        let number = self.calls.file(plan, store, entry, value, &mut column);
        self.out.number("number", number);
        self.out.number("column", column);
        self.out.part("store", &self.store);
    }

    fn file_recorded(&mut self, entry: usize, value: usize) {
        let mut column = WIDE.into();
        let number = self.calls.file_recorded(
            self.plan.lent(),
            &mut self.store,
            &mut self.work,
            &mut self.records,
            &mut self.count,
            entry,
            value,
            &mut column,
        );
        self.out.number("number", number);
        self.out.number("column", column);
        self.recorded();
    }

    fn withdraw(&mut self, entry: usize) {
        let mut value = WIDE;
        let number = self.calls.withdraw(
            self.plan.lent(),
            &mut self.store,
            &mut self.work,
            &mut self.records,
            &mut self.count,
            entry,
            &mut value,
        );
        self.out.number("number", number);
        self.out.number("value", value);
        self.recorded();
    }

    /// All else that a call with records may write.
    fn recorded(&mut self) {
        let records = self.records.iter();
        let records: Vec<u16> = records.flat_map(|one| [one.entry, one.value]).collect();
        self.out.number("count", self.count);
        self.out.part("store", &self.store);
        self.out.part("work", &self.work);
        self.out.part("records", &records);
    }

    fn coefficients(&mut self) {
        let (plan, store, beta) = (self.plan.lent(), &self.store, &mut self.beta);
        let number = self.calls.coefficients(plan, store, beta);
        self.out.number("number", number);
        self.out.part("beta", &self.beta);
    }

    fn settle(&mut self, entry: usize) {
        let (plan, store) = (self.plan.lent(), &self.store);
        let (mut residue, mut column) = (BYTE, WIDE.into());
        let number = self
            .calls
            .settle(plan, store, entry, &mut residue, &mut column);
        self.out.number("number", number);
        self.out.number("residue", residue);
        self.out.number("column", column);
    }

    fn general(&mut self) {
        let (plan, work, mut general) = (self.plan.lent(), &mut self.work, BYTE);
        let number = self.calls.general(plan, work, &mut general);
        self.out.number("number", number);
        self.out.number("general", general);
        self.out.part("work", &self.work);
    }

    fn move_to_half(&mut self) {
        let (plan, full, half) = (self.plan.lent(), &self.full, &mut self.store);
        let number = self.calls.to_half(plan, full, half);
        self.out.number("number", number);
        self.out.part("store", &self.store);
    }

    fn move_to_full(&mut self) {
        let (plan, half, full) = (self.plan.lent(), &self.store, &mut self.full);
        let number = self.calls.to_full(plan, half, full);
        self.out.number("number", number);
        self.out.part("full", &self.full);
    }

    fn check_writing(&mut self) {
        let (plan, beta, steps) = (self.plan.lent(), &self.beta, &self.steps);
        let number = self.calls.check_writing(plan, beta, steps);
        self.out.number("number", number);
    }

    fn write(&mut self) {
        let (plan, beta, steps) = (self.plan.lent(), &self.beta, &mut self.steps);
        let mut written = WIDE.into();
        let number = self.calls.write(plan, beta, steps, &mut written);
        self.out.number("number", number);
        self.out.number("written", written);
        self.out.part("steps", &self.steps);
    }

    fn run(&mut self) {
        let (plan, steps, digits) = (self.plan.lent(), &self.steps, &self.digits);
        let (mut y, mut bootstraps) = (BYTE, WIDE.into());
        let number = self.calls.run(plan, steps, digits, &mut y, &mut bootstraps);
        self.out.number("number", number);
        self.out.number("y", y);
        self.out.number("bootstraps", bootstraps);
    }

    fn worst_norm(&mut self) {
        let (plan, beta, mut norm) = (self.plan.lent(), &self.beta, WIDE.into());
        let number = self.calls.worst_norm(plan, beta, &mut norm);
        self.out.number("number", number);
        self.out.number("norm", norm);
    }

    fn read_steps(&mut self) {
        let (plan, steps, beta) = (self.plan.lent(), &self.steps, &mut self.beta);
        let number = self.calls.read_steps(plan, steps, beta);
        self.out.number("number", number);
        self.out.part("beta", &self.beta);
    }

    /// Then the text is empty.
    fn read_listing(&mut self) {
        let text = std::mem::take(&mut self.text);
        let (plan, beta, mut line) = (self.plan.lent(), &mut self.beta, WIDE.into());
        let number = self.calls.read_listing(plan, &text, beta, &mut line);
        self.out.number("number", number);
        self.out.number("line", line);
        self.out.part("beta", &self.beta);
    }
}
