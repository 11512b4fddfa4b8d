//! The calls of the Rattle program `cases`, and what is printed behind them. The
//! reference makes them, whoever makes the others.

use super::{Calls, Cases, Reference};

/// Room enough for every text; with less, nothing is printed.
const ROOM: usize = 131_072;

impl<C> Cases<C> {
    /// A call; None where there is no such call with so many numbers.
    pub(super) fn rattle_call(&mut self, word: &str, numbers: &[usize]) -> Option<()> {
        match (word, numbers) {
            ("plan::check", []) => self.check_plan(),
            ("program::write", []) => self.write_part(),
            ("text::print_text", [room]) => self.print_text(*room),
            _ => return None,
        }
        Some(())
    }

    fn check_plan(&mut self) {
        let number = Reference.check(self.plan.lent());
        self.out.number("number", number);
    }

    /// The part that the writer hands back is what it wrote, and where it refuses
    /// it is the empty one.
    fn write_part(&mut self) {
        let mut length = 0;
        Reference.write(self.plan.lent(), &self.beta, &mut self.steps, &mut length);
        self.out.number("length", length);
        self.out.part("steps", &self.steps);
    }

    /// Then the text is empty.
    fn print_text(&mut self, room: usize) {
        let text = std::mem::take(&mut self.text);
        let printed = match room < ROOM {
            true => Vec::new(),
            false => crate::filing_program(&text),
        };
        self.out.number("length", printed.len());
        self.out.0.extend_from_slice(&printed);
        // There is no slice here, and of the library's no byte may change.
        self.out.number("changed behind it", 0);
    }
}
