//! Document 01, "The filing program": the lines of a text, the numbers on them,
//! and the refusal of the line at fault.

/// The most bytes of a line, its LF among them.
const LINE: usize = 1_024;
/// The most digits of a number.
const DIGITS: usize = 5;

/// A refusal: its number and the line at fault.
pub(crate) struct Refusal {
    pub(crate) number: u32,
    pub(crate) line: u64,
}

/// The text not yet read, and how many lines were.
pub(crate) struct Lines<'a> {
    rest: &'a [u8],
    read: u64,
}

impl<'a> Lines<'a> {
    /// A text of which nothing was read.
    pub(crate) fn new(text: &'a [u8]) -> Lines<'a> {
        Lines {
            rest: text,
            read: 0,
        }
    }

    /// Whether nothing is left.
    pub(crate) fn at_end(&self) -> bool {
        self.rest.is_empty()
    }

    /// The refusal of the line read last.
    pub(crate) fn refusal(&self, number: u32) -> Refusal {
        Refusal {
            number,
            line: self.read,
        }
    }

    /// The next line without its LF. It is refused with 13 where it is missing,
    /// has no LF, or is too long.
    fn next(&mut self) -> Result<&'a [u8], Refusal> {
        self.read += 1;
        let Some(end) = self.rest.iter().position(|&byte| byte == b'\n') else {
            return Err(self.refusal(13));
        };
        let line = &self.rest[..end];
        self.rest = &self.rest[end + 1..];
        if line.len() + 1 > LINE {
            return Err(self.refusal(13));
        }
        Ok(line)
    }

    /// The next line, which has to be these names.
    pub(crate) fn names(&mut self, names: &str) -> Result<(), Refusal> {
        if self.next()? == names.as_bytes() {
            Ok(())
        } else {
            Err(self.refusal(13))
        }
    }

    /// The next line, which has to hold this many numbers of 1 to 5 digits.
    pub(crate) fn numbers(&mut self, count: usize) -> Result<Vec<u64>, Refusal> {
        self.numbers_of(DIGITS, count)
    }

    /// The next line, which has to hold this many numbers of at most so many
    /// digits.
    pub(crate) fn numbers_of(&mut self, digits: usize, count: usize) -> Result<Vec<u64>, Refusal> {
        let words = self.next()?.split(|&byte| byte == b' ');
        let numbers = words.map(|word| number(digits, word));
        match numbers.collect::<Option<Vec<u64>>>() {
            Some(numbers) if numbers.len() == count => Ok(numbers),
            _ => Err(self.refusal(13)),
        }
    }

    /// The next line, which has to hold this many residues modulo p.
    pub(crate) fn residues(&mut self, count: usize, p: u64) -> Result<Vec<u8>, Refusal> {
        let numbers = self.numbers(count)?;
        if numbers.iter().any(|&x| x >= p) {
            return Err(self.refusal(5));
        }
        Ok(numbers.into_iter().map(|x| x as u8).collect())
    }
}

/// A word as a number: 1 to so many digits, zero as `0` and otherwise no
/// leading zero.
fn number(most: usize, word: &[u8]) -> Option<u64> {
    let digits = !word.is_empty() && word.len() <= most && word.iter().all(u8::is_ascii_digit);
    if !digits || (word[0] == b'0' && word.len() > 1) {
        return None;
    }
    Some(
        word.iter()
            .fold(0, |value, &digit| 10 * value + (digit - b'0') as u64),
    )
}
