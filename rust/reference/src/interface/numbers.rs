//! The numbers of a line.

use crate::Record;

/// The most numbers that a line has.
const MOST: usize = 2048;

/// A number's digits; above 2^64 - 1 it stays there.
fn number(digits: &str) -> Option<usize> {
    digits.bytes().try_fold(0_usize, |value, byte| {
        let digit = byte.is_ascii_digit().then(|| usize::from(byte - b'0'))?;
        Some(value.saturating_mul(10).saturating_add(digit))
    })
}

/// The numbers of a line, `20*2` twenty times. None where it is malformed.
pub(super) fn numbers(words: &str) -> Option<Vec<usize>> {
    let mut all = Vec::new();
    for word in words.split(' ') {
        let (times, value) = word.split_once('*').unwrap_or(("1", word));
        let times = number(times)?;
        if times > MOST - all.len() {
            return None;
        }
        all.resize(all.len() + times, number(value)?);
    }
    Some(all)
}

/// Records, of pairs of numbers. None where one is left over.
pub(super) fn records(numbers: &[usize]) -> Option<Vec<Record>> {
    let pairs = numbers.chunks(2).map(|pair| match *pair {
        [entry, value] => Some(Record {
            entry: entry as u16,
            value: value as u16,
        }),
        _ => None,
    });
    pairs.collect()
}
