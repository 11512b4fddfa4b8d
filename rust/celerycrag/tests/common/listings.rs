//! Listings with a line or a number changed, and with something wrong, or at
//! least likely to be.

use super::random::Random;
use super::texts::{byte, lines, noise, piece, split, words};

/// A line, counted from 1, without its LF.
pub fn line_of(text: &[u8], line: usize) -> &[u8] {
    let mut lines = text.split(|&byte| byte == b'\n');
    lines.nth(line - 1).expect("a line")
}

/// The text with one line, counted from 1, changed, its LF apart.
pub fn with_line(text: &[u8], line: usize, change: impl FnOnce(&[u8]) -> Vec<u8>) -> Vec<u8> {
    let mut all = split(text, b'\n');
    all[line - 1] = change(&all[line - 1]);
    all.join(&b'\n')
}

/// The same with one number of the line, counted from 0, changed.
pub fn with_number(
    text: &[u8],
    line: usize,
    place: usize,
    change: impl FnOnce(u64) -> u64,
) -> Vec<u8> {
    with_line(text, line, |old| {
        let mut words = split(old, b' ');
        let number = std::str::from_utf8(&words[place]).ok();
        let number = number.and_then(|word| word.parse().ok());
        words[place] = change(number.expect("a number")).to_string().into_bytes();
        words.join(&b' ')
    })
}

/// Words in place of a number: none, or of too many digits, or at the edges of
/// 8, 16 and 32 bits, or written in another way.
const WORDS: &str = "|0|00|01|007|255|256|65535|65536|65537|65792|99999|100000|131072|999999|1000000|\
    1000001|9999999|00000000|10000000|4294967296|18446744073709551616|-0|-1|+1|1.|1e1|0x1|\u{661}|x";
/// What may stand behind a line, in front of it, or between its words.
const STRAYS: [&[u8]; 8] = [b" ", b"\r", b"\t", b"\0", b"  ", b"0", b"\x0b", b"\xc2\xa0"];
/// What a text may have behind its end.
const ENDS: [&[u8]; 8] = [
    b"\n",
    b" ",
    b"0",
    b"0 0 0 0",
    b"0 0 0 0\n",
    b"0 0 0 0\n\n",
    b"kind to from by\n",
    b"bootstraps steps worst\n0 2 0\nkind to from by\n0 5 0 0\n1 5 0 0\n",
];

/// Makes one thing wrong, or at least likely to be.
pub fn spoil(random: &mut Random, text: &mut Vec<u8>) {
    match random.below(20) {
        0 | 1 => byte(random, text),
        2 | 3 => lines(random, text),
        4..=7 => neighbour(random, text),
        8 | 9 => word(random, text),
        10 | 11 => stray(random, text),
        12 => text.truncate(random.below(text.len() + 1)),
        13 => end_of_line(random, text),
        14 => piece(random, text),
        15 => noise(random, text),
        16 => text.extend_from_slice(random.pick(&ENDS)),
        17 => drop(text.pop()),
        18 => long_line(random, text),
        _ => *text = split(text, b'\n').join(&b"\r\n"[..]),
    }
}

/// A line, the figures more often than others, counted from 0.
fn place(random: &mut Random, text: &[u8]) -> usize {
    if random.one_in(4) {
        1
    } else {
        random.below(split(text, b'\n').len())
    }
}

/// A number made larger or smaller by a little, by 256 or by 65,536: well-formed,
/// and often another program's.
fn neighbour(random: &mut Random, text: &mut Vec<u8>) {
    let place = place(random, text);
    words(text, place, |words| {
        let at = random.below(words.len());
        let number = std::str::from_utf8(&words[at]).ok();
        if let Some(number) = number.and_then(|word| word.parse::<u64>().ok()) {
            let changed = match random.below(7) {
                0..=2 => number.saturating_add(1),
                3 | 4 => number.saturating_sub(1),
                5 => number.saturating_add(random.pick(&[2, 10, 256, 65_536])),
                _ => random.below(7) as u64,
            };
            words[at] = changed.to_string().into_bytes();
        }
    });
}

/// Another word in place of one, a word more, or one fewer.
fn word(random: &mut Random, text: &mut Vec<u8>) {
    let place = place(random, text);
    words(text, place, |words| {
        let all: Vec<&str> = WORDS.split('|').collect();
        let word = random.pick(&all).as_bytes().to_vec();
        let at = random.below(words.len());
        match random.below(6) {
            0 => drop(words.remove(at)),
            1 => words.insert(at, word),
            2 => words.push(word),
            _ => words[at] = word,
        }
    });
}

/// A byte or two before a line, behind it, or in place of a space of it.
fn stray(random: &mut Random, text: &mut Vec<u8>) {
    let (place, stray) = (place(random, text), random.pick(&STRAYS));
    words(text, place, |words| {
        let at = random.below(words.len());
        let word = words[at].clone();
        words[at] = if random.one_in(2) {
            [stray, &word].concat()
        } else {
            [&word, stray].concat()
        };
        if random.one_in(3) && at + 1 < words.len() {
            let next = words.remove(at + 1);
            words[at] = [&word, stray, &next].concat();
        }
    });
}

/// The end of a line taken out, so that two are one; or one put in between two
/// words.
fn end_of_line(random: &mut Random, text: &mut [u8]) {
    let ends: Vec<usize> = (0..text.len())
        .filter(|&at| [b'\n', b' '].contains(&text[at]))
        .collect();
    if !ends.is_empty() {
        let at = random.pick(&ends);
        text[at] = if text[at] == b' ' { b'\n' } else { b' ' };
    }
}

/// A line made about 1,024 bytes long.
fn long_line(random: &mut Random, text: &mut Vec<u8>) {
    let place = place(random, text);
    let length = random.within(1_021, 1_026);
    let filler = random.pick(b" 01x\r");
    words(text, place, |words| {
        let line = words.join(&b' ');
        let more = vec![filler; length.saturating_sub(line.len())];
        *words = vec![[line, more].concat()];
    });
}
