//! Plan texts, as the filing program reads them: of a plan with entries, and
//! with something wrong.

use super::faults::EDGES;
use super::plans::Owned;
use super::random::Random;

/// Words in place of a number, most of them no number.
const WORDS: [&str; 12] = [
    "", "0", "99999", "00", "01", "00003", "100000", "100003", "000001", "-0", "+1", "1.",
];
/// Bytes that mean something, or look as if they did.
const BYTES: &[u8] = b"0123456789 \n\r\t\0+-,pev\x7f\x80\xb1\xff";

/// What a text may have behind its end.
const ENDS: [&[u8]; 6] = [b"\n", b" ", b"\0", b"0", b"0 0", b"entry value\n"];

/// The text of a plan with entries and values.
pub fn text(plan: &Owned, pairs: &[(usize, usize)]) -> Vec<u8> {
    let Owned { p, s, n, m, t, .. } = *plan;
    let mut text = format!("p s n links products\n{p} {s} {n} {m} {t}\n");
    text += &line(&plan.radices);
    let mut weights = &plan.weights[..];
    for (k, table) in plan.tables.chunks(p).enumerate() {
        let (link, rest) = weights.split_at(n + k);
        text += &(line(link) + &line(table));
        weights = rest;
    }
    for row in plan.d.chunks(n + m) {
        text += &line(row);
    }
    text += "entry value\n";
    for (entry, value) in pairs {
        text += &format!("{entry} {value}\n");
    }
    text.into_bytes()
}

/// Numbers with one space between, and LF.
fn line(numbers: &[u8]) -> String {
    let words: Vec<String> = numbers.iter().map(u8::to_string).collect();
    words.join(" ") + "\n"
}

/// Makes one thing wrong, or at least likely to be.
pub fn spoil(random: &mut Random, text: &mut Vec<u8>) {
    match random.below(18) {
        0 | 1 => byte(random, text),
        2 | 3 => lines(random, text),
        4..=9 => number(random, text),
        10 => columns(random, text),
        11 => text.truncate(random.below(text.len() + 1)),
        12 => piece(random, text),
        13 => noise(random, text),
        14 => text.extend_from_slice(random.pick(&ENDS)),
        15 | 16 => radices(random, text),
        _ => *text = split(text, b'\n').join(&b"\r\n"[..]),
    }
}

/// A byte changed, taken out, put in, or doubled.
pub fn byte(random: &mut Random, text: &mut Vec<u8>) {
    if text.is_empty() {
        return;
    }
    let place = random.below(text.len());
    let byte = if random.one_in(4) {
        random.below(256) as u8
    } else {
        random.pick(BYTES)
    };
    match random.below(4) {
        0 => text[place] = byte,
        1 => drop(text.remove(place)),
        2 => text.insert(place, byte),
        _ => text.insert(place, text[place]),
    }
}

/// Two lines swapped, or one taken out, doubled, or emptied.
pub fn lines(random: &mut Random, text: &mut Vec<u8>) {
    let mut lines: Vec<&[u8]> = text.split_inclusive(|&byte| byte == b'\n').collect();
    if lines.is_empty() {
        return;
    }
    let (one, other) = (random.below(lines.len()), random.below(lines.len()));
    match random.below(4) {
        0 => lines.swap(one, other),
        1 => drop(lines.remove(one)),
        2 => lines.insert(other, lines[one]),
        _ => lines[one] = b"\n",
    }
    *text = lines.concat();
}

/// The parts between one byte and the next of its kind.
pub fn split(bytes: &[u8], at: u8) -> Vec<Vec<u8>> {
    bytes.split(|&byte| byte == at).map(Vec::from).collect()
}

/// Changes the words of a line, counted from 0, where the text has it.
pub fn words(text: &mut Vec<u8>, place: usize, change: impl FnOnce(&mut Vec<Vec<u8>>)) {
    let mut lines = split(text, b'\n');
    if let Some(line) = lines.get_mut(place) {
        let mut words = split(line, b' ');
        change(&mut words);
        *line = words.join(&b' ');
    }
    *text = lines.join(&b'\n');
}

/// Another word in place of one, on the values line, the radices line or any.
fn number(random: &mut Random, text: &mut Vec<u8>) {
    let lines = split(text, b'\n').len();
    let place = match random.below(6) {
        0 | 1 => 1,
        2 => 2,
        _ => random.below(lines),
    };
    words(text, place, |words| {
        let word = match random.below(6) {
            0 => random.pick(&WORDS).to_string(),
            1 | 2 => random.pick(&EDGES).to_string(),
            _ => random.below(70).to_string(),
        };
        let at = random.below(words.len());
        match random.below(8) {
            0 => drop(words.remove(at)),
            1 => words.insert(at, word.into_bytes()),
            _ => words[at] = word.into_bytes(),
        }
    });
}

/// Other numbers of links and products, often too many for a text.
fn columns(random: &mut Random, text: &mut Vec<u8>) {
    words(text, 1, |words| {
        for (word, most) in words.iter_mut().skip(3).zip([64, 33]) {
            *word = random.within(0, most).to_string().into_bytes();
        }
    });
}

/// Another line of radices: as many as the plan has digits, or not, and
/// sometimes more than a line may hold. Sometimes the values line asks for that
/// many.
pub fn radices(random: &mut Random, text: &mut Vec<u8>) {
    let digits = |text: &Vec<u8>| {
        let values = split(text, b'\n').into_iter().nth(1)?;
        let n = split(&values, b' ').into_iter().nth(2)?;
        String::from_utf8(n).ok()?.parse::<usize>().ok()
    };
    let right = digits(text).unwrap_or(2).min(70);
    let count = match random.below(8) {
        0 => right + 1,
        1 => right.saturating_sub(1),
        2 => random.within(1, 64),
        3 => random.within(170, 600),
        _ => right,
    };
    let most = random.pick(&[3, 5, 17, 251, 300]);
    let mut line: Vec<Vec<u8>> = (0..count)
        .map(|_| random.within(2, most).to_string().into_bytes())
        .collect();
    if random.one_in(3) && count > 0 {
        let place = random.below(count);
        let word = match random.below(4) {
            0 => random.pick(&["0", "1", "255", "256", "258", "65536", "65538", "99999"]),
            1 => random.pick(&WORDS),
            2 => random.pick(&["252", "254", "4097", "65537", "02", "2.", "-2"]),
            _ => "1",
        };
        line[place] = word.as_bytes().to_vec();
    }
    words(text, 2, |words| *words = line);
    if random.one_in(4) {
        words(text, 1, |words| {
            for word in words.iter_mut().skip(2).take(1) {
                *word = count.to_string().into_bytes();
            }
        });
    }
}

/// A piece of the text put in somewhere, or taken out.
pub fn piece(random: &mut Random, text: &mut Vec<u8>) {
    let start = random.below(text.len() + 1);
    let end = (start + random.below(40)).min(text.len());
    if random.one_in(2) {
        let piece = text[start..end].to_vec();
        let place = random.below(text.len() + 1);
        text.splice(place..place, piece);
    } else {
        text.drain(start..end);
    }
}

/// Noise put in somewhere, sometimes more than a line may hold.
pub fn noise(random: &mut Random, text: &mut Vec<u8>) {
    let most = random.pick(&[3, 20, 1_100, 2_100]);
    let count = random.below(most);
    let noise = match random.below(4) {
        0 => random.bytes(count, 256),
        1 => (0..count).map(|_| random.pick(BYTES)).collect(),
        2 => b"0 ".repeat(count / 2),
        _ => vec![random.pick(BYTES); count],
    };
    let place = random.below(text.len() + 1);
    text.splice(place..place, noise);
}
