//! The lines of listings read back: what is malformed, and what is well-formed
//! and no listing. What must be answered is known from the change; library and
//! reference both have to answer it.

mod common;
use celerycrag::raw;
use common::kept::{malformed, Answer, NOT_WRITTEN};
use common::listings::{line_of, with_line, with_number};
use common::plans::Owned;
use common::random::Random;
use common::tally::Tally;
use common::twins::{self, listing};
use std::collections::HashMap;

const XOR: &[u8] = include_bytes!("../../../examples/xor.out");
/// The lines of XOR's listing.
const LINES: usize = 22;

/// What a text answers, with bytes in β before it that are no residues.
fn read(plan: &Owned, text: &[u8], tally: &mut Tally) -> Answer {
    let mut beta = vec![0xEE; plan.columns()];
    twins::read_listing(plan, text, &mut beta, tally)?;
    Ok(beta)
}

/// The same of a text for XOR.
fn read_xor(text: impl AsRef<[u8]>) -> Answer {
    read(&Owned::xor(), text.as_ref(), &mut Tally::default())
}

/// XOR's listing with this in place of a line.
fn replaced(line: usize, by: impl AsRef<[u8]>) -> Vec<u8> {
    with_line(XOR, line, |_| by.as_ref().to_vec())
}

/// The smallest plan, with p = 5, and the listing of β = 2.
fn smallest() -> (Owned, Vec<u8>) {
    let plan = Owned::zeros([5, 2, 1, 0, 0]);
    let text = listing(&plan, &[2]);
    assert_eq!(
        text,
        b"bootstraps steps worst\n0 2 4\nkind to from by\n0 5 0 0\n1 5 0 2\n"
    );
    (plan, text)
}

#[test]
fn xor() {
    assert_eq!(listing(&Owned::xor(), &[0, 1, 1, 0]), XOR);
    assert_eq!(read_xor(XOR), Ok(vec![0, 1, 1, 0]));
}

/// Every byte of XOR's listing changed to every other. Accepted is what is the
/// listing of one of the 81 β, and that is so for two other digits in place of
/// each of β's four: d alone makes the worst norm 2.
#[test]
fn every_byte_of_xor() {
    let plan = Owned::xor();
    let beta_of = |number: usize| [27, 9, 3, 1].map(|place| (number / place % 3) as u8);
    let all: HashMap<Vec<u8>, [u8; 4]> = (0..81)
        .map(|number| (listing(&plan, &beta_of(number)), beta_of(number)))
        .collect();
    assert_eq!(all.len(), 81);
    let mut tally = Tally::default();
    for place in 0..XOR.len() {
        for byte in (0..=255).filter(|&byte| byte != XOR[place]) {
            let mut text = XOR.to_vec();
            text[place] = byte;
            let answer = read(&plan, &text, &mut tally);
            let expected = all.get(&text).map(|beta| beta.to_vec());
            assert_eq!(answer.ok(), expected, "{byte} at {place}");
        }
    }
    assert_eq!(tally.total(), XOR.len() as u64 * 255);
    assert_eq!(tally.count("read_listing", 0), 4 * 2);
}

/// Every byte taken out, doubled, and every one put in that means something.
#[test]
fn a_byte_more_or_less() {
    let mut tally = Tally::default();
    let mut accepted = 0;
    for (plan, text) in [(Owned::xor(), XOR.to_vec()), smallest()] {
        for place in 0..=text.len() {
            for byte in *b"0129 \n\r\t\0x" {
                let mut more = text.clone();
                more.insert(place, byte);
                accepted += usize::from(read(&plan, &more, &mut tally).is_ok());
            }
        }
        for place in 0..text.len() {
            let mut less = text.clone();
            less.remove(place);
            accepted += usize::from(read(&plan, &less, &mut tally).is_ok());
        }
    }
    assert_eq!(accepted, 0);
}

/// Every text that ends early: within a line it is 13 with that line, behind
/// line 1 or 2 it is 13 with the next, and behind a later one 15.
#[test]
fn every_beginning() {
    for length in 0..XOR.len() {
        let text = &XOR[..length];
        let lines = text.iter().filter(|&&byte| byte == b'\n').count();
        let ends = text.last() == Some(&b'\n');
        let expected = match lines {
            3.. if ends => NOT_WRITTEN,
            _ => malformed(lines + 1),
        };
        assert_eq!(read_xor(text), expected, "{length} bytes");
    }
}

/// Every text that is XOR's listing from some line on.
#[test]
fn every_end() {
    let starts = (0..XOR.len()).filter(|&at| XOR[at] == b'\n');
    for start in starts {
        assert_eq!(read_xor(&XOR[start + 1..]), malformed(1));
    }
    assert_eq!(read_xor(&XOR[1..]), malformed(1));
}

#[test]
fn names() {
    for (line, names) in [(1, "bootstraps steps worst"), (3, "kind to from by")] {
        let capital = names.to_uppercase();
        let wide = names.replacen(' ', "  ", 1);
        let tab = names.replacen(' ', "\t", 1);
        let underlined = names.replacen(' ', "_", 1);
        let short = &names[..names.len() - 1];
        let others = "| |0|0 0 0 0|1 1 1|entry value|refusal line|bootstraps steps|kind to from";
        let changed = [&capital, &wide, &tab, &underlined, short, &names[1..]];
        for other in others.split('|').chain(changed) {
            assert_eq!(read_xor(replaced(line, other)), malformed(line), "{other}");
        }
        for stray in ["", " ", "\r", "\t", "\0", "0", "\u{feff}", "."] {
            let expected = if stray.is_empty() {
                Ok(vec![0, 1, 1, 0])
            } else {
                malformed(line)
            };
            let before = replaced(line, format!("{stray}{names}"));
            assert_eq!(read_xor(before), expected);
            let behind = replaced(line, format!("{names}{stray}"));
            assert_eq!(read_xor(behind), expected);
        }
    }
    let swapped = with_line(&replaced(1, "kind to from by"), 3, |_| {
        b"bootstraps steps worst".to_vec()
    });
    assert_eq!(read_xor(swapped), malformed(1));
}

/// Ways to write a number of so many digits that are none. A number with a stray
/// byte, a sign, a leading zero, or of too many digits.
fn no_numbers(most: usize) -> Vec<String> {
    let words = "|00|01|000|-0|-1|+0|+1|1.|.1|1e0|0x1|1,|x|O|l|'1'|1\0|\r1|1\r|1\t|\u{661}|\u{b9}|\u{feff}1";
    let mut words: Vec<String> = words.split('|').map(String::from).collect();
    words.push("1".repeat(most + 1));
    words.push("9".repeat(most + 1));
    words.push(format!("1{}", "0".repeat(most)));
    words.push("0".repeat(most));
    words.push("0".repeat(most + 1));
    words.push(format!("{:0>most$}", 1));
    words.push("1".repeat(20));
    words.push("1".repeat(1_000));
    // These wrap around to 0 and 1 in 32 and in 64 bits.
    words.push("4294967296".to_string());
    words.push("18446744073709551617".to_string());
    words
}

/// Each number of each line as no number, then a number more and one fewer.
#[test]
fn malformed_numbers() {
    let mut tally = Tally::default();
    for (plan, text) in [(Owned::xor(), XOR.to_vec()), smallest()] {
        let lines = text.iter().filter(|&&byte| byte == b'\n').count();
        for line in (2..=lines).filter(|&line| line != 3) {
            let most = if line == 2 { 7 } else { 5 };
            let words: Vec<&[u8]> = line_of(&text, line).split(|&byte| byte == b' ').collect();
            let mut bad = vec![vec![]];
            let mut keep = |words: &[&[u8]]| bad.push(words.join(&b' '));
            for place in 0..words.len() {
                for word in no_numbers(most) {
                    let mut words = words.clone();
                    words[place] = word.as_bytes();
                    keep(&words);
                }
                keep(&[&words[..place], &words[place + 1..]].concat());
                keep(&[&words[..place], &[b"0"], &words[place..]].concat());
            }
            keep(&[&words[..], &[b"0"]].concat());
            for bytes in bad {
                let changed = with_line(&text, line, |_| bytes.clone());
                let answer = read(&plan, &changed, &mut tally);
                assert_eq!(answer, malformed(line), "{}", bytes.escape_ascii());
            }
        }
    }
    assert_eq!(tally.count("read_listing", 13), tally.total());
    println!("{} texts", tally.total());
}

/// What may stand at the edges of a line does not.
#[test]
fn strays_on_number_lines() {
    for line in (2..=LINES).filter(|&line| line != 3) {
        for stray in [
            &b" "[..],
            b"\r",
            b"\t",
            b"\0",
            b"\x0b",
            b"\x0c",
            b"\x7f",
            b"\xff",
            b"\xc2\xa0",
            b"#",
        ] {
            let before = with_line(XOR, line, |old| [stray, old].concat());
            assert_eq!(read_xor(before), malformed(line));
            let behind = with_line(XOR, line, |old| [old, stray].concat());
            assert_eq!(read_xor(behind), malformed(line));
            let between = with_line(XOR, line, |old| {
                let words: Vec<&[u8]> = old.splitn(2, |&byte| byte == b' ').collect();
                words.join(stray)
            });
            let expected = if stray == b" " {
                Ok(vec![0, 1, 1, 0])
            } else {
                malformed(line)
            };
            assert_eq!(read_xor(between), expected);
        }
    }
}

/// Figures that are well-formed, of which only the right ones are taken.
#[test]
fn figures() {
    let (plan, text) = smallest();
    let mut tally = Tally::default();
    let mut with = |figures: [u64; 3]| {
        let words = figures.map(|figure| figure.to_string());
        let text = with_line(&text, 2, |_| words.join(" ").into_bytes());
        read(&plan, &text, &mut tally)
    };
    for bootstraps in 0..3 {
        for steps in 0..5 {
            for worst in 0..30 {
                let right = [bootstraps, steps, worst] == [0, 2, 4];
                let expected = if right { Ok(vec![2]) } else { NOT_WRITTEN };
                assert_eq!(with([bootstraps, steps, worst]), expected);
            }
        }
    }
    for more in [
        10, 100, 255, 256, 65_535, 65_536, 131_072, 999_999, 1_000_000, 9_999_900,
    ] {
        for place in 0..3 {
            let mut figures = [0, 2, 4];
            figures[place] += more;
            assert_eq!(with(figures), NOT_WRITTEN);
        }
        let more = more / 100;
        assert_eq!(with([more + 1, more + 2, more + 4]), NOT_WRITTEN);
    }
    assert_eq!(with([9_999_999; 3]), NOT_WRITTEN);
    assert_eq!(with([10_000_000, 2, 4]), malformed(2));
    assert_eq!(with([0, 10_000_000, 4]), malformed(2));
    assert_eq!(with([0, 2, 10_000_000]), malformed(2));
}

/// The worst norm goes by the short side: p - 1 counts as -1.
#[test]
fn worst_by_the_short_side() {
    let (plan, text) = smallest();
    let mut tally = Tally::default();
    for (coefficient, short, long) in [(1, 1, 1), (2, 4, 4), (3, 4, 9), (4, 1, 16)] {
        for worst in [short, long] {
            let text = with_line(&text, 2, |_| format!("0 2 {worst}").into_bytes());
            let text = with_line(&text, 5, |_| format!("1 5 0 {coefficient}").into_bytes());
            let expected = if worst == short {
                Ok(vec![coefficient])
            } else {
                NOT_WRITTEN
            };
            assert_eq!(read(&plan, &text, &mut tally), expected);
        }
    }
    // Seven digits that are right, and those beside them.
    let plan = Owned::zeros([251, 2, 1, 63, 15]);
    let text = listing(&plan, &[126; 1_024]);
    assert!(text.starts_with(b"bootstraps steps worst\n93 4307 1000000\n"));
    assert_eq!(read(&plan, &text, &mut tally), Ok(vec![126; 1_024]));
    for (figures, expected) in [
        ("93 4307 999999", NOT_WRITTEN),
        ("93 4307 1000001", NOT_WRITTEN),
        ("93 4307 4064256", NOT_WRITTEN),
        ("93 4307 10000000", malformed(2)),
        ("93 4307 01000000", malformed(2)),
    ] {
        let text = with_line(&text, 2, |_| figures.as_bytes().to_vec());
        assert_eq!(read(&plan, &text, &mut tally), expected);
    }
}

/// A step may have five digits, so 65,536 and more is well-formed, and no number
/// of a step, though it would be the right one in 16 bits.
#[test]
fn numbers_above_16_bits() {
    let mut tally = Tally::default();
    for (plan, text) in [(Owned::xor(), XOR.to_vec()), smallest()] {
        let lines = text.iter().filter(|&&byte| byte == b'\n').count();
        for line in 4..=lines {
            for place in 0..4 {
                for more in [256, 65_536, 90_000] {
                    let changed = with_number(&text, line, place, |number| number + more);
                    assert_eq!(read(&plan, &changed, &mut tally), NOT_WRITTEN);
                }
            }
        }
    }
}

#[test]
fn lines_more_and_fewer() {
    let lines: Vec<&[u8]> = XOR.split_inclusive(|&byte| byte == b'\n').collect();
    assert_eq!(lines.len(), LINES);
    for place in 0..LINES {
        let fewer = [&lines[..place], &lines[place + 1..]].concat().concat();
        let expected = match place {
            0 => malformed(1),
            1 => malformed(2),
            2 => malformed(3),
            _ => NOT_WRITTEN,
        };
        assert_eq!(read_xor(fewer), expected, "without line {}", place + 1);

        let twice = [&lines[..=place], &lines[place..]].concat().concat();
        let expected = match place {
            0..=2 => malformed(place + 2),
            _ => NOT_WRITTEN,
        };
        assert_eq!(read_xor(twice), expected, "line {} twice", place + 1);

        let empty = [&lines[..place], &[b"\n"], &lines[place..]]
            .concat()
            .concat();
        assert_eq!(read_xor(empty), malformed(place + 1));

        for other in 0..place {
            let mut swapped = lines.clone();
            swapped.swap(other, place);
            let expected = match (other, place) {
                (0..=2, _) => malformed(other + 1),
                _ if lines[other] == lines[place] => Ok(vec![0, 1, 1, 0]),
                _ => NOT_WRITTEN,
            };
            assert_eq!(read_xor(swapped.concat()), expected, "{other} and {place}");
        }
    }
}

#[test]
fn behind_the_end() {
    for (more, expected) in [
        ("\n", malformed(23)),
        ("0", malformed(23)),
        (" ", malformed(23)),
        ("\0", malformed(23)),
        ("1 6 1 0", malformed(23)),
        ("1 6 1 0\n", NOT_WRITTEN),
        ("0 0 0 0\n", NOT_WRITTEN),
        ("1 6 1 0\n\n", malformed(24)),
        ("1 6 1 0\n1", malformed(24)),
        ("kind to from by\n", malformed(23)),
    ] {
        let text = [XOR, more.as_bytes()].concat();
        assert_eq!(read_xor(text), expected, "{more:?}");
    }
    assert_eq!(read_xor([XOR, XOR].concat()), malformed(23));
    assert_eq!(read_xor(&XOR[..XOR.len() - 1]), malformed(22));
    let text = String::from_utf8(XOR.to_vec()).expect("a text");
    for (end, line) in [
        ("\r\n", 1),
        ("\r", 1),
        (" \n", 1),
        ("\n\n", 2),
        ("", 1),
        ("\0\n", 1),
    ] {
        assert_eq!(
            read_xor(text.replace('\n', end)),
            malformed(line),
            "{end:?}"
        );
    }
}

/// 13 is asked of every line before 15, and the first line is told.
#[test]
fn malformed_before_not_written() {
    for wrong in [
        replaced(2, "3 19 2"),
        replaced(2, "2 19 3"),
        replaced(4, "0 65536 0 0"),
        replaced(4, "9 6 0 0"),
        replaced(22, "1 6 1 3"),
    ] {
        assert_eq!(read_xor(&wrong), NOT_WRITTEN);
        for line in 5..LINES {
            let text = with_line(&wrong, line, |old| [old, b" "].concat());
            assert_eq!(read_xor(&text), malformed(line));
            for later in line + 1..=LINES {
                let text = with_line(&text, later, |_| b"x".to_vec());
                assert_eq!(read_xor(text), malformed(line));
            }
        }
        assert_eq!(read_xor([&wrong[..], b"0 0 0"].concat()), malformed(23));
    }
}

/// A line has at most 1,024 bytes with its LF. Nothing well-formed is near that,
/// so a line about as long is malformed either way; and it is one line, whatever
/// its parts look like.
#[test]
fn long_lines() {
    let mut tally = Tally::default();
    let plan = Owned::xor();
    for line in 1..=LINES {
        for length in [
            63, 64, 65, 255, 256, 1_022, 1_023, 1_024, 1_025, 2_047, 2_048, 65_535, 65_536,
        ] {
            for filler in ["0", "1", " ", "0 ", "0 6 0 0 ", "x"] {
                let old = line_of(XOR, line);
                let more = filler.repeat(length / filler.len() + 1).into_bytes();
                let rest = &more[..length - old.len()];
                for long in [
                    more[..length].to_vec(),
                    [rest, old].concat(),
                    [old, rest].concat(),
                ] {
                    let text = replaced(line, long);
                    assert_eq!(read(&plan, &text, &mut tally), malformed(line));
                }
            }
        }
    }
}

/// A text of many lines, which are all judged.
#[test]
fn many_lines() {
    let (plan, text) = smallest();
    let mut tally = Tally::default();
    let head = text.iter().rposition(|&byte| byte == b'k').expect("line 3");
    let steps = b"1 5 0 2\n".repeat(100_000);
    let text = [&text[..head], b"kind to from by\n", &steps].concat();
    assert_eq!(read(&plan, &text, &mut tally), NOT_WRITTEN);
    for line in [4, 65_535, 65_536, 65_537, 100_003] {
        let text = with_line(&text, line, |_| b"1 5 0".to_vec());
        assert_eq!(read(&plan, &text, &mut tally), malformed(line));
    }
    assert_eq!(
        read(&plan, &text[..text.len() - 1], &mut tally),
        malformed(100_003)
    );
}

/// β of another length is 4, before the text is looked at, and keeps its bytes;
/// the line stays as it was.
#[test]
fn beta_of_another_length() {
    let mut tally = Tally::default();
    let plan = Owned::xor();
    for text in [XOR, b"", b"x", &replaced(2, "2 19 3")] {
        for length in [0, 3, 5, 8, 1_024] {
            let mut beta = vec![0xEE; length];
            let answer = twins::read_listing(&plan, text, &mut beta, &mut tally);
            assert_eq!(answer, Err((4, None)), "{length} bytes");
            assert_eq!(beta, vec![0xEE; length]);
        }
    }
}

/// Whatever is in β before, and in the line: an accepted call writes all of β
/// and not the line, a refused one not β.
#[test]
fn what_was_there_before() {
    let plan = Owned::xor();
    let mut random = Random::new(15, 3);
    for _ in 0..300 {
        let (old, at) = (random.bytes(4, 256), random.next() as usize);
        let texts = [
            (XOR, 0, at),
            (b"x", 13, 1),
            (&XOR[..197], 13, 22),
            (&XOR[..190], 15, 1),
        ];
        for (text, answer, told) in texts {
            let (mut beta, mut line) = (old.clone(), at);
            assert_eq!(
                raw::read_listing(plan.lent(), text, &mut beta, &mut line),
                answer
            );
            assert_eq!(line, told);
            assert_eq!(
                beta,
                if answer == 0 {
                    vec![0, 1, 1, 0]
                } else {
                    old.clone()
                }
            );
        }
    }
}
