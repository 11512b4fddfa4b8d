//! Document 02, C-15, "Reading a listing back": the lines of a listing, what is
//! malformed there, and what is well-formed and no listing. Whole programs are in
//! tests/readback.rs.

mod common;
use common::{every_beta, with_line, Owned};
use std::collections::HashMap;

const XOR: &str = include_str!("../../../examples/xor.out");
/// The listing of the smallest plan, n = 1 and nothing more, with p = 5.
const SMALLEST: &str = "bootstraps steps worst\n0 2 4\nkind to from by\n0 5 0 0\n1 5 0 2\n";

fn smallest() -> Owned {
    Owned::zeros(5, 2, 1, 0, 0)
}

/// Of XOR's listing only the four digits of β can be others; d alone makes the
/// worst norm 2, whatever β is.
#[test]
fn every_byte_of_xor() {
    let x = Owned::xor();
    let all: HashMap<String, Vec<u8>> = every_beta(&x)
        .into_iter()
        .map(|beta| (x.listing(&beta), beta))
        .collect();
    let mut accepted = 0;
    for place in 0..XOR.len() {
        for byte in 0..=255 {
            let mut changed = XOR.as_bytes().to_vec();
            if changed[place] == byte {
                continue;
            }
            changed[place] = byte;
            let answer = x.read_listing(&changed);
            let text = String::from_utf8(changed).ok();
            match text.and_then(|text| all.get(&text)) {
                Some(beta) => assert_eq!(answer.as_ref(), Ok(beta)),
                None => assert!(answer.is_err(), "{byte} at {place}"),
            }
            accepted += usize::from(answer.is_ok());
        }
    }
    assert_eq!(accepted, 4 * 2);
}

/// Every text that ends early: within a line it is 13 with that line, behind
/// line 1 or 2 it is 13 with the next, and behind a later one 15.
#[test]
fn every_beginning_of_a_listing() {
    let x = Owned::xor();
    for length in 0..XOR.len() {
        let text = &XOR[..length];
        let lines = text.matches('\n').count() as u64;
        let expected = match lines {
            _ if !text.is_empty() && !text.ends_with('\n') => (13, lines + 1),
            0..=2 => (13, lines + 1),
            _ => (15, 1),
        };
        assert_eq!(x.read_listing(text), Err(expected), "{length} bytes");
    }
}

#[test]
fn figures() {
    assert_eq!(smallest().read_listing(SMALLEST), Ok(vec![2]));
    let with = |figures: &str| {
        let text = with_line(SMALLEST, 2, |_| figures.to_string());
        smallest().read_listing(text)
    };
    assert_eq!(with("0 2 4"), Ok(vec![2]));
    // Well-formed and wrong, by one and by more, by the long side too.
    let all = "1 2 4|0 1 4|0 3 4|0 2 3|0 2 5|0 2 0|2 0 4|4 2 0|10 2 4|0 20 4|0 2 1000000|\
        9999999 9999999 9999999|0 2 65540|65536 2 4|0 65538 4";
    for figures in all.split('|') {
        assert_eq!(with(figures), Err((15, 1)), "{figures}");
    }
    let all = "| |0|0 2|0 2 4 0|0 2 4 | 0 2 4|0  2 4|0 2  4|00 2 4|0 02 4|0 2 04|\
        0 2 0000004|0 2 10000000|00000000 2 4|12345678 2 4|0 12345678 4|0 2 -4|\
        0 2 +4|0 2 4.|0 2 4\r|0\t2 4|0 2\t4|0 2 4\0|a 2 4|0,2,4";
    for figures in all.split('|') {
        assert_eq!(with(figures), Err((13, 2)), "{figures}");
    }
    // By the short side: 3 modulo 5 counts as -2.
    let three = with_line(SMALLEST, 5, |_| "1 5 0 3".to_string());
    assert_eq!(smallest().read_listing(&three), Ok(vec![3]));
    let by_long_side = with_line(&three, 2, |_| "0 2 9".to_string());
    assert_eq!(smallest().read_listing(by_long_side), Err((15, 1)));
    // Seven digits that are right.
    let large = Owned::zeros(251, 2, 1, 63, 15);
    let beta = vec![125; large.columns()];
    let listing = large.listing(&beta);
    assert_eq!(listing.lines().nth(1), Some("93 4307 1000000"));
    assert_eq!(large.read_listing(&listing), Ok(beta));
    for worst in ["999999", "1000001", "10000000"] {
        let changed = with_line(&listing, 2, |_| format!("93 4307 {worst}"));
        let expected = if worst.len() > 7 { (13, 2) } else { (15, 1) };
        assert_eq!(large.read_listing(changed), Err(expected));
    }
}

#[test]
fn names_lines() {
    let x = Owned::xor();
    for line in [1, 3] {
        let changes: [fn(&str) -> String; 12] = [
            |_| String::new(),
            |old| old.to_uppercase(),
            |old| format!("{old} "),
            |old| format!(" {old}"),
            |old| format!("{old}\r"),
            |old| format!("\u{feff}{old}"),
            |old| old.replacen(' ', "  ", 1),
            |old| old.replacen(' ', "\t", 1),
            |old| old[..old.len() - 1].to_string(),
            |old| old[1..].to_string(),
            |_| "0 0 0 0".to_string(),
            |_| "entry value".to_string(),
        ];
        for change in changes {
            assert_eq!(
                x.read_listing(with_line(XOR, line, change)),
                Err((13, line as u64))
            );
        }
    }
    // The two in each other's place.
    let swapped = with_line(XOR, 1, |_| "kind to from by".to_string());
    let swapped = with_line(&swapped, 3, |_| "bootstraps steps worst".to_string());
    assert_eq!(x.read_listing(swapped), Err((13, 1)));
}

#[test]
fn step_lines() {
    let x = Owned::xor();
    for line in 4..=22 {
        let with = |given: &str| x.read_listing(with_line(XOR, line, |_| given.to_string()));
        let all = "| |0|0 6 0|0 6 0 0 0|0 6 0 0 | 0 6 0 0|0  6 0 0|0 6 0 0\r|0\t6 0 0|\
            00 6 0 0|0 06 0 0|0 6 0 100000|0 6 0 000000|0 6 0 1234567|0 6 0 -0|\
            0 6 0 +1|0 6 0 x|0 6 0 0\0|kind to from by|0 6 0 \u{b2}";
        for malformed in all.split('|') {
            assert_eq!(with(malformed), Err((13, line as u64)), "{malformed:?}");
        }
        for wrong in [
            "0 65536 0 0",
            "65536 6 0 0",
            "0 6 0 65536",
            "99999 99999 99999 99999",
        ] {
            assert_eq!(with(wrong), Err((15, 1)), "{wrong}");
        }
    }
    // 65,536 more is another number, though not in 16 bits.
    let wrapped = with_line(XOR, 22, |_| "1 6 1 65536".to_string());
    assert_eq!(x.read_listing(wrapped), Err((15, 1)));
}

#[test]
fn lines_more_and_fewer() {
    let x = Owned::xor();
    let lines: Vec<&str> = XOR.split_inclusive('\n').collect();
    for place in 3..lines.len() {
        let fewer = [&lines[..place], &lines[place + 1..]].concat().concat();
        assert_eq!(x.read_listing(fewer), Err((15, 1)));
        let twice = [&lines[..place], &lines[place..=place], &lines[place..]].concat();
        assert_eq!(x.read_listing(twice.concat()), Err((15, 1)));
    }
    for more in ["0 6 0 0\n", "1 6 1 0\n", "9 9 9 9\n"] {
        assert_eq!(x.read_listing(format!("{XOR}{more}")), Err((15, 1)));
    }
    for (more, line) in [
        ("\n", 23),
        ("0", 23),
        ("0 6 0 0", 23),
        (" \n", 23),
        ("1 6 1 0\n\n", 24),
    ] {
        assert_eq!(x.read_listing(format!("{XOR}{more}")), Err((13, line)));
    }
    // No step at all is no line missing.
    assert_eq!(x.read_listing(lines[..3].concat()), Err((15, 1)));
    assert_eq!(x.read_listing(XOR.replace('\n', "\r\n")), Err((13, 1)));
    assert_eq!(x.read_listing(XOR.replace('\n', "\r")), Err((13, 1)));
    assert_eq!(x.read_listing(XOR.trim_end()), Err((13, 22)));
}

/// 13 is asked of all lines before 15 of any.
#[test]
fn malformed_before_not_written() {
    let x = Owned::xor();
    let wrong = with_line(XOR, 2, |_| "3 19 2".to_string());
    assert_eq!(x.read_listing(&wrong), Err((15, 1)));
    assert_eq!(x.read_listing(format!("{wrong}0 0 0\n")), Err((13, 23)));
    let wrong = with_line(XOR, 4, |_| "0 65536 0 0".to_string());
    let both = with_line(&wrong, 22, |_| "1 6 1 00".to_string());
    assert_eq!(x.read_listing(both), Err((13, 22)));
    // The first of several.
    let both = with_line(XOR, 9, |_| "x".to_string());
    let both = with_line(&both, 7, |_| "1 2 1 1 ".to_string());
    assert_eq!(x.read_listing(both), Err((13, 7)));
}

/// Nothing well-formed is that long: a line of 1,024 bytes is malformed as one
/// of 1,025 is, and the rest of it is no line of its own.
#[test]
fn long_lines() {
    let x = Owned::xor();
    for line in [1, 2, 3, 4, 13, 22] {
        for length in [1_022, 1_023, 1_024, 2_048, 100_000] {
            for long in [
                "0".repeat(length),
                "0 ".repeat(length / 2),
                " ".repeat(length),
            ] {
                let text = with_line(XOR, line, |_| long.clone());
                assert_eq!(x.read_listing(text), Err((13, line as u64)));
                let text = with_line(XOR, line, |old| format!("{long}{old}"));
                assert_eq!(x.read_listing(text), Err((13, line as u64)));
            }
        }
    }
}

#[test]
fn many_lines() {
    let x = Owned::xor();
    let mut text = XOR.to_string() + &"0 6 0 0\n".repeat(100_000);
    assert_eq!(x.read_listing(&text), Err((15, 1)));
    text += "0 6 0\n";
    assert_eq!(x.read_listing(&text), Err((13, 100_023)));
    assert_eq!(x.read_steps(&[0; 400_000]), Err(15));
}
