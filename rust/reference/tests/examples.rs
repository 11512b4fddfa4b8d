//! The plan texts of examples/: each files its whole table, prints the listing
//! kept beside it, and that listing, run on every input, gives the table.
//!
//! The tables come from their own definitions here, not from the texts. The
//! texts of examples/refusals print what is kept beside them, too, and what the
//! table there says.

mod common;
use common::Owned;
use reference::{filing_program, Ran};

const DIRECTORY: &str = concat!(env!("CARGO_MANIFEST_DIR"), "/../../examples");

/// PRESENT's S-box, its values from entry 0 on.
const PRESENT: u64 = 0xC56B_90AD_3EF8_4712;

/// S1 of FIPS 46-3, by row and column.
const S1: [[u64; 16]; 4] = [
    [14, 4, 13, 1, 2, 15, 11, 8, 3, 10, 6, 12, 5, 9, 0, 7],
    [0, 15, 7, 4, 14, 2, 13, 1, 10, 6, 12, 11, 9, 5, 3, 8],
    [4, 1, 14, 8, 13, 6, 2, 11, 15, 12, 9, 7, 3, 10, 5, 0],
    [15, 12, 8, 2, 4, 9, 1, 7, 5, 11, 3, 14, 10, 0, 6, 13],
];

fn present(entry: u64) -> u64 {
    PRESENT >> (4 * (15 - entry)) & 15
}

/// ASCON's S-box by its bit-sliced definition; x_0 is the most significant.
fn ascon(entry: u64) -> u64 {
    let mut x: Vec<u64> = (0..5).map(|j| entry >> (4 - j) & 1).collect();
    x[0] ^= x[4];
    x[4] ^= x[3];
    x[2] ^= x[1];
    let t: Vec<u64> = (0..5).map(|j| (x[j] ^ 1) & x[(j + 1) % 5]).collect();
    for j in 0..5 {
        x[j] ^= t[(j + 1) % 5];
    }
    x[1] ^= x[0];
    x[0] ^= x[4];
    x[3] ^= x[2];
    x[2] ^= 1;
    x.iter().fold(0, |value, bit| 2 * value + bit)
}

/// The outer two of the six bits choose the row, the inner four the column.
fn des_s1(entry: u64) -> u64 {
    let row = 2 * (entry >> 5) + (entry & 1);
    S1[row as usize][(entry >> 1 & 15) as usize]
}

/// The product of two bytes in the field of AES, modulo x^8 + x^4 + x^3 + x + 1.
fn times(one: u64, other: u64) -> u64 {
    let shifted = (0..8).filter(|k| other >> k & 1 == 1).map(|k| one << k);
    let product = shifted.fold(0, |sum, term| sum ^ term);
    let reduce = |product: u64, k: u64| match product >> k & 1 {
        1 => product ^ 0x11b << (k - 8),
        _ => product,
    };
    (8..15).rev().fold(product, reduce)
}

/// The S-box of AES, by FIPS 197: the inverse of a byte, 0 for 0, and then each
/// of its bits with the four before it, and 0x63.
fn aes(entry: u64) -> u64 {
    let inverse = (0..256).find(|&other| times(entry, other) == 1);
    let inverse = inverse.unwrap_or(0) as u8;
    let turned = |k| inverse.rotate_left(k);
    (0..5).map(turned).fold(0x63, |sum, term| sum ^ term).into()
}

#[test]
fn the_s_boxes_are_permutations() {
    let sorted = |mut values: Vec<u64>| {
        values.sort();
        values
    };
    assert_eq!(
        sorted((0..16).map(present).collect()),
        Vec::from_iter(0..16)
    );
    assert_eq!(sorted((0..32).map(ascon).collect()), Vec::from_iter(0..32));
    for row in S1 {
        assert_eq!(sorted(row.to_vec()), Vec::from_iter(0..16));
    }
    assert_eq!(sorted((0..256).map(aes).collect()), Vec::from_iter(0..256));
    assert_eq!(
        [0, 1, 2, 3, 0x53, 0xff].map(aes),
        [0x63, 0x7c, 0x77, 0x7b, 0xed, 0x16]
    );
    assert_eq!(
        (0..5).map(ascon).collect::<Vec<_>>(),
        [0x04, 0x0b, 0x1f, 0x14, 0x1a]
    );
}

/// A line of a text that is known to be good.
fn numbers(line: &str) -> Vec<u64> {
    line.split(' ').map(|word| word.parse().unwrap()).collect()
}

/// Checks one example with n radices of s: its shape p s n m t, and its table.
fn example(name: &str, shape: [u64; 5], table: impl Fn(u64) -> u64) {
    mixed_example(name, shape, &vec![shape[1]; shape[2] as usize], table);
}

/// Checks one example: its shape p s n m t, its radices, and its table.
fn mixed_example(name: &str, shape: [u64; 5], radices: &[u64], table: impl Fn(u64) -> u64) {
    let read =
        |ending: &str| std::fs::read_to_string(format!("{DIRECTORY}/{name}.{ending}")).unwrap();
    let (text, out) = (read("txt"), read("out"));
    assert_eq!(filing_program(text.as_bytes()), out.as_bytes(), "{name}");

    let mut lines = text.lines().skip(1);
    let [p, s, n, m, t] = shape;
    assert_eq!(numbers(lines.next().unwrap()), shape, "{name}");
    assert_eq!(numbers(lines.next().unwrap()), radices, "{name}");
    let bytes = |part: &[u64]| part.iter().map(|&x| x as u8).collect::<Vec<u8>>();
    let mut plan = Owned::mixed(p, s, &bytes(radices), m, t);
    assert_eq!(plan.n, n);
    let (mut weights, mut tables, mut d) = (vec![], vec![], vec![]);
    for _ in 0..m {
        weights.extend(numbers(lines.next().unwrap()));
        tables.extend(numbers(lines.next().unwrap()));
    }
    for _ in 0..t {
        d.extend(numbers(lines.next().unwrap()));
    }
    (plan.weights, plan.tables, plan.d) = (bytes(&weights), bytes(&tables), bytes(&d));
    assert_eq!(plan.check(), 0, "{name}");
    assert!(plan.columns() <= 360, "{name}");

    assert_eq!(lines.next(), Some("entry value"));
    for entry in 0..plan.entries() {
        assert_eq!(
            numbers(lines.next().unwrap()),
            [entry, table(entry)],
            "{name}"
        );
    }
    assert_eq!(lines.next(), None);

    let listed: Vec<u16> = out
        .lines()
        .skip(3)
        .flat_map(numbers)
        .map(|x| x as u16)
        .collect();
    let figures = numbers(out.lines().nth(1).unwrap());
    assert_eq!(figures[0], m + 2 * t);
    assert_eq!(figures[1], listed.len() as u64 / 4);
    for entry in 0..plan.entries() {
        let answer = Ran {
            y: table(entry) as u8,
            bootstraps: m + 2 * t,
        };
        assert_eq!(
            plan.run(&listed, &plan.digits(entry)),
            Ok(answer),
            "{name} at {entry}"
        );
    }
}

#[test]
fn xor() {
    example("xor", [3, 2, 2, 0, 1], |entry| entry >> 1 ^ entry & 1);
}

#[test]
fn present_by_bit() {
    let shapes = [
        [3, 2, 4, 3, 0],
        [3, 2, 4, 3, 0],
        [3, 2, 4, 1, 1],
        [3, 2, 4, 3, 0],
    ];
    for (bit, shape) in shapes.into_iter().enumerate() {
        example(&format!("present-bit{bit}"), shape, |entry| {
            present(entry) >> bit & 1
        });
    }
}

#[test]
fn ascon_by_bit() {
    for (bit, links) in [2, 2, 1, 1, 2].into_iter().enumerate() {
        let table = |entry| ascon(entry) >> bit & 1;
        example(&format!("ascon-bit{bit}"), [7, 2, 5, links, 0], table);
    }
}

#[test]
fn des_s1_first_bit() {
    example("des-s1-bit3", [17, 2, 6, 2, 0], |entry| des_s1(entry) >> 3);
    example("des-s1-bit3-p3", [3, 2, 6, 6, 4], |entry| {
        des_s1(entry) >> 3
    });
}

/// Both output digits of AES in radix 16, under one plan of 288 columns.
#[test]
fn aes_by_digit() {
    let shape = [17, 16, 2, 30, 8];
    example("aes-high", shape, |entry| aes(entry) / 16);
    example("aes-low", shape, |entry| aes(entry) % 16);
}

#[test]
fn addition_of_two_digits() {
    let sum = |entry| entry / 16 + entry % 16;
    example("add4-sum", [31, 16, 2, 1, 0], |entry| sum(entry) % 16);
    example("add4-carry", [31, 16, 2, 1, 0], |entry| sum(entry) / 16);
}

/// The days of a month from 0 to 11 of the Gregorian calendar.
fn days(month: u64, leap: bool) -> u64 {
    match month + 1 {
        4 | 6 | 9 | 11 => 30,
        2 if leap => 29,
        2 => 28,
        _ => 31,
    }
}

#[test]
fn days_of_a_month() {
    let year = |leap| (0..12).map(|month| days(month, leap)).sum::<u64>();
    assert_eq!([year(false), year(true)], [365, 366]);
    let table = |entry: u64| days(entry / 2, entry % 2 == 1) - 28;
    mixed_example("month-days", [13, 4, 2, 2, 0], &[12, 2], table);
}

#[test]
fn refusals_print_what_is_kept_and_what_their_table_says() {
    let directory = format!("{DIRECTORY}/refusals");
    let read = |file: &str| std::fs::read(format!("{directory}/{file}")).unwrap();
    let readme = String::from_utf8(read("README.md")).unwrap();
    let mut texts = 0;
    for entry in std::fs::read_dir(&directory).unwrap() {
        let file = entry.unwrap().file_name().into_string().unwrap();
        let Some(name) = file.strip_suffix(".txt") else {
            continue;
        };
        let out = filing_program(&read(&file));
        assert_eq!(out, read(&format!("{name}.out")), "{name}");

        let row = format!("| {name} | ");
        let row = readme.lines().find(|line| line.starts_with(&row));
        let said = row.and_then(|row| row.split(" | ").nth(2)).unwrap();
        let out = String::from_utf8(out).unwrap();
        match said.trim_end_matches(" |") {
            "listing" => assert!(out.starts_with("bootstraps"), "{name}"),
            refusal => assert_eq!(out, format!("refusal line\n{refusal}\n"), "{name}"),
        }
        texts += 1;
    }
    let rows = readme.lines().filter(|line| line.starts_with("| "));
    assert_eq!(texts, rows.count() - 1);
}
