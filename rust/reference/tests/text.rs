//! Document 01, "The filing program", with the radices line of document 02, C-11,
//! and the open readings of both, each by a small text. The number of the reading
//! stands in front of each test.

use reference::filing_program;

/// 01's own example with its radices, and what it prints.
const XOR: &str = "p s n links products\n3 2 2 0 1\n2 2\n1 1\nentry value\n0 0\n1 1\n2 1\n3 0\n";
const XOR_LISTING: &str = "bootstraps steps worst\n2 19 2\nkind to from by\n0 6 0 0\n0 2 0 0\n\
    1 2 0 0\n1 2 1 1\n0 3 0 0\n1 3 0 1\n1 3 1 1\n0 4 0 0\n1 4 2 1\n1 4 3 1\n0 5 0 0\n1 5 2 1\n\
    1 5 3 2\n2 4 4 0\n2 5 5 1\n1 6 4 1\n1 6 5 1\n1 6 0 1\n1 6 1 0\n";

/// XOR's first lines: line 1; up to the values, the radices, d, `entry value`.
const NAMES: &str = "p s n links products\n";
const VALUES: &str = "p s n links products\n3 2 2 0 1\n";
const RADICES: &str = "p s n links products\n3 2 2 0 1\n2 2\n";
const PLAN: &str = "p s n links products\n3 2 2 0 1\n2 2\n1 1\n";
const HEADER: &str = "p s n links products\n3 2 2 0 1\n2 2\n1 1\nentry value\n";

fn prints(input: impl AsRef<[u8]>) -> String {
    String::from_utf8(filing_program(input.as_ref())).unwrap()
}

/// That the text is refused with this number at this line, and prints nothing
/// else.
#[track_caller]
fn refused(input: impl AsRef<[u8]>, number: u32, line: u64) {
    assert_eq!(prints(input), format!("refusal line\n{number} {line}\n"));
}

/// The text that begins with `before` and goes on with `line` and its LF.
fn then(before: &str, line: &str) -> String {
    format!("{before}{line}\n")
}

#[test]
fn xor_byte_for_byte() {
    assert_eq!(prints(XOR), XOR_LISTING);
}

#[test]
fn reading_1_empty_input() {
    refused("", 13, 1);
}

#[test]
fn reading_2_no_entries() {
    let all_zero = XOR_LISTING
        .replace("1 2 1 1", "1 2 1 0")
        .replace("1 6 0 1", "1 6 0 0");
    assert_eq!(prints(HEADER), all_zero);
}

#[test]
fn reading_3_final_line_without_lf() {
    refused(&XOR[..XOR.len() - 1], 13, 9);
    refused("p s n links products", 13, 1);
    refused(&VALUES[..VALUES.len() - 1], 13, 2);
    refused(&RADICES[..RADICES.len() - 1], 13, 3);
    refused(&PLAN[..PLAN.len() - 1], 13, 4);
    refused(&HEADER[..HEADER.len() - 1], 13, 5);
    // An earlier line is judged first.
    refused(then(HEADER, "0 1") + "3 0", 9, 6);
    refused(then(HEADER, "0 0") + "9 9", 13, 7);
}

#[test]
fn reading_4_text_ends_early() {
    refused(NAMES, 13, 2);
    refused(VALUES, 13, 3);
    refused(RADICES, 13, 4);
    refused(PLAN, 13, 5);
    let links = "p s n links products\n3 2 1 2 1\n2\n";
    refused(links, 13, 4);
    refused(then(links, "1"), 13, 5);
    refused(then(links, "1\n1 0 0"), 13, 6);
    refused(then(links, "1\n1 0 0\n1 2"), 13, 7);
    refused(then(links, "1\n1 0 0\n1 2\n0 1 2"), 13, 8);
    refused(then(links, "1\n1 0 0\n1 2\n0 1 2\n1 1 1"), 13, 9);
}

#[test]
fn reading_5_empty_lines() {
    refused("\n", 13, 1);
    refused(then(NAMES, ""), 13, 2);
    refused(then(VALUES, ""), 13, 3);
    refused(then(RADICES, ""), 13, 4);
    refused(then(PLAN, ""), 13, 5);
    refused(then(HEADER, ""), 13, 6);
    refused(then(XOR, ""), 13, 10);
}

#[test]
fn reading_6_names_byte_for_byte() {
    for names in [
        "p s n links products ",
        " p s n links products",
        "p  s n links products",
        "P s n links products",
        "p s n links product",
        "p s n links productss",
        "p\ts n links products",
        "\u{feff}p s n links products",
    ] {
        refused(XOR.replace("p s n links products", names), 13, 1);
    }
    for names in [
        "entry  value",
        "entry value ",
        " entry value",
        "Entry value",
        "entry",
        "value",
    ] {
        refused(XOR.replace("entry value", names), 13, 5);
    }
}

#[test]
fn reading_7_cr_lf() {
    refused(XOR.replace('\n', "\r\n"), 13, 1);
    refused(XOR.replace("3 2 2 0 1\n", "3 2 2 0 1\r\n"), 13, 2);
    refused(XOR.replace("2 2\n", "2 2\r\n"), 13, 3);
    refused(XOR.replace("3 0\n", "3 0\r\n"), 13, 9);
}

/// A plan of p = 251 with one link, up to the line before its table.
const TABLE_NEXT: &str = "p s n links products\n251 2 1 1 0\n2\n1\n";

/// A table line of 251 numbers that has `bytes` bytes with its LF.
fn table_line(bytes: usize) -> String {
    let mut numbers = vec!["1"; 251];
    let mut missing = bytes - (251 + 251);
    for number in &mut numbers {
        let more = missing.min(4);
        *number = ["1", "11", "111", "1111", "11111"][more];
        missing -= more;
    }
    assert_eq!(missing, 0);
    numbers.join(" ") + "\n"
}

#[test]
fn reading_8_a_line_of_1024_bytes() {
    assert_eq!(table_line(1_024).len(), 1_024);
    refused(TABLE_NEXT.to_owned() + &table_line(1_023), 5, 5);
    refused(TABLE_NEXT.to_owned() + &table_line(1_024), 5, 5);
    refused(TABLE_NEXT.to_owned() + &table_line(1_025), 13, 5);
    // A longest table of residues passes: 251 numbers of three digits.
    let table = vec!["250"; 251].join(" ") + "\nentry value\n";
    assert!(prints(TABLE_NEXT.to_owned() + &table).starts_with("bootstraps steps worst\n1 6 1\n"));
}

#[test]
fn reading_9_an_overlong_line_is_13_whatever_it_begins_with() {
    refused(then(VALUES, &("9 9".to_owned() + &" 9".repeat(600))), 13, 3);
    refused(
        then(RADICES, &("9 9".to_owned() + &" 9".repeat(600))),
        13,
        4,
    );
    refused(
        then(HEADER, &("9 9".to_owned() + &" ".repeat(2_000))),
        13,
        6,
    );
    refused(
        then(
            "",
            &("p s n links products".to_owned() + &" ".repeat(2_000)),
        ),
        13,
        1,
    );
}

#[test]
fn reading_10_the_rest_of_an_overlong_line_is_no_new_line() {
    let x = "x".repeat(1_024);
    refused(x.clone() + XOR, 13, 1);
    refused(then(VALUES, &(x.clone() + "2 2")), 13, 3);
    refused(then(HEADER, &(x.clone() + "0 0")), 13, 6);
    refused(then(HEADER, &("0 0\n".to_owned() + &x + "0 0\n1 1")), 13, 7);
    // Also where the text ends within it.
    refused(HEADER.to_owned() + &x.repeat(100), 13, 6);
}

#[test]
fn reading_11_wide_numbers() {
    for p in ["65539", "65536", "99999", "256", "259", "253"] {
        refused(then(NAMES, &format!("{p} 2 2 0 1")), 1, 2);
    }
    refused(then(NAMES, "3 65538 2 0 1"), 2, 2);
    refused(then(NAMES, "3 258 2 0 1"), 2, 2);
    refused(then(NAMES, "3 2 65538 0 1"), 3, 2);
    refused(then(NAMES, "3 2 2 65536 1"), 3, 2);
    refused(then(NAMES, "3 2 2 256 1"), 3, 2);
    refused(then(NAMES, "3 2 2 0 65537"), 3, 2);
    refused(then(NAMES, "3 2 2 0 257"), 3, 2);
    for radix in ["256", "258", "259", "65536", "65538", "99999"] {
        refused(then(VALUES, &format!("2 {radix}")), 2, 3);
        refused(then(VALUES, &format!("{radix} 2")), 2, 3);
    }
    for weight in ["256", "257", "65536", "65537", "99999"] {
        refused(then(RADICES, &format!("1 {weight}")), 5, 4);
    }
    for entry in ["256", "65536", "65537", "99999", "4"] {
        refused(then(HEADER, &format!("{entry} 0")), 7, 6);
    }
    for value in ["256", "257", "65536", "65537", "99999"] {
        refused(then(HEADER, &format!("1 {value}")), 8, 6);
    }
}

#[test]
fn reading_12_six_digits() {
    for number in [
        "100000",
        "000001",
        "999999",
        "4294967299",
        "18446744073709551619",
    ] {
        refused(then(NAMES, &format!("{number} 2 2 0 1")), 13, 2);
        refused(then(VALUES, &format!("2 {number}")), 13, 3);
        refused(then(RADICES, &format!("1 {number}")), 13, 4);
        refused(then(HEADER, &format!("{number} 0")), 13, 6);
        refused(then(HEADER, &format!("0 {number}")), 13, 6);
    }
}

#[test]
fn reading_13_leading_zeros_and_signs() {
    for number in ["00", "01", "00000", "-0", "+1", "-1", "1.", "0x1", "1e0"] {
        refused(then(VALUES, &format!("2 {number}")), 13, 3);
        refused(then(VALUES, &format!("{number} 2")), 13, 3);
        refused(then(RADICES, &format!("1 {number}")), 13, 4);
        refused(then(RADICES, &format!("{number} 1")), 13, 4);
        refused(then(HEADER, &format!("{number} 0")), 13, 6);
        refused(then(HEADER, &format!("0 {number}")), 13, 6);
    }
    for number in ["02", "002", "00002", "+2", "2.", "0x2", "2e0"] {
        refused(then(VALUES, &format!("2 {number}")), 13, 3);
        refused(then(VALUES, &format!("{number} 2")), 13, 3);
    }
    assert!(prints(then(HEADER, "0 0")).starts_with("bootstraps"));
}

#[test]
fn reading_14_the_order_on_the_values_line() {
    for (values, number) in [
        ("2 1 0 0", 13),
        ("2 1 0 0 0 0", 13),
        ("2 1 0 0 01", 13),
        ("2 1 0 0 99", 1),
        ("0 0 0 0 0", 1),
        ("1 2 2 0 1", 1),
        ("9 1 0 0 99", 1),
        ("3 1 0 0 99", 2),
        ("3 0 2 0 1", 2),
        ("3 4 0 0 99", 2),
        ("3 2 0 0 0", 3),
        ("3 2 0 1 0", 3),
        ("3 2 1 64 0", 3),
        ("3 2 1 0 33", 3),
        ("3 2 2 62 16", 3),
        ("3 2 2 62 15", 14),
        // 02, C-16: C = 361 is the first above the limit that a plan can have,
        // then 363.
        ("3 2 1 18 18", 14),
        ("3 2 11 0 32", 14),
        ("3 2 2 62 5", 14),
        // The values line does not ask what s^n is.
        ("3 2 13 51 5", 14),
        // C = 360 in three ways, 352, 256 and 255 pass, and line 3 is then
        // missing.
        ("3 2 2 18 17", 0),
        ("3 2 12 0 29", 0),
        ("3 2 2 58 5", 0),
        ("3 2 11 0 31", 0),
        ("3 2 2 62 3", 0),
        ("3 2 1 7 31", 0),
        ("3 2 2 49 4", 0),
        ("3 2 12 0 0", 0),
        ("3 2 13 0 0", 0),
        ("3 2 64 0 0", 0),
        ("3 3 7 0 0", 0),
        ("3 3 8 0 0", 0),
        ("3 3 2 0 1", 0),
    ] {
        match number {
            0 => refused(then(NAMES, values), 13, 3),
            _ => refused(then(NAMES, values), number, 2),
        }
    }
}

#[test]
fn reading_15_no_overflow() {
    refused(then(NAMES, "3 2 99999 0 0"), 3, 2);
    refused(then(NAMES, "3 2 1 99999 99999"), 3, 2);
    refused(then(NAMES, "3 2 99999 99999 99999"), 3, 2);
    refused(then(NAMES, "3 2 1 65535 65535"), 3, 2);
}

#[test]
fn reading_16_cause_14_stands_on_the_values_line() {
    refused(then(NAMES, "3 2 2 17 18\nnonsense"), 14, 2);
    refused(then(NAMES, "3 2 2 17 18"), 14, 2);
    refused(then(NAMES, "3 2 2 17 18\n9 9"), 14, 2);
    refused(then(NAMES, "3 2 2 17 18\n1 1"), 14, 2);
    // One product fewer: C = 342, and line 3 is looked at.
    refused(then(NAMES, "3 2 2 17 17\nnonsense"), 13, 3);
    refused(then(NAMES, "3 2 2 17 17\n9 9"), 2, 3);
}

#[test]
fn reading_17_cause_5_stands_on_its_own_line() {
    // Then missing, malformed, or also refused.
    for after in ["", "nonsense\n", "entry value\n9 9\n"] {
        refused(then(RADICES, "1 3") + after, 5, 4);
    }
    let links = "p s n links products\n3 2 1 1 1\n2\n";
    refused(then(links, "3"), 5, 4);
    refused(then(links, "1\n0 3 0"), 5, 5);
    refused(then(links, "1\n0 1 2\n2 3"), 5, 6);
    // A malformed line before it wins.
    refused(then(links, "01\n0 3 0"), 13, 4);
}

#[test]
fn reading_18_a_wrong_count_beats_cause_5() {
    refused(then(RADICES, "3 3 3"), 13, 4);
    refused(then(RADICES, "3"), 13, 4);
}

#[test]
fn reading_19_a_wrong_count_is_13() {
    let links = "p s n links products\n3 2 1 1 1\n2\n";
    refused(then(links, "1 1"), 13, 4);
    refused(then(links, "1\n1 1"), 13, 5);
    refused(then(links, "1\n1 1 1 1"), 13, 5);
    refused(then(links, "1\n1 1 1\n1"), 13, 6);
    refused(then(links, "1\n1 1 1\n1 1 1"), 13, 6);
    refused(then(HEADER, "0"), 13, 6);
    refused(then(HEADER, "0 0 0"), 13, 6);
    for (before, digit, line) in [(VALUES, "2", 3), (RADICES, "1", 4)] {
        refused(then(before, digit), 13, line);
        refused(then(before, &format!("{digit} {digit} {digit}")), 13, line);
        refused(then(before, &format!("{digit} {digit} ")), 13, line);
        refused(then(before, &format!(" {digit} {digit}")), 13, line);
        refused(then(before, &format!("{digit}  {digit}")), 13, line);
    }
}

#[test]
fn reading_20_the_order_on_an_entry_line() {
    refused(then(HEADER, "4 2"), 7, 6);
    refused(then(HEADER, "0 0\n0 2"), 8, 7);
    refused(then(HEADER, "1 0\n1 2"), 8, 7);
    refused(then(HEADER, "1 0\n1 1"), 9, 7);
    refused(then(HEADER, "4 01"), 13, 6);
}

#[test]
fn reading_21_a_residue_that_is_no_value() {
    refused(then(HEADER, "1 2"), 8, 6);
    refused(then(HEADER, "1 3"), 8, 6);
}

#[test]
fn reading_22_too_many_or_too_few_lines() {
    refused(XOR.replace("1 1\nentry", "1 1\n1 1\nentry"), 13, 5);
    refused(XOR.replace("1 1\nentry", "entry"), 13, 4);
    let one_link = "p s n links products\n3 2 1 1 0\n2\n1\n1 0 0\n";
    assert!(prints(then(one_link, "entry value\n0 1\n1 0")).starts_with("bootstraps"));
    refused(then(one_link, "1\n1 0 0\nentry value"), 13, 6);
    refused(
        "p s n links products\n3 2 1 2 0\n2\n1\n1 0 0\nentry value\n",
        13,
        6,
    );
}

#[test]
fn reading_23_a_second_plan_after_the_entries() {
    refused(XOR.to_owned() + XOR, 13, 10);
    refused(then(XOR, "entry value"), 13, 10);
}

#[test]
fn reading_24_more_than_65535_lines() {
    let many = HEADER.to_owned() + &"1 1\n".repeat(70_000);
    assert!(prints(&many).starts_with("bootstraps"));
    refused(then(&many, "1 0"), 9, 70_006);
    refused(then(&many, ""), 13, 70_006);
}

#[test]
fn reading_25_the_last_line_ends_in_lf() {
    assert!(prints(XOR).ends_with("1 6 1 0\n"));
    assert!(prints("").ends_with("13 1\n"));
}

#[test]
fn reading_26_nothing_but_the_output_is_fixed() {
    // The program is a function of its input: the same text prints the same.
    assert_eq!(prints(XOR), prints(XOR));
}

#[test]
fn reading_27_other_bytes() {
    for byte in [0, b'\t', 0x0b, 0x0c, b'\r', 0x1b, 0x7f, 0x80, 0xa0, 0xff] {
        for place in ["1 1?", "1?1", "?1 1", "1 ?1", "?", "1 1 ?"] {
            let line: Vec<u8> = place
                .bytes()
                .map(|b| if b == b'?' { byte } else { b })
                .collect();
            let text = [RADICES.as_bytes(), &line, b"\nentry value\n"].concat();
            refused(text, 13, 4);
            let twos: Vec<u8> = line
                .iter()
                .map(|b| if *b == b'1' { b'2' } else { *b })
                .collect();
            let text = [VALUES.as_bytes(), &twos, b"\n1 1\nentry value\n"].concat();
            refused(text, 13, 3);
        }
    }
    // NUL does not end the text.
    refused(XOR.to_owned() + "\0", 13, 10);
    refused(XOR.to_owned() + "\0\n", 13, 10);
    refused(then(HEADER, "0 \u{661}"), 13, 6);
}

/// A text of p = 251 with 64 variables and one product, whose d row has this
/// weight 64 times; all other numbers are 0.
fn weights_64_times(weight: &str) -> String {
    let line = |number: &str, count: usize| vec![number; count].join(" ") + "\n";
    let mut text = String::from("p s n links products\n251 2 1 63 1\n2\n");
    for k in 0..63 {
        text += &(line("0", 1 + k) + &line("0", 251));
    }
    text + &line(weight, 64) + "entry value\n"
}

#[test]
fn reading_28_worst_norms() {
    let bare = "p s n links products\n7 6 1 0 0\n6\nentry value\n";
    assert!(prints(bare).starts_with("bootstraps steps worst\n0 2 0\n"));
    assert!(prints(then(bare, "1 3")).starts_with("bootstraps steps worst\n0 2 9\n"));
    // 02, C-14: 5 is above 3, the middle of 7, and counts as -2.
    assert!(prints(then(bare, "1 5")).starts_with("bootstraps steps worst\n0 2 4\n"));
    // 64 times 125 squared, the most there is: seven digits. 126 counts as -125,
    // 250 as -1.
    for (weight, worst) in [("125", 1_000_000), ("126", 1_000_000), ("250", 64)] {
        let figures = format!("bootstraps steps worst\n65 2347 {worst}\n");
        assert!(prints(weights_64_times(weight)).starts_with(&figures));
    }
}

/// 02, C-14: where a plan says p-1, the steps say p-1 too, and only `worst`
/// counts it as -1. Here p is 7; the link's weight, both of d and the first
/// coefficient are 6.
#[test]
fn steps_print_p_minus_1_as_it_is() {
    let text = "p s n links products\n7 3 1 1 1\n2\n6\n0 0 0 0 0 0 1\n6 6\nentry value\n1 2\n";
    let listing = "bootstraps steps worst\n3 22 2\nkind to from by\n0 1 0 0\n1 1 0 6\n2 1 1 0\n\
        0 6 0 0\n0 2 0 0\n1 2 0 6\n1 2 1 0\n0 3 0 0\n1 3 0 6\n1 3 1 6\n0 4 0 0\n1 4 2 1\n\
        1 4 3 1\n0 5 0 0\n1 5 2 1\n1 5 3 6\n2 4 4 1\n2 5 5 2\n1 6 4 1\n1 6 5 1\n1 6 0 0\n\
        1 6 1 0\n";
    assert_eq!(prints(text), listing);
}

#[test]
fn reading_29_nothing_is_printed_before_a_late_refusal() {
    refused(then(XOR, "3 1"), 9, 10);
}

#[test]
fn reading_30_bootstraps_are_the_kind_2_steps() {
    let text = "p s n links products\n5 2 2 3 2\n2 2\n1 2\n0 1 2 3 4\n1 0 1\n4 3 2 1 0\n0 0 0 0\n\
        1 1 1 1 1\n1 2 3 4 0\n0 0 0 0 0\nentry value\n0 1\n3 1\n";
    let listing = prints(text);
    let kind_2 = listing
        .lines()
        .skip(3)
        .filter(|line| line.starts_with("2 "))
        .count();
    assert_eq!(kind_2, 3 + 2 * 2);
    assert!(listing.starts_with("bootstraps steps worst\n7 "));
}

/// A text's values line, then its radices line.
fn radices(values: &str, radices: &str) -> String {
    then(NAMES, &format!("{values}\n{radices}"))
}

#[test]
fn reading_51_the_values_line_does_not_ask_for_entries() {
    // n up to 64 passes line 2; the radices line gives 3.
    for (values, line) in [
        ("3 2 13 0 0", vec!["2"; 13]),
        ("3 2 13 0 1", vec!["2"; 13]),
        ("3 3 8 0 0", vec!["3"; 8]),
        ("3 2 64 0 0", vec!["2"; 64]),
        ("251 251 64 0 0", vec!["251"; 64]),
        ("251 16 16 0 0", vec!["16"; 16]),
        ("67 2 2 0 0", vec!["64", "65"]),
        ("251 2 2 0 0", vec!["17", "241"]),
    ] {
        refused(radices(values, &line.join(" ")), 3, 3);
        refused(then(NAMES, values), 13, 3);
    }
    // s^n has no part in it: 251^2 is far above the limit, and 2 times 2 is not.
    refused(radices("251 251 2 0 0", "2 2"), 13, 4);
    refused(radices("3 2 12 0 0", &["2"; 12].join(" ")), 13, 4);
    refused(radices("67 2 2 0 0", "63 65"), 13, 4);
}

#[test]
fn reading_52_the_order_on_and_before_the_radices_line() {
    for (values, line, number, at) in [
        // The values line is tested whole first, 14 too.
        ("9 2 2 0 1", "1 1", 1, 2),
        ("3 1 2 0 1", "1 1", 2, 2),
        ("3 2 2 0 33", "1 1", 3, 2),
        ("3 2 2 17 18", "1 1", 14, 2),
        ("3 2 2 17 18", "2 2 2", 14, 2),
        ("67 2 3 16 18", "67 67 67", 14, 2),
        ("3 2 2 18 17", "1 1", 2, 3),
        ("3 2 2 18 17", "2 2 2", 13, 3),
        ("67 2 3 17 17", "67 67 67", 3, 3),
        // Then 13 before 2 before 3.
        ("67 2 3 0 0", "67 67 68 0", 13, 3),
        ("67 2 3 0 0", "67 68", 13, 3),
        ("67 2 3 0 0", "67 67 068", 13, 3),
        ("67 2 3 0 0", "67 67 68", 2, 3),
        ("67 2 3 0 0", "67 67 1", 2, 3),
        ("67 2 3 0 0", "67 67 0", 2, 3),
        ("67 2 3 0 0", "67 67 67", 3, 3),
        // A later line is not looked at.
        ("3 2 2 0 1", "2 1\n9 9", 2, 3),
        ("3 2 2 0 1", "2 1\nnonsense", 2, 3),
        ("67 2 3 0 1", "67 67 67\nnonsense", 3, 3),
    ] {
        refused(radices(values, line), number, at);
    }
}

#[test]
fn reading_53_a_text_has_as_many_radices_as_n() {
    // In text another number of them is malformed, whatever they are.
    for line in ["64 64 64", "1", "2", "2 2 1", "2 2 2", "0"] {
        refused(radices("67 2 2 0 0", line), 13, 3);
    }
}

#[test]
fn reading_54_the_product_does_not_wrap() {
    for (values, radix, n) in [
        ("251 2 64 0 0", "251", 64),
        ("251 2 64 0 0", "2", 64),
        ("251 2 32 0 0", "4", 32),
        ("251 2 16 0 0", "16", 16),
        ("251 2 8 0 0", "16", 8),
        ("251 2 4 0 0", "16", 4),
    ] {
        refused(radices(values, &vec![radix; n].join(" ")), 3, 3);
    }
}

#[test]
fn reading_55_cause_2_before_3_over_the_whole_line() {
    refused(radices("67 2 3 0 0", "67 67 68"), 2, 3);
    refused(radices("67 2 3 0 0", "68 67 67"), 2, 3);
    let mut line = vec!["251"; 64];
    line[63] = "252";
    refused(radices("251 2 64 0 0", &line.join(" ")), 2, 3);
}

#[test]
fn reading_56_the_old_xor_text() {
    refused(XOR.replace("2 2\n", ""), 2, 3);
}

#[test]
fn a_radix_is_2_to_p() {
    for (radix, number) in [("0", 2), ("1", 2), ("68", 2), ("65538", 2), ("65603", 2)] {
        refused(radices("67 2 1 0 0", radix), number, 3);
        refused(radices("67 67 1 0 0", radix), number, 3);
    }
    for radix in ["2", "3", "67"] {
        for s in ["2", "67"] {
            refused(radices(&format!("67 {s} 1 0 0"), radix), 13, 4);
        }
    }
}

#[test]
fn a_month_and_a_bit() {
    let header = radices("13 4 2 0 0", "12 2\nentry value");
    assert!(prints(&header).starts_with("bootstraps steps worst\n0 3 0\n"));
    refused(then(&header, "24 0"), 7, 5);
    refused(then(&header, "24 4"), 7, 5);
    refused(then(&header, "23 4"), 8, 5);
    refused(then(&header, "23 11"), 8, 5);
    // 11·β_0 + β_1 is 3; then entry 2, whose digits are 1 0, gives β_0 = 1.
    let listing = prints(then(&header, "23 3\n2 1"));
    assert!(
        listing.ends_with("0 6 0 0\n1 6 0 1\n1 6 1 5\n"),
        "{listing}"
    );
}

#[test]
fn s_and_the_radices_have_nothing_to_do_with_each_other() {
    // s below every radix: digits to 12, values to 1.
    let low = radices("13 2 2 0 0", "13 13\nentry value");
    assert!(prints(then(&low, "168 1")).starts_with("bootstraps"));
    refused(then(&low, "169 1"), 7, 5);
    refused(then(&low, "168 2"), 8, 5);
    // s above every radix.
    let high = radices("13 13 2 0 0", "2 2\nentry value");
    assert!(prints(then(&high, "3 12")).starts_with("bootstraps"));
    refused(then(&high, "4 12"), 7, 5);
    refused(then(&high, "3 13"), 8, 5);
}

#[test]
fn a_line_of_64_radices_has_at_most_383_bytes() {
    // 64 numbers of 5 digits: no radices line comes near 1,024 bytes but one with
    // too many numbers or digits.
    let line = vec!["99999"; 64].join(" ");
    assert_eq!(line.len(), 383);
    refused(radices("251 2 64 0 0", &line), 2, 3);
    refused(radices("251 2 64 0 0", &"2 ".repeat(600)), 13, 3);
}
