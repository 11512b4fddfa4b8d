//! The stored outputs are what the reference gives for the same test vectors:
//! those of the C interface, to which a test of the wrapper holds the archive,
//! and that of the library's program `cases`. And what the interpreter prints is
//! what the pages say.

use reference::interface::{difference, output, Reference};

const CALLS: &str = include_str!("../../vectors/calls.txt");
const CALLS_STORED: &str = include_str!("../../vectors/calls.out");
const RECORDS: &str = include_str!("../../vectors/recorded.txt");
const RECORDS_STORED: &str = include_str!("../../vectors/recorded.out");
const CASES: &str = include_str!("../../vectors/cases.txt");
const CASES_STORED: &str = include_str!("../../vectors/cases.out");

fn given(vectors: &str) -> String {
    String::from_utf8(output::<Reference>(vectors)).expect("text")
}

fn same(file: &str, vectors: &str, stored: &str) {
    if let Some(difference) = difference(stored, &given(vectors)) {
        panic!("{file}: {difference}");
    }
}

#[test]
fn the_stored_output_is_that_of_the_reference() {
    same("rust/vectors/calls.out", CALLS, CALLS_STORED);
}

#[test]
fn so_is_that_of_the_calls_with_records() {
    same("rust/vectors/recorded.out", RECORDS, RECORDS_STORED);
}

#[test]
fn so_is_that_of_the_program_cases() {
    same("rust/vectors/cases.out", CASES, CASES_STORED);
}

#[test]
fn no_stored_line_is_malformed() {
    for stored in [CALLS_STORED, RECORDS_STORED, CASES_STORED] {
        assert!(!stored.contains("= malformed"));
    }
}

/// The program knows the settings that its calls need, and three calls. Each of
/// these is there often.
#[test]
fn the_program_cases_has_three_calls() {
    let settings = ["plan", "radices", "weights", "tables", "d", "beta", "steps"];
    let calls = ["plan::check", "program::write", "text::print_text"];
    let mut made = [0; 3];
    for line in CASES.lines() {
        let word = line.split(' ').next().expect("a first word");
        let other = line.is_empty() || line.starts_with(['#', '>']) || settings.contains(&word);
        match calls.iter().position(|call| *call == word) {
            Some(call) => made[call] += 1,
            None => assert!(other, "{line}"),
        }
    }
    assert!(made.iter().all(|count| *count >= 40), "{made:?}");
}

/// An accepted call tells each of its numbers and a refused one none, so that
/// they are as they were lent; but the line, which 13 and 15 alone tell.
#[test]
fn what_the_stored_calls_tell() {
    let (mut number, mut told) = (0, 0);
    for line in [CALLS_STORED, RECORDS_STORED]
        .iter()
        .flat_map(|stored| stored.lines())
    {
        let answer = line
            .strip_prefix("= ")
            .and_then(|answer| answer.split_once(' '));
        let Some((name, value)) = answer else {
            continue;
        };
        let lent = match name {
            "number" => {
                number = value.parse().expect("a number");
                continue;
            }
            "residue" | "general" | "y" => "255",
            "column" | "value" | "written" | "bootstraps" | "norm" | "line" => "9999",
            _ => continue,
        };
        let tells = match name {
            "line" => number == 13 || number == 15,
            _ => number == 0,
        };
        assert_eq!(value != lent, tells, "{line} behind number {number}");
        told += 1;
    }
    assert!(told >= 2000, "{told}");
}

/// Lines with a word that there is not, too many numbers, too few, what is no
/// number, or a record without its value.
#[test]
fn lines_that_are_malformed() {
    for line in [
        " plan 3 2 2 0 1",
        "Plan 3 2 2 0 1",
        "plan",
        "plan 3 2 2 0",
        "plan 3 2 2 0 1 1",
        "plan 3 2 2 0 -1",
        "beta 1 x",
        "beta 1\t2",
        "beta 1,2",
        "beta 0x1",
        "work 1 x",
        "steps 2049*7",
        "steps 2048*7 7",
        "steps 1 18446744073709551616*7",
        "records 1",
        "records 1 2 3",
        "count",
        "count 1 2",
        "celery",
        "celery_",
        "celery_listing",
        "celery_check\r",
        "celery_check 1",
        "celery_row",
        "celery_row 1 2",
        "celery_test 1",
        "celery_file 1",
        "celery_file 1 2 3",
        "celery_file_recorded 1",
        "celery_file_recorded 1 2 3",
        "celery_withdraw",
        "celery_withdraw 1 2",
        "celery_coefficients 1",
        "celery_settle",
        "celery_settle 1 2",
        "celery_general 1",
        "celery_to_half 1",
        "celery_to_full 1",
        "celery_check_writing 1",
        "celery_write 1",
        "celery_run 1",
        "celery_worst_norm 1",
        "celery_read_steps 1",
        "celery_read_listing 1",
        "plan::check 1",
        "plan::row 1",
        "program::write 1",
        "text::print_text",
        "text::print_text 1 2",
    ] {
        let malformed = format!("{line}\n= malformed\n");
        assert_eq!(given(&format!("{line}\n")), malformed);
    }
}

/// A malformed line does nothing else: what was set before it stays.
#[test]
fn a_malformed_line_sets_nothing() {
    let output = given("steps 1 2\nsteps 3 x\nsteps 4 2048*5\nprogram::write\n");
    assert!(output.ends_with("program::write\n= length 0\n= steps 1 2\n"));
    let plan = "plan 5 2 1 0 0\nradices 2\nplan 5 2 1 0\nbeta 9\nbeta -1\n";
    let text = ">bootstraps steps worst\ntext::print_text\ncelery_read_listing 1\n";
    let output = given(&format!("{plan}{text}celery_read_listing\n"));
    assert!(output.ends_with("\n= number 13\n= line 2\n= beta 9\n"));
}

/// The numbers of a line, as the page says: repeated, cut to the width of their
/// part, and at most 2^64 - 1.
#[test]
fn the_numbers_of_a_line() {
    let output = given("beta 3*1 256 257 0*7 2\ncelery_read_steps\n");
    assert!(output.ends_with("= beta 1 1 1 0 1 2\n"));
    let output = given("steps 65535 65536 2*65538\nprogram::write\n");
    assert!(output.ends_with("= steps 65535 0 2 2\n"));
    let wide = "plan 3 2 1 0 0\nradices 2\nrow 9\ncelery_row 36893488147419103232\n";
    assert!(given(wide).ends_with("= number 7\n= row 9\n"));
}

/// Each call of the C interface accepted and refused, with what the header says
/// that it tells and leaves. The lines of the answers are written by hand.
#[test]
fn what_is_printed_behind_each_call() {
    for expected in [XOR, SMALLEST] {
        let lines = expected.lines().filter(|line| !line.starts_with("= "));
        let vectors: String = lines.map(|line| format!("{line}\n")).collect();
        assert_eq!(difference(expected, &given(&vectors)), None);
    }
}

/// XOR's plan has 4 columns; entry 3 has the row 2 2 1 1.
const XOR: &str = "\
plan 3 2 2 0 1
radices 2 2
d 1 1
celery_check
= number 0
row 4*9
celery_row 4
= number 7
= row 9 9 9 9
celery_row 3
= number 0
= row 2 2 1 1
store 14*0
celery_test
= number 0
celery_file 1 1
= number 0
= column 1
= store 0 0 0 0 0 1 0 1 1 0 0 0 0 0
celery_file 1 1
= number 0
= column 4
= store 0 0 0 0 0 1 0 1 1 0 0 0 0 0
celery_file 1 0
= number 9
= column 9999
= store 0 0 0 0 0 1 0 1 1 0 0 0 0 0
celery_settle 1
= number 0
= residue 1
= column 4
celery_settle 2
= number 0
= residue 3
= column 0
celery_settle 4
= number 7
= residue 255
= column 9999
beta 4*9
celery_coefficients
= number 0
= beta 0 1 0 0
full 20*9
celery_to_full
= number 0
= full 0 0 0 0 0 0 1 0 1 1 0 0 0 0 0 0 0 0 0 0
store 14*9
celery_to_half
= number 0
= store 0 0 0 0 0 1 0 1 1 0 0 0 0 0
work 14*9
celery_general
= number 0
= general 0
= work 0 0 0 0 0 0 0 0 0 0 0 0 0 0
work 13*9
celery_general
= number 4
= general 255
= work 9 9 9 9 9 9 9 9 9 9 9 9 9
store 14*2
celery_test
= number 6
celery_coefficients
= number 6
= beta 0 1 0 0
celery_to_full
= number 6
= full 0 0 0 0 0 0 1 0 1 1 0 0 0 0 0 0 0 0 0 0
full 20*2
celery_to_half
= number 6
= store 2 2 2 2 2 2 2 2 2 2 2 2 2 2
d 1 3
celery_check
= number 5
";

/// One digit of radix 2, and one column: the program of the coefficient 2 has
/// two steps.
const SMALLEST: &str = "\
plan 5 2 1 0 0
radices 2
beta 2
steps 9*7
celery_check_writing
= number 0
celery_write
= number 0
= written 8
= steps 0 5 0 0 1 5 0 2 7
digits 1
celery_run
= number 11
= y 255
= bootstraps 9999
celery_read_steps
= number 15
= beta 2
steps 7*7
celery_check_writing
= number 10
celery_write
= number 10
= written 9999
= steps 7 7 7 7 7 7 7
steps 0 5 0 0 1 5 0 2
celery_run
= number 0
= y 2
= bootstraps 0
celery_worst_norm
= number 0
= norm 4
beta 9
celery_worst_norm
= number 5
= norm 9999
celery_read_steps
= number 0
= beta 2
beta 9
>bootstraps steps worst
>0 2 4
>kind to from by
>0 5 0 0
>1 5 0 2
celery_read_listing
= number 0
= line 9999
= beta 2
celery_read_listing
= number 13
= line 1
= beta 2
>bootstraps steps worst
>0 2 5
>kind to from by
>0 5 0 0
>1 5 0 2
celery_read_listing
= number 15
= line 1
= beta 2
>bootstraps steps worst
>
celery_read_listing
= number 13
= line 2
= beta 2
store 2*0
work 2*9
records 7 8 9 9
celery_file_recorded 1 1
= number 0
= column 0
= count 1
= store 1 1
= work 0 0
= records 1 1 9 9
celery_file_recorded 0 0
= number 0
= column 1
= count 2
= store 1 1
= work 0 0
= records 1 1 0 0
celery_file_recorded 1 0
= number 9
= column 9999
= count 2
= store 1 1
= work 0 0
= records 1 1 0 0
celery_withdraw 1
= number 0
= value 1
= count 1
= store 0 0
= work 0 0
= records 0 0 0 0
celery_withdraw 1
= number 17
= value 9999
= count 1
= store 0 0
= work 0 0
= records 0 0 0 0
count 3
work 2*9
celery_withdraw 0
= number 4
= value 9999
= count 3
= store 0 0
= work 9 9
= records 0 0 0 0
";

#[test]
fn a_difference_comes_with_its_call() {
    for call in ["celery_row 1", "plan::check"] {
        let stored = format!("# name\n{call}\n= number 0\n= part 1\n");
        let told = |line, stored: Option<&str>, given: Option<&str>| {
            let both = format!("stored {stored:?}, given {given:?}");
            Some(format!(
                "line {line}, under \"# name\", of {call:?}: {both}"
            ))
        };
        let other = stored.replace("part 1", "part 2");
        let expected = told(4, Some("= part 1"), Some("= part 2"));
        assert_eq!(difference(&stored, &other), expected);
        let more = format!("{stored}= more");
        let expected = told(5, Some(""), Some("= more"));
        assert_eq!(difference(&stored, &more), expected);
        let less = &stored[..stored.len() - 1];
        assert_eq!(difference(&stored, less), told(5, Some(""), None));
        assert_eq!(difference(&stored, &stored), None);
    }
}
