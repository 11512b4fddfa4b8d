//! Sizes that no other test reaches: lists of up to 100,000 steps, slices of up
//! to 100,000 numbers, parts that are too long by 2^8 and by 2^16, so that a
//! length in fewer bits would look right, and texts of the filing program that
//! are decided behind 2^24 bytes. What has to be answered is known from the size
//! each time; the reference has to agree, of the long texts on short ones that
//! mean the same.

mod common;
use celerycrag::Record;
use common::kept::{malformed, NOT_WRITTEN};
use common::layout::Layout;
use common::lots::{well_formed, written};
use common::plans::{residues, Owned};
use common::program::prints;
use common::random::Random;
use common::recorded::Recorded;
use common::tally::{Tally, CAUSES};
use common::texts::text;
use common::twins::{self, listing, Lot};
use reference::Ran;

// Runs.

/// A plan whose run can be told by counting: one digit, register 0, and one link
/// whose table is z + 1 modulo 251. L is 2, so that y is register 6.
fn counting() -> Owned {
    let mut plan = Owned::zeros([251, 2, 1, 1, 0]);
    plan.tables = (1..=251).map(|z| (z % 251) as u8).collect();
    plan
}

/// One more in y by a bootstrap; 3 times the digit more in it; a register that
/// has no part in y cleared.
const BOOTSTRAP: [u16; 4] = [2, 6, 6, 0];
const ADD: [u16; 4] = [1, 6, 0, 3];
const CLEAR: [u16; 4] = [0, 2, 0, 0];

/// So many steps, of which so many are bootstraps, spread evenly. Of the others
/// every second one adds, the first of them too.
fn spread(count: usize, bootstraps: usize) -> Vec<u16> {
    let mut steps = Vec::new();
    for k in 0..count {
        let (before, after) = (k * bootstraps / count, (k + 1) * bootstraps / count);
        let others = k - before;
        steps.extend(if after > before {
            BOOTSTRAP
        } else if others % 2 == 0 {
            ADD
        } else {
            CLEAR
        });
    }
    steps
}

/// What the run of these steps gives: each bootstrap counts one, and every second
/// one of the others three times the digit.
fn counted(count: usize, bootstraps: usize, digit: u8) -> Ran {
    let added = (count - bootstraps).div_ceil(2) * 3 * usize::from(digit);
    Ran {
        y: ((bootstraps + added) % 251) as u8,
        bootstraps: bootstraps as u64,
    }
}

/// Both digits run on so many steps with so many bootstraps.
fn runs(count: usize, bootstraps: usize, tally: &mut Tally) {
    let (plan, steps) = (counting(), spread(count, bootstraps));
    assert_eq!(steps.len(), 4 * count);
    for digit in [0, 1] {
        let ran = twins::run(&plan, &steps, &[digit], tally);
        assert_eq!(ran, Ok(counted(count, bootstraps, digit)), "{count} steps");
    }
}

#[test]
fn a_list_of_100_000_steps() {
    let mut tally = Tally::default();
    let steps = spread(100_000, 70_000);
    let kinds = |kind| steps.chunks(4).filter(|step| step[0] == kind).count();
    assert_eq!([0, 1, 2].map(kinds), [15_000, 15_000, 70_000]);
    // 70,000 is 222 modulo 251, and 70,000 + 3 * 15,000 is 42.
    for (digit, y) in [(0, 222), (1, 42)] {
        let ran = twins::run(&counting(), &steps, &[digit], &mut tally);
        let bootstraps = 70_000;
        assert_eq!(ran, Ok(Ran { y, bootstraps }));
    }

    // Of any kinds, on all registers and tables.
    let mut random = Random::new(9, 1);
    for _ in 0..4 {
        let plan = Owned::zeros([251, 2, 3, 5, 2]).drawn(&mut random);
        let steps = well_formed(&mut random, &plan, 100_000);
        let bootstraps = steps.chunks(4).filter(|step| step[0] == 2).count();
        let digits = plan.digits(random.below(plan.entries()));
        let ran = twins::run(&plan, &steps, &digits, &mut tally).expect("an accepted run");
        assert_eq!(ran.bootstraps, bootstraps as u64);
    }
}

/// Lengths at and beside the longest program's, where 16 bits end, and where the
/// number of steps does not fit 16 bits.
#[test]
fn lists_of_many_lengths() {
    let mut tally = Tally::default();
    let middles = [1_024, 17_228, 65_536, 131_072, 262_144];
    let lengths = middles.map(|middle| [middle - 4, middle, middle + 4]);
    for numbers in lengths.concat() {
        runs(numbers / 4, numbers / 8, &mut tally);
    }
    // Not whole steps.
    let (plan, steps) = (counting(), spread(100_000, 70_000));
    for numbers in [17_228, 65_532, 65_536, 262_144, 399_996] {
        for more in 1..4 {
            let ran = twins::run(&plan, &steps[..numbers + more], &[1], &mut tally);
            assert_eq!(ran, Err(11), "{numbers} + {more} numbers");
        }
    }
}

#[test]
fn many_bootstraps() {
    let mut tally = Tally::default();
    for bootstraps in [0, 1, 255, 256, 257, 511, 512, 513, 65_535, 65_536, 65_537] {
        runs(bootstraps + 7, bootstraps, &mut tally);
    }
    // Nothing but bootstraps.
    for bootstraps in [256, 65_536, 100_000, 131_072] {
        runs(bootstraps, bootstraps, &mut tally);
    }
}

/// A step that is malformed in one number, as the last of 100,000, as the first
/// behind the longest program, and as the first behind 2^16 numbers: 11, before a
/// digit that is none; without it that digit is refused, with 12.
#[test]
fn a_fault_late_in_a_long_list() {
    let mut tally = Tally::default();
    let (plan, sound) = (counting(), spread(100_000, 70_000));
    let wrong = [
        [3, 6, 0, 0],
        [258, 6, 6, 0],
        [0, 7, 0, 0],
        [0, 6, 1, 0],
        [0, 6, 0, 1],
        [1, 7, 0, 1],
        [1, 6, 7, 1],
        [1, 6, 0, 251],
        [2, 7, 6, 0],
        [2, 6, 7, 0],
        [2, 6, 6, 3],
    ];
    for step in [99_999, 16_384, 4_307] {
        for fault in wrong {
            let mut steps = sound.clone();
            steps[4 * step..4 * step + 4].copy_from_slice(&fault);
            for digit in [1, 2] {
                let ran = twins::run(&plan, &steps, &[digit], &mut tally);
                assert_eq!(ran, Err(11), "{fault:?} as step {step}");
            }
        }
    }
    assert_eq!(twins::run(&plan, &sound, &[2], &mut tally), Err(12));
}

// Writings.

/// The numbers in a slice before the call: those of 65,536 places are not those
/// of the next.
fn old(length: usize) -> Vec<u16> {
    let number = |place: usize| (place.wrapping_mul(2_654_435_761) >> 16) as u16;
    (0..length).map(number).collect()
}

/// XOR, whose program has 76 numbers, and the plan of the longest program, which
/// has 17,228; each with some coefficients.
fn writings() -> [(Owned, Vec<u8>, usize); 2] {
    let mut random = Random::new(9, 2);
    let longest = Owned::zeros([251, 2, 1, 63, 15]).drawn(&mut random);
    let beta = random.bytes(1_024, 251);
    [
        (Owned::xor(), vec![0, 1, 1, 0], 76),
        (longest, beta, 17_228),
    ]
}

/// Lengths of slices that are far longer than any program. In 16 bits they are
/// 65,535, 0, 1, 64, 17,227 and 34,464.
const LONG: [usize; 6] = [65_535, 65_536, 65_537, 65_600, 82_763, 100_000];

/// What a writing into so many numbers answers, by the writer and by its check;
/// that it changes nothing behind the program, and nothing where it refuses, is
/// tested there.
fn writes(plan: &Owned, beta: &[u8], length: usize, tally: &mut Tally) -> Result<Vec<u16>, u8> {
    let slice = old(length);
    let answer = twins::write(plan, beta, &slice, tally);
    assert!(slice == old(length), "the check wrote");
    answer
}

#[test]
fn writing_into_100_000_numbers() {
    let mut tally = Tally::default();
    for (plan, beta, length) in writings() {
        let program = writes(&plan, &beta, length, &mut tally).expect("room enough");
        assert_eq!(program.len(), length);
        let more = [1, 5, 100, 256, 2_048, 65_536].map(|more| length + more);
        for slice in [&LONG[..], &more].concat() {
            let answer = writes(&plan, &beta, slice, &mut tally);
            assert!(answer.as_ref() == Ok(&program), "{length} into {slice}");
        }
    }
}

/// A plan and β with one thing wrong.
type Fault = fn(&mut Owned, &mut Vec<u8>);

/// What a writer can refuse but for its room, with the number.
const FAULTS: [(u8, Fault); 16] = [
    (1, |plan, _| plan.p = 9),
    (1, |plan, _| plan.p += 1 << 16),
    (2, |plan, _| plan.s = 1),
    (2, |plan, _| plan.radices[0] = 1),
    (3, |plan, _| plan.n = 0),
    (3, |plan, _| plan.t = 33),
    (3, |plan, _| plan.radices = vec![2; 13]),
    (4, |plan, _| plan.radices.push(2)),
    (4, |plan, _| plan.weights.push(0)),
    (4, |plan, _| plan.tables.push(0)),
    (4, |plan, _| plan.d.push(0)),
    (4, |_, beta| beta.push(0)),
    (5, |plan, _| plan.weights[0] = plan.p as u8),
    (5, |plan, _| plan.tables[0] = plan.p as u8),
    (5, |plan, _| plan.d[0] = plan.p as u8),
    (5, |plan, beta| beta[0] = plan.p as u8),
];

#[test]
fn refused_with_100_000_numbers() {
    let mut tally = Tally::default();
    let [_, longest] = writings();
    // With links and products, so that no part is empty.
    let small = Owned::zeros([3, 2, 1, 1, 1]).drawn(&mut Random::new(9, 3));
    for (plan, beta, _) in [(small, vec![1, 2, 0, 1], 88), longest] {
        for (number, fault) in FAULTS {
            let (mut plan, mut beta) = (plan.clone(), beta.clone());
            fault(&mut plan, &mut beta);
            for length in LONG {
                let answer = writes(&plan, &beta, length, &mut tally);
                assert!(answer == Err(number), "{number} into {length}");
            }
        }
    }
}

/// A slice is too short for the longest program up to 17,227 numbers.
#[test]
fn refused_for_want_of_room() {
    let mut tally = Tally::default();
    let [_, (plan, beta, _)] = writings();
    for length in [0, 76, 844, 2_048, 8_192, 16_384, 17_224, 17_227] {
        let answer = writes(&plan, &beta, length, &mut tally);
        assert!(answer == Err(10), "into {length}");
    }
}

// Lengths.

/// By how much parts are too long: a length in 8 bits, or in 16, looks right.
const MORE: [usize; 2] = [1 << 8, 1 << 16];

/// A lot that all seventeen calls accept: the last entry has the value 1, in the
/// store and in the list, and the steps and the text are those of β.
fn accepted(plan: Owned) -> Lot {
    let mut random = Random::new(9, 4);
    let plan = plan.drawn(&mut random);
    let last = plan.entries() - 1;
    let recorded = Recorded::filed(&mut random, &plan, [(last, 1), (0, 0)]);
    let beta = residues(&mut random, plan.columns(), plan.p);
    let lot = Lot {
        entry: last,
        value: 1,
        row: random.bytes(plan.columns(), 256),
        store: recorded.store.clone(),
        full: plan.widened(&recorded.store),
        recorded,
        room: old(4 * plan.step_count()),
        steps: written(&plan, &beta),
        digits: plan.digits(last),
        text: listing(&plan, &beta),
        beta,
        plan,
    };
    assert_eq!(answers(&lot), expected(&[], 0), "nothing is too long");
    lot
}

/// Plans of 4, 8 and 40 columns, with 4, 24 and 256 entries.
fn lots() -> [Lot; 3] {
    [
        Owned::xor(),
        Owned::zeros([13, 4, 2, 2, 1]).with_radices(&[12, 2]),
        Owned::zeros([17, 16, 2, 6, 4]),
    ]
    .map(accepted)
}

/// What each of the seventeen calls answers on a lot. That the reference does
/// too, and that a refusal leaves all as it was, is tested there.
fn answers(lot: &Lot) -> Vec<(&'static str, u8)> {
    let mut tally = Tally::default();
    twins::all(lot, &mut tally);
    let answer = |call| (0..=17).find(|&number| tally.count(call, number) > 0);
    let answer = |&(call, _): &_| (call, answer(call).expect("an answer"));
    CAUSES.iter().map(answer).collect()
}

/// That these calls answer the number, and the others accept.
fn expected(calls: &[&str], number: u8) -> Vec<(&'static str, u8)> {
    let known = |call| CAUSES.iter().any(|(name, _)| name == call);
    assert!(calls.iter().all(known), "{calls:?}");
    let answer = |&(call, _): &(&'static str, _)| {
        let refused = calls.contains(&call);
        (call, if refused { number } else { 0 })
    };
    CAUSES.iter().map(answer).collect()
}

/// All seventeen calls.
fn every() -> Vec<&'static str> {
    CAUSES.iter().map(|&(call, _)| call).collect()
}

/// A part of a lot.
type Part<T> = fn(&mut Lot) -> &mut Vec<T>;

/// That with this part too long, whatever is in it behind its end, these calls
/// answer the number and the others accept.
fn too_long<T: Copy + std::fmt::Debug>(
    (lot, part): (&Lot, Part<T>),
    more: [T; 2],
    (calls, number): (&[&str], u8),
) {
    for count in MORE {
        for more in more {
            let mut lot = lot.clone();
            let length = part(&mut lot).len();
            part(&mut lot).resize(length + count, more);
            let context = format!("{length} and {count} more, each {more:?}");
            assert_eq!(answers(&lot), expected(calls, number), "{context}");
        }
    }
}

/// The plan's own parts, in every call. With so many radices as lent one is none,
/// or their product is above 4,096: that comes first, as 2 or 3.
#[test]
fn parts_of_the_plan_too_long() {
    for lot in lots() {
        let parts: [Part<u8>; 3] = [
            |lot| &mut lot.plan.weights,
            |lot| &mut lot.plan.tables,
            |lot| &mut lot.plan.d,
        ];
        for part in parts {
            too_long((&lot, part), [0, 255], (&every(), 4));
        }
        let radices: Part<u8> = |lot| &mut lot.plan.radices;
        too_long((&lot, radices), [2, 3], (&every(), 3));
        too_long((&lot, radices), [0, 255], (&every(), 2));
    }
}

/// The parts that a call is lent beside the plan. The others accept.
#[test]
fn own_parts_too_long() {
    let recorded = ["file_recorded", "withdraw"].as_slice();
    let moves = ["to_half", "to_full"].as_slice();
    let stored = ["test", "file", "coefficients", "settle", "general"];
    let stored = [&stored, moves].concat();
    let beta = ["check_writing", "write", "worst_norm"];
    let beta = [&beta[..], &["coefficients", "read_steps", "read_listing"]].concat();
    let parts: [(Part<u8>, &[&str]); 7] = [
        (|lot| &mut lot.row, &["row"]),
        (|lot| &mut lot.store, &stored),
        (|lot| &mut lot.full, moves),
        (|lot| &mut lot.beta, &beta),
        (|lot| &mut lot.digits, &["run"]),
        (|lot| &mut lot.recorded.store, recorded),
        (|lot| &mut lot.recorded.work, recorded),
    ];
    for lot in lots() {
        for (part, calls) in parts {
            too_long((&lot, part), [0, 255], (calls, 4));
        }
        let most = u16::MAX;
        let (entry, value) = (most, most);
        let more = [Record::default(), Record { entry, value }];
        too_long((&lot, |lot| &mut lot.recorded.records), more, (recorded, 4));
        // The count of the records, beyond them by as much, or by more.
        for more in [1 << 8, 1 << 16, 1 << 32, 1 << 63] {
            let mut lot = lot.clone();
            lot.recorded.count += more;
            assert!(lot.recorded.count > lot.recorded.records.len());
            assert_eq!(answers(&lot), expected(recorded, 4), "{more} too many");
        }
    }
}

/// Stores of the largest plan: longer than 2^16 bytes, and in another length
/// that is the same in 8 bits or 16.
#[test]
fn stores_of_1_024_columns() {
    let mut tally = Tally::default();
    let plan = Owned::zeros([251, 2, 12, 52, 15]);
    let half = Layout::Half.length(1_024);
    assert_eq!(half, 525_824);
    let right = plan.empty_store();
    let full = plan.empty_full();
    let recorded = Recorded::empty(&mut Random::new(9, 5), &plan);
    for length in [half + 256, half + 65_536, half - 65_536, half % 65_536] {
        let tally = &mut tally;
        let mut store = right.clone();
        store.resize(length, 0);
        assert_eq!(twins::test(&plan, &store, tally), 4);
        assert_eq!(twins::file(&plan, &mut store, 1, 1, tally), Err(4));
        assert_eq!(twins::settle(&plan, &store, 1, tally), Err(4));
        assert_eq!(twins::general(&plan, &mut store, tally), Err(4));
        assert_eq!(twins::to_half(&plan, &full, &mut store, tally), 4);
        assert_eq!(twins::to_full(&plan, &store, &mut full.clone(), tally), 4);
        let mut beta = vec![7; 1_024];
        assert_eq!(twins::coefficients(&plan, &store, &mut beta, tally), 4);
        for is_work in [false, true] {
            let mut recorded = recorded.clone();
            let part = match is_work {
                false => &mut recorded.store,
                true => &mut recorded.work,
            };
            part.resize(length, 0);
            assert_eq!(recorded.file(&plan, 1, 1, tally), Err(4));
            assert_eq!(recorded.withdraw(&plan, 1, tally), Err(4));
        }
    }
    for length in [full.len() + 256, full.len() + 65_536, full.len() - 65_536] {
        let mut wrong = full.clone();
        wrong.resize(length, 0);
        let mut store = right.clone();
        assert_eq!(twins::to_half(&plan, &wrong, &mut store, &mut tally), 4);
        assert_eq!(twins::to_full(&plan, &store, &mut wrong, &mut tally), 4);
    }
}

/// What has no length of its own: a longer slice is written to as well, a longer
/// list runs, to its end, and is no program that can be read back; nor is a
/// longer text.
#[test]
fn longer_slices_lists_and_texts() {
    let mut tally = Tally::default();
    for lot in lots() {
        too_long((&lot, |lot| &mut lot.room), [7, 65_535], (&[], 0));
        let plan = &lot.plan;
        let mut row = vec![0; plan.columns()];
        assert_eq!(twins::row(plan, lot.entry, &mut row, &mut tally), 0);
        let y = plan.product(&row, &lot.beta);
        let square = plan.m as u16;
        let u = plan.variables() as u16;
        for more in MORE {
            // Bootstraps of u, which leave y; then y cleared, which does not.
            let mut longer = lot.clone();
            longer.steps.extend([2, u, u, square].repeat(more / 4));
            assert_eq!(answers(&longer), expected(&["read_steps"], 15), "{more}");
            let ran = twins::run(plan, &longer.steps, &longer.digits, &mut tally);
            let bootstraps = (plan.bootstraps() + more / 4) as u64;
            assert_eq!(ran, Ok(Ran { y, bootstraps }));
            let end = longer.steps.len() - 4;
            longer.steps[end..].copy_from_slice(&[0, u + 4, 0, 0]);
            let ran = twins::run(plan, &longer.steps, &longer.digits, &mut tally);
            let (y, bootstraps) = (0, bootstraps - 1);
            assert_eq!(ran, Ok(Ran { y, bootstraps }));

            // Lines of steps, and a line that is none.
            let mut longer = lot.clone();
            longer.text.extend(b"0 6 0 0\n".repeat(more / 8));
            assert_eq!(answers(&longer), expected(&["read_listing"], 15), "{more}");
            let mut beta = lot.beta.clone();
            let answer = twins::read_listing(plan, &longer.text, &mut beta, &mut tally);
            assert_eq!(answer.map(|()| vec![]), NOT_WRITTEN);
            longer.text.truncate(lot.text.len());
            longer.text.extend(b"7".repeat(more));
            let answer = twins::read_listing(plan, &longer.text, &mut beta, &mut tally);
            let line = 3 + plan.step_count() + 1;
            assert_eq!(answer.map(|()| vec![]), malformed(line));
            assert_eq!(beta, lot.beta);
        }
    }
}

// Texts.

/// The stored listing of the exclusive or.
const XOR: &[u8] = include_bytes!("../../../examples/xor.out");

/// That the program prints this for a text.
fn printed(text: &[u8], expected: &[u8]) {
    let printed = prints(&[text]);
    assert!(
        printed == expected,
        "{} bytes: {}\nexpected: {}",
        text.len(),
        printed.escape_ascii(),
        expected.escape_ascii()
    );
}

/// The refusal that is printed.
fn refusal(number: u8, line: usize) -> Vec<u8> {
    format!("refusal line\n{number} {line}\n").into_bytes()
}

/// 2^24 bytes of an entry that says nothing, since its row is zero; what makes
/// the table is behind them, and what contradicts it, and a line that does not
/// end.
#[test]
fn a_text_above_2_to_the_24th_bytes() {
    let beginning = text(&Owned::xor(), &[]);
    let table = b"1 1\n2 1\n3 0\n";
    let short = [&beginning[..], b"0 0\n", table].concat();
    assert!(reference::filing_program(&short) == XOR);

    let mut long = [&beginning[..], &b"0 0\n".repeat(1 << 22)].concat();
    assert!(long.len() > 1 << 24);
    long.extend(table);
    printed(&long, XOR);
    // Five lines are before the entries.
    let line = 5 + (1 << 22) + 3 + 1;
    let whole = long.len();
    long.extend(b"2 0\n");
    printed(&long, &refusal(9, line));
    long.truncate(whole);
    long.extend(b"2 1");
    printed(&long, &refusal(13, line));
}

/// A plan of two digits of radix 11 and nothing else. Entry 11 has the digits 1
/// 0, entry 1 has 0 1.
fn two_digits() -> Owned {
    Owned::zeros([11, 11, 2, 0, 0])
}

/// A text of this plan that has just so many bytes and ends thus, and how many
/// lines end in it. Before the end stand entries 11 and 0, each with the value 0,
/// as often as it takes, on lines of five bytes and of four.
fn text_of(length: usize, end: &[u8]) -> (Vec<u8>, usize) {
    let beginning = text(&two_digits(), &[]);
    let rest = length - beginning.len() - end.len();
    let fives = (rest + 3) % 4 + 1;
    let fours = (rest - 5 * fives) / 4;
    let (eleven, zero) = (b"11 0\n".repeat(fives), b"0 0\n".repeat(fours));
    let whole = [&beginning, &eleven, &zero, end].concat();
    assert_eq!(whole.len(), length);
    // Four lines are before the entries.
    (whole, 4 + fives + fours + ends(end))
}

/// How many lines end in a text.
fn ends(text: &[u8]) -> usize {
    text.iter().filter(|&&byte| byte == b'\n').count()
}

/// Texts that end just before so many bytes, there, and just behind, with the
/// entry that decides at their end.
#[test]
fn texts_that_end_at_a_power_of_two() {
    let beginning = text(&two_digits(), &[(11, 0), (0, 0)]);
    let accepted = reference::filing_program(&[&beginning[..], b"1 7\n"].concat());
    // y, which is register 6, gains digit 0 by 0 and digit 1 by 7.
    assert!(accepted.ends_with(b"\n1 6 0 0\n1 6 1 7\n"));
    for power in [10, 16, 17, 20] {
        for length in (1 << power) - 5..=(1 << power) + 5 {
            let (text, _) = text_of(length, b"1 7\n");
            printed(&text, &accepted);
        }
        for length in (1 << power) - 1..=(1 << power) + 1 {
            // Entry 12 has the digits 1 1, and so the value 7.
            let (text, lines) = text_of(length, b"1 7\n12 8\n");
            printed(&text, &refusal(9, lines));
            let (text, lines) = text_of(length, b"1 7\n12 7");
            printed(&text, &refusal(13, lines + 1));
        }
    }
}
