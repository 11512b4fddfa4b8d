//! The filing program against the reference: the same bytes printed for texts
//! in order and not, however the text comes in; and what it prints is read back.

mod common;
use celerycrag::raw;
use common::lots::pairs;
use common::plans::{outline, Owned};
use common::program::prints;
use common::random::{cases, Random};
use common::tally::Tally;
use common::texts::{radices, spoil, text};
use common::twins;
use std::collections::BTreeSet;
use std::fs;
use std::path::{Path, PathBuf};

const ROOT: &str = concat!(env!("CARGO_MANIFEST_DIR"), "/../..");
/// The refusals that a text can meet.
const CAUSES: [(&str, &[u8]); 1] = [("filing", &[1, 2, 3, 5, 7, 8, 9, 13, 14])];
/// Shapes p s n m t of about as many columns as a text may have, 360, with s for
/// every radix.
const LARGEST: [[usize; 5]; 9] = [
    [3, 2, 2, 18, 17],
    [251, 251, 1, 39, 8],
    [17, 16, 3, 15, 19],
    [251, 2, 12, 0, 29],
    [127, 64, 2, 58, 5],
    [5, 2, 10, 0, 32],
    [251, 2, 1, 63, 4],
    [17, 16, 2, 30, 8],
    [3, 2, 2, 62, 3],
];
/// Shapes of more columns: 361, 363, 384 and 1,024.
const LARGER: [[usize; 5]; 4] = [
    [3, 2, 2, 17, 18],
    [5, 2, 11, 0, 32],
    [251, 2, 2, 62, 5],
    [251, 2, 12, 52, 15],
];
/// The same with their radices, up to 4,096 entries and beyond.
const MIXED: [([usize; 5], &[u8]); 6] = [
    ([31, 2, 3, 57, 5], &[12, 31, 2]),
    ([31, 2, 3, 60, 3], &[12, 31, 2]),
    ([251, 251, 2, 49, 4], &[16, 251]),
    ([67, 3, 2, 49, 4], &[63, 65]),
    ([241, 3, 2, 49, 4], &[17, 241]),
    ([3, 3, 11, 6, 14], &[2, 2, 2, 2, 2, 3, 2, 2, 2, 2, 2]),
];

/// That the program prints what the reference does for a text that comes in
/// these pieces; what that is.
fn agree(pieces: &[&[u8]], tally: &mut Tally) -> Vec<u8> {
    let text = pieces.concat();
    let expected = reference::filing_program(&text);
    let printed = prints(pieces);
    assert!(
        printed == expected,
        "text: {}\nprogram: {}\nreference: {}",
        text.escape_ascii(),
        printed.escape_ascii(),
        expected.escape_ascii()
    );
    tally.add("filing", refusal(&expected).0);
    printed
}

/// The number and the line of the refusal that is printed, or 0 and 0.
fn refusal(printed: &[u8]) -> (u8, u64) {
    let printed = String::from_utf8_lossy(printed);
    let words = printed.strip_prefix("refusal line\n");
    words.map_or((0, 0), |words| {
        let (number, line) = words.trim_end().split_once(' ').expect("two words");
        (
            number.parse().expect("a number"),
            line.parse().expect("a line"),
        )
    })
}

/// The text of a random plan with some of its entries, perhaps repeated.
fn some_text(random: &mut Random, plan: Owned, most_entries: usize) -> Vec<u8> {
    let plan = plan.drawn(random);
    let count = random.below(most_entries + 1);
    let entries: Vec<usize> = (0..count).map(|_| random.below(plan.entries())).collect();
    text(&plan, &pairs(random, &plan, entries))
}

/// The text of a small plan.
fn small_text(random: &mut Random) -> Vec<u8> {
    let most_columns = random.pick(&[6, 12, 30]);
    let plan = outline(random, most_columns);
    some_text(random, plan, 20)
}

#[test]
fn texts_in_order() {
    let mut tally = Tally::default();
    cases("texts in order", 100, |random| {
        agree(&[&small_text(random)], &mut tally);
    });
}

#[test]
fn spoiled_texts() {
    let mut tally = Tally::default();
    cases("spoiled texts", 250, |random| {
        let mut text = small_text(random);
        for _ in 0..random.pick(&[1, 1, 1, 2, 3]) {
            spoil(random, &mut text);
        }
        agree(&[&text], &mut tally);
    });
    tally.complete(&CAUSES, 2_000);
}

#[test]
fn lines_of_radices() {
    let mut tally = Tally::default();
    let mut met = BTreeSet::new();
    cases("lines of radices", 100, |random| {
        let mut text = small_text(random);
        radices(random, &mut text);
        let printed = agree(&[&text], &mut tally);
        met.insert(refusal(&printed));
    });
    if tally.total() >= 500 {
        for answer in [(0, 0), (2, 3), (3, 3), (13, 3)] {
            assert!(met.contains(&answer), "{answer:?} was never printed");
        }
    }
}

/// What the program prints is read back: to the coefficients of the store that
/// the library files the same entries in.
#[test]
fn what_is_printed_is_read_back() {
    let mut tally = Tally::default();
    cases("what is printed is read back", 50, |random| {
        let plan = if random.one_in(20) {
            Owned::zeros(random.pick(&LARGEST))
        } else {
            outline(random, 30)
        };
        let plan = plan.drawn(random);
        let entries: Vec<usize> = (0..10).map(|_| random.below(plan.entries())).collect();
        let mut store = plan.empty_store();
        let mut kept = pairs(random, &plan, entries);
        kept.retain(|&(entry, value)| {
            raw::file(plan.lent(), &mut store, entry, value, &mut 0) == 0
        });
        let printed = prints(&[&text(&plan, &kept)]);
        let (mut beta, mut back) = (vec![0; plan.columns()], vec![255; plan.columns()]);
        assert_eq!(raw::coefficients(plan.lent(), &store, &mut beta), 0);
        let answer = twins::read_listing(&plan, &printed, &mut back, &mut tally);
        assert_eq!((answer, back), (Ok(()), beta));
    });
}

#[test]
fn texts_in_pieces() {
    let mut tally = Tally::default();
    cases("texts in pieces", 20, |random| {
        let mut text = small_text(random);
        if random.one_in(2) {
            spoil(random, &mut text);
        }
        let most = random.pick(&[1, 4, 30, 200]);
        let (mut pieces, mut rest) = (Vec::new(), &text[..]);
        while !rest.is_empty() {
            let (piece, after) = rest.split_at(random.within(1, most).min(rest.len()));
            pieces.push(piece);
            rest = after;
        }
        agree(&pieces, &mut tally);
    });
}

#[test]
fn the_largest_shapes() {
    let mut tally = Tally::default();
    cases("the largest texts", 4, |random| {
        let plan = match random.below(5) {
            0 => Owned::zeros(random.pick(&LARGER)),
            1 | 2 => Owned::zeros(random.pick(&LARGEST)),
            _ => {
                let (shape, radices) = random.pick(&MIXED);
                Owned::zeros(shape).with_radices(radices)
            }
        };
        let mut text = some_text(random, plan, 6);
        if random.one_in(3) {
            spoil(random, &mut text);
        }
        agree(&[&text], &mut tally);
    });
}

/// A text of so many columns is accepted up to 360, and refused with 14 on line 2
/// above, whatever the shape. No plan has 362 columns.
#[test]
fn the_most_columns() {
    let (mut random, mut tally) = (Random::new(19, 0), Tally::default());
    let most = LARGEST.map(|shape| Owned::zeros(shape).columns());
    assert_eq!(most, [360, 360, 360, 360, 360, 330, 320, 288, 256]);
    for shape in LARGEST {
        let text = some_text(&mut random, Owned::zeros(shape), 0);
        let printed = agree(&[&text], &mut tally);
        assert_eq!(refusal(&printed), (0, 0), "{shape:?}");
        let text = some_text(&mut random, Owned::zeros(shape), 6);
        agree(&[&text], &mut tally);
    }
    for shape in LARGER {
        let text = some_text(&mut random, Owned::zeros(shape), 6);
        let printed = agree(&[&text], &mut tally);
        assert_eq!(refusal(&printed), (14, 2), "{shape:?}");
    }
    // Every number of columns near the limit that a plan can have, its values
    // line alone: then line 3 is missing.
    for (products, variables) in (0..=32).flat_map(|t| (1..=64).map(move |l| (t, l))) {
        let columns = (products + 1) * variables;
        if (250..=400).contains(&columns) {
            let text = format!("p s n links products\n3 2 1 {} {products}\n", variables - 1);
            let printed = agree(&[text.as_bytes()], &mut tally);
            let expected = if columns <= 360 { (13, 3) } else { (14, 2) };
            assert_eq!(refusal(&printed), expected, "C = {columns}");
        }
    }
}

/// A store full of rows at the limit: every entry of a table of 256 values filed
/// under 360 columns, and what is printed read back.
#[test]
fn a_whole_table_of_360_columns() {
    let (mut random, mut tally) = (Random::new(20, 0), Tally::default());
    // Uniform residues, so that the rows of the entries are independent.
    let mut plan = Owned::zeros([17, 16, 2, 38, 8]);
    assert_eq!((plan.columns(), plan.entries()), (360, 256));
    for part in [&mut plan.weights, &mut plan.tables, &mut plan.d] {
        *part = random.bytes(part.len(), 17);
    }
    let mut store = plan.empty_store();
    let mut new = 0;
    let mut kept = pairs(&mut random, &plan, 0..256);
    kept.retain(|&(entry, value)| {
        let mut column = 0;
        let kept = raw::file(plan.lent(), &mut store, entry, value, &mut column) == 0;
        new += usize::from(kept && column < 360);
        kept
    });
    assert_eq!((kept.len(), new), (256, 256));
    let printed = agree(&[&text(&plan, &kept)], &mut tally);
    let (mut beta, mut back) = (vec![0; 360], vec![255; 360]);
    assert_eq!(raw::coefficients(plan.lent(), &store, &mut beta), 0);
    let answer = twins::read_listing(&plan, &printed, &mut back, &mut tally);
    assert_eq!((answer, back), (Ok(()), beta));
}

/// The worst norm with seven digits, 64 weights of 125 or 126 in d, and with
/// weights of p - 1, which count as -1 and are printed as they are.
#[test]
fn worst_norms_up_to_the_largest() {
    let mut tally = Tally::default();
    for (weight, worst) in [(125, 1_000_000), (126, 1_000_000), (250, 64)] {
        let mut plan = Owned::zeros([251, 2, 1, 63, 1]);
        plan.d.fill(weight);
        let printed = agree(&[&text(&plan, &[])], &mut tally);
        let printed = String::from_utf8(printed).expect("a text");
        let figures = format!("bootstraps steps worst\n65 2347 {worst}\n");
        assert!(printed.starts_with(&figures), "{weight}");
        // v is register 65, and gains every variable by the weight in d.
        assert!(printed.contains(&format!("\n1 65 63 {weight}\n")));
    }
}

#[test]
fn every_beginning_and_every_missing_byte() {
    let xor = text(&Owned::xor(), &[(0, 0), (1, 1), (2, 1), (3, 0)]);
    let mut tally = Tally::default();
    for place in 0..xor.len() {
        agree(&[&xor[..place]], &mut tally);
        agree(&[&xor[..place], &xor[place + 1..]], &mut tally);
    }
}

#[test]
fn a_long_text() {
    let kept = [(0, 0), (1, 1), (2, 1), (3, 0)];
    let many: Vec<(usize, usize)> = (0..200_000).map(|k| kept[k % 4]).collect();
    let long = text(&Owned::xor(), &many);
    let mut tally = Tally::default();
    let printed = agree(&[&long], &mut tally);
    assert_eq!(printed, prints(&[&text(&Owned::xor(), &kept)]));
    let refused = agree(&[&long, b"2 0\n"], &mut tally);
    assert_eq!(refused, b"refusal line\n9 200006\n");
}

/// The plan texts in a directory.
fn texts_in(directory: &Path) -> Vec<PathBuf> {
    let files = fs::read_dir(directory).expect("a directory");
    let paths = files.map(|file| file.expect("a file").path());
    paths
        .filter(|path| path.extension() == Some("txt".as_ref()))
        .collect()
}

#[test]
fn the_texts_that_are_kept() {
    let examples = Path::new(ROOT).join("examples");
    let texts = [texts_in(&examples), texts_in(&examples.join("refusals"))].concat();
    assert!(texts.len() >= 100, "only {} texts", texts.len());
    let mut tally = Tally::default();
    for path in texts {
        let read = |path: &Path| fs::read(path).expect("a file");
        let (text, out) = (read(&path), read(&path.with_extension("out")));
        assert!(agree(&[&text], &mut tally) == out, "{}", path.display());
    }
    tally.complete(&CAUSES, 0);
}
