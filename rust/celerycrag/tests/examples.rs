//! The plan texts of examples/ through the wrapper: each files its whole
//! table, its program is the listing that is kept beside it, and the
//! coefficients are read back from both. Then which of the plans suit every
//! other table too.

use celerycrag::{Plan, Program, Shape, Store};
use std::fs;
use std::path::{Path, PathBuf};

const DIRECTORY: &str = concat!(env!("CARGO_MANIFEST_DIR"), "/../../examples");

/// A line of a text that is known to be good.
fn numbers(line: &str) -> Vec<usize> {
    let number = |word: &str| word.parse().expect("a number");
    line.split(' ').map(number).collect()
}

/// Lines of radices or residues, one after another.
fn bytes<'a>(lines: impl Iterator<Item = &'a str>) -> Vec<u8> {
    lines.flat_map(numbers).map(|x| x as u8).collect()
}

/// The plan of a text, given its lines, and the lines behind it.
fn plan_of<'a>(lines: &'a [&'a str]) -> (Plan, &'a [&'a str]) {
    let values = numbers(lines[1]);
    let [p, s, n, m, t] = values[..].try_into().expect("five numbers");
    let (links, rest) = lines[3..].split_at(2 * m);
    let (products, entries) = rest.split_at(t);
    let plan = Plan::new(
        Shape { p, s, n, m, t },
        bytes([lines[2]].into_iter()),
        bytes(links.iter().copied().step_by(2)),
        bytes(links.iter().copied().skip(1).step_by(2)),
        bytes(products.iter().copied()),
    );
    (plan.expect("a plan"), entries)
}

/// What the filing program prints for a plan text.
fn listing(text: &str) -> String {
    let lines: Vec<&str> = text.lines().collect();
    let (plan, entries) = plan_of(&lines);
    let Shape { m, t, .. } = plan.shape();

    let mut store = Store::new(&plan);
    let table: Vec<Vec<usize>> = entries[1..].iter().map(|line| numbers(line)).collect();
    for pair in &table {
        store.file(pair[0], pair[1]).expect("an entry kept");
    }
    let beta = store.coefficients().expect("coefficients");
    let program = Program::write(&plan, &beta).expect("a program");
    for pair in &table {
        let digits = plan.digits(pair[0]).expect("digits");
        let ran = program.run(&digits).expect("a run");
        assert_eq!((ran.y as usize, ran.bootstraps), (pair[1], m + 2 * t));
    }

    let worst = plan.worst_norm(&beta).expect("a norm");
    let mut out = format!(
        "bootstraps steps worst\n{} {} {worst}\nkind to from by\n",
        plan.bootstraps(),
        program.steps().len()
    );
    for step in program.numbers().chunks(4) {
        out += &format!("{} {} {} {}\n", step[0], step[1], step[2], step[3]);
    }
    assert_eq!(plan.read_steps(program.numbers()).as_ref(), Ok(&beta));
    assert_eq!(plan.read_listing(out.as_bytes()).as_ref(), Ok(&beta));
    out
}

/// Every text with its name and the listing beside it.
fn examples() -> Vec<(String, String, String)> {
    let files = fs::read_dir(DIRECTORY).expect("examples/");
    let paths = files.map(|file| file.expect("a file").path());
    let read = |path: &Path| fs::read_to_string(path).expect("a text");
    let texts = paths.filter(|path| path.extension() == Some("txt".as_ref()));
    let example = |path: PathBuf| {
        let name = path.file_stem().expect("a name").to_string_lossy();
        let out = read(&path.with_extension("out"));
        (name.into_owned(), read(&path), out)
    };
    let examples: Vec<_> = texts.map(example).collect();
    assert!(examples.len() >= 17, "only {} examples", examples.len());
    examples
}

#[test]
fn every_example_gives_its_listing() {
    for (name, text, out) in examples() {
        assert_eq!(listing(&text), out, "{name}");
    }
}

/// The plan of AES was drawn in a shape with room for all its entries, and suits
/// every table. XOR's has room too, but no link. All others were made for their
/// tables, and have more entries than can be new.
#[test]
fn which_plans_suit_every_table() {
    for (name, text, _) in examples() {
        let lines: Vec<&str> = text.lines().collect();
        let (plan, _) = plan_of(&lines);
        let aes = name.starts_with("aes");
        assert_eq!(plan.is_general(), Ok(aes), "{name}");
        let room = plan.entries() <= plan.most_new();
        assert_eq!(room, aes || name == "xor", "{name}");
    }
}
