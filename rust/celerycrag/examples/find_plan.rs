//! Finds a plan for a table: draws plans of one shape at random until the
//! whole table files without contradiction, and prints the plan text with all
//! entries, as the filing program reads it.
//!
//!     find_plan [-r radix,radix,..] p s n m t seed [value ...]
//!     find_plan -g [-r radix,radix,..] p s n m t seed
//!
//! The radices are those of the n digits, the most significant first, with a
//! comma between; where none are given, each is s. The values, below s, are
//! those of all entries in order, as many as the product of the radices. Where
//! none are given as arguments, they are read from standard input, with any
//! white space between. Weights and d rows are drawn uniformly, link tables
//! uniformly among those that are not affine. The same seed finds the same plan.
//! The seed and the number of plans drawn are printed on standard error.
//!
//! With -g there is no table: a plan is drawn that is general, which suits every
//! table, and its text is printed without entries. They can be written behind it
//! later, in any order and with any values.
//!
//! The search goes on until it finds a plan. No plan of a shape is general where
//! there are more entries than can be new (`Plan::most_new`). Then a table has to
//! fit the plan by chance, or by what it has in common with it, and each entry too
//! many makes a fitting plan about p times rarer; it is said on standard error
//! before the first plan is drawn. With -g there is then nothing to look for, and
//! nothing with no links, where entry 0 can only be 0.
//!
//!     echo 0 1 1 0 | cargo run --release --example find_plan -- 3 2 2 0 1 1
//!
//! A month of 12 and a bit, with the days of the month beyond 28 in a common
//! year and in a leap year:
//!
//!     cargo run --release --example find_plan -- -r 12,2 13 4 2 6 2 1 \
//!         3 3  0 1  3 3  2 2  3 3  2 2  3 3  3 3  2 2  3 3  2 2  3 3
//!
//! A plan for any table of these 24 entries, with a product more:
//!
//!     cargo run --release --example find_plan -- -g -r 12,2 13 4 2 6 3 1

use celerycrag::{Plan, Shape, Store};
use reference::random::SplitMix;
use std::io::Read;
use std::process::exit;

const USAGE: &str = "find_plan [-r radix,radix,..] p s n m t seed [value ...]\n\
    find_plan -g [-r radix,radix,..] p s n m t seed";
/// The most columns of a plan text.
const COLUMNS: usize = 360;

/// Draws from a generator.
struct Random(SplitMix);

impl Random {
    /// A residue modulo p, each as likely as any other.
    fn residue(&mut self, p: usize) -> u8 {
        let p = p as u64;
        loop {
            let x = self.0.bits();
            if x < u64::MAX - u64::MAX % p {
                return (x % p) as u8;
            }
        }
    }

    fn residues(&mut self, p: usize, count: usize) -> Vec<u8> {
        (0..count).map(|_| self.residue(p)).collect()
    }

    /// A link table that is not affine.
    fn table(&mut self, p: usize) -> Vec<u8> {
        loop {
            let table = self.residues(p, p);
            if !is_affine(p, &table) {
                return table;
            }
        }
    }
}

/// Whether every value is the first plus a multiple of its place.
fn is_affine(p: usize, table: &[u8]) -> bool {
    let [first, second] = [table[0] as usize, table[1] as usize];
    let slope = p + second - first;
    (0..p)
        .zip(table)
        .all(|(z, &value)| (first + slope * z) % p == value as usize)
}

/// Draws a plan of this shape and these radices, which were found to pass.
fn draw(random: &mut Random, shape: Shape, radices: &[u8]) -> Plan {
    let Shape { p, n, m, t, .. } = shape;
    let (mut weights, mut tables) = (Vec::new(), Vec::new());
    for k in 0..m {
        weights.extend(random.residues(p, n + k));
        tables.extend(random.table(p));
    }
    let d = random.residues(p, t * (n + m));
    let drawn = Plan::new(shape, radices.to_vec(), weights, tables, d);
    drawn.unwrap_or_else(|refusal| give_up(&refusal.to_string()))
}

/// Whether every table of the plan files without contradiction.
fn is_general(plan: &Plan) -> bool {
    let answer = plan.is_general();
    answer.unwrap_or_else(|refusal| give_up(&refusal.to_string()))
}

/// Whether the whole table files without contradiction.
fn files(plan: &Plan, values: &[usize]) -> bool {
    let mut store = Store::new(plan);
    let mut table = values.iter().enumerate();
    table.all(|(entry, &value)| store.file(entry, value).is_ok())
}

/// Prints the plan text with all entries.
fn print(plan: &Plan, values: &[usize]) {
    let Shape { p, s, n, m, t } = plan.shape();
    println!("p s n links products\n{p} {s} {n} {m} {t}");
    print_line(plan.radices());
    let mut weights = plan.weights().iter();
    for (k, table) in plan.tables().chunks(p).enumerate() {
        print_line(weights.by_ref().take(n + k));
        print_line(table);
    }
    for row in plan.d().chunks(n + m) {
        print_line(row);
    }
    println!("entry value");
    for (entry, value) in values.iter().enumerate() {
        println!("{entry} {value}");
    }
}

/// Prints numbers with one space between.
fn print_line<'a>(numbers: impl IntoIterator<Item = &'a u8>) {
    let words: Vec<String> = numbers.into_iter().map(u8::to_string).collect();
    println!("{}", words.join(" "));
}

/// Ends with a message on standard error.
fn give_up(message: &str) -> ! {
    eprintln!("{message}");
    exit(1)
}

/// Takes -g off the arguments, where it is given.
fn take_general(arguments: &mut Vec<String>) -> bool {
    let given = arguments.first().map(String::as_str) == Some("-g");
    arguments.drain(..usize::from(given));
    given
}

/// Takes the radices off the arguments, where they are given.
fn take_radices(arguments: &mut Vec<String>) -> Option<Vec<usize>> {
    if arguments.first().map(String::as_str) != Some("-r") {
        return None;
    }
    if arguments.len() < 2 {
        give_up(USAGE);
    }
    let list = numbers(arguments[1].split(','));
    arguments.drain(..2);
    Some(list)
}

/// The words as numbers.
fn numbers<'a>(words: impl Iterator<Item = &'a str>) -> Vec<usize> {
    let number = |word: &str| word.parse().unwrap_or_else(|_| give_up("not a number"));
    words.map(number).collect()
}

/// Gives up where there is no plan text of the shape and the radices.
fn check_shape(shape: Shape, radices: &[u8]) {
    // With no other part given, numbers and radices that pass are accepted or
    // refused for the length of a part, which is 4.
    if let Err(refusal) = Plan::new(shape, radices.to_vec(), vec![], vec![], vec![]) {
        if refusal.number() < 4 {
            give_up(&format!("the shape is {refusal}"));
        }
    }
    let Shape { n, m, t, .. } = shape;
    if radices.len() != n {
        give_up("there are not n radices");
    }
    if (t + 1) * (n + m) > COLUMNS {
        give_up(&format!("the shape has more than {COLUMNS} columns"));
    }
}

/// Gives up where no plan of the shape can file the table of so many entries.
fn check_values(shape: Shape, entries: usize, values: &[usize]) {
    if values.len() != entries {
        give_up(&format!(
            "there are {entries} entries and not as many values"
        ));
    }
    if values.iter().any(|&value| value >= shape.s) {
        give_up("a value is not below s");
    }
    if shape.m == 0 && values[0] != 0 {
        give_up("with no links, entry 0 can only be 0");
    }
}

/// How many entries a plan of this shape and these radices has, and how many of
/// them can be new at most: those of one whose residues are all zero.
fn sizes(shape: Shape, radices: &[u8]) -> (usize, usize) {
    let Shape { p, n, m, t, .. } = shape;
    let weights = vec![0; (0..m).map(|k| n + k).sum()];
    let (tables, d) = (vec![0; m * p], vec![0; t * (n + m)]);
    match Plan::new(shape, radices.to_vec(), weights, tables, d) {
        Ok(plan) => (plan.entries(), plan.most_new()),
        Err(refusal) => give_up(&refusal.to_string()),
    }
}

fn main() {
    let mut arguments: Vec<String> = std::env::args().skip(1).collect();
    let general = take_general(&mut arguments);
    let radices = take_radices(&mut arguments);
    let mut given = numbers(arguments.iter().map(String::as_str));
    if given.len() < 6 || general && given.len() > 6 {
        give_up(USAGE);
    }
    let mut values = given.split_off(6);
    let [p, s, n, m, t, seed] = given[..].try_into().expect("six numbers are left");
    let shape = Shape { p, s, n, m, t };
    // As in Plan::with_radix: what is no byte is above p, and 65 digits are too
    // many.
    let radices = radices.unwrap_or_else(|| vec![s; n.min(65)]);
    let byte = |radix: usize| u8::try_from(radix).unwrap_or(u8::MAX);
    let radices: Vec<u8> = radices.into_iter().map(byte).collect();
    if values.is_empty() && !general {
        let mut text = String::new();
        if std::io::stdin().read_to_string(&mut text).is_err() {
            give_up("standard input is no text");
        }
        values = numbers(text.split_whitespace());
    }
    check_shape(shape, &radices);
    let (entries, most) = sizes(shape, &radices);
    if !general {
        check_values(shape, entries, &values);
    } else if m == 0 {
        give_up("with no links, entry 0 can only be 0: no plan is general");
    }
    if entries > most {
        let none = format!(
            "no plan of this shape is general: of its {entries} entries at most {most} can be new"
        );
        if general {
            give_up(&none);
        }
        let missing = entries - most;
        eprintln!("{none}; a table without structure fits about one plan in {p}^{missing}");
    }

    eprintln!("seed {seed}");
    let mut random = Random(SplitMix(seed as u64));
    for draws in 1u64.. {
        let plan = draw(&mut random, shape, &radices);
        let found = match general {
            true => is_general(&plan),
            false => files(&plan, &values),
        };
        if found {
            eprintln!("draws {draws}");
            print(&plan, &values);
            return;
        }
    }
}
