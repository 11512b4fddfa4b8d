//! Benchmarks: the library beside the reference, filing also beside FLINT, and
//! the calls on a store beside those of a build before, where there is one. Prints
//! a page in Markdown; `run-bench` writes it to docs/BENCHMARKS.md. With a number,
//! only tables of at most so many entries are timed.
//!
//!     cargo run --release --example bench -- 256

mod alone;
mod before;
mod builds;
mod calls;
mod clock;
mod filing;
mod flint;
mod general;
mod moving;
mod plans;
mod reading;
mod recorded;
mod settling;
mod timing;

use before::Builds;
use celerycrag::Plan;
use flint::Flint;
use timing::shown;

/// The processor's name, where the system tells it.
fn processor() -> String {
    let text = std::fs::read_to_string("/proc/cpuinfo").unwrap_or_default();
    let line = text.lines().find(|line| line.starts_with("model name"));
    match line.and_then(|line| line.split(':').nth(1)) {
        Some(name) => name.trim().to_string(),
        None => "an unknown processor".to_string(),
    }
}

/// A line of the table of single calls: library, then reference.
fn call_line(call: &str, plan: &Plan, least: &[f64]) -> String {
    let (columns, p) = (plan.columns(), plan.shape().p);
    let (library, reference) = (least[0], least[1]);
    format!(
        "| {call} | {columns} | {p} | {} | {} | {:.1} |",
        shown(library),
        shown(reference),
        reference / library
    )
}

const INTRODUCTION: &str = "\
All figures come from one run of `rust/run-bench`, one thread, built for release. \
Each is the least of 5 to 50 rounds in which the contenders take turns, in \
processor time, so that other work on the machine counts little; still the ratios \
are steadier than the times. Each round calls its contenders at another depth of the \
stack, 16 of which cover a page, because where the stack lies can change short \
times. Plans are \
random, all digits of radix 2, but for the one of 744 entries: its radices are 12, \
31 and 2, a month, a day and a bit. The table filed is that of the first link, so \
that every entry is kept. The reference is `rust/reference`, a naive twin that is made to be \
read and not to be fast: it turns every store that it is lent into C rows of C + 1 numbers. \
Both check everything they are lent on every call.

## Filing a whole table

One entry at a time through `celery_file`, each call with all its checks: the \
plan, the whole store, the entry, the value. The store is cleared before the time \
starts. With more than 256 entries the reference is timed on 32 of them, evenly spaced, \
each on the store that the library had left there, and the sum is scaled. FLINT's \
`nmod_mat_rref` reduces the same matrix (rows with their values) in one batch, \
without checks, its input already in place; its reduced rows are compared with \
the library's store and are the same. *New* is the number of entries that added a \
row.
";

fn main() {
    let most = std::env::args().nth(1).and_then(|text| text.parse().ok());
    let most: usize = most.unwrap_or(usize::MAX);
    let mut flint = Flint::start();
    println!("# Benchmarks\n\nOn: {}.\n\n{INTRODUCTION}", processor());
    println!(
        "| entries | C | p | New | library | an entry | reference | times | FLINT | of FLINT |"
    );
    println!("|---|---|---|---|---|---|---|---|---|---|");
    let cases = plans::cases(most);
    let mut stores = Vec::new();
    for case in &cases {
        let (line, store) = filing::line(case, &mut flint);
        println!("{line}");
        stores.push(store);
    }
    if flint.is_none() {
        println!("\nFLINT was not there on this run.");
    }
    println!(
        "\n*Times* is the reference's time by the library's, *of FLINT* the library's by FLINT's."
    );

    println!("\n## Single calls\n");
    println!("The store is that of the whole table; a row is the mean over all entries; \
        the run is that of the written program, its time by its number of steps, its checks among it.\n");
    println!("| call | C | p | library | reference | times |");
    println!("|---|---|---|---|---|---|");
    type Line = fn(&celerycrag::Store) -> String;
    let lines: [Line; 4] = [
        calls::test_line,
        |store| calls::row_line(store.plan()),
        calls::write_line,
        calls::run_line,
    ];
    for line in lines {
        for store in &stores {
            println!("{}", line(store));
        }
    }

    let builds = Builds::open();
    println!("\n## The store test alone\n\n{}", alone::INTRODUCTION);
    for line in alone::lines(most, builds.as_ref()) {
        println!("{line}");
    }

    println!("\n## Moving\n\n{}", moving::INTRODUCTION);
    for line in stores.iter().flat_map(moving::lines) {
        println!("{line}");
    }

    println!("\n## Settling\n\n{}", settling::INTRODUCTION);
    for line in [settling::free_line, settling::forced_line] {
        for (case, store) in cases.iter().zip(&stores) {
            println!("{}", line(case, store));
        }
    }

    println!("\n## Records\n\n{}", recorded::INTRODUCTION);
    for line in [recorded::file_line, recorded::withdraw_line] {
        for case in &cases {
            println!("{}", line(case));
        }
    }

    println!("\n## General plans\n\n{}", general::INTRODUCTION);
    for plan in general::plans(most) {
        println!("{}", general::line(&plan));
    }

    println!("\n## Reading back\n\n{}", reading::INTRODUCTION);
    for (plan, beta) in reading::programs(&stores) {
        println!("{}", reading::line(&plan, &beta));
    }

    if let Some(builds) = builds {
        println!(
            "\n## The calls on a store beside the landing before\n\n{}",
            before::INTRODUCTION
        );
        for (case, store) in cases.iter().zip(&stores) {
            for line in builds.lines(case, store) {
                println!("{line}");
            }
        }
    }
}
