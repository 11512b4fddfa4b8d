//! Whether plans are general, beside the filing of the same entries one at a time,
//! and beside the reference.

use crate::calls::numbers;
use crate::timing::{calls, nanoseconds, race, rounds, shown, Contender};
use celerycrag::{raw, Plan, Shape, Store};
use reference::random::SplitMix;
use reference::General;
use std::hint::black_box;

/// With more entries than this, the reference would take long and is left out.
const WHOLE: usize = 256;

/// What stands above the table.
pub const INTRODUCTION: &str = "\
Whether a plan suits every table, through `celery_general`: each entry is filed with \
the value 0 in a work store, which the call clears before and after, up to the first \
that is not new. *Can be new* is how many entries can be, at most, under a plan with as \
many variables and products. The plans are drawn until one is general, with as many \
entries as can be new or, with C = 1,024, one fewer; the last has more entries than can \
be new, and none of them is filed. *Filing* is that of the same entries with the value \
0, one at a time through `celery_file` with all its checks, up to the first that is not \
new; its store is cleared before the time starts. The reference is left out for more \
than 256 entries. All three answer the same.

| general | C | p | entries | can be new | library | an entry | filing | of filing | reference | times |
|---|---|---|---|---|---|---|---|---|---|---|";

/// A random plan with these radices. No table of a link is affine: its second
/// difference at 0 is not zero.
fn draw(random: &mut SplitMix, p: usize, radices: &[u8], m: usize, t: usize) -> Plan {
    let n = radices.len();
    let mut residues = |count: usize| -> Vec<u8> {
        let residue = |_| (random.bits() % p as u64) as u8;
        (0..count).map(residue).collect()
    };
    let mut tables = Vec::new();
    while tables.len() < m * p {
        let table = residues(p);
        let [first, second, third] = [0, 1, 2].map(|z| table[z] as usize);
        if (first + third) % p != 2 * second % p {
            tables.extend(table);
        }
    }
    let (weights, d) = (residues((0..m).map(|k| n + k).sum()), residues(t * (n + m)));
    let shape = Shape { p, s: 2, n, m, t };
    Plan::new(shape, radices.to_vec(), weights, tables, d).expect("a plan")
}

/// Plans of 64 variables: with 64 entries and C = 64, 253 and C = 256, 918 and
/// C = 1,024, all general; and with 4,096 entries, which cannot be. Of these, the
/// ones with at most so many entries.
pub fn plans(most: usize) -> Vec<Plan> {
    let bits = [2; 12];
    let shapes: [(&[usize], &[u8], usize, usize); 4] = [
        (&[3, 17, 251], &bits[..6], 58, 0),
        (&[31, 251], &[11, 23], 62, 3),
        (&[43, 251], &[27, 34], 62, 15),
        (&[251], &bits, 52, 15),
    ];
    let mut plans = Vec::new();
    for (primes, radices, m, t) in shapes {
        for &p in primes {
            let random = &mut SplitMix((p * radices.len()) as u64);
            let plan = loop {
                let plan = draw(random, p, radices, m, t);
                let hopeless = plan.entries() > plan.most_new();
                if hopeless || plan.is_general() == Ok(true) {
                    break plan;
                }
            };
            if plan.entries() <= most {
                plans.push(plan);
            }
        }
    }
    plans
}

/// Files the entries with the value 0 in a store that is all zeros, up to the
/// first that is not new: how many were.
fn by_filing(plan: &Plan, store: &mut [u8]) -> usize {
    let columns = plan.columns();
    let is_new = |&entry: &usize| {
        let mut column = columns;
        raw::file(plan.lent(), store, entry, 0, &mut column);
        column < columns
    };
    (0..plan.entries()).take_while(is_new).count()
}

/// What the reference answers.
fn by_reference(plan: &Plan, work: &mut [u8]) -> bool {
    let [p, s, n, m, t] = numbers(plan);
    let (radices, weights) = (plan.radices(), plan.weights());
    let (tables, d) = (plan.tables(), plan.d());
    let answer = reference::general(p, s, n, m, t, radices, weights, tables, d, work);
    answer == General::Yes
}

/// A line of the table.
pub fn line(plan: &Plan) -> String {
    let (entries, most) = (plan.entries(), plan.most_new());
    let yes = plan.is_general().expect("an answer");
    let [mut work, mut store, mut other] = [(); 3].map(|()| Store::new(plan).into_bytes());
    assert_eq!(by_filing(plan, &mut store) == entries, yes, "filed");

    let library = calls(1, || {
        let mut general = 9;
        let work = black_box(&mut work[..]);
        raw::general(plan.lent(), work, &mut general);
        assert_eq!(black_box(general), u8::from(yes));
    });
    let filing: Contender = Box::new(|| {
        store.fill(0);
        nanoseconds(|| {
            black_box(by_filing(plan, black_box(&mut store)));
        })
    });
    let mut contenders = vec![library, filing];
    if entries <= WHOLE {
        contenders.push(calls(1, || {
            let answer = by_reference(plan, black_box(&mut other[..]));
            assert_eq!(black_box(answer), yes);
        }));
    }
    let least = race(rounds(entries), contenders);

    let (library, filing) = (least[0], least[1]);
    let reference = match least.get(2) {
        Some(&reference) => format!("{} | {:.1}", shown(reference), reference / library),
        None => "– | –".to_string(),
    };
    let an_entry = match yes {
        true => shown(library / entries as f64),
        false => "–".to_string(),
    };
    format!(
        "| {} | {} | {} | {entries} | {most} | {} | {an_entry} | {} | {:.2} | {reference} |",
        if yes { "yes" } else { "no" },
        plan.columns(),
        plan.shape().p,
        shown(library),
        shown(filing),
        library / filing,
    )
}
