//! The calls on a store of the library beside those of another build, of the
//! landing before: each build is lent the same store in its own layout.

use crate::builds::Build;
use crate::plans::Case;
use crate::settling::{first_tenth, free_entries};
use crate::timing::{calls, least, mean, nanoseconds, race_by_depth, shown, Contender, DEPTHS};
use celerycrag::{Filed, Plan, Store};
use std::hint::black_box;

/// Of the entries asked of a store, at most so many, evenly spaced.
const PART: usize = 256;

/// Rounds at each depth of the stack for a plan of so many entries.
fn rounds(entries: usize) -> usize {
    if entries <= PART {
        5
    } else {
        2
    }
}

/// The build before, and the library.
pub struct Builds([Build; 2]);

/// What is timed: its name, how many entries the store was made of, and the
/// contenders, the build before first.
type Race<'a> = (&'static str, usize, Vec<Contender<'a>>);

/// Of these, at most PART, evenly spaced.
fn part(entries: Vec<usize>) -> Vec<usize> {
    let every = entries.len().div_ceil(PART).max(1);
    entries.into_iter().step_by(every).collect()
}

impl Builds {
    /// Both, where there is one before.
    pub fn open() -> Option<Builds> {
        let before = Build::open("CELERYCRAG_BEFORE")?;
        let library = Build::open("CELERYCRAG_LIBRARY");
        Some(Builds([before, library.expect("CELERYCRAG_LIBRARY")]))
    }

    /// The build before.
    pub fn before(&self) -> &Build {
        &self.0[0]
    }

    /// The library, linked as the build before is.
    pub fn library(&self) -> &Build {
        &self.0[1]
    }

    /// The lines of a plan, given the store of its whole table.
    pub fn lines(&self, case: &Case, full: &Store) -> Vec<String> {
        let (tenth, filed) = first_tenth(case);
        let empty = Store::new(&case.plan);
        let all = case.values.len();
        let free = part(
            free_entries(&tenth)
                .into_iter()
                .map(|(entry, _)| entry)
                .collect(),
        );
        let every = part((0..all).collect());
        let new = new_entries(case);
        let races = [
            ("test", 0, self.test(&empty)),
            ("test", filed, self.test(&tenth)),
            ("test", all, self.test(full)),
            ("coefficients", all, self.coefficients(full)),
            ("settle, free", filed, self.settle(&tenth, &free)),
            ("settle, forced", all, self.settle(full, &every)),
            ("file, new", 0, self.file_new(case, &new, full)),
            ("file, implied", all, self.file_implied(case, &every, full)),
        ];
        races.map(|race| line(&case.plan, rounds(all), race)).into()
    }

    /// The test of a store.
    fn test<'a>(&'a self, store: &'a Store) -> Vec<Contender<'a>> {
        let plan = store.plan();
        let contender = |build: &'a Build| {
            let bytes = build.bytes(store);
            assert_eq!(build.test(plan.lent(), &bytes), 0, "a store of filings");
            calls(1, move || {
                black_box(build.test(plan.lent(), black_box(&bytes)));
            })
        };
        self.0.iter().map(contender).collect()
    }

    /// The coefficients of a store, which have to be the same.
    fn coefficients<'a>(&'a self, store: &'a Store) -> Vec<Contender<'a>> {
        let plan = store.plan();
        let contender = |build: &'a Build| {
            let (bytes, mut beta) = (build.bytes(store), vec![0; plan.columns()]);
            assert_eq!(build.coefficients(plan.lent(), &bytes, &mut beta), 0);
            assert_eq!(store.coefficients().as_ref(), Ok(&beta), "coefficients");
            calls(1, move || {
                let beta = black_box(&mut beta[..]);
                black_box(build.coefficients(plan.lent(), black_box(&bytes), beta));
            })
        };
        self.0.iter().map(contender).collect()
    }

    /// Settling these entries, each reply the same.
    fn settle<'a>(&'a self, store: &'a Store, entries: &'a [usize]) -> Vec<Contender<'a>> {
        let plan = store.plan().lent();
        let replies = self.0.each_ref().map(|build| {
            let bytes = build.bytes(store);
            let reply = |&entry: &usize| build.settle(plan, &bytes, entry);
            entries.iter().map(reply).collect::<Vec<_>>()
        });
        assert!(replies[0] == replies[1], "the replies of two builds");
        let contender = |build: &'a Build| {
            let bytes = build.bytes(store);
            calls(entries.len(), move || {
                for &entry in entries {
                    black_box(build.settle(plan, black_box(&bytes), entry));
                }
            })
        };
        self.0.iter().map(contender).collect()
    }

    /// Filing these entries into a store that is cleared before the time starts:
    /// each is new, and the store at the end is this one.
    fn file_new<'a>(
        &'a self,
        case: &'a Case,
        new: &'a [usize],
        full: &'a Store,
    ) -> Vec<Contender<'a>> {
        let plan = &case.plan;
        let columns = plan.columns();
        let contender = |build: &'a Build| -> Contender<'a> {
            let mut bytes = build.bytes(&Store::new(plan));
            Box::new(move || {
                bytes.fill(0);
                let mut told = (0, 0);
                let time = nanoseconds(|| {
                    for &entry in new {
                        let store = black_box(&mut bytes[..]);
                        told = build.file(plan.lent(), store, entry, case.values[entry]);
                        assert!(told.0 == 0 && told.1 < columns, "entry {entry}");
                    }
                });
                assert!(build.store(plan, &bytes) == *full, "the store at the end");
                time / new.len() as f64
            })
        };
        self.0.iter().map(contender).collect()
    }

    /// Filing these entries once more, which the store implies.
    fn file_implied<'a>(
        &'a self,
        case: &'a Case,
        entries: &'a [usize],
        full: &'a Store,
    ) -> Vec<Contender<'a>> {
        let plan = case.plan.lent();
        let implied = (0, case.plan.columns());
        let contender = |build: &'a Build| {
            let mut bytes = build.bytes(full);
            calls(entries.len(), move || {
                for &entry in entries {
                    let store = black_box(&mut bytes[..]);
                    let told = build.file(plan, store, entry, case.values[entry]);
                    assert_eq!(told, implied, "entry {entry}");
                }
            })
        };
        self.0.iter().map(contender).collect()
    }
}

/// The entries that are new when the table is filed in order.
fn new_entries(case: &Case) -> Vec<usize> {
    let mut store = Store::new(&case.plan);
    let mut is_new = |&entry: &usize| {
        let filed = store.file(entry, case.values[entry]);
        matches!(filed, Ok(Filed::New { .. }))
    };
    (0..case.values.len())
        .filter(|entry| is_new(entry))
        .collect()
}

/// A line of the table.
fn line(plan: &Plan, rounds: usize, (call, filed, contenders): Race) -> String {
    let by_depth = race_by_depth(rounds * DEPTHS, contenders);
    let pair = |of: fn([f64; DEPTHS]) -> f64| {
        let (before, library) = (of(by_depth[0]), of(by_depth[1]));
        let times = library / before;
        format!("{} | {} | {times:.2}", shown(before), shown(library))
    };
    let (columns, p) = (plan.columns(), plan.shape().p);
    let (least, mean) = (pair(least), pair(mean));
    format!("| {call} | {columns} | {p} | {filed} | {least} | {mean} |")
}

/// What stands above the table.
pub const INTRODUCTION: &str = "\
The calls on a store by the library and by the build before it: on the same store, \
each build in its own layout, by turns, both linked in the same way. *Filed* is how \
many entries the store was made of: none, the first tenth of the table, the whole \
table. *Settle* and *file, implied* are the mean over all entries, or 256 of them, \
evenly spaced; *settle, free* over those that are free. *File, new* is the mean over \
the entries that add a row, filed in order into an empty store. Replies, coefficients \
and stores of the two are compared and are the same. *Least* is that of 80 rounds, 5 \
at each of the 16 depths of the stack, with more than 256 entries 2 at each, and \
*mean* that of the least times at each depth, since a process may have its stack \
anywhere. *Times* is the library's time by that of the build before.

| call | C | p | filed | least before | least | times | mean before | mean | times |
|---|---|---|---|---|---|---|---|---|---|";
