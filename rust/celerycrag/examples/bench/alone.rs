//! The store test alone, on stores with nothing, a tenth, half and all of a table
//! filed; and beside that of a build before, where there is one.

use crate::before::Builds;
use crate::builds::Build;
use crate::plans::Case;
use crate::timing::{calls, least, mean, race_on, shown, Contender, DEPTHS};
use celerycrag::{raw, Filed, Store};
use reference::random::SplitMix;
use std::hint::black_box;

/// What stands above the table.
pub const INTRODUCTION: &str = "\
What `celery_test` takes beyond `celery_check` on the same plan: the test of reduced \
form by itself, which every call on a store begins with. *Filed* is how many entries of the table \
were filed, in random order, and *rows* how many rows they left. A store with \
nothing filed is read like any other, its rows without a pivot faster than those \
with one. Every line is timed 8 times over, at each of the 16 depths of the stack once, with all \
the others between, so that a slow spell of the machine does not decide one. Of these \
the second least at each depth counts, since a clock may tell too little once; *least* \
and *mean* are over the depths. *Before* is the test of the build before, \
on the same store, by turns, and *times* the library's time by its.

| C | p | filed | rows | least | mean | a byte | before, least | times | before, mean | times |
|---|---|---|---|---|---|---|---|---|---|---|";

/// How often each line is timed, at each depth of the stack once.
const PASSES: usize = 8;

/// Radix 2: so many digits, links and products. C = 64, 256, 360, 744 and 1,024.
const SHAPES: [(usize, usize, usize); 5] = [
    (6, 26, 1),
    (8, 56, 3),
    (8, 52, 5),
    (10, 52, 11),
    (12, 52, 15),
];

/// The plans that are timed, each for three primes; of these, the ones with at
/// most so many entries.
fn cases(most: usize) -> impl Iterator<Item = Case> {
    SHAPES
        .into_iter()
        .filter(move |&(n, _, _)| 1 << n <= most)
        .flat_map(|(n, m, t)| [3, 17, 251].map(|p| Case::new(p, &vec![2; n], m, t)))
}

/// A store of the first entries in random order.
struct Stage {
    filed: usize,
    rows: usize,
    store: Store,
}

/// The stores with none, a tenth, half and all of the table filed.
fn stages(case: &Case) -> Vec<Stage> {
    let all = case.values.len();
    let mut order: Vec<usize> = (0..all).collect();
    let random = &mut SplitMix(7);
    for i in (1..all).rev() {
        order.swap(i, (random.bits() % (i as u64 + 1)) as usize);
    }
    let (mut store, mut rows) = (Store::new(&case.plan), 0);
    let mut kept = Vec::new();
    for filed in 0..=all {
        if [0, all.div_ceil(10), all / 2, all].contains(&filed) {
            let store = store.clone();
            kept.push(Stage { filed, rows, store });
        }
        if let Some(&entry) = order.get(filed) {
            let answer = store.file(entry, case.values[entry]).expect("a filing");
            rows += usize::from(matches!(answer, Filed::New { .. }));
        }
    }
    kept
}

/// The test of a store and the check of its plan, by the library as linked, or by
/// a build, in its own layout.
fn contenders<'a>(store: &'a Store, build: Option<&'a Build>) -> [Contender<'a>; 2] {
    let plan = store.plan().lent();
    let bytes = match build {
        Some(build) => build.bytes(store),
        None => store.as_bytes().to_vec(),
    };
    let test = move || match build {
        Some(build) => build.test(plan, black_box(&bytes)),
        None => raw::test(plan, black_box(&bytes)),
    };
    let check = move || match build {
        Some(build) => build.check(black_box(plan)),
        None => raw::check(black_box(plan)),
    };
    assert_eq!((test(), check()), (0, 0), "a store of filings");
    let test = calls(1, move || {
        black_box(test());
    });
    let check = calls(1, move || {
        black_box(check());
    });
    [test, check]
}

/// A line of the table, and what it is made from.
struct Line<'a> {
    columns: usize,
    p: usize,
    stage: &'a Stage,
    contenders: Vec<Contender<'a>>,
    /// Of each pass the times by depth: of the test and the check of the library,
    /// then of those of the build before.
    passes: Vec<Vec<[f64; DEPTHS]>>,
}

impl<'a> Line<'a> {
    fn new(stage: &'a Stage, builds: Option<&'a Builds>) -> Line<'a> {
        let of = |build| contenders(&stage.store, build);
        let contenders: Vec<Contender> = match builds {
            Some(builds) => [Some(builds.library()), Some(builds.before())]
                .into_iter()
                .flat_map(of)
                .collect(),
            None => of(None).into(),
        };
        let plan = stage.store.plan();
        Line {
            columns: plan.columns(),
            p: plan.shape().p,
            stage,
            contenders,
            passes: Vec::new(),
        }
    }

    /// Times every contender once at each depth.
    fn pass(&mut self) {
        let mut times = vec![[f64::INFINITY; DEPTHS]; self.contenders.len()];
        race_on(DEPTHS, &mut self.contenders, &mut times);
        self.passes.push(times);
    }

    /// Of a contender, the second least time at each depth: the clock of a
    /// virtual machine may tell too little once.
    fn by_depth(&self, contender: usize) -> [f64; DEPTHS] {
        std::array::from_fn(|depth| {
            let time = |pass: &Vec<[f64; DEPTHS]>| pass[contender][depth];
            let mut times: Vec<f64> = self.passes.iter().map(time).collect();
            times.sort_by(f64::total_cmp);
            times[1]
        })
    }

    /// What the test takes beyond the check, of each build.
    fn alone(&self, of: fn([f64; DEPTHS]) -> f64) -> Vec<f64> {
        let time = |contender| of(self.by_depth(contender));
        let tests = (0..self.contenders.len()).step_by(2);
        tests.map(|test| time(test) - time(test + 1)).collect()
    }

    fn shown(&self) -> String {
        let (least, mean) = (self.alone(least), self.alone(mean));
        let beside = |times: &[f64]| match times {
            [library, before] => format!("{} | {:.2}", shown(*before), library / before),
            _ => "– | –".to_string(),
        };
        format!(
            "| {} | {} | {} | {} | {} | {} | {:.3} ns | {} | {} |",
            self.columns,
            self.p,
            self.stage.filed,
            self.stage.rows,
            shown(least[0]),
            shown(mean[0]),
            least[0] / self.stage.store.as_bytes().len() as f64,
            beside(&least),
            beside(&mean),
        )
    }
}

/// The lines of the table. All are timed in turn, several times over, so that a
/// slow spell of the machine does not decide one.
pub fn lines(most: usize, builds: Option<&Builds>) -> Vec<String> {
    let stages: Vec<Stage> = cases(most).flat_map(|case| stages(&case)).collect();
    let mut lines: Vec<Line> = stages
        .iter()
        .map(|stage| Line::new(stage, builds))
        .collect();
    for _ in 0..PASSES {
        for line in &mut lines {
            line.pass();
        }
    }
    lines.iter().map(Line::shown).collect()
}
