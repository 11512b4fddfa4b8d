//! Timing: the minimum of several rounds, the contenders by turns. The library
//! keeps what it works with on the stack, and where that lies, which is random
//! for each process, can change short times: so each round has another depth.

use crate::clock::now;
use std::hint::black_box;
use std::time::Duration;

/// A batch of calls takes at least about this long.
const BATCH: Duration = Duration::from_millis(2);
/// Rounds for short calls.
pub const ROUNDS: usize = 25;

/// Rounds for a table of so many entries.
pub fn rounds(entries: usize) -> usize {
    match entries {
        0..=64 => 50,
        65..=256 => 10,
        _ => 5,
    }
}

/// A contender: each round tells its nanoseconds for one unit of work.
pub type Contender<'a> = Box<dyn FnMut() -> f64 + 'a>;

/// The nanoseconds that this takes.
pub fn nanoseconds(work: impl FnOnce()) -> f64 {
    let start = now();
    work();
    (now() - start).as_nanos() as f64
}

/// A contender that does `units` of work in each call; short calls are timed
/// in batches.
pub fn calls<'a>(units: usize, mut call: impl FnMut() + 'a) -> Contender<'a> {
    let mut batch = 0;
    Box::new(move || {
        if batch == 0 {
            let once = nanoseconds(&mut call).max(20.0);
            batch = (BATCH.as_nanos() as f64 / once).max(1.0) as usize;
        }
        let time = nanoseconds(|| (0..batch).for_each(|_| call()));
        time / (batch * units) as f64
    })
}

/// The depths of the stack at which contenders are called.
pub const DEPTHS: usize = 16;

/// Does the work so many frames further down the stack. With what the compiler
/// adds, a frame has about 256 bytes: DEPTHS of them cover a page.
#[inline(never)]
fn deeper(frames: usize, work: &mut dyn FnMut()) {
    let mut frame = [0_u8; 192];
    black_box(&mut frame);
    match frames {
        0 => work(),
        _ => deeper(frames - 1, work),
    }
    black_box(&mut frame);
}

/// The least of each contender at each depth over the rounds, infinity where
/// the rounds are too few to come there. A round has one depth for all.
pub fn race_by_depth(rounds: usize, mut contenders: Vec<Contender>) -> Vec<[f64; DEPTHS]> {
    let mut least = vec![[f64::INFINITY; DEPTHS]; contenders.len()];
    race_on(rounds, &mut contenders, &mut least);
    least
}

/// So many rounds more, over the least times so far.
pub fn race_on(rounds: usize, contenders: &mut [Contender], least: &mut [[f64; DEPTHS]]) {
    for round in 0..rounds {
        // In steps of 5, so that few rounds, too, are all over the page.
        let depth = round * 5 % DEPTHS;
        deeper(depth, &mut || {
            for (least, contender) in least.iter_mut().zip(&mut *contenders) {
                least[depth] = least[depth].min(contender());
            }
        });
    }
}

/// The least of each contender over the rounds.
pub fn race(rounds: usize, contenders: Vec<Contender>) -> Vec<f64> {
    let by_depth = race_by_depth(rounds, contenders);
    by_depth.into_iter().map(least).collect()
}

/// The least of all depths.
pub fn least(by_depth: [f64; DEPTHS]) -> f64 {
    by_depth.into_iter().fold(f64::INFINITY, f64::min)
}

/// The mean of all depths.
pub fn mean(by_depth: [f64; DEPTHS]) -> f64 {
    by_depth.into_iter().sum::<f64>() / DEPTHS as f64
}

/// Nanoseconds for a reader.
pub fn shown(nanoseconds: f64) -> String {
    let (number, unit) = match nanoseconds {
        x if x < 1e3 => (x, "ns"),
        x if x < 1e6 => (x / 1e3, "µs"),
        x if x < 1e9 => (x / 1e6, "ms"),
        x => (x / 1e9, "s"),
    };
    if number < 10.0 {
        format!("{number:.2} {unit}")
    } else if number < 100.0 {
        format!("{number:.1} {unit}")
    } else {
        format!("{number:.0} {unit}")
    }
}
