//! Counts how often each call gave each answer, so that a test can show that
//! it met every cause.

use std::collections::BTreeMap;

/// The calls with the causes that each can meet.
pub const CAUSES: [(&str, &[u8]); 17] = [
    ("check", &[1, 2, 3, 4, 5]),
    ("row", &[1, 2, 3, 4, 5, 7]),
    ("test", &[1, 2, 3, 4, 5, 6]),
    ("file", &[1, 2, 3, 4, 5, 6, 7, 8, 9]),
    ("file_recorded", &[1, 2, 3, 4, 5, 6, 16, 7, 8, 9]),
    ("withdraw", &[1, 2, 3, 4, 5, 6, 16, 7, 17]),
    ("coefficients", &[1, 2, 3, 4, 5, 6]),
    ("settle", &[1, 2, 3, 4, 5, 6, 7]),
    ("general", &[1, 2, 3, 4, 5]),
    ("to_half", &[1, 2, 3, 4, 5, 6]),
    ("to_full", &[1, 2, 3, 4, 5, 6]),
    ("check_writing", &[1, 2, 3, 4, 5, 10]),
    ("write", &[1, 2, 3, 4, 5, 10]),
    ("run", &[1, 2, 3, 4, 5, 11, 12]),
    ("worst_norm", &[1, 2, 3, 4, 5]),
    ("read_steps", &[1, 2, 3, 4, 5, 15]),
    ("read_listing", &[1, 2, 3, 4, 5, 13, 15]),
];

#[derive(Default)]
pub struct Tally {
    counts: BTreeMap<(&'static str, u8), u64>,
}

impl Tally {
    pub fn add(&mut self, call: &'static str, answer: u8) {
        *self.counts.entry((call, answer)).or_default() += 1;
    }

    /// How many calls were made.
    pub fn total(&self) -> u64 {
        self.counts.values().sum()
    }

    /// Whether every call of the causes' list was made, and gave this answer
    /// alone.
    pub fn only(&self, answer: u8) -> bool {
        let every = CAUSES.iter().all(|(call, _)| self.count(call, answer) > 0);
        every && self.counts.keys().all(|&(_, given)| given == answer)
    }

    /// How many calls of this name gave this answer.
    pub fn count(&self, call: &'static str, answer: u8) -> u64 {
        self.counts.get(&(call, answer)).copied().unwrap_or(0)
    }

    /// Prints the counts of calls, each given with the causes it can meet. Over
    /// enough calls, fails where one never gave an answer that it can give.
    pub fn complete(&self, calls: &[(&'static str, &[u8])], enough: u64) {
        let last = calls.iter().flat_map(|(_, causes)| causes.iter()).max();
        let answers = 1..=last.copied().unwrap_or(0);
        let heads: Vec<String> = answers.clone().map(|k| k.to_string()).collect();
        println!("| call | accepted | {} |", heads.join(" | "));
        println!("|---{}|", "|---".repeat(heads.len() + 1));
        for (call, _) in calls {
            let counts = [0].into_iter().chain(answers.clone());
            let counts: Vec<String> = counts.map(|k| self.count(call, k).to_string()).collect();
            println!("| {call} | {} |", counts.join(" | "));
        }
        if self.total() < enough {
            return;
        }
        for (call, causes) in calls {
            for &answer in [&[0], *causes].concat().iter() {
                assert!(
                    self.count(call, answer) > 0,
                    "{call} never answered {answer}"
                );
            }
        }
    }
}
