//! Document 01, "The filing program": the listing that it prints.

use crate::norm::worst_norm;
use crate::program::{step_count, write};

/// The line above the three figures.
pub(crate) const FIGURES: &str = "bootstraps steps worst";
/// The line above the steps.
pub(crate) const STEPS: &str = "kind to from by";

/// The listing of the plan and β, or the number of a refusal.
/// Causes 1 2 3 4 5.
pub fn listing(
    p: u64,
    s: u64,
    n: u64,
    m: u64,
    t: u64,
    radices: &[u8],
    weights: &[u8],
    tables: &[u8],
    d: &[u8],
    beta: &[u8],
) -> Result<String, u32> {
    let worst = worst_norm(p, s, n, m, t, radices, weights, tables, d, beta)?;
    let mut slice = vec![0; 4 * step_count(n as usize, m as usize, t as usize)];
    let steps = write(p, s, n, m, t, radices, weights, tables, d, beta, &mut slice);

    let bootstraps = m + 2 * t;
    let count = steps.len() / 4;
    let mut out = format!("{FIGURES}\n{bootstraps} {count} {worst}\n{STEPS}\n");
    for step in steps.chunks(4) {
        out.push_str(&format!(
            "{} {} {} {}\n",
            step[0], step[1], step[2], step[3]
        ));
    }
    Ok(out)
}
