//! Document 01, "The written program" and "Running it"; cause 12 by document
//! 02, C-11.

use crate::field::inverse;
use crate::plan::{accept, Part, Plan};

/// Kind 0: register `to` becomes 0.
const CLEAR: u16 = 0;
/// Kind 1: `to` gains `by` times `from`, modulo p.
const ADD: u16 = 1;
/// Kind 2, a bootstrap: `to` becomes table number `by` at `from`.
const BOOTSTRAP: u16 = 2;

/// What a run answers.
#[derive(Clone, Copy, Debug, PartialEq, Eq)]
pub struct Ran {
    /// Register y after the last step.
    pub y: u8,
    /// The number of bootstraps carried out: the kind 2 steps of the list.
    pub bootstraps: u64,
}

/// The steps of a written program: m(n+2) + m(m-1)/2 + 1 + t(2L+12) + L. The
/// numbers are those of an accepted plan.
pub(crate) fn step_count(n: usize, m: usize, t: usize) -> usize {
    let l = n + m;
    let pairs_of_links: usize = (0..m).sum();
    m * (n + 2) + pairs_of_links + 1 + t * (2 * l + 12) + l
}

/// The steps of the program, four numbers each, in 01's order.
fn steps_of(plan: &Plan, beta: &[u8]) -> Vec<[u16; 4]> {
    let l = plan.variables() as u16;
    let [u, v, a, b, y] = [l, l + 1, l + 2, l + 3, l + 4];
    let minus_one = (plan.p - 1) as u16;
    let (square, minus_square) = (plan.m as u16, plan.m as u16 + 1);
    let mut steps = Vec::new();

    // `to` gains variable j times weight j, from variable 0 on.
    let add_all = |steps: &mut Vec<[u16; 4]>, to: u16, weights: &[u8]| {
        for (j, &weight) in weights.iter().enumerate() {
            steps.push([ADD, to, j as u16, weight as u16]);
        }
    };

    for k in 0..plan.m {
        let link = (plan.n + k) as u16;
        steps.push([CLEAR, link, 0, 0]);
        add_all(&mut steps, link, plan.link_weights(k));
        steps.push([BOOTSTRAP, link, link, k as u16]);
    }
    steps.push([CLEAR, y, 0, 0]);
    let mut beta_rows = beta.chunks(plan.variables());
    for product in 0..plan.t {
        steps.push([CLEAR, u, 0, 0]);
        add_all(
            &mut steps,
            u,
            beta_rows.next().expect("a row for each product"),
        );
        steps.push([CLEAR, v, 0, 0]);
        add_all(&mut steps, v, plan.d_row(product));
        steps.push([CLEAR, a, 0, 0]);
        steps.push([ADD, a, u, 1]);
        steps.push([ADD, a, v, 1]);
        steps.push([CLEAR, b, 0, 0]);
        steps.push([ADD, b, u, 1]);
        steps.push([ADD, b, v, minus_one]);
        steps.push([BOOTSTRAP, a, a, square]);
        steps.push([BOOTSTRAP, b, b, minus_square]);
        steps.push([ADD, y, a, 1]);
        steps.push([ADD, y, b, 1]);
    }
    add_all(&mut steps, y, beta_rows.next().expect("the last row"));
    steps
}

/// Whether cause 11 is not met: each step is one of the three kinds, with its
/// registers, its weight or its table in range.
fn well_formed(plan: &Plan, steps: &[u16]) -> bool {
    let register = |r: u16| r as usize <= plan.variables() + 4;
    let step_is_right = |step: &[u16]| {
        let (kind, to, from, by) = (step[0], step[1], step[2], step[3]);
        match kind {
            CLEAR => register(to) && from == 0 && by == 0,
            ADD => register(to) && register(from) && (by as usize) < plan.p,
            BOOTSTRAP => register(to) && register(from) && by as usize <= plan.m + 1,
            _ => false,
        }
    };
    steps.len().is_multiple_of(4) && steps.chunks(4).all(step_is_right)
}

/// Table number `by` at z: a link table, or the square of z times the inverse
/// of 4 (table m), or the negative of that (table m+1).
fn table_at(plan: &Plan, by: usize, z: usize) -> usize {
    if by < plan.m {
        return plan.link_table(by)[z] as usize;
    }
    let quarter_square = z * z * inverse(plan.p, 4 % plan.p) % plan.p;
    if by == plan.m {
        quarter_square
    } else {
        (plan.p - quarter_square) % plan.p
    }
}

/// Causes 1 2 3 4 5 10 of a writing into a slice of `room` numbers.
fn accept_writing<'a>(
    p: u64,
    s: u64,
    n: u64,
    m: u64,
    t: u64,
    radices: &'a [u8],
    weights: &'a [u8],
    tables: &'a [u8],
    d: &'a [u8],
    beta: &[u8],
    room: usize,
) -> Result<Plan<'a>, u32> {
    let own = [(Part::Beta, beta.len())];
    let plan = accept(p, s, n, m, t, radices, weights, tables, d, &own, beta)?;
    if room < 4 * step_count(plan.n, plan.m, plan.t) {
        return Err(10);
    }
    Ok(plan)
}

/// Checks a writing: answers the number for which [`write()`] hands back the
/// empty part on the same arguments, or 0. Writes nothing.
/// Causes 1 2 3 4 5 10.
pub fn check_writing(
    p: u64,
    s: u64,
    n: u64,
    m: u64,
    t: u64,
    radices: &[u8],
    weights: &[u8],
    tables: &[u8],
    d: &[u8],
    beta: &[u8],
    steps: &[u16],
) -> u32 {
    let room = steps.len();
    match accept_writing(p, s, n, m, t, radices, weights, tables, d, beta, room) {
        Ok(_) => 0,
        Err(number) => number,
    }
}

/// Writes the program of the plan and β, and hands back the filled part of
/// `steps`, four times the step count; the rest keeps its bytes. Refusing, it
/// hands back the empty part and writes nothing.
/// Causes 1 2 3 4 5 10.
pub fn write<'a>(
    p: u64,
    s: u64,
    n: u64,
    m: u64,
    t: u64,
    radices: &[u8],
    weights: &[u8],
    tables: &[u8],
    d: &[u8],
    beta: &[u8],
    steps: &'a mut [u16],
) -> &'a mut [u16] {
    let room = steps.len();
    match accept_writing(p, s, n, m, t, radices, weights, tables, d, beta, room) {
        Ok(plan) => {
            let written = steps_of(&plan, beta).concat();
            let filled = &mut steps[..written.len()];
            filled.copy_from_slice(&written);
            filled
        }
        Err(_) => &mut steps[..0],
    }
}

/// Runs a list of steps on the digits of an input. Registers 0 to n-1 start as
/// the digits, all others as 0. Answers y and the bootstraps carried out, or
/// the number of a refusal.
/// Causes 1 2 3 4 5 11 12.
pub fn run(
    p: u64,
    s: u64,
    n: u64,
    m: u64,
    t: u64,
    radices: &[u8],
    weights: &[u8],
    tables: &[u8],
    d: &[u8],
    steps: &[u16],
    digits: &[u8],
) -> Result<Ran, u32> {
    let own = [(Part::Digits, digits.len())];
    let plan = accept(p, s, n, m, t, radices, weights, tables, d, &own, &[])?;
    if !well_formed(&plan, steps) {
        return Err(11);
    }
    // 02, C-11: "cause 12 compares each digit with its own radix".
    let too_large = |(digit, radix): (&u8, &u8)| digit >= radix;
    if digits.iter().zip(radices).any(too_large) {
        return Err(12);
    }
    let mut registers = vec![0; plan.variables() + 5];
    for (register, &digit) in registers.iter_mut().zip(digits) {
        *register = digit as usize;
    }
    let mut bootstraps = 0;
    for step in steps.chunks(4) {
        let (kind, to) = (step[0], step[1] as usize);
        let (from, by) = (step[2] as usize, step[3] as usize);
        match kind {
            CLEAR => registers[to] = 0,
            ADD => registers[to] = (registers[to] + by * registers[from]) % plan.p,
            _ => {
                registers[to] = table_at(&plan, by, registers[from]);
                bootstraps += 1;
            }
        }
    }
    let y = registers[plan.variables() + 4] as u8;
    Ok(Ran { y, bootstraps })
}
