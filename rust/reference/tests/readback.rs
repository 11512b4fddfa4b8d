//! Document 02, C-15, "Reading a listing back": the list or the text has to be
//! exactly what the writer gives for some β, and that β comes back. The lines of
//! listings are in tests/listings.rs.
//!
//! What is expected here is known from the writer: on tiny plans by writing
//! every β there is, else from what was changed and where.

mod common;
use common::{every_beta, with_line, Owned, Random};
use std::collections::HashMap;

const XOR: &str = include_str!("../../../examples/xor.out");

/// Plans with so few β that all can be written: p to the C is at most 729.
fn tiny_plans() -> Vec<Owned> {
    let mut random = Random::new(15);
    let shapes = [
        [3, 1, 0, 0],
        [5, 1, 0, 0],
        [251, 1, 0, 0],
        [3, 1, 1, 0],
        [17, 1, 1, 0],
        [3, 2, 0, 1],
        [5, 1, 1, 1],
        [3, 1, 2, 1],
        [3, 1, 1, 2],
        [3, 1, 0, 5],
    ];
    let plan = |[p, n, m, t]: [u64; 4]| Owned::random(&mut random, p, 2, n, m, t);
    shapes.map(plan).into()
}

#[test]
fn xor() {
    let x = Owned::xor();
    assert_eq!(x.listing(&[0, 1, 1, 0]), XOR);
    assert_eq!(x.read_listing(XOR), Ok(vec![0, 1, 1, 0]));
    assert_eq!(x.read_steps(&x.steps(&[0, 1, 1, 0])), Ok(vec![0, 1, 1, 0]));
    // The one-link case of 01.
    let plan = Owned {
        weights: vec![1],
        tables: vec![1, 0, 0],
        ..Owned::zeros(3, 2, 1, 1, 0)
    };
    let steps = [
        [0, 1, 0, 0],
        [1, 1, 0, 1],
        [2, 1, 1, 0],
        [0, 6, 0, 0],
        [1, 6, 0, 0],
        [1, 6, 1, 1],
    ];
    assert_eq!(plan.read_steps(&steps.concat()), Ok(vec![0, 1]));
}

/// Each β comes back, and a list or a text that differs from all of theirs in
/// one number is refused.
#[test]
fn every_beta_and_every_number_of_tiny_plans() {
    for plan in tiny_plans() {
        let all = every_beta(&plan);
        let lists: HashMap<Vec<u16>, &Vec<u8>> =
            all.iter().map(|beta| (plan.steps(beta), beta)).collect();
        let texts: HashMap<String, &Vec<u8>> =
            all.iter().map(|beta| (plan.listing(beta), beta)).collect();
        assert_eq!((lists.len(), texts.len()), (all.len(), all.len()));
        for (steps, beta) in &lists {
            assert_eq!(plan.read_steps(steps).as_ref(), Ok(*beta));
        }
        for (text, beta) in &texts {
            assert_eq!(plan.read_listing(text).as_ref(), Ok(*beta));
        }

        let p = plan.p as u16;
        let (steps, text) = (plan.steps(&all[1]), plan.listing(&all[1]));
        for place in 0..steps.len() {
            for number in [0, 1, 2, 3, 4, 5, 6, p - 1, p, p + 1, 255, 256, 65_535] {
                let mut changed = steps.clone();
                changed[place] = number;
                let expected = lists.get(&changed).copied().ok_or(15);
                assert_eq!(
                    plan.read_steps(&changed).as_ref(),
                    expected.as_ref().copied()
                );
            }
        }
        for line in 4..=text.lines().count() {
            for place in 0..4 {
                for number in [
                    0,
                    1,
                    2,
                    3,
                    4,
                    5,
                    6,
                    p as u32 - 1,
                    p as u32,
                    255,
                    256,
                    65_536,
                    99_999,
                ] {
                    let changed = with_line(&text, line, |old| {
                        let mut words: Vec<&str> = old.split(' ').collect();
                        let number = number.to_string();
                        words[place] = &number;
                        words.join(" ")
                    });
                    let expected = texts.get(&changed).copied().ok_or((15, 1));
                    assert_eq!(
                        plan.read_listing(&changed).as_ref(),
                        expected.as_ref().copied()
                    );
                }
            }
        }
    }
}

#[test]
fn lists_of_other_lengths() {
    for plan in tiny_plans() {
        let steps = plan.steps(&vec![1; plan.columns()]);
        for length in 0..steps.len() {
            assert_eq!(plan.read_steps(&steps[..length]), Err(15), "{length}");
        }
        for more in [
            &[0][..],
            &[0; 3],
            &[0; 4],
            &steps[steps.len() - 4..],
            &steps,
        ] {
            let longer = [&steps, more].concat();
            assert_eq!(plan.read_steps(&longer), Err(15));
        }
        // A list of the right length that begins a step too late.
        let late = [&steps[4..], &[0; 4]].concat();
        assert_eq!(plan.read_steps(&late), Err(15));
    }
}

/// 02, C-15: "Step lists here are not tested for cause 11."
#[test]
fn lists_that_a_run_refuses_are_15() {
    let x = Owned::xor();
    for bad in [
        [3, 0, 0, 0],
        [0, 7, 0, 0],
        [0, 0, 1, 0],
        [1, 0, 0, 3],
        [2, 0, 0, 2],
    ] {
        let mut steps = x.steps(&[0, 1, 1, 0]);
        let last = steps.len() - 4;
        steps[last..].copy_from_slice(&bad);
        assert_eq!(x.run(&steps, &[0, 0]), Err(11));
        assert_eq!(x.read_steps(&steps), Err(15));
    }
    assert!(x.run(&[], &[0, 0]).is_ok());
    assert_eq!(x.read_steps(&[]), Err(15));
}

/// One number of a random program changed: where a coefficient stands it may be
/// any residue, elsewhere none but the old one.
#[test]
fn one_number_changed() {
    let mut random = Random::new(151_515);
    for _ in 0..4_000 {
        let (p, n) = (
            [3, 5, 17, 251][random.below(4) as usize],
            1 + random.below(4),
        );
        let (m, t) = (random.below(4), random.below(4));
        let plan = Owned::random(&mut random, p, 2, n, m, t);
        let beta: Vec<u8> = (0..plan.columns()).map(|_| random.below(p) as u8).collect();
        let mut steps = plan.steps(&beta);
        let place = random.below(steps.len() as u64) as usize;
        let number = [random.below(p), random.below(p + 2), random.below(65_536)];
        let number = number[random.below(3) as usize] as u16;
        // The coefficient that stands there: the program of another β differs there.
        let coefficient = (0..beta.len()).find(|&c| {
            let mut other = beta.clone();
            other[c] = (other[c] + 1) % p as u8;
            plan.steps(&other)[place] != steps[place]
        });
        let same = steps[place] == number;
        steps[place] = number;
        let mut expected = Err(15);
        if let Some(c) = coefficient.filter(|_| u64::from(number) < p) {
            let mut other = beta.clone();
            other[c] = number as u8;
            expected = Ok(other);
        } else if same {
            expected = Ok(beta);
        }
        assert_eq!(plan.read_steps(&steps), expected);
    }
}

/// A listing of a plan read under another of the same numbers.
#[test]
fn other_plans() {
    let mut random = Random::new(1_515);
    for _ in 0..300 {
        let (p, n) = (
            [3, 5, 17, 251][random.below(4) as usize],
            1 + random.below(3),
        );
        let (m, t) = (1 + random.below(3), 1 + random.below(3));
        let plan = Owned::random(&mut random, p, 2, n, m, t);
        let beta: Vec<u8> = (0..plan.columns()).map(|_| random.below(p) as u8).collect();
        let (steps, text) = (plan.steps(&beta), plan.listing(&beta));
        assert_eq!(plan.read_steps(&steps).as_ref(), Ok(&beta));
        assert_eq!(plan.read_listing(&text).as_ref(), Ok(&beta));

        // Neither tables nor radices nor s stand in it.
        let mut other = Owned::random(&mut random, p, 2, n, m, t);
        other.s = 3;
        other.weights.clone_from(&plan.weights);
        other.d.clone_from(&plan.d);
        assert_eq!(other.read_steps(&steps).as_ref(), Ok(&beta));
        assert_eq!(other.read_listing(&text).as_ref(), Ok(&beta));

        type Part = fn(&mut Owned) -> &mut Vec<u8>;
        let parts: [Part; 2] = [|plan| &mut plan.weights, |plan| &mut plan.d];
        for part in parts {
            let mut other = plan.clone();
            let part = part(&mut other);
            let place = random.below(part.len() as u64) as usize;
            part[place] = ((part[place] as u64 + 1 + random.below(p - 1)) % p) as u8;
            assert_eq!(other.read_steps(&steps), Err(15));
            assert_eq!(other.read_listing(&text), Err((15, 1)));
        }
        // Another p has another p - 1 in every product.
        let mut other = plan.clone();
        other.p = if p == 251 { 241 } else { 251 };
        other.tables = vec![0; (other.p * m) as usize];
        if other.check() == 0 {
            assert_eq!(other.read_steps(&steps), Err(15));
            assert_eq!(other.read_listing(&text), Err((15, 1)));
        }
    }
}

#[test]
fn the_largest_shapes() {
    let mut random = Random::new(64);
    for [n, m, t, count] in [
        [1, 63, 15, 4_307],
        [12, 52, 15, 4_219],
        [1, 31, 31, 2_947],
        [1, 30, 32, 2_925],
        [12, 0, 32, 1_165],
        [1, 0, 32, 450],
        [1, 63, 0, 2_207],
    ] {
        let plan = Owned::random(&mut random, 251, 2, n, m, t);
        let beta: Vec<u8> = (0..plan.columns())
            .map(|_| random.below(251) as u8)
            .collect();
        let mut steps = plan.steps(&beta);
        assert_eq!(steps.len() as u64, 4 * count);
        let text = plan.listing(&beta);
        assert_eq!(plan.read_steps(&steps).as_ref(), Ok(&beta));
        assert_eq!(plan.read_listing(&text).as_ref(), Ok(&beta));
        assert_eq!(plan.read_listing(format!("{text}1 68 0 0\n")), Err((15, 1)));
        *steps.last_mut().unwrap() = 251;
        assert_eq!(plan.read_steps(&steps), Err(15));
    }
}
