//! Reading programs and listings back against the reference on random plans:
//! what the writer gave comes back, and with something changed the answer, the
//! line and every byte of β are the reference's. The single lines of a listing
//! are in listings.rs, the longest programs in longest.rs.

mod common;
use common::kept::Kept;
use common::listings::{spoil, with_number};
use common::lots::written;
use common::plans::{outline, product, radices, Owned};
use common::random::{cases, Random};
use common::tally::{Tally, CAUSES};
use common::twins;
use std::collections::HashMap;

#[test]
fn what_is_written_comes_back() {
    let mut tally = Tally::default();
    cases("what is written comes back", 300, |random| {
        let plan = outline(random, 80);
        let kept = Kept::new(random, plan);
        kept.comes_back(random, &mut tally);
    });
}

/// Neither tables nor radices nor s stand in a program: another plan that
/// differs in these reads it, too. One with another weight, or another row of d,
/// does not.
#[test]
fn other_plans_of_the_same_numbers() {
    let mut tally = Tally::default();
    let mut refused = 0;
    cases("other plans", 200, |random| {
        let plan = outline(random, 40);
        let kept = Kept::new(random, plan);
        let (plan, p) = (&kept.plan, kept.plan.p);

        let mut alike = Kept::of(plan.clone().drawn(random), kept.beta.clone());
        alike.plan.weights.clone_from(&plan.weights);
        alike.plan.d.clone_from(&plan.d);
        alike.plan.s = random.within(2, p);
        let other = radices(random, p, plan.n);
        if product(&other) <= 4_096 {
            alike.plan.radices = other;
        }
        let both = (&kept.steps[..], &kept.text[..]);
        alike.gives(random, both, &kept.beta, &mut tally);

        type Part = fn(&mut Owned) -> &mut Vec<u8>;
        let parts: [Part; 2] = [|plan| &mut plan.weights, |plan| &mut plan.d];
        for part in parts {
            let mut other = Kept::of(plan.clone(), kept.beta.clone());
            let part = part(&mut other.plan);
            if !part.is_empty() {
                let place = random.below(part.len());
                part[place] = ((part[place] as usize + random.within(1, p - 1)) % p) as u8;
                other.refuses(random, both, &mut tally);
                refused += 1;
            }
        }

        // Other numbers: registers and tables are others, or p - 1 is.
        let [n, m, t] = [plan.n, plan.m, plan.t];
        let shapes = [
            [n + 1, m, t],
            [n, m + 1, t],
            [n, m, t + 1],
            [n + m, 0, t],
            [1, n + m - 1, t],
        ];
        for [n, m, t] in shapes {
            if [n, m, t] != [plan.n, plan.m, plan.t] && n <= 12 {
                let other = Kept::new(random, Owned::zeros([p, 2, n, m, t]));
                other.refuses(random, both, &mut tally);
            }
        }
        if t > 0 && p < 251 {
            let mut other = Kept::of(plan.clone(), kept.beta.clone());
            (other.plan.p, other.plan.tables) = (251, vec![0; 251 * m]);
            other.refuses(random, both, &mut tally);
        }
    });
    println!("{refused} plans with another weight");
}

/// One number of a program changed. The coefficients stand where two programs of
/// the same plan differ: there any residue is accepted.
#[test]
fn one_number_changed() {
    let mut tally = Tally::default();
    let mut others = 0;
    cases("one number changed", 1_500, |random| {
        let plan = outline(random, 40);
        let kept = Kept::new(random, plan);
        let p = kept.plan.p;
        let next: Vec<u8> = kept
            .beta
            .iter()
            .map(|&x| (x as usize + 1) as u8 % p as u8)
            .collect();
        let beside = written(&kept.plan, &next);
        let places: Vec<usize> = (0..beside.len())
            .filter(|&place| beside[place] != kept.steps[place])
            .collect();
        assert_eq!(places.len(), kept.beta.len());

        let mut steps = kept.steps.clone();
        let place = if random.one_in(3) {
            random.pick(&places)
        } else {
            random.below(steps.len())
        };
        steps[place] = match random.below(6) {
            0 | 1 => random.below(p) as u16,
            2 => random.pick(&[p, p + 1, 255, 256, 65_535]) as u16,
            3 => steps[place].wrapping_add(random.pick(&[1, 2, 256, u16::MAX])),
            4 => steps[place] ^ 1 << random.below(16),
            _ => random.next() as u16,
        };
        let answer = kept.read_steps(random, &steps, &mut tally);
        let coefficient = places.iter().position(|&other| other == place);
        let mut expected = kept.beta.clone();
        match coefficient {
            Some(c) if (steps[place] as usize) < p => {
                expected[c] = steps[place] as u8;
                others += 1;
                assert_eq!(answer, Ok(expected));
            }
            None if steps == kept.steps => assert_eq!(answer, Ok(expected)),
            _ => assert_eq!(answer, Err(15)),
        }
    });
    println!("{others} with another coefficient");
}

#[test]
fn listings_spoiled() {
    let mut tally = Tally::default();
    cases("listings spoiled", 4_000, |random| {
        // Short ones, so that what is changed is often a figure or a coefficient.
        let p = random.pick(&[3, 5, 17, 251]);
        let [n, m, t] = [random.within(1, 3), random.below(3), random.below(3)];
        let kept = Kept::new(random, Owned::zeros([p, 2, n, m, t]));
        let mut text = kept.text.clone();
        for _ in 0..random.pick(&[1, 1, 1, 2, 3]) {
            spoil(random, &mut text);
        }
        let _ = kept.read_listing(random, &text, &mut tally);
    });
    let answers: Vec<u64> = [0, 13, 15].map(|k| tally.count("read_listing", k)).into();
    println!("read, 13, 15: {answers:?}");
    assert!(tally.total() < 2_000 || answers.iter().all(|&count| count > 100));
}

/// Every list that begins as a program does and ends before it or behind it.
#[test]
fn lists_of_other_lengths() {
    let mut tally = Tally::default();
    cases("other lengths", 2, |random| {
        let plan = outline(random, 20);
        let kept = Kept::new(random, plan);
        for length in 0..kept.steps.len() {
            let answer = kept.read_steps(random, &kept.steps[..length], &mut tally);
            assert_eq!(answer, Err(15), "{length} numbers");
        }
        let last = &kept.steps[kept.steps.len() - 4..];
        for more in [
            &[0][..],
            &[0; 2],
            &[0; 3],
            &[0; 4],
            last,
            &kept.steps,
            &[0; 100_000],
        ] {
            let steps = [&kept.steps, more].concat();
            assert_eq!(kept.read_steps(random, &steps, &mut tally), Err(15));
        }
        let steps = [&kept.steps[4..], last].concat();
        assert_eq!(kept.read_steps(random, &steps, &mut tally), Err(15));
        let steps = [&[0; 4], &kept.steps[..kept.steps.len() - 4]].concat();
        assert_eq!(kept.read_steps(random, &steps, &mut tally), Err(15));
    });
}

/// Plans of which all β can be written: a list is read exactly when it is one
/// of theirs. Every number of a program is changed to others, and every one of a
/// listing.
#[test]
fn every_number_of_tiny_plans() {
    let mut tally = Tally::default();
    let mut random = Random::new(15, 0);
    for [p, n, m, t] in [
        [3, 1, 0, 0],
        [251, 1, 0, 0],
        [3, 1, 1, 0],
        [17, 2, 0, 0],
        [3, 2, 0, 1],
        [5, 1, 0, 2],
        [3, 1, 1, 2],
        [3, 2, 1, 1],
    ] {
        let plan = Owned::zeros([p, 2, n, m, t]).drawn(&mut random);
        let columns = plan.columns();
        let beta_of = |number: usize| -> Vec<u8> {
            (0..columns as u32)
                .map(|c| (number / p.pow(c) % p) as u8)
                .collect()
        };
        let count = p.pow(columns as u32);
        let all: HashMap<Vec<u16>, Vec<u8>> = (0..count)
            .map(|number| (written(&plan, &beta_of(number)), beta_of(number)))
            .collect();
        assert_eq!(all.len(), count);

        let kept = Kept::of(plan.clone(), beta_of(count / 2 + 1));
        let mut accepted = 0;
        for place in 0..kept.steps.len() {
            for number in (0..=260).chain([511, 512, 32_768, 65_535]) {
                let mut steps = kept.steps.clone();
                steps[place] = number;
                let answer = kept.read_steps(&mut random, &steps, &mut tally);
                assert_eq!(answer, all.get(&steps).cloned().ok_or(15));
                accepted += usize::from(answer.is_ok());
            }
        }
        // Each place has its own number, and that of a coefficient p of them.
        assert_eq!(accepted, kept.steps.len() + columns * (p - 1));
        for beta in all.values() {
            Kept::of(plan.clone(), beta.clone()).comes_back(&mut random, &mut tally);
        }
    }
}

/// Each cause is answered before those behind it, whatever else is wrong, and
/// with each put right in turn the next one is.
#[test]
fn causes_in_order() {
    let mut tally = Tally::default();
    cases("causes in order", 100, |random| {
        let plan = loop {
            let plan = outline(random, 30);
            if plan.m > 0 && plan.t > 0 {
                break plan;
            }
        };
        let kept = Kept::new(random, plan);
        let plan = &kept.plan;
        let mut lent = plan.clone();
        let mut beta = random.bytes(plan.columns(), 256);
        // Wrong in all ways at once.
        lent.p = random.pick(&[0, 1, 2, 4, 9, 253, 65_536 + plan.p]);
        lent.s = random.pick(&[0, 1, plan.p + 1]);
        lent.t = random.pick(&[33, 1 << 32]);
        if random.one_in(2) {
            beta.push(7);
        } else {
            beta.pop();
        }
        let place = random.below(lent.d.len());
        lent.d[place] = plan.p as u8;
        let figure = random.below(3);
        let wrong_figure = with_number(&kept.text, 2, figure, |number| number + 1);
        let mut text = [
            &wrong_figure[..],
            random.pick(&[&b"0"[..], b"\n", b"0 0 0\n"]),
        ]
        .concat();
        let mut steps = kept.steps.clone();
        steps.pop();
        let malformed = (13, Some(plan.step_count() + 4));
        for cause in [1, 2, 3, 4, 5, 13, 15, 0] {
            let answer = twins::read_listing(&lent, &text, &mut beta, &mut tally);
            match cause {
                0 => assert_eq!(answer, Ok(())),
                13 => assert_eq!(answer, Err(malformed)),
                15 => assert_eq!(answer, Err((15, Some(1)))),
                _ => assert_eq!(answer, Err((cause, None))),
            }
            let by_steps = twins::read_steps(&lent, &steps, &mut beta, &mut tally);
            assert_eq!(by_steps, if cause == 13 { 15 } else { cause });
            match cause {
                1 => lent.p = plan.p,
                2 => lent.s = plan.s,
                3 => lent.t = plan.t,
                4 => beta = random.bytes(plan.columns(), 256),
                5 => lent.d.clone_from(&plan.d),
                13 => text.clone_from(&wrong_figure),
                _ => {
                    text.clone_from(&kept.text);
                    steps.clone_from(&kept.steps);
                }
            }
        }
        assert_eq!(beta, kept.beta);
    });
    let calls = CAUSES
        .into_iter()
        .filter(|(call, _)| call.starts_with("read_"));
    tally.complete(&calls.collect::<Vec<_>>(), 100);
}
