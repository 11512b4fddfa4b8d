//! Reading back at the limits: the most steps, columns, links and products that
//! a plan can have, the fewest, and lists and texts far longer than any plan's.

mod common;
use common::kept::{malformed, Kept, NOT_WRITTEN};
use common::listings::{spoil, with_number};
use common::plans::Owned;
use common::random::Random;
use common::tally::Tally;

/// The shapes p s n m t with the most steps, columns, links and products, and
/// with the fewest. The first has 4,307 steps, the most of all.
const EXTREMES: [[usize; 5]; 10] = [
    [251, 2, 1, 63, 15],
    [251, 2, 12, 52, 15],
    [3, 2, 1, 63, 15],
    [251, 2, 1, 31, 31],
    [251, 2, 1, 30, 32],
    [251, 2, 12, 0, 32],
    [3, 2, 1, 0, 32],
    [251, 2, 1, 63, 0],
    [251, 2, 12, 0, 0],
    [3, 2, 1, 0, 0],
];

/// No plan has more steps than the first of the shapes. With L and t at most so
/// large, one digit makes the most of them.
#[test]
fn the_most_steps() {
    let count = |[p, s, n, m, t]: [usize; 5]| Owned::zeros([p, s, n, m, t]).step_count();
    let mut most = 0;
    for n in 1..=64 {
        for m in 0..=64 - n {
            for t in 0..=32 {
                if (t + 1) * (n + m) <= 1_024 {
                    most = most.max(count([3, 2, n, m, t]));
                }
            }
        }
    }
    assert_eq!((most, count(EXTREMES[0])), (4_307, 4_307));
}

#[test]
fn the_most_and_the_fewest() {
    let mut tally = Tally::default();
    let mut random = Random::new(15, 1);
    let random = &mut random;
    for shape in EXTREMES {
        let kept = Kept::new(random, Owned::zeros(shape));
        let (steps, text) = (&kept.steps[..], &kept.text[..]);
        let (p, count) = (kept.plan.p, kept.plan.step_count());
        assert_eq!(steps.len(), 4 * count);
        kept.comes_back(random, &mut tally);

        // Wrong in the last number alone, and in the first.
        let last = [&steps[..4 * count - 1], &[p as u16]].concat();
        let last_of_text = with_number(text, count + 3, 3, |_| p as u64);
        kept.refuses(random, (&last, &last_of_text), &mut tally);
        let first = [&[steps[0] ^ 1], &steps[1..]].concat();
        let first_of_text = with_number(text, 4, 0, |number| number ^ 1);
        kept.refuses(random, (&first, &first_of_text), &mut tally);

        // A step more and one fewer.
        let before_last = text[..text.len() - 1]
            .iter()
            .rposition(|&byte| byte == b'\n');
        let cut = before_last.expect("a line before the last") + 1;
        let longer = [steps, &steps[4 * count - 4..]].concat();
        let longer_text = [text, &text[cut..]].concat();
        kept.refuses(random, (&longer, &longer_text), &mut tally);
        let shorter = (&steps[..4 * count - 4], &text[..cut]);
        kept.refuses(random, shorter, &mut tally);

        // Each figure wrong by one; a figure of 0 cannot be made smaller.
        for figure in 0..3 {
            let more = with_number(text, 2, figure, |number| number + 1);
            assert_eq!(kept.read_listing(random, &more, &mut tally), NOT_WRITTEN);
            let less = with_number(text, 2, figure, |number| number.saturating_sub(1));
            if less != text {
                assert_eq!(kept.read_listing(random, &less, &mut tally), NOT_WRITTEN);
            }
        }
        for _ in 0..20 {
            let mut spoiled = text.to_vec();
            spoil(random, &mut spoiled);
            let _ = kept.read_listing(random, &spoiled, &mut tally);
        }
    }
}

/// The largest worst norm, and the largest weights.
#[test]
fn the_largest_weights() {
    let mut tally = Tally::default();
    let mut random = Random::new(15, 4);
    for weight in [125, 126, 250] {
        let plan = Owned::zeros(EXTREMES[0]).drawn(&mut random);
        let kept = Kept::of(plan, vec![weight; 1_024]);
        kept.comes_back(&mut random, &mut tally);
    }
}

/// Lists and texts far longer than any plan's.
#[test]
fn far_too_long() {
    let mut tally = Tally::default();
    let mut random = Random::new(15, 2);
    let random = &mut random;
    for shape in [EXTREMES[0], EXTREMES[9]] {
        let kept = Kept::new(random, Owned::zeros(shape));
        for count in [17_228, 17_229, 17_232, 65_536, 100_000, 400_000] {
            for number in [0, 1, 65_535] {
                let steps = vec![number; count];
                assert_eq!(kept.read_steps(random, &steps, &mut tally), Err(15));
            }
            let mut steps = kept.steps.clone();
            steps.resize(count + 4, 0);
            assert_eq!(kept.read_steps(random, &steps, &mut tally), Err(15));
        }
        for count in [4_306, 4_307, 4_308, 100_000] {
            let mut text = [&kept.text[..], &b"0 68 0 0\n".repeat(count)].concat();
            assert_eq!(kept.read_listing(random, &text, &mut tally), NOT_WRITTEN);
            text.extend(b"0 68 0\n");
            let line = kept.plan.step_count() + 3 + count + 1;
            let answer = kept.read_listing(random, &text, &mut tally);
            assert_eq!(answer, malformed(line));
        }
    }
}
