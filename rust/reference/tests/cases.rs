//! Document 01, "Cases" and "Ways to misread 003". Where a plan has one s for all
//! its digits, its radices are n times s; other radices are in tests/radices.rs.

mod common;
use common::{call, Owned};
use reference::{Filed, Ran};

#[test]
fn xor_filed_on_an_empty_store() {
    let x = Owned::xor();
    let mut store = x.empty_store();
    assert_eq!(x.file(&mut store, 1, 1), Filed::New(1));
    assert_eq!(x.file(&mut store, 2, 1), Filed::New(0));
    assert_eq!(x.file(&mut store, 3, 0), Filed::New(2));
    assert_eq!(x.beta(&store), [0, 1, 1, 0]);

    let full = store.clone();
    assert_eq!(x.file(&mut store, 0, 0), Filed::Implied);
    assert_eq!(x.file(&mut store, 0, 1), Filed::Refused(9));
    assert_eq!(x.file(&mut store, 3, 1), Filed::Refused(9));
    assert_eq!(store, full);
}

#[test]
fn and_filed_in_entry_order() {
    assert_eq!(Owned::xor().solved(&[0, 0, 0, 1]), [1, 0, 2, 0]);
}

#[test]
fn one_link() {
    let (weights, tables) = (vec![1], vec![1, 0, 0]);
    let plan = Owned {
        p: 3,
        s: 2,
        n: 1,
        m: 1,
        t: 0,
        radices: vec![2],
        weights,
        tables,
        d: vec![],
    };
    let beta = plan.solved(&[1, 0]);
    assert_eq!(beta, [0, 1]);
    let steps = plan.steps(&beta);
    assert_eq!(steps.len(), 4 * 6);
    assert_eq!(
        plan.run(&steps, &[0]),
        Ok(Ran {
            y: 1,
            bootstraps: 1
        })
    );
    assert_eq!(
        plan.run(&steps, &[1]),
        Ok(Ran {
            y: 0,
            bootstraps: 1
        })
    );
}

#[test]
fn the_tables_of_squares_modulo_5() {
    // L = 1, so y is register 5; m = 0, so the tables of squares are 0 and 1.
    let plan = Owned::zeros(5, 5, 1, 0, 0);
    let table = |by: u16| -> Vec<u8> {
        (0..5)
            .map(|z| plan.run(&[2, 5, 0, by], &[z]).unwrap().y)
            .collect()
    };
    assert_eq!(table(0), [0, 4, 1, 1, 4]);
    assert_eq!(table(1), [0, 1, 4, 4, 1]);
}

#[test]
fn two_times_three_gives_1_modulo_5() {
    // n = 2, L = 2: one product of x_0 with x_1, and nothing else.
    let plan = Owned {
        d: vec![0, 1],
        ..Owned::zeros(5, 5, 2, 0, 1)
    };
    let steps = plan.steps(&[1, 0, 0, 0]);
    assert_eq!(
        plan.run(&steps, &[2, 3]),
        Ok(Ran {
            y: 1,
            bootstraps: 2
        })
    );
    for x in 0..5 {
        for y in 0..5 {
            assert_eq!(plan.run(&steps, &[x, y]).unwrap().y, x * y % 5);
        }
    }
}

#[test]
fn primes_and_values() {
    for p in [2, 9, 253] {
        assert_eq!(Owned::zeros(p, 2, 1, 0, 0).check(), 1);
    }
    assert_eq!(Owned::zeros(251, 2, 1, 0, 0).check(), 0);
    for (s, number) in [(0, 2), (1, 2), (2, 0), (251, 0), (252, 2), (258, 2)] {
        assert_eq!(Owned::mixed(251, s, &[2], 0, 0).check(), number, "s = {s}");
    }
}

#[test]
fn limits() {
    assert_eq!(Owned::zeros(3, 2, 1, 63, 15).check(), 0);
    assert_eq!(Owned::zeros(3, 2, 1, 63, 16).check(), 3);
    assert_eq!(Owned::zeros(3, 2, 1, 64, 0).check(), 3);
    assert_eq!(Owned::zeros(3, 2, 12, 0, 0).check(), 0);
    assert_eq!(Owned::zeros(3, 2, 13, 0, 0).check(), 3);
    assert_eq!(Owned::zeros(3, 2, 1, 0, 32).check(), 0);
    assert_eq!(Owned::zeros(3, 2, 1, 0, 33).check(), 3);
    assert_eq!(Owned::zeros(3, 2, 0, 1, 0).check(), 3);
    assert_eq!(Owned::zeros(67, 64, 2, 0, 0).check(), 0);
    assert_eq!(Owned::zeros(67, 65, 2, 0, 0).check(), 3);
}

#[test]
fn misread_full_row_rank_is_not_asked_for() {
    // XOR has 4 entries and 3 independent equations, and is solved.
    let x = Owned::xor();
    let mut store = x.empty_store();
    let answers = [0, 1, 1, 0]
        .into_iter()
        .zip(0..)
        .map(|(v, i)| x.file(&mut store, i, v));
    let new = answers
        .filter(|answer| matches!(answer, Filed::New(_)))
        .count();
    assert_eq!(new, 3);
}

#[test]
fn misread_there_is_no_constant() {
    for t in 0..3 {
        let plan = Owned {
            d: vec![1; 2 * t],
            ..Owned::zeros(3, 2, 2, 0, t as u64)
        };
        assert_eq!(plan.row(0), vec![0; plan.columns()]);
        let mut store = plan.empty_store();
        assert_eq!(plan.file(&mut store, 0, 0), Filed::Implied);
        assert_eq!(plan.file(&mut store, 0, 1), Filed::Refused(9));
        assert_eq!(store, plan.empty_store());
    }
}

#[test]
fn misread_a_product_of_zero_weights_is_written_and_counted() {
    let plan = Owned::zeros(5, 2, 2, 1, 3);
    let steps = plan.steps(&[0; 12]);
    let kind_2 = steps.chunks(4).filter(|step| step[0] == 2).count();
    assert_eq!(kind_2, 1 + 2 * 3);
    assert_eq!(
        plan.run(&steps, &[1, 1]),
        Ok(Ran {
            y: 0,
            bootstraps: 7
        })
    );
}

#[test]
fn misread_another_beta_may_fit() {
    // The β read off after (1,1) gives 0 at entry 2, and yet (2,1) is kept.
    let x = Owned::xor();
    let mut store = x.empty_store();
    assert_eq!(x.file(&mut store, 1, 1), Filed::New(1));
    assert_eq!(x.equation_1(&x.beta(&store), &[1, 0]), 0);
    assert_eq!(x.file(&mut store, 2, 1), Filed::New(0));
}

#[test]
fn a_row_by_hand() {
    // p = 5, digits 2 1; the link is table[2 + 3·1 = 0] = 4; d gives 1·2 + 4·4 = 3.
    let mut plan = Owned::zeros(5, 3, 2, 1, 1);
    plan.weights = vec![1, 3];
    plan.tables = vec![4, 0, 0, 1, 2];
    plan.d = vec![1, 0, 4];
    assert_eq!(plan.row(7), [2 * 3 % 5, 3, 4 * 3 % 5, 2, 1, 4]);
}

#[test]
fn worst_norm_looks_at_every_row() {
    // No weight here is above 6, the middle of 13; larger ones are in tests/norm.rs.
    let mut plan = Owned::zeros(13, 2, 1, 1, 1);
    assert_eq!(plan.worst(&[0, 0, 0, 0]), Ok(0));
    assert_eq!(plan.worst(&[1, 2, 0, 3]), Ok(9));
    assert_eq!(plan.worst(&[3, 1, 0, 3]), Ok(10));
    plan.d = vec![3, 2];
    assert_eq!(plan.worst(&[3, 1, 0, 3]), Ok(13));
    plan.weights = vec![6];
    assert_eq!(plan.worst(&[3, 1, 0, 3]), Ok(36));
    // Table values are no weights.
    plan.tables = vec![6; 13];
    assert_eq!(plan.worst(&[3, 1, 0, 3]), Ok(36));
}

#[test]
fn foreign_lists_run() {
    // L = 2: registers 0 and 1 are the digits, u v a b are 2 to 5, y is 6.
    let x = Owned::xor();
    assert_eq!(
        x.run(&[], &[1, 1]),
        Ok(Ran {
            y: 0,
            bootstraps: 0
        })
    );
    // Registers that nothing wrote hold 0.
    assert_eq!(
        x.run(&[1, 6, 5, 2], &[1, 1]),
        Ok(Ran {
            y: 0,
            bootstraps: 0
        })
    );
    // A list may write a digit's register: y = x_0 with x_0 doubled.
    assert_eq!(
        x.run(&[1, 0, 0, 1, 1, 6, 0, 1], &[1, 0]),
        Ok(Ran {
            y: 2,
            bootstraps: 0
        })
    );
    // The count is that of the list, not m + 2t.
    let three = [2, 6, 0, 0, 2, 6, 0, 1, 2, 5, 1, 0];
    assert_eq!(
        x.run(&three, &[1, 0]),
        Ok(Ran {
            y: 2,
            bootstraps: 3
        })
    );
    // A list that never writes y answers 0.
    assert_eq!(
        x.run(&[2, 5, 1, 0], &[1, 1]),
        Ok(Ran {
            y: 0,
            bootstraps: 1
        })
    );
}

#[test]
fn the_part_handed_back_and_the_rest() {
    let x = Owned::xor();
    let mut slice = vec![777; 4 * 19 + 5];
    assert_eq!(call!(check_writing, x, &[0, 1, 1, 0], &slice), 0);
    let part = call!(write, x, &[0, 1, 1, 0], &mut slice);
    assert_eq!(part.len(), 4 * 19);
    assert_eq!(part[..8], [0, 6, 0, 0, 0, 2, 0, 0]);
    assert_eq!(slice[4 * 19..], [777; 5]);
}

#[test]
fn step_counts() {
    for (n, m, t) in [
        (1, 0, 0),
        (1, 1, 0),
        (2, 0, 1),
        (3, 5, 2),
        (1, 63, 15),
        (4, 3, 32),
    ] {
        let plan = Owned::zeros(3, 2, n, m, t);
        let l = n + m;
        let formula = m * (n + 2) + m * m.saturating_sub(1) / 2 + 1 + t * (2 * l + 12) + l;
        let steps = plan.steps(&vec![0; plan.columns()]);
        assert_eq!(steps.len() as u64, 4 * formula);
    }
}
