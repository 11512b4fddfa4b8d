//! The types of the crate's root: what they give, what they refuse, and that
//! they never panic.

use celerycrag::raw::{self, Lent};
use celerycrag::{
    Filed, Ledger, ListingRefusal, Plan, Program, Ran, Record, Refusal, Settled, Shape, Step,
    Store, StoreRefusal,
};
use std::error::Error;

const XOR: Shape = Shape {
    p: 3,
    s: 2,
    n: 2,
    m: 0,
    t: 1,
};

fn xor() -> Plan {
    Plan::new(XOR, vec![2, 2], vec![], vec![], vec![1, 1]).expect("the plan of the exclusive or")
}

/// p s n m t = 5 3 2 1 1, with the radices 4 2 and one link.
fn linked() -> Plan {
    let shape = Shape {
        p: 5,
        s: 3,
        n: 2,
        m: 1,
        t: 1,
    };
    let (weights, table, d) = (vec![1, 3], vec![4, 0, 0, 1, 2], vec![1, 0, 4]);
    Plan::new(shape, vec![4, 2], weights, table, d).expect("a plan")
}

#[test]
fn a_plan_keeps_what_it_was_given() {
    let plan = linked();
    assert_eq!(plan.radices(), [4, 2]);
    assert_eq!(plan.weights(), [1, 3]);
    assert_eq!(plan.tables(), [4, 0, 0, 1, 2]);
    assert_eq!(plan.d(), [1, 0, 4]);
    assert_eq!((plan.shape().p, plan.shape().t), (5, 1));
    assert_eq!(
        (plan.variables(), plan.columns(), plan.entries()),
        (3, 6, 8)
    );
    assert_eq!((plan.bootstraps(), plan.step_count()), (3, 26));
    assert_eq!(plan, plan.clone());
    assert_ne!(plan, xor());
}

#[test]
fn plans_are_refused_for_each_cause() {
    let new =
        |shape: Shape, d: Vec<u8>| Plan::new(shape, vec![2, 2], vec![], vec![], d).map(|_| ());
    assert_eq!(new(XOR, vec![1, 1]), Ok(()));
    assert_eq!(new(Shape { p: 9, ..XOR }, vec![]), Err(Refusal::NO_PRIME));
    assert_eq!(new(Shape { s: 4, ..XOR }, vec![]), Err(Refusal::RADIX));
    assert_eq!(new(Shape { n: 0, ..XOR }, vec![]), Err(Refusal::RANGE));
    assert_eq!(new(XOR, vec![1]), Err(Refusal::LENGTH));
    assert_eq!(new(XOR, vec![1, 3]), Err(Refusal::NO_RESIDUE));
}

#[test]
fn radices_are_refused_for_each_cause() {
    let new = |radices: &[u8]| {
        Plan::new(XOR, radices.to_vec(), vec![], vec![], vec![1, 1]).map(|plan| plan.entries())
    };
    assert_eq!(new(&[2, 3]), Ok(6));
    assert_eq!(new(&[3, 3]), Ok(9));
    for radices in [[2, 1], [0, 2], [2, 4], [255, 2]] {
        assert_eq!(new(&radices), Err(Refusal::RADIX));
    }
    assert_eq!(new(&[2, 2, 1]), Err(Refusal::RADIX));
    assert_eq!(new(&[2; 13]), Err(Refusal::RANGE));
    assert_eq!(new(&[2; 12]), Err(Refusal::LENGTH));
    assert_eq!(new(&[3]), Err(Refusal::LENGTH));
    assert_eq!(new(&[]), Err(Refusal::LENGTH));
}

/// The plan of a shape without links and products.
fn bare(p: usize, s: usize, n: usize) -> Result<Plan, Refusal> {
    let [m, t] = [0, 0];
    Plan::with_radix(Shape { p, s, n, m, t }, vec![], vec![], vec![])
}

#[test]
fn with_radix_takes_s_for_every_digit() {
    for p in [3, 5, 17, 67, 251] {
        for s in 2..=p {
            for n in 1..=13 {
                let plan = bare(p, s, n);
                if s.pow(n as u32) > 4_096 {
                    assert_eq!(plan, Err(Refusal::RANGE));
                    break;
                }
                let plan = plan.expect("a plan");
                assert_eq!(plan.radices(), vec![s as u8; n]);
                assert_eq!(plan.entries(), s.pow(n as u32));
                let shape = plan.shape();
                let same = Plan::new(shape, vec![s as u8; n], vec![], vec![], vec![]);
                assert_eq!(same, Ok(plan.clone()));

                // The digits in radix s, from the right.
                for entry in [0, 1, s - 1, plan.entries() / 2, plan.entries() - 1] {
                    let mut rest = entry;
                    for digit in plan.digits(entry).expect("an entry").into_iter().rev() {
                        assert_eq!(digit as usize, rest % s);
                        rest /= s;
                    }
                    assert_eq!(rest, 0);
                }
                assert_eq!(plan.row(plan.entries()), Err(Refusal::NO_ENTRY));
            }
        }
    }
}

/// However large s and n are, the refusal is that of n radices of s, and no
/// list of n is made.
#[test]
fn with_radix_is_refused_as_n_radices_are() {
    let numbers = [0, 1, 2, 3, 4, 64, 65, 251, 252, 255, 256, 300];
    for p in [0, 2, 3, 9, 67, 251, 253] {
        for s in numbers {
            for n in numbers {
                let radices = vec![s.min(255) as u8; n];
                let lent = Lent {
                    p,
                    s,
                    n,
                    m: 0,
                    t: 0,
                    radices: &radices,
                    weights: &[],
                    tables: &[],
                    d: &[],
                };
                let number = bare(p, s, n).map_or_else(Refusal::number, |_| 0);
                assert_eq!(number, raw::check(lent), "{p} {s} {n}");
            }
        }
    }
    for far in [1 << 16, (1 << 16) + 2, 1 << 32, 1 << 63, usize::MAX] {
        assert_eq!(bare(9, 2, far), Err(Refusal::NO_PRIME));
        assert_eq!(bare(251, far, 2), Err(Refusal::RADIX));
        assert_eq!(bare(251, far, far), Err(Refusal::RADIX));
        assert_eq!(bare(251, 2, far), Err(Refusal::RANGE));
        assert_eq!(bare(251, 251, far), Err(Refusal::RANGE));
    }
}

#[test]
fn any_number_may_be_given() {
    let numbers = [0, 1, 2, 3, 64, 251, 1 << 32, 1 << 63, usize::MAX];
    for p in numbers {
        for s in numbers {
            for n in numbers {
                for m in numbers {
                    for t in numbers {
                        let shape = Shape { p, s, n, m, t };
                        let one_radix = Plan::with_radix(shape, vec![], vec![], vec![]);
                        let two = Plan::new(shape, vec![2, 3], vec![], vec![], vec![]);
                        for plan in [one_radix, two].into_iter().flatten() {
                            assert!(plan.entries() <= 4_096 && plan.columns() <= 1_024);
                        }
                    }
                }
            }
        }
    }
    let (plan, mut store) = (xor(), Store::new(&xor()));
    let mut ledger = Ledger::new(&plan);
    for number in [4, 1 << 16, 1 << 32, 1 << 63, usize::MAX] {
        assert_eq!(plan.row(number), Err(Refusal::NO_ENTRY));
        assert_eq!(plan.digits(number), Err(Refusal::NO_ENTRY));
        assert_eq!(store.file(number, number), Err(Refusal::NO_ENTRY));
        assert_eq!(store.file(0, number), Err(Refusal::NO_VALUE));
        assert_eq!(store.settled(number), Err(Refusal::NO_ENTRY));
        assert_eq!(ledger.file(number, number), Err(Refusal::NO_ENTRY));
        assert_eq!(ledger.file(0, number), Err(Refusal::NO_VALUE));
        assert_eq!(ledger.withdraw(number), Err(Refusal::NO_ENTRY));
    }
    assert_eq!(store, Store::new(&plan));
    assert_eq!(ledger, Ledger::new(&plan));
}

#[test]
fn rows_digits_and_tables() {
    let plan = linked();
    // Digits 2 1; the link is table[2 + 3 = 0] = 4; d gives 2 + 4 * 4 = 3.
    assert_eq!(plan.row(5), Ok(vec![1, 3, 2, 2, 1, 4]));
    assert_eq!(plan.digits(5), Ok(vec![2, 1]));
    assert_eq!(plan.digits(7), Ok(vec![3, 1]));
    assert_eq!(plan.digits(8), Err(Refusal::NO_ENTRY));
    assert_eq!(plan.table(0), Ok(vec![4, 0, 0, 1, 2]));
    assert_eq!(plan.table(1), Ok(vec![0, 4, 1, 1, 4]));
    assert_eq!(plan.table(2), Ok(vec![0, 1, 4, 4, 1]));
    assert_eq!(plan.table(3), Err(Refusal::STEPS));
    assert_eq!(plan.table(u16::MAX), Err(Refusal::STEPS));
}

#[test]
fn worst_norms_count_weights_by_their_short_side() {
    // The link's weights are 1 and 3, which counts as -2; d is 1 0 4.
    let plan = linked();
    assert_eq!(plan.worst_norm(&[0; 6]), Ok(5));
    assert_eq!(plan.worst_norm(&[4; 6]), Ok(5));
    assert_eq!(plan.worst_norm(&[2, 3, 4, 4, 4, 4]), Ok(9));
    assert_eq!(plan.worst_norm(&[4, 4, 4, 2, 3, 3]), Ok(12));
    assert_eq!(plan.worst_norm(&[0; 5]), Err(Refusal::LENGTH));
    assert_eq!(plan.worst_norm(&[5; 6]), Err(Refusal::NO_RESIDUE));
    assert_eq!(xor().worst_norm(&[0, 1, 1, 0]), Ok(2));
    assert_eq!(xor().worst_norm(&[2; 4]), Ok(2));

    let plan = bare(251, 2, 12).expect("a plan");
    for (weight, square) in [(1, 1), (125, 15_625), (126, 15_625), (250, 1)] {
        assert_eq!(plan.worst_norm(&[weight; 12]), Ok(12 * square));
    }
}

/// 64 weights of 125, or of 126, which counts as -125.
#[test]
fn the_largest_worst_norm() {
    let shape = Shape {
        p: 251,
        s: 2,
        n: 1,
        m: 63,
        t: 15,
    };
    let (weights, tables) = (vec![0; 2_016], vec![0; 63 * 251]);
    let plan = Plan::with_radix(shape, weights, tables, vec![0; 960]).expect("a plan");
    for (weight, norm) in [(125, 1_000_000), (126, 1_000_000), (250, 64)] {
        assert_eq!(plan.worst_norm(&[weight; 1_024]), Ok(norm));
    }
}

#[test]
fn a_store_files_and_comes_back_from_its_bytes() {
    let plan = xor();
    let mut store = Store::new(&plan);
    assert_eq!(store.file(1, 1), Ok(Filed::New { column: 1 }));
    assert_eq!(store.file(2, 1), Ok(Filed::New { column: 0 }));
    assert_eq!(store.file(3, 0), Ok(Filed::New { column: 2 }));
    assert_eq!(store.file(0, 0), Ok(Filed::Implied));
    let before = store.clone();
    assert_eq!(store.file(0, 1), Err(Refusal::CONTRADICTION));
    assert_eq!(store, before);
    assert_eq!(store.coefficients(), Ok(vec![0, 1, 1, 0]));
    assert_eq!(store.plan(), &plan);

    let bytes = store.as_bytes().to_vec();
    assert_eq!(Store::from_bytes(&plan, bytes.clone()), Ok(store.clone()));
    assert_eq!(store.into_bytes(), bytes);
    assert_eq!(bytes, [1, 0, 0, 2, 0, 1, 0, 1, 1, 1, 1, 1, 0, 0]);
    let short = bytes[1..].to_vec();
    assert_eq!(Store::from_bytes(&plan, short), Err(Refusal::LENGTH));
    let mut damaged = bytes;
    damaged[0] = 2;
    assert_eq!(Store::from_bytes(&plan, damaged), Err(Refusal::DAMAGED));
}

#[test]
fn a_store_moves_from_the_full_layout_and_back() {
    let plan = xor();
    let mut store = Store::new(&plan);
    assert_eq!(store.to_full_bytes(), Ok(vec![0; 20]));
    assert_eq!(Store::from_full_bytes(&plan, &[0; 20]), Ok(store.clone()));
    // The store that XOR had on disk after two entries.
    let kept = [
        1, 0, 1, 0, 1, //
        0, 1, 0, 1, 1, //
        0, 0, 0, 0, 0, //
        0, 0, 0, 0, 0,
    ];
    let mut moved = Store::from_full_bytes(&plan, &kept).expect("a store of filings");
    store.file(1, 1).expect("kept");
    store.file(2, 1).expect("kept");
    assert_eq!(moved, store);
    assert_eq!(moved.plan(), &plan);
    assert_eq!(moved.to_full_bytes().as_deref(), Ok(&kept[..]));
    // It goes on as the one that was not moved.
    assert_eq!(moved.file(3, 0), store.file(3, 0));
    assert_eq!(moved.file(3, 1), Err(Refusal::CONTRADICTION));
    assert_eq!(moved.coefficients(), Ok(vec![0, 1, 1, 0]));
    assert_eq!(moved, store);

    // Lengths, those of the other layout too.
    let from_full = |bytes: &[u8]| Store::from_full_bytes(&plan, bytes);
    for length in [0, 14, 19, 21, 40] {
        assert_eq!(from_full(&vec![0; length]), Err(Refusal::LENGTH));
    }
    let full = kept.to_vec();
    assert_eq!(Store::from_bytes(&plan, full), Err(Refusal::LENGTH));
    // A byte of p, a lead of 2, and anything left of the diagonal.
    for (place, byte) in [(2, 3), (0, 2), (5, 1), (10, 2), (11, 1), (16, 255), (17, 1)] {
        let mut damaged = kept;
        damaged[place] = byte;
        assert_eq!(from_full(&damaged), Err(Refusal::DAMAGED), "byte {place}");
    }
}

/// Records from entries and their values.
fn records<const N: usize>(list: [(u16, u16); N]) -> [Record; N] {
    list.map(|(entry, value)| Record { entry, value })
}

#[test]
fn a_ledger_files_and_withdraws() {
    let plan = xor();
    let mut ledger = Ledger::new(&plan);
    assert_eq!((ledger.count(), ledger.entries()), (0, &[][..]));
    assert_eq!(ledger.plan(), &plan);
    assert_eq!(ledger.withdraw(1), Err(Refusal::NOT_LISTED));
    assert_eq!(ledger, Ledger::new(&plan));

    assert_eq!(ledger.file(1, 1), Ok(Filed::New { column: 1 }));
    assert_eq!(ledger.file(2, 1), Ok(Filed::New { column: 0 }));
    assert_eq!(ledger.file(3, 0), Ok(Filed::New { column: 2 }));
    assert_eq!(ledger.file(0, 0), Ok(Filed::Implied));
    assert_eq!(ledger.entries(), records([(1, 1), (2, 1), (3, 0), (0, 0)]));
    assert_eq!(ledger.store().coefficients(), Ok(vec![0, 1, 1, 0]));
    let full = ledger.clone();
    // Again, and with another value.
    assert_eq!(ledger.file(3, 0), Ok(Filed::Implied));
    assert_eq!(ledger.file(3, 1), Err(Refusal::CONTRADICTION));
    assert_eq!(ledger.file(3, 2), Err(Refusal::NO_VALUE));
    assert_eq!(ledger.file(4, 0), Err(Refusal::NO_ENTRY));
    assert_eq!(ledger, full);

    assert_eq!(ledger.withdraw(1), Ok(1));
    assert_eq!(ledger.entries(), records([(2, 1), (3, 0), (0, 0)]));
    assert_eq!(ledger.store().settled(1), Ok(free(2)));
    assert_eq!(ledger.withdraw(1), Err(Refusal::NOT_LISTED));
    assert_eq!(ledger.file(1, 0), Ok(Filed::New { column: 2 }));
    assert_eq!(ledger.entries(), records([(2, 1), (3, 0), (0, 0), (1, 0)]));
    assert_eq!(settled(ledger.store()), [0, 0, 1, 0].map(forced));

    // The same entries in any order have the same store.
    let mut store = Store::new(&plan);
    for (entry, value) in [0, 0, 1, 0].into_iter().enumerate() {
        store.file(entry, value).expect("kept");
    }
    assert_eq!(ledger.store(), &store);
    for (entry, value) in [(2, 1), (1, 0), (3, 0), (0, 0)] {
        assert_eq!(ledger.withdraw(entry), Ok(value));
    }
    assert_eq!(ledger, Ledger::new(&plan));
    assert_eq!(full.into_store().coefficients(), Ok(vec![0, 1, 1, 0]));
}

#[test]
fn a_ledger_comes_back_from_its_store_and_list() {
    let plan = xor();
    let mut ledger = Ledger::new(&plan);
    for (entry, value) in [(2, 1), (0, 0), (1, 1)] {
        ledger.file(entry, value).expect("kept");
    }
    let from = |list: &[Record]| Ledger::from_store(ledger.store().clone(), list);
    assert_eq!(from(ledger.entries()), Ok(ledger.clone()));
    // In another order, and without what the others imply.
    for list in [&[(1, 1), (2, 1), (0, 0)][..], &[(2, 1), (1, 1)]] {
        let record = |&(entry, value)| Record { entry, value };
        let list: Vec<Record> = list.iter().map(record).collect();
        let mut other = from(&list).expect("a list of this store");
        assert_eq!(other.entries(), list);
        assert_eq!(other.store(), ledger.store());
        assert_eq!(other.withdraw(2), Ok(1));
        assert_eq!(other.count(), list.len() - 1);
    }
    // The store that was given comes back: the same bytes in the same place.
    let refused = |list: &[Record]| {
        let store = ledger.store().clone();
        let place = store.as_bytes().as_ptr();
        let turned_down = Ledger::from_store(store, list).expect_err("no list of this store");
        assert_eq!(turned_down.store(), ledger.store());
        let refusal = turned_down.refusal();
        assert_eq!(Refusal::from(turned_down.clone()), refusal);
        let back = turned_down.into_store();
        assert_eq!(back.as_bytes(), ledger.store().as_bytes());
        assert_eq!(back.as_bytes().as_ptr(), place);
        assert_eq!(back.plan(), &plan);
        // It is as good as it was.
        let again = Ledger::from_store(back, ledger.entries());
        assert_eq!(again, Ok(ledger.clone()));
        refusal
    };
    for wrong in [
        // Another store.
        &[][..],
        &[(2, 1)],
        &[(2, 1), (1, 0)],
        &[(2, 1), (1, 1), (3, 0)],
        // An entry twice, with its value and with another.
        &[(2, 1), (1, 1), (1, 1)],
        &[(2, 1), (1, 1), (1, 0)],
        // No entry, no value, a contradiction.
        &[(2, 1), (1, 1), (4, 0)],
        &[(2, 1), (1, 1), (0, 2)],
        &[(2, 1), (1, 1), (256, 0)],
        &[(2, 1), (1, 257), (0, 0)],
        &[(2, 1), (1, 1), (0, 1)],
    ] {
        let record = |&(entry, value)| Record { entry, value };
        let list: Vec<Record> = wrong.iter().map(record).collect();
        assert_eq!(refused(&list), Refusal::RECORDS, "{wrong:?}");
    }
    // More records than there are entries.
    let many = records([(2, 1), (0, 0), (1, 1), (3, 0), (3, 0)]);
    assert_eq!(refused(&many), Refusal::LENGTH);
    assert_eq!(refused(&[Record::default(); 300]), Refusal::LENGTH);
}

/// A withdrawn entry that the others still force can only have its old value,
/// until they are withdrawn too.
#[test]
fn a_withdrawn_entry_may_stay_forced() {
    let mut ledger = Ledger::new(&bare(5, 5, 1).expect("a plan"));
    ledger.file(1, 2).expect("kept");
    ledger.file(3, 1).expect("kept");
    assert_eq!(ledger.withdraw(3), Ok(1));
    assert_eq!(ledger.store().settled(3), Ok(forced(1)));
    for value in [0, 2, 3, 4] {
        assert_eq!(ledger.file(3, value), Err(Refusal::CONTRADICTION));
    }
    for value in [5, 6, 1 << 16, usize::MAX] {
        assert_eq!(ledger.file(3, value), Err(Refusal::NO_VALUE));
    }
    assert_eq!(ledger.file(3, 1), Ok(Filed::Implied));
    assert_eq!(ledger.withdraw(3), Ok(1));
    assert_eq!(ledger.withdraw(1), Ok(2));
    assert_eq!(ledger.store().settled(3), Ok(free(0)));
    assert_eq!(ledger.file(3, 2), Ok(Filed::New { column: 0 }));
    assert_eq!(ledger.store().settled(1), Ok(forced(4)));
}

const fn forced(residue: u8) -> Settled {
    Settled::Forced { residue }
}

const fn free(column: usize) -> Settled {
    Settled::Free { column }
}

/// What the store says of each entry in turn.
fn settled(store: &Store) -> Vec<Settled> {
    let entries = 0..store.plan().entries();
    let settled = |entry| store.settled(entry).expect("an entry");
    entries.map(settled).collect()
}

#[test]
fn entries_settle_as_others_are_filed() {
    let mut store = Store::new(&xor());
    assert_eq!(settled(&store), [forced(0), free(1), free(0), free(0)]);
    store.file(1, 1).expect("kept");
    assert_eq!(settled(&store), [forced(0), forced(1), free(0), free(0)]);
    store.file(2, 1).expect("kept");
    let before = store.clone();
    assert_eq!(settled(&store), [forced(0), forced(1), forced(1), free(2)]);
    assert_eq!(store.settled(4), Err(Refusal::NO_ENTRY));
    assert_eq!(store, before);
    store.file(3, 0).expect("kept");
    assert_eq!(
        settled(&store),
        [forced(0), forced(1), forced(1), forced(0)]
    );
}

/// Forced and free are what filing answers, and the largest residue of the
/// largest prime is forced as any other.
#[test]
fn settled_entries_file_as_they_say() {
    let shape = Shape {
        p: 251,
        s: 250,
        n: 1,
        m: 1,
        t: 1,
    };
    let table = (0..251).rev().map(|z| z as u8).collect();
    let plan = Plan::new(shape, vec![251], vec![1], table, vec![1, 2]).expect("a plan");
    let mut store = Store::new(&plan);
    let mut forced_ones = 0;
    for entry in 0..plan.entries() {
        let value = entry % 7;
        match store.settled(entry).expect("an entry") {
            Settled::Free { column } => {
                assert_eq!(store.file(entry, value), Ok(Filed::New { column }));
            }
            Settled::Forced { residue } => {
                let own = store.file(entry, residue.into());
                let other = store.file(entry, (usize::from(residue) + 1) % 250);
                let kept = if residue < 250 {
                    Ok(Filed::Implied)
                } else {
                    Err(Refusal::NO_VALUE)
                };
                assert_eq!(own, kept);
                assert_eq!(other, Err(Refusal::CONTRADICTION));
                forced_ones += 1;
            }
        }
    }
    assert!(forced_ones >= plan.entries() - plan.columns());
}

#[test]
fn a_forced_residue_may_be_no_value() {
    let shape = Shape {
        p: 5,
        s: 2,
        n: 1,
        m: 0,
        t: 0,
    };
    let plan = Plan::new(shape, vec![5], vec![], vec![], vec![]).expect("a plan");
    let mut store = Store::new(&plan);
    assert_eq!(store.settled(3), Ok(free(0)));
    store.file(1, 1).expect("kept");
    assert_eq!(settled(&store), [0, 1, 2, 3, 4].map(forced));
    for value in 0..2 {
        assert_eq!(store.file(3, value), Err(Refusal::CONTRADICTION));
    }
}

#[test]
fn a_program_is_written_and_run() {
    let plan = xor();
    let program = Program::write(&plan, &[0, 1, 1, 0]).expect("a program");
    assert_eq!(program.plan(), &plan);
    assert_eq!(program.numbers().len(), 4 * 19);
    let steps: Vec<Step> = program.steps().collect();
    assert_eq!(steps.len(), plan.step_count());
    assert_eq!(steps[0], Step::Clear { to: 6 });
    let (to, from) = (5, 3);
    assert_eq!(steps[12], Step::Add { to, from, by: 2 });
    let (to, from) = (4, 4);
    assert_eq!(steps[13], Step::Bootstrap { to, from, table: 0 });

    for (digits, y) in [([0, 0], 0), ([0, 1], 1), ([1, 0], 1), ([1, 1], 0)] {
        assert_eq!(program.run(&digits), Ok(Ran { y, bootstraps: 2 }));
    }
    assert_eq!(program.run(&[0]), Err(Refusal::LENGTH));
    assert_eq!(program.run(&[0, 2]), Err(Refusal::NO_DIGIT));
    assert_eq!(Program::write(&plan, &[0; 3]), Err(Refusal::LENGTH));
    assert_eq!(Program::write(&plan, &[3; 4]), Err(Refusal::NO_RESIDUE));
}

#[test]
fn each_digit_has_its_own_radix() {
    let plan = linked();
    let program = Program::write(&plan, &[0; 6]).expect("a program");
    assert!(program.run(&[3, 1]).is_ok());
    for digits in [[4, 1], [1, 2], [4, 2]] {
        assert_eq!(program.run(&digits), Err(Refusal::NO_DIGIT));
        assert_eq!(plan.run(&[], &digits), Err(Refusal::NO_DIGIT));
    }
    // A value is compared with s alone, which no radix is here.
    let mut store = Store::new(&plan);
    assert_eq!(store.file(0, 2), Ok(Filed::New { column: 2 }));
    assert_eq!(store.file(1, 3), Err(Refusal::NO_VALUE));
}

#[test]
fn foreign_lists_run_too() {
    let plan = xor();
    let (y, bootstraps) = (0, 0);
    assert_eq!(plan.run(&[], &[1, 1]), Ok(Ran { y, bootstraps }));
    let (y, bootstraps) = (1, 1);
    assert_eq!(plan.run(&[2, 6, 0, 0], &[1, 1]), Ok(Ran { y, bootstraps }));
    assert_eq!(plan.run(&[3, 0, 0, 0], &[1, 1]), Err(Refusal::STEPS));
    assert_eq!(plan.run(&[0; 3], &[1, 1]), Err(Refusal::STEPS));
}

#[test]
fn programs_are_read_back() {
    let plan = linked();
    for beta in [[0, 1, 2, 3, 4, 0], [4; 6], [0; 6]] {
        let program = Program::write(&plan, &beta).expect("a program");
        assert_eq!(plan.read_steps(program.numbers()), Ok(beta.to_vec()));
        assert_eq!(
            xor().read_steps(program.numbers()),
            Err(Refusal::NOT_WRITTEN)
        );
    }
    for steps in [
        &[][..],
        &[0; 3],
        &[0; 4],
        &[u16::MAX; 4 * 26],
        &[0; 100_000],
    ] {
        assert_eq!(plan.read_steps(steps), Err(Refusal::NOT_WRITTEN));
    }
}

#[test]
fn listings_are_read_back() {
    const LISTING: &str = include_str!("../../../examples/xor.out");
    let plan = xor();
    let read = |text: &str| plan.read_listing(text.as_bytes());
    assert_eq!(read(LISTING), Ok(vec![0, 1, 1, 0]));
    let refused = |refusal, line| {
        let line = Some(line);
        Err(ListingRefusal { refusal, line })
    };
    assert_eq!(read(""), refused(Refusal::MALFORMED, 1));
    assert_eq!(read(LISTING.trim_end()), refused(Refusal::MALFORMED, 22));
    assert_eq!(
        read(&LISTING.replace("2 19 2", "2 19 3")),
        refused(Refusal::NOT_WRITTEN, 1)
    );
    let late = format!("{}x\n", LISTING.replace("2 19 2", "2 19 3"));
    assert_eq!(read(&late), refused(Refusal::MALFORMED, 23));
    assert_eq!(
        linked().read_listing(LISTING.as_bytes()),
        refused(Refusal::NOT_WRITTEN, 1)
    );
}

#[test]
fn refusals_of_listings_are_errors_with_their_line() {
    let refusal = Refusal::NOT_WRITTEN;
    let line = Some(1);
    let error: Box<dyn Error + Send + Sync> = Box::new(ListingRefusal { refusal, line });
    assert_eq!(error.to_string(), format!("line 1: {refusal}"));
    assert_eq!(
        error.source().map(|source| source.to_string()),
        Some(refusal.to_string())
    );
    let no_line = ListingRefusal {
        refusal: Refusal::LENGTH,
        line: None,
    };
    assert_eq!(no_line.to_string(), Refusal::LENGTH.to_string());
}

#[test]
fn refusals_of_stores_are_errors_with_the_store() {
    fn counted(store: Store, list: &[Record]) -> Result<usize, Refusal> {
        Ok(Ledger::from_store(store, list)?.count())
    }
    let mut store = Store::new(&xor());
    store.file(1, 1).expect("kept");
    assert_eq!(counted(store.clone(), &records([(1, 1)])), Ok(1));
    assert_eq!(counted(store.clone(), &[]), Err(Refusal::RECORDS));
    let turned_down = Ledger::from_store(store, &[]).expect_err("no list of this store");
    let error: Box<dyn Error + Send + Sync> = Box::new(turned_down);
    assert_eq!(error.to_string(), Refusal::RECORDS.to_string());
    assert_eq!(
        error.source().map(|source| source.to_string()),
        Some(Refusal::RECORDS.to_string())
    );
}

#[test]
fn refusals_are_errors_with_a_number_and_a_sentence() {
    let all = [
        Refusal::NO_PRIME,
        Refusal::RADIX,
        Refusal::RANGE,
        Refusal::LENGTH,
        Refusal::NO_RESIDUE,
        Refusal::DAMAGED,
        Refusal::NO_ENTRY,
        Refusal::NO_VALUE,
        Refusal::CONTRADICTION,
        Refusal::NO_ROOM,
        Refusal::STEPS,
        Refusal::NO_DIGIT,
        Refusal::MALFORMED,
        Refusal::NOT_WRITTEN,
        Refusal::RECORDS,
        Refusal::NOT_LISTED,
    ];
    // 14 is the filing program's alone.
    for (refusal, number) in all.into_iter().zip((1..=13).chain(15..=17)) {
        assert_eq!(refusal.number(), number);
        let error: Box<dyn Error + Send + Sync> = Box::new(refusal);
        let text = error.to_string();
        assert_eq!(
            text,
            format!("refused with {number}: {}", refusal.sentence())
        );
    }
}

#[test]
fn the_types_go_between_threads() {
    fn both<T: Send + Sync>() {}
    both::<Plan>();
    both::<Store>();
    both::<Ledger>();
    both::<Record>();
    both::<Program>();
    both::<Refusal>();
    both::<ListingRefusal>();
    both::<StoreRefusal>();
}
