//! The reference's coefficients and new weights, held against each other and against the paper. No C function is
//! called.

use std::collections::HashSet;

use sulmedra_reference::coefficients::{coefficients, phase, signature, Coefficients};
use sulmedra_reference::demands::told_phase;
use sulmedra_reference::new_weights::{all_new_weights, has_the_shape, new_weights, same_phases};
use sulmedra_reference::odd_set::odd_set;
use sulmedra_reference::random::{add_even_weights, marks, weights, Random};
use sulmedra_reference::reading::Weights;

/// The weights of M6 and M7.
fn m6() -> Weights {
    let mut table = [0; 256];
    table[1..8].copy_from_slice(&[1, 1, 7, 1, 7, 7, 1]);
    table
}

fn m7() -> Weights {
    let mut table = [0; 256];
    table[1..16].fill(1);
    table
}

/// Coefficients that are 0 but for some of c.
fn only_c(places: &[usize]) -> Coefficients {
    let mut c = [0; 512];
    places.iter().for_each(|place| c[*place] = 1);
    Coefficients { l: [0; 8], q: [0; 64], c }
}

#[test]
fn m6_has_only_c() {
    assert_eq!(coefficients(3, &m6()), only_c(&[2 * 64 + 8]));
}

#[test]
fn m7_has_no_coefficients() {
    assert_eq!(coefficients(4, &m7()), only_c(&[]));
}

/// q is brought back to 0..3 exactly: one parity {0, 1} of each weight.
#[test]
fn q_is_minus_the_sum_modulo_four() {
    for (weight, q) in (0..8).zip([0, 3, 2, 1, 0, 3, 2, 1]) {
        let mut table = [0; 256];
        table[3] = weight;
        let found = coefficients(2, &table);
        assert_eq!((found.l[0], found.l[1], found.q[8]), (weight, weight, q), "weight {weight}");
    }
}

/// The paper's formula: the coefficients tell the phase on every state.
#[test]
fn coefficients_tell_the_phase() {
    let mut random = Random::new(100);
    for n in 1..=8 {
        for _ in 0..20 {
            let table = weights(&mut random, n);
            let found = coefficients(n, &table);
            for x in 0..1 << n {
                assert_eq!(phase(n, &found, x), told_phase(&table, x), "n = {n}, x = {x}, {table:?}");
            }
        }
    }
}

/// Equal coefficients exactly when the phases are equal: all tables on two wires, each with each other.
#[test]
fn coefficients_and_phases_tell_each_other() {
    let tables: Vec<Weights> = (0..512)
        .map(|digits: usize| {
            let mut table = [0; 256];
            (0..3).for_each(|p| table[p + 1] = (digits >> (3 * p) & 7) as u8);
            table
        })
        .collect();
    let told: Vec<_> = tables.iter().map(|table| (coefficients(2, table), phases(2, table))).collect();
    for (found, phases) in &told {
        assert!(told.iter().all(|(other, others)| (found == other) == (phases == others)));
    }
}

/// The phases on all states of at most four wires, four bits each.
fn phases(n: usize, table: &Weights) -> u64 {
    (0..1u16 << n).map(|x| u64::from(told_phase(table, x)) << (4 * x)).sum()
}

/// The difference of two phase functions, state by state modulo 8.
fn difference(n: usize, one: u64, other: u64) -> u64 {
    (0..1u64 << n).map(|x| ((8 + (one >> (4 * x) & 7) - (other >> (4 * x) & 7)) % 8) << (4 * x)).sum()
}

/// Every phase function that even weights alone can make: all of them are added up.
fn made_by_even_weights(n: usize) -> HashSet<u64> {
    let mut made = HashSet::from([0]);
    for p in 1..1usize << n {
        let mut table = [0; 256];
        table[p] = 6;
        let six = phases(n, &table);
        // Taking 6 away once, twice and three times adds 2, 4 and 6.
        for _ in 0..3 {
            let more: Vec<u64> = made.iter().map(|one| difference(n, *one, six)).collect();
            made.extend(more);
        }
    }
    made
}

/// The paper's sentence on equal signatures, by brute force: every pair of odd sets on up to three wires, and random
/// tables on up to four.
#[test]
fn equal_signature_means_that_phases_differ_by_even_weights() {
    let mut random = Random::new(101);
    for n in 1..=4 {
        let even = made_by_even_weights(n);
        let mut equal = 0;
        let mut compare = |one: &Weights, other: &Weights| {
            let by_signature = signature(n, one) == signature(n, other);
            let by_phases = even.contains(&difference(n, phases(n, one), phases(n, other)));
            assert_eq!(by_signature, by_phases, "n = {n}, {one:?} and {other:?}");
            equal += usize::from(by_signature);
        };
        if n <= 3 {
            let sets = 0..1u32 << ((1 << n) - 1);
            let table =
                |set: u32| std::array::from_fn(|p| if p > 0 && p < 32 { (set >> (p - 1) & 1) as u8 } else { 0 });
            let tables: Vec<Weights> = sets.map(table).collect();
            tables.iter().for_each(|one| tables.iter().for_each(|other| compare(one, other)));
        }
        for _ in 0..300 {
            let one = weights(&mut random, n);
            let unlike = weights(&mut random, n);
            let like = add_even_weights(&mut random, n, &one);
            compare(&one, &unlike);
            compare(&one, &like);
        }
        assert!(equal > 300, "equal signatures came up for n = {n}");
    }
}

/// On up to three wires every weight table's odd set, on four some: the search finds what trying all rests finds, there
/// is no other, and there is one exactly when the signatures are equal.
#[test]
fn new_weights_are_the_only_ones_of_their_shape() {
    let mut random = Random::new(102);
    for n in 1..=4 {
        let (mut found, mut none) = (0, 0);
        for _ in 0..[0, 200, 300, 200, 10][n] {
            let table = weights(&mut random, n);
            let other = weights(&mut random, n);
            let even = add_even_weights(&mut random, n, &table);
            for (from, marks) in [(&table, odd_set(&table)), (&even, odd_set(&table)), (&table, odd_set(&other))] {
                let all = all_new_weights(n, from, &marks);
                let search = new_weights(n, from, &marks);
                assert_eq!(all, search.into_iter().collect::<Vec<_>>(), "n = {n}, {from:?}, {marks:?}");
                assert_eq!(search.is_some(), signature(n, from) == signature(n, &marks), "n = {n}, {from:?}");
                found += usize::from(search.is_some());
                none += usize::from(search.is_none());
            }
        }
        assert!(found > 15 && none > 5, "both came up for n = {n}: {found} and {none}");
    }
}

#[test]
fn new_weights_have_what_the_paper_says() {
    let mut random = Random::new(103);
    for n in 1..=8 {
        for _ in 0..20 {
            let table = weights(&mut random, n);
            let marks = odd_set(&table);
            let new = new_weights(n, &table, &marks).expect("a table has its own odd set's signature");
            assert!(has_the_shape(&new, &marks) && same_phases(n, &new, &table));
            assert_eq!(odd_set(&new), marks);
        }
    }
}

/// M6 keeps 7 T and the same weights. M7 without parity 1 has the phase of one T dagger on wire 0.
#[test]
fn new_weights_of_the_marked_circuits() {
    assert_eq!(new_weights(3, &m6(), &odd_set(&m6())), Some(m6()));
    assert_eq!(new_weights(4, &m7(), &[0; 256]), Some([0; 256]));
    let mut without = m7();
    without[1] = 0;
    let mut only_one = [0; 256];
    only_one[1] = 1;
    let mut seven = [0; 256];
    seven[1] = 7;
    assert_eq!(new_weights(4, &without, &only_one), Some(seven));
}

/// A rest on one wire that stands in for a pair's is not of the shape, nor is one on three wires.
#[test]
fn other_shapes_are_noticed() {
    let mut random = Random::new(104);
    let members = marks(&mut random, 3, 4);
    for (p, rest, fits) in
        [(1, 2, true), (4, 4, true), (3, 6, true), (3, 2, false), (5, 4, false), (7, 4, false), (6, 1, false)]
    {
        let mut table = members;
        table[p] = (table[p] + rest) % 8;
        assert_eq!(has_the_shape(&table, &members), fits, "{rest} at {p}");
    }
}
