//! Odd sets, coefficients and new weights of the library, held against the reference.

use sulmedra_reference::comparison::weights::{coefficients, new_weights, odd_set, RIGHT_LENGTHS};
use sulmedra_reference::entries::Reply;
use sulmedra_reference::moves::carry_out;
use sulmedra_reference::new_weights::all_new_weights;
use sulmedra_reference::odd_set::{self as reference, Marks};
use sulmedra_reference::random::{add_even_weights, legal_move, weights, Random};
use sulmedra_reference::reading::Weights;

fn refused(number: u64) -> Reply {
    Reply { number, place: 0 }
}

/// 256 weights, 0 but for some.
fn table(values: &[(usize, u8)]) -> Weights {
    let mut table = [0; 256];
    values.iter().for_each(|(p, weight)| table[*p] = *weight);
    table
}

/// All three entries on one table; the new weights for its own odd set.
fn accept(n: usize, weights: &Weights, random: &mut Random) {
    let marks = odd_set(n, weights, 256, random).expect("sound weights have an odd set");
    coefficients(n, weights, RIGHT_LENGTHS, random).expect("sound weights have coefficients");
    new_weights(n, weights, &marks, 256, random).expect("sound weights have new weights");
}

/// All three entries refuse with this number.
fn refuse(n: usize, weights: &[u8], number: u64, random: &mut Random) {
    assert_eq!(odd_set(n, weights, 256, random), Err(refused(number)), "n = {n}, {weights:?}");
    assert_eq!(coefficients(n, weights, RIGHT_LENGTHS, random), Err(refused(number)), "n = {n}, {weights:?}");
    assert_eq!(new_weights(n, weights, &[0; 256], 256, random), Err(refused(number)), "n = {n}, {weights:?}");
}

#[test]
fn m6_has_only_c() {
    let m6 = table(&[(1, 1), (2, 1), (4, 1), (7, 1), (3, 7), (5, 7), (6, 7)]);
    let found = coefficients(3, &m6, RIGHT_LENGTHS, &mut Random::new(200)).expect("M6 is sound");
    assert_eq!((found.l, found.q), ([0; 8], [0; 64]));
    assert_eq!(found.c[64 * 2 + 8], 1);
    assert_eq!(found.c.iter().filter(|c| **c != 0).count(), 1);
    let kept = new_weights(3, &m6, &reference::odd_set(&m6), 256, &mut Random::new(200));
    assert_eq!(kept, Ok(m6));
}

#[test]
fn m7_has_no_coefficients() {
    let mut m7 = [0; 256];
    m7[1..16].fill(1);
    let found = coefficients(4, &m7, RIGHT_LENGTHS, &mut Random::new(201)).expect("M7 is sound");
    assert_eq!((found.l, found.q, found.c), ([0; 8], [0; 64], [0; 512]));
    assert_eq!(new_weights(4, &m7, &[0; 256], 256, &mut Random::new(201)), Ok([0; 256]));
    m7[1] = 0;
    let left = new_weights(4, &m7, &table(&[(1, 1)]), 256, &mut Random::new(201));
    assert_eq!(left, Ok(table(&[(1, 7)])), "M7 without parity 1");
}

#[test]
fn every_table_on_up_to_two_wires() {
    let mut random = Random::new(202);
    for a in 0..8 {
        accept(1, &table(&[(1, a)]), &mut random);
        for b in 0..8 {
            for c in 0..8 {
                accept(2, &table(&[(1, a), (2, b), (3, c)]), &mut random);
            }
        }
    }
}

/// One weight of each value at each parity: sums of one term, where a wrong sign or modulus of q shows first.
#[test]
fn every_weight_alone() {
    let mut random = Random::new(203);
    for n in [3, 5, 8] {
        for p in 1..1 << n {
            for weight in 1..8 {
                accept(n, &table(&[(p, weight)]), &mut random);
            }
        }
    }
}

#[test]
fn random_weights() {
    let mut random = Random::new(204);
    for n in 1..=8 {
        for _ in 0..250 {
            let table = weights(&mut random, n);
            accept(n, &table, &mut random);
        }
    }
}

/// Random legal moves carried out, even weights added: the signature stays, and the new weights are the unique ones.
#[test]
fn new_weights_after_moves() {
    let mut random = Random::new(205);
    let mut moved = 0;
    for n in 1..=8 {
        for _ in 0..60 {
            let table = weights(&mut random, n);
            let from = add_even_weights(&mut random, n, &table);
            let mut marks = reference::odd_set(&table);
            for _ in 0..random.between(0, 3) {
                let Some(step) = legal_move(&mut random, n, &marks) else { break };
                marks = carry_out(&marks, &step);
                moved += 1;
            }
            new_weights(n, &from, &marks, 256, &mut random).expect("sound weights and marks");
        }
    }
    assert!(moved > 100, "moves came up: {moved}");
}

/// On few wires every rest of the paper's shape is tried: only one has the phases, and it is the entry's.
#[test]
fn new_weights_are_unique() {
    let mut random = Random::new(206);
    for n in 1..=4 {
        for _ in 0..[0, 60, 150, 150, 12][n] {
            let from = weights(&mut random, n);
            let marks = reference::odd_set(&from);
            let written = new_weights(n, &from, &marks, 256, &mut random).expect("sound weights and marks");
            assert_eq!(all_new_weights(n, &from, &marks), [written], "n = {n}, {from:?}");
        }
    }
}

/// Odd sets of another signature are sound all the same: the reply is done, whatever is written.
#[test]
fn other_signatures_are_not_refused() {
    let mut random = Random::new(207);
    for n in 1..=8 {
        for _ in 0..30 {
            let from = weights(&mut random, n);
            let marks = reference::odd_set(&weights(&mut random, n));
            assert!(new_weights(n, &from, &marks, 256, &mut random).is_ok());
        }
    }
}

#[test]
fn weights_against_their_rule_are_refused() {
    let mut random = Random::new(208);
    for n in 1..=8 {
        let sound = weights(&mut random, n);
        for p in 0..256 {
            let inside = p != 0 && p < 1 << n;
            for weight in [1, 2, 7, 8, 9, 16, 128, 255] {
                if inside && weight < 8 {
                    continue;
                }
                let mut faulty = sound;
                faulty[p] = weight;
                refuse(n, &faulty, 6, &mut random);
            }
        }
        for length in [0, 1, 255, 257, 512] {
            refuse(n, &vec![0; length], 6, &mut random);
        }
    }
}

#[test]
fn marks_against_their_rule_are_refused() {
    let mut random = Random::new(209);
    for n in 1..=8 {
        let from = weights(&mut random, n);
        let sound: Marks = reference::odd_set(&from);
        for p in 0..256 {
            let inside = p != 0 && p < 1 << n;
            for mark in [1, 2, 3, 255] {
                if inside && mark == 1 {
                    continue;
                }
                let mut faulty = sound;
                faulty[p] = mark;
                assert_eq!(new_weights(n, &from, &faulty, 256, &mut random), Err(refused(6)), "mark {mark} at {p}");
            }
        }
        for length in [0, 255, 257] {
            assert_eq!(new_weights(n, &from, &vec![0; length], 256, &mut random), Err(refused(6)));
        }
    }
}

#[test]
fn outputs_of_wrong_lengths_are_refused() {
    let mut random = Random::new(210);
    for n in 1..=8 {
        let from = weights(&mut random, n);
        let marks = reference::odd_set(&from);
        for length in [0, 1, 8, 255, 257, 512] {
            assert_eq!(odd_set(n, &from, length, &mut random), Err(refused(8)));
            assert_eq!(new_weights(n, &from, &marks, length, &mut random), Err(refused(8)));
        }
        for lengths in [(7, 64, 512), (9, 64, 512), (8, 63, 512), (8, 65, 512), (8, 64, 511), (8, 64, 513), (0, 0, 0)] {
            assert_eq!(coefficients(n, &from, lengths, &mut random), Err(refused(8)), "{lengths:?}");
        }
    }
}

/// Wire count, output and tables, each faulty or not: the first faulty one in the order 1, 8, 6 is told.
#[test]
fn the_order_of_checks() {
    let mut random = Random::new(211);
    for round in 0..800 {
        let (wires, output, tables) = (round & 1 != 0, round & 2 != 0, round & 4 != 0);
        let sound_n = random.between(1, 8);
        let n = if wires { random.one_of(&[0, 9, 16, 255, 256, 257, 1 << 32, usize::MAX]) } else { sound_n };
        let mut from = weights(&mut random, sound_n).to_vec();
        let mut marks = [0; 256].to_vec();
        if tables {
            let faulty = random.one_of(&[0, 1, 2]);
            match faulty {
                0 => from[0] = 1,
                1 => from[1] = 8,
                _ => from.truncate(255),
            }
            match faulty {
                0 => marks[0] = 1,
                1 => marks[1] = 2,
                _ => marks.truncate(255),
            }
        }
        let length = if output { random.one_of(&[0, 255, 257]) } else { 256 };
        let lengths = if output { (8, 64, 511) } else { RIGHT_LENGTHS };
        let due = match (wires, output, tables) {
            (true, _, _) => Err(refused(1)),
            (_, true, _) => Err(refused(8)),
            (_, _, true) => Err(refused(6)),
            _ => Ok(()),
        };
        assert_eq!(odd_set(n, &from, length, &mut random).map(|_| ()), due);
        assert_eq!(coefficients(n, &from, lengths, &mut random).map(|_| ()), due);
        assert_eq!(new_weights(n, &from, &marks, length, &mut random).map(|_| ()), due);
    }
}

/// Noise of any length.
#[test]
fn calls_of_noise() {
    let mut random = Random::new(212);
    for _ in 0..1500 {
        let n = random.between(0, 10);
        let length = random.one_of(&[0, 8, 255, 256, 256, 257]);
        let mut from = random.bytes(length);
        let small = random.below(2) == 0;
        from.iter_mut().filter(|_| small).for_each(|byte| *byte %= 8);
        let lent = random.one_of(&[0, 256, 256, 256, 257]);
        let _ = odd_set(n, &from, lent, &mut random);
        let _ = coefficients(n, &from, RIGHT_LENGTHS, &mut random);
        let marks: Vec<u8> = random.bytes(256).iter().map(|byte| byte % 2).collect();
        let _ = new_weights(n, &from, &marks, lent, &mut random);
    }
}
