//! The reference's own checks must be able to say no: wrong readings are told apart from right ones.

use sulmedra_reference::demands::{are_invertible, check_reading, check_runs, rows_are_sound, weights_are_sound};
use sulmedra_reference::random::{circuit, Random};
use sulmedra_reference::reading::{read, Reading};

/// A random list with its right reading.
fn right_reading(n: usize, random: &mut Random) -> (Vec<u8>, Reading) {
    let length = random.between(0, 60);
    let list = circuit(random, n, length);
    let reading = read(n, &list);
    assert_eq!(check_reading(n, &list, &reading), Ok(()));
    (list, reading)
}

/// A phase polynomial tells its weights modulo 8, w[0] aside: no change of a single one goes unseen.
#[test]
fn one_wrong_weight_is_noticed_by_running() {
    let mut random = Random::new(40);
    for n in 1..=8 {
        for _ in 0..100 {
            let (list, mut reading) = right_reading(n, &mut random);
            let p = random.between(1, (1 << n) - 1);
            reading.weights[p] = (reading.weights[p] + random.between(1, 7) as u8) % 8;
            assert!(weights_are_sound(n, &reading.weights));
            assert!(check_runs(n, &list, &reading).is_err(), "weight {p} on {n} wires, list {list:?}");
        }
    }
}

#[test]
fn one_wrong_row_is_noticed_by_running() {
    let mut random = Random::new(41);
    for n in 1..=8 {
        for _ in 0..100 {
            let (list, mut reading) = right_reading(n, &mut random);
            let wire = random.below(n);
            reading.rows[wire] ^= random.between(1, (1 << n) - 1) as u8;
            assert!(check_runs(n, &list, &reading).is_err(), "row {wire} on {n} wires, list {list:?}");
        }
    }
}

#[test]
fn weights_against_their_rule_are_noticed() {
    for n in 1..=8 {
        assert!(weights_are_sound(n, &[0; 256]));
        for (p, weight) in [(0, 1), (0, 8), (1, 8), ((1 << n) - 1, 255)] {
            let mut weights = [0; 256];
            weights[p] = weight;
            assert!(!weights_are_sound(n, &weights), "weight {weight} at {p} on {n} wires");
        }
        for p in 1 << n..256 {
            let mut weights = [0; 256];
            weights[p] = 2;
            assert!(!weights_are_sound(n, &weights), "a weight at {p} on {n} wires");
        }
    }
}

#[test]
fn rows_against_their_rule_are_noticed() {
    assert!(rows_are_sound(2, &[2, 1, 0, 0, 0, 0, 0, 0]));
    assert!(!rows_are_sound(2, &[2, 5, 0, 0, 0, 0, 0, 0]), "a bit beyond n");
    assert!(!rows_are_sound(2, &[2, 1, 4, 0, 0, 0, 0, 0]), "a row beyond n");
    assert!(!rows_are_sound(2, &[1, 1, 0, 0, 0, 0, 0, 0]), "M9");
    assert!(!are_invertible(&[3, 5, 6]));
    assert!(!are_invertible(&[1, 0]));
    assert!(are_invertible(&[7, 3, 1]));
}

/// How many of all tables of three rows on three wires are invertible: (8 - 1)(8 - 2)(8 - 4).
#[test]
fn invertible_tables_are_counted() {
    let tables = (0..8).flat_map(|a| (0..8).flat_map(move |b| (0..8).map(move |c| [a, b, c])));
    assert_eq!(tables.filter(|rows| are_invertible(rows)).count(), 168);
}
