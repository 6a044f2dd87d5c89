//! The marked cases of document 01 that speak of reading, word for word.

use sulmedra_reference::comparison;
use sulmedra_reference::entries::Reply;
use sulmedra_reference::odd_set::{odd_set, size, t_count};
use sulmedra_reference::random::Random;
use sulmedra_reference::reading::Reading;

/// What the entry gives for a list of the marked cases, which are all accepted but M10.
fn reading_of(n: usize, list: &[u8]) -> Reading {
    comparison::read(n, list, &mut Random::new(1)).expect("the case is accepted")
}

/// 256 weights, 0 but for one.
fn only(p: usize, weight: u8) -> [u8; 256] {
    let mut weights = [0; 256];
    weights[p] = weight;
    weights
}

#[test]
fn m1_the_empty_list() {
    let reading = reading_of(1, &[]);
    assert_eq!(reading.weights, [0; 256]);
    assert_eq!(reading.rows, [1, 0, 0, 0, 0, 0, 0, 0]);
    assert_eq!((t_count(&[]), size(&odd_set(&reading.weights))), (0, 0));
}

#[test]
fn m2_one_t() {
    let reading = reading_of(1, &[2, 0, 0]);
    assert_eq!(reading.weights, only(1, 1));
    assert_eq!(reading.rows, [1, 0, 0, 0, 0, 0, 0, 0]);
    assert_eq!((t_count(&[2, 0, 0]), size(&odd_set(&reading.weights))), (1, 1));
}

#[test]
fn m3_t_and_t_dagger() {
    let list = [2, 0, 0, 6, 0, 0];
    let reading = reading_of(1, &list);
    assert_eq!(reading.weights, [0; 256]);
    assert_eq!((t_count(&list), size(&odd_set(&reading.weights))), (2, 0));
}

#[test]
fn m4_t_on_the_target_of_a_cnot() {
    let reading = reading_of(2, &[1, 0, 1, 2, 1, 0]);
    assert_eq!(reading.weights, only(3, 1));
    assert_eq!(reading.rows, [1, 3, 0, 0, 0, 0, 0, 0]);
}

#[test]
fn m5_three_cnots_exchange_two_wires() {
    let reading = reading_of(2, &[1, 0, 1, 1, 1, 0, 1, 0, 1]);
    assert_eq!(reading.weights, [0; 256]);
    assert_eq!(reading.rows, [2, 1, 0, 0, 0, 0, 0, 0]);
}

#[test]
fn m10_a_cnot_onto_its_own_control() {
    for n in 1..=8 {
        for wire in 0..n as u8 {
            let refused = comparison::read(n, &[1, wire, wire], &mut Random::new(1));
            assert_eq!(refused, Err(Reply { number: 5, place: 0 }), "n = {n}, wire {wire}");
        }
    }
}

/// Each kind by itself, with the phase that document 01 gives it.
#[test]
fn each_phase_gate_adds_its_phase() {
    for (kind, phase) in [(2, 1), (3, 2), (4, 4), (5, 6), (6, 7)] {
        let reading = reading_of(3, &[kind, 2, 0]);
        assert_eq!(reading.weights, only(4, phase), "kind {kind}");
        assert_eq!(reading.rows, [1, 2, 4, 0, 0, 0, 0, 0], "kind {kind}");
    }
}
