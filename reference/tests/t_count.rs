//! The odd set against the T count: one more T or T dagger gate makes one parity odd or even.

use sulmedra_reference::comparison;
use sulmedra_reference::gates::{GATE_BYTES, MOST_GATES, T, T_DAGGER};
use sulmedra_reference::odd_set::{odd_set, size};
use sulmedra_reference::random::{circuit, Random};

fn odd_set_size(n: usize, list: &[u8], random: &mut Random) -> usize {
    let reading = comparison::read(n, list, random).expect("a list without a fault is accepted");
    size(&odd_set(&reading.weights))
}

/// Puts one T or T dagger gate on a random wire at a random place of a random circuit. Answers whether the odd set grew.
fn grows_by_one_more(n: usize, length: usize, random: &mut Random) -> bool {
    let mut list = circuit(random, n, length);
    let before = odd_set_size(n, &list, random);
    let place = random.between(0, length) * GATE_BYTES;
    let gate = [random.one_of(&[T, T_DAGGER]), random.below(n) as u8, 0];
    list.splice(place..place, gate);
    let after = odd_set_size(n, &list, random);
    assert_eq!(after.abs_diff(before), 1, "n = {n}, gate {gate:?} at byte {place} of the longer list {list:?}");
    after > before
}

#[test]
fn one_more_t_moves_the_odd_set_by_one() {
    let mut random = Random::new(8);
    for n in 1..=8 {
        let mut grown = 0;
        for _ in 0..300 {
            let length = random.between(0, 100);
            grown += usize::from(grows_by_one_more(n, length, &mut random));
        }
        assert!(0 < grown && grown < 300, "both directions come up for n = {n}: {grown} of 300 grew");
    }
}

#[test]
fn one_more_t_up_to_the_most_gates() {
    let mut random = Random::new(9);
    for n in 1..=8 {
        grows_by_one_more(n, MOST_GATES - 1, &mut random);
    }
}
