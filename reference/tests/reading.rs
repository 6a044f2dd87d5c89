//! Accepted lists: what the entry writes is what brute force finds, and tells each basis state's end and phase.

use sulmedra_reference::comparison;
use sulmedra_reference::gates::MOST_GATES;
use sulmedra_reference::random::{all_gates, circuit, Random};

fn accept(n: usize, list: &[u8], random: &mut Random) {
    comparison::read(n, list, random).expect("a list without a fault is accepted");
}

#[test]
fn every_list_of_up_to_two_gates() {
    let mut random = Random::new(2);
    for n in 1..=8 {
        let gates = all_gates(n);
        accept(n, &[], &mut random);
        for first in &gates {
            accept(n, first, &mut random);
            for second in &gates {
                accept(n, &[*first, *second].concat(), &mut random);
            }
        }
    }
}

#[test]
fn every_list_of_three_gates_on_up_to_three_wires() {
    let mut random = Random::new(3);
    for n in 1..=3 {
        let gates = all_gates(n);
        for first in &gates {
            for second in &gates {
                for third in &gates {
                    accept(n, &[*first, *second, *third].concat(), &mut random);
                }
            }
        }
    }
}

#[test]
fn short_random_circuits() {
    let mut random = Random::new(4);
    for n in 1..=8 {
        for _ in 0..2000 {
            let length = random.between(0, 48);
            let list = circuit(&mut random, n, length);
            accept(n, &list, &mut random);
        }
    }
}

#[test]
fn middling_random_circuits() {
    let mut random = Random::new(5);
    for n in 1..=8 {
        for _ in 0..60 {
            let length = random.between(49, 500);
            let list = circuit(&mut random, n, length);
            accept(n, &list, &mut random);
        }
    }
}

#[test]
fn long_random_circuits() {
    let mut random = Random::new(6);
    for n in 1..=8 {
        for _ in 0..5 {
            let length = random.between(501, MOST_GATES - 1);
            let list = circuit(&mut random, n, length);
            accept(n, &list, &mut random);
        }
    }
}

#[test]
fn random_circuits_of_exactly_the_most_gates() {
    let mut random = Random::new(7);
    for n in 1..=8 {
        for _ in 0..6 {
            let list = circuit(&mut random, n, MOST_GATES);
            accept(n, &list, &mut random);
        }
    }
}
