//! Faulty gates, alone and several at once: which fault is told, and at which place.

use sulmedra_reference::comparison::{read, read_into};
use sulmedra_reference::entries::Reply;
use sulmedra_reference::gates::{GATE_BYTES, MOST_GATES};
use sulmedra_reference::random::{circuit, faulty_gate, Random};

fn refused(number: u64, place: usize) -> Result<(), Reply> {
    Err(Reply { number, place: place as u64 })
}

fn answer(n: usize, list: &[u8], random: &mut Random) -> Result<(), Reply> {
    read(n, list, random).map(|_| ())
}

fn put(list: &mut [u8], place: usize, gate: [u8; GATE_BYTES]) {
    list[GATE_BYTES * place..GATE_BYTES * (place + 1)].copy_from_slice(&gate);
}

#[test]
fn single_gates_with_bytes_around_every_limit() {
    let mut random = Random::new(20);
    let kinds = [0, 1, 2, 3, 4, 5, 6, 7, 8, 127, 128, 129, 130, 255];
    let wires = [0, 1, 2, 3, 4, 5, 6, 7, 8, 9, 15, 16, 127, 128, 129, 254, 255];
    let mut told = [0; 6];
    for n in 1..=8 {
        for kind in kinds {
            for a in wires {
                for b in wires {
                    match answer(n, &[kind, a, b], &mut random) {
                        Ok(()) => told[0] += 1,
                        Err(reply) => told[reply.number as usize] += 1,
                    }
                }
            }
        }
    }
    // Counted by hand: over n = 1 to 8, n(n-1) CNOTs and 5n phase gates are sound; 8 kinds are none; n CNOTs meet
    // their own control. The rest is fault 4.
    let all = 8 * 14 * 17 * 17;
    let (sound, no_kind, same) = (168 + 180, 8 * 8 * 17 * 17, 36);
    assert_eq!(told, [sound, 0, 0, no_kind, all - sound - no_kind - same, same]);
}

#[test]
fn every_kind_byte() {
    let mut random = Random::new(21);
    for n in 2..=8 {
        for kind in 0..=255 {
            let due = match kind {
                1 => Ok(()),
                2..=6 => refused(4, 0),
                _ => refused(3, 0),
            };
            assert_eq!(answer(n, &[kind, 0, 1], &mut random), due, "kind {kind} with b = 1, {n} wires");
            let due = match kind {
                1 => refused(5, 0),
                2..=6 => Ok(()),
                _ => refused(3, 0),
            };
            assert_eq!(answer(n, &[kind, 0, 0], &mut random), due, "kind {kind} with b = 0, {n} wires");
        }
    }
}

#[test]
fn within_a_gate_kind_comes_before_wire_before_same_wire() {
    let mut random = Random::new(22);
    for n in 1..=8 {
        let beyond = n as u8;
        assert_eq!(answer(n, &[0, beyond, beyond], &mut random), refused(3, 0));
        assert_eq!(answer(n, &[7, beyond, 1], &mut random), refused(3, 0));
        assert_eq!(answer(n, &[7, 0, 0], &mut random), refused(3, 0));
        assert_eq!(answer(n, &[1, beyond, beyond], &mut random), refused(4, 0));
        assert_eq!(answer(n, &[1, 255, 255], &mut random), refused(4, 0));
        assert_eq!(answer(n, &[2, 0, 255], &mut random), refused(4, 0));
        assert_eq!(answer(n, &[1, 0, 0], &mut random), refused(5, 0));
    }
}

#[test]
fn one_faulty_gate_at_a_random_place() {
    let mut random = Random::new(23);
    for n in 1..=8 {
        for number in [3, 4, 5] {
            for _ in 0..150 {
                let length = random.between(1, 60);
                let mut list = circuit(&mut random, n, length);
                let place = random.below(length);
                put(&mut list, place, faulty_gate(&mut random, n, number));
                assert_eq!(answer(n, &list, &mut random), refused(number, place), "n = {n}, list {list:?}");
            }
        }
    }
}

#[test]
fn of_two_faulty_gates_the_earlier_is_told() {
    let mut random = Random::new(24);
    for n in 1..=8 {
        for first in [3, 4, 5] {
            for second in [3, 4, 5] {
                for _ in 0..60 {
                    let length = random.between(2, 60);
                    let mut list = circuit(&mut random, n, length);
                    let place = random.below(length - 1);
                    let later = random.between(place + 1, length - 1);
                    put(&mut list, place, faulty_gate(&mut random, n, first));
                    put(&mut list, later, faulty_gate(&mut random, n, second));
                    assert_eq!(answer(n, &list, &mut random), refused(first, place), "n = {n}, list {list:?}");
                }
            }
        }
    }
}

#[test]
fn the_last_of_the_most_gates_is_faulty() {
    let mut random = Random::new(25);
    for n in 1..=8 {
        for number in [3, 4, 5] {
            let mut list = circuit(&mut random, n, MOST_GATES);
            for place in [MOST_GATES - 1, 256, 255, 0] {
                put(&mut list, place, faulty_gate(&mut random, n, number));
                assert_eq!(answer(n, &list, &mut random), refused(number, place), "fault {number} on {n} wires");
            }
        }
    }
}

/// All four groups of checks, each faulty or not: the first faulty one in the order 1, 2, 8, gates is told.
#[test]
fn faults_of_the_call_come_before_those_of_gates() {
    let mut random = Random::new(26);
    for round in 0..1600 {
        let (wires, length, output, gate) = (round & 1 != 0, round & 2 != 0, round & 4 != 0, round & 8 != 0);
        let sound_n = random.between(1, 8);
        let n = if wires { random.one_of(&[0, 9, 255, 256, 257, usize::MAX]) } else { sound_n };
        let gates = if length && round & 16 != 0 { random.between(4097, 4200) } else { random.between(1, 40) };
        let mut list = circuit(&mut random, sound_n, gates);
        let number = random.one_of(&[3, 4, 5]);
        let place = random.below(gates);
        if gate {
            put(&mut list, place, faulty_gate(&mut random, sound_n, number));
        }
        if length && gates <= MOST_GATES {
            list.truncate(list.len() - random.between(1, 2));
        }
        let lent = random.one_of(&[(255, 8), (257, 8), (0, 8), (256, 7), (256, 9), (256, 0), (0, 0), (8, 256)]);
        let (weights, rows) = if output { lent } else { (256, 8) };

        let due = match (wires, length, output, gate) {
            (true, _, _, _) => refused(1, 0),
            (_, true, _, _) => refused(2, 0),
            (_, _, true, _) => refused(8, 0),
            (_, _, _, true) => refused(number, place),
            _ => Ok(()),
        };
        let told = read_into(n, &list, weights, rows, &mut random).map(|_| ());
        assert_eq!(told, due, "n = {n}, lent {weights} and {rows}, list {list:?}");
    }
}
