//! Lists made from others, to compare with them: what undoes a list, a phase more on some wires, a gate more or less,
//! and other gates that act alike.

use crate::coefficients::{pairs, triples};
use crate::gates::{gates_of, Gate, CNOT, GATE_BYTES, S, S_DAGGER, T, T_DAGGER, Z};
use crate::random::{all_gates, rows, Random};
use crate::reading::{Weights, WEIGHTS_BYTES};

/// The list that undoes a list: its gates from the last to the first, each phase taken back.
pub fn undoing(list: &[u8]) -> Vec<u8> {
    let mut gates: Vec<Gate> = gates_of(list).collect();
    gates.reverse();
    gates.iter().flat_map(|gate| [undone(gate.kind), gate.a, gate.b]).collect()
}

fn undone(kind: u8) -> u8 {
    match kind {
        T => T_DAGGER,
        S => S_DAGGER,
        S_DAGGER => S,
        T_DAGGER => T,
        // Twice is nothing.
        twice => twice,
    }
}

/// The weights of one term of a phase: `times`, twice or four times that for one, two or three wires, on the states that
/// set all of them, and 0 on all others. Every parity of some of the wires has `times`, or takes it away where it names
/// two of them.
pub fn term(wires: &[usize], times: u8) -> Weights {
    let all = wires.iter().fold(0, |all, wire| all | 1 << wire);
    std::array::from_fn(|p: usize| match p.count_ones() {
        _ if p == 0 || p & !all != 0 => 0,
        2 => 8 - times,
        _ => times,
    })
}

/// The wires and times of every term on n wires: 1 to 7 eighths of a turn on one wire, 2, 4 or 6 on two, 4 on three.
pub fn all_terms(n: usize) -> Vec<(Vec<usize>, u8)> {
    let on_one = (0..n).flat_map(|i| (1..=7).map(move |times| (vec![i], times)));
    let on_two = pairs(n).flat_map(|(i, j)| (1..=3).map(move |times| (vec![i, j], times)));
    let on_three = triples(n).map(|(i, j, k)| (vec![i, j, k], 1));
    on_one.chain(on_two).chain(on_three).collect()
}

/// Random weights that add nothing to any phase: all XORs of two, three or four parities that are independent have 4, 2
/// or 1 each. Half of them are set on a state that sets any.
pub fn idle_weights(random: &mut Random, n: usize, parities: usize) -> Weights {
    let independent = &rows(random, n)[..parities];
    let mut weights = [0; WEIGHTS_BYTES];
    for choice in 1..1 << parities {
        let chosen = independent.iter().enumerate().filter(|(i, _)| choice >> i & 1 == 1);
        weights[usize::from(chosen.fold(0, |xor, (_, p)| xor ^ p))] = 16 >> parities;
    }
    weights
}

/// The list with these gates in place of so many of its own.
pub fn spliced(list: &[u8], place: usize, taken: usize, gates: &[u8]) -> Vec<u8> {
    let (before, from) = list.split_at(GATE_BYTES * place);
    [before, gates, &from[GATE_BYTES * taken..]].concat()
}

/// A random gate put in at a random place, one taken out, or one changed. No gate does nothing, and no two do the same,
/// so the list then acts otherwise.
pub fn with_one_gate_other(random: &mut Random, n: usize, list: &[u8]) -> Vec<u8> {
    let length = list.len() / GATE_BYTES;
    let gate = random.one_of(&all_gates(n));
    let way = random.below(if length == 0 { 1 } else { 3 });
    if way == 0 {
        return spliced(list, random.between(0, length), 0, &gate);
    }
    let place = random.below(length);
    let is_there = list[GATE_BYTES * place..][..GATE_BYTES] == gate;
    spliced(list, place, 1, if way == 1 || is_there { &[] } else { &gate })
}

/// The same gates in another order: neighbours are exchanged where that changes nothing, in so many rounds.
pub fn reordered(random: &mut Random, list: &[u8], rounds: usize) -> Vec<u8> {
    let mut gates: Vec<Gate> = gates_of(list).collect();
    for _ in 0..rounds {
        for place in 1..gates.len() {
            if random.below(2) == 0 && commute(gates[place - 1], gates[place]) {
                gates.swap(place - 1, place);
            }
        }
    }
    gates.iter().flat_map(|gate| [gate.kind, gate.a, gate.b]).collect()
}

/// Neither gate changes the wire that the other one asks. All ask wire a, and a CNOT changes wire b.
fn commute(one: Gate, other: Gate) -> bool {
    let changes = |gate: Gate, wire: u8| gate.kind == CNOT && gate.b == wire;
    !changes(one, other.a) && !changes(other, one.a)
}

/// Other gates that act alike: so many times a gate and what undoes it are put in, or several gates stand in for one.
/// Then the gates are brought into another order.
pub fn rewritten(random: &mut Random, n: usize, list: &[u8], times: usize) -> Vec<u8> {
    let mut list = list.to_vec();
    for _ in 0..times {
        let length = list.len() / GATE_BYTES;
        list = if length == 0 || random.below(2) == 0 {
            let gate = random.one_of(&all_gates(n));
            spliced(&list, random.between(0, length), 0, &[&gate[..], &undoing(&gate)].concat())
        } else {
            let place = random.below(length);
            let gate = gates_of(&list[GATE_BYTES * place..]).next().expect("there is a gate");
            spliced(&list, place, 1, &several_for(random, n, gate))
        };
    }
    reordered(random, &list, 3)
}

/// Several gates that do what this one does.
fn several_for(random: &mut Random, n: usize, gate: Gate) -> Vec<u8> {
    let Gate { kind, a, b } = gate;
    let two = |first: u8, second: u8| vec![first, a, 0, second, a, 0];
    match kind {
        T => two(S, T_DAGGER),
        S => two(T, T),
        Z => two(S_DAGGER, S_DAGGER),
        S_DAGGER => two(Z, S),
        T_DAGGER => two(S_DAGGER, T),
        _ => {
            let others: Vec<u8> = (0..n as u8).filter(|wire| *wire != a && *wire != b).collect();
            if others.is_empty() {
                return [CNOT, a, b].repeat(3);
            }
            // A third wire takes a's bit on, passes it on with its own, gives it back, and takes its own from b.
            let by = random.one_of(&others);
            [CNOT, a, by, CNOT, by, b].repeat(2)
        }
    }
}
