//! Two lists run on all basis states, for speed, as a measure for the proved comparison. The gates are made ready once,
//! and the first states that differ end it. The lists must be accepted; unlike the library, this does not judge them.

use crate::gates::{gates_of, phase_of, CNOT};

/// How many states run side by side.
const SIDE_BY_SIDE: usize = 64;

/// A gate made ready: the wire that it asks, and what it flips and adds if the bit there is set.
#[derive(Clone, Copy)]
struct Ready {
    asks: u8,
    flips: u8,
    adds: u8,
}

fn ready(list: &[u8]) -> Vec<Ready> {
    let gates = gates_of(list).map(|gate| match gate.kind {
        CNOT => Ready { asks: gate.a, flips: 1 << gate.b, adds: 0 },
        kind => Ready { asks: gate.a, flips: 0, adds: phase_of(kind) },
    });
    gates.collect()
}

/// Whether the lists act alike, one state after the other.
pub fn one_by_one(n: usize, first: &[u8], second: &[u8]) -> bool {
    let (first, second) = (ready(first), ready(second));
    (0..1usize << n).all(|x| run(&first, x as u8) == run(&second, x as u8))
}

/// Whether the lists act alike, some states at a time: what a gate does to each of them, the compiler does at once. With
/// few wires there are more than the lists have; gates leave the bits beyond n as they are.
pub fn side_by_side(n: usize, first: &[u8], second: &[u8]) -> bool {
    let (first, second) = (ready(first), ready(second));
    (0..1usize << n).step_by(SIDE_BY_SIDE).all(|x| run_from(&first, x) == run_from(&second, x))
}

/// The end of a state and its phase. No branch hangs on a bit.
fn run(gates: &[Ready], x: u8) -> (u8, u8) {
    let (mut bits, mut phase) = (x, 0u8);
    for gate in gates {
        let set = (bits >> gate.asks & 1).wrapping_neg();
        bits ^= set & gate.flips;
        phase = phase.wrapping_add(set & gate.adds);
    }
    (bits, phase % 8)
}

/// The ends and phases of the states from x on.
fn run_from(gates: &[Ready], x: usize) -> ([u8; SIDE_BY_SIDE], [u8; SIDE_BY_SIDE]) {
    let mut bits = std::array::from_fn(|later| (x + later) as u8);
    let mut phases = [0u8; SIDE_BY_SIDE];
    for gate in gates {
        let asked = 1 << gate.asks;
        for (bits, phase) in bits.iter_mut().zip(&mut phases) {
            let set = if *bits & asked != 0 { 255 } else { 0 };
            *bits ^= set & gate.flips;
            *phase = phase.wrapping_add(set & gate.adds);
        }
    }
    phases.iter_mut().for_each(|phase| *phase %= 8);
    (bits, phases)
}
