//! What must hold of a written list (demand 2; document 01, "The new weights"; document 02, 2.6); a plain list for
//! given weights, and rows to try.

use crate::faults;
use crate::gates::{gates_of, CNOT, GATE_BYTES, S, S_DAGGER, T, T_DAGGER};
use crate::reading::{self, PhaseGate, Reading, Rows, Weights};

/// The fewest bytes that may be lent for a written list.
pub const WRITTEN_BYTES: usize = 6336;

/// The kinds that a rack without a native Z knows.
pub const PULSES: [u8; 5] = [CNOT, T, S, S_DAGGER, T_DAGGER];

/// The gates that spell a weight.
pub fn spelling(weight: u8) -> &'static [u8] {
    match weight {
        0 => &[],
        1 => &[T],
        2 => &[S],
        3 => &[S, T],
        4 => &[S, S],
        5 => &[S_DAGGER, T_DAGGER],
        6 => &[S_DAGGER],
        7 => &[T_DAGGER],
        _ => panic!("{weight} is no weight"),
    }
}

/// The most gates that a list on n wires may take.
pub fn most_written(n: usize) -> usize {
    (n << n) + n * n
}

/// Holds a list written for sound weights and rows against all that is demanded of it. Answers the first thing amiss.
pub fn check_written(n: usize, wanted: &Reading, list: &[u8]) -> Result<(), String> {
    if faults::list_reply(n, list) != faults::DONE {
        return Err(format!("a faulty list was written: {:?}", faults::list_reply(n, list)));
    }
    let gates = list.len() / GATE_BYTES;
    if gates > most_written(n) {
        return Err(format!("{gates} gates on {n} wires"));
    }
    if let Some(gate) = gates_of(list).find(|gate| !PULSES.contains(&gate.kind)) {
        return Err(format!("no rack without a Z of its own can run {gate:?}"));
    }
    let (phases, rows) = reading::phase_gates(n, list);
    check_spelled(wanted, &phases)?;
    // The second half of demand 2: the list reads back as exactly these weights and rows. Brute force reads it.
    let back = Reading { weights: reading::weights_of(&phases), rows };
    if back != *wanted {
        return Err(format!("reads back as {back:?}"));
    }
    Ok(())
}

/// The gates that add their phase at a parity are, in order, those that spell its weight, next to each other on one wire.
fn check_spelled(wanted: &Reading, phases: &[PhaseGate]) -> Result<(), String> {
    let mut here: Vec<Vec<PhaseGate>> = vec![Vec::new(); wanted.weights.len()];
    for gate in phases {
        here[gate.parity].push(*gate);
    }
    for (p, (gates, weight)) in here.iter().zip(&wanted.weights).enumerate() {
        let kinds: Vec<u8> = gates.iter().map(|gate| gate.kind).collect();
        if kinds != spelling(*weight) {
            return Err(format!("weight {weight} of parity {p} is spelled as {kinds:?}"));
        }
        if gates.windows(2).any(|two| two[1].index != two[0].index + 1 || two[1].wire != two[0].wire) {
            return Err(format!("the gates at parity {p} stand apart: {gates:?}"));
        }
    }
    Ok(())
}

/// A list with these weights that leaves the wires as they were: for each parity, T as often as its weight says, on the
/// highest wire that it names, the others' bits being put there before and taken away after. It makes inputs for tests.
pub fn plain_list(weights: &Weights) -> Vec<u8> {
    let mut list = Vec::new();
    for (p, weight) in (0u8..=255).zip(weights).filter(|(_, weight)| **weight != 0) {
        let wires: Vec<u8> = (0..8).filter(|wire| p >> wire & 1 == 1).collect();
        let (target, others) = wires.split_last().expect("parity 0 has no weight");
        let gather: Vec<u8> = others.iter().flat_map(|wire| [CNOT, *wire, *target]).collect();
        list.extend(&gather);
        list.extend([T, *target, 0].repeat(usize::from(*weight)));
        list.extend(&gather);
    }
    list
}

/// Rows that leave every wire as it was.
pub fn same_wires(n: usize) -> Rows {
    std::array::from_fn(|wire| if wire < n { 1 << wire } else { 0 })
}

/// Rows that take every CNOT that rows can take, found backwards from rows that are in place: each row brings its own
/// wire in and all others out, but the last, which cannot lack its own wire.
pub fn costliest_rows(n: usize) -> Rows {
    let mut rows = same_wires(n);
    for own in (0..n).rev() {
        let others = ((1u16 << n) - 1) as u8 ^ 1 << own;
        rows.iter_mut().filter(|row| **row >> own & 1 == 1).for_each(|row| *row ^= others);
        if own + 1 < n {
            rows.iter_mut().filter(|row| **row >> (own + 1) & 1 == 1).for_each(|row| *row ^= 1 << own);
        }
    }
    rows
}
