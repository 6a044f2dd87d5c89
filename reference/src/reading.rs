//! Reading a list into its weights and rows (document 01, "Weights and rows").

use crate::gates::{gates_of, phase_of, CNOT};
use crate::parity;
use crate::running::{step, State};

pub const WEIGHTS_BYTES: usize = 256;
pub const ROWS_BYTES: usize = 8;

pub type Weights = [u8; WEIGHTS_BYTES];
pub type Rows = [u8; ROWS_BYTES];

#[derive(Clone, Debug, PartialEq, Eq)]
pub struct Reading {
    pub weights: Weights,
    pub rows: Rows,
}

/// A phase gate of a list: which gate it is, its kind, its wire, and the parity that its wire holds there.
#[derive(Clone, Copy, Debug, PartialEq, Eq)]
pub struct PhaseGate {
    pub index: usize,
    pub kind: u8,
    pub wire: u8,
    pub parity: usize,
}

/// The phase gates of an accepted list, and its rows. All 2^n basis states run side by side; at each phase gate they tell
/// which parity its wire holds, and at the end they tell the rows.
pub fn phase_gates(n: usize, list: &[u8]) -> (Vec<PhaseGate>, Rows) {
    let mut states: Vec<State> = (0..1u16 << n).map(State::start).collect();
    let mut phases = Vec::new();
    for (index, gate) in gates_of(list).enumerate() {
        if gate.kind != CNOT {
            let parity = parity::held(&states, gate.a) as usize;
            phases.push(PhaseGate { index, kind: gate.kind, wire: gate.a, parity });
        }
        for state in &mut states {
            *state = step(*state, gate);
        }
    }
    let mut rows = [0; ROWS_BYTES];
    for (wire, row) in (0..).zip(&mut rows[..n]) {
        *row = u8::try_from(parity::held(&states, wire)).expect("a parity of at most eight wires is a byte");
    }
    (phases, rows)
}

/// The weights that phase gates add up to.
pub fn weights_of(phases: &[PhaseGate]) -> Weights {
    let mut weights = [0; WEIGHTS_BYTES];
    for gate in phases {
        weights[gate.parity] = (weights[gate.parity] + phase_of(gate.kind)) % 8;
    }
    weights
}

/// The weights and rows of an accepted list.
pub fn read(n: usize, list: &[u8]) -> Reading {
    let (phases, rows) = phase_gates(n, list);
    Reading { weights: weights_of(&phases), rows }
}
