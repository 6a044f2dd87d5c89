//! Running a list on a basis state, gate by gate (document 01, "Gates and what they do").

use crate::gates::{gates_of, phase_of, Gate, CNOT};

/// A basis state on its way: bit i is wire i, the phase is counted modulo 8.
#[derive(Clone, Copy, Debug, PartialEq, Eq)]
pub struct State {
    pub bits: u16,
    pub phase: u8,
}

impl State {
    pub fn start(x: u16) -> State {
        State { bits: x, phase: 0 }
    }

    pub fn bit(self, wire: u8) -> u16 {
        (self.bits >> wire) & 1
    }
}

/// One gate on one state.
pub fn step(state: State, gate: Gate) -> State {
    let mut next = state;
    if gate.kind == CNOT {
        if state.bit(gate.a) == 1 {
            next.bits = state.bits ^ (1 << gate.b);
        }
    } else if state.bit(gate.a) == 1 {
        next.phase = (state.phase + phase_of(gate.kind)) % 8;
    }
    next
}

/// A whole list on the basis state x.
pub fn run(list: &[u8], x: u16) -> State {
    let mut state = State::start(x);
    for gate in gates_of(list) {
        state = step(state, gate);
    }
    state
}
