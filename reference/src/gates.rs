//! Gates: three bytes each, kind, a, b (document 01, "Gates and what they do").

pub const CNOT: u8 = 1;
pub const T: u8 = 2;
pub const S: u8 = 3;
pub const Z: u8 = 4;
pub const S_DAGGER: u8 = 5;
pub const T_DAGGER: u8 = 6;

/// The kinds that add to the phase.
pub const PHASE_KINDS: [u8; 5] = [T, S, Z, S_DAGGER, T_DAGGER];

pub const MOST_WIRES: usize = 8;
pub const MOST_GATES: usize = 4096;
pub const GATE_BYTES: usize = 3;

#[derive(Clone, Copy, Debug, PartialEq, Eq)]
pub struct Gate {
    pub kind: u8,
    pub a: u8,
    pub b: u8,
}

/// The gates of a list in order. Bytes left over at the end are no gate.
pub fn gates_of(list: &[u8]) -> impl Iterator<Item = Gate> + '_ {
    list.chunks_exact(GATE_BYTES).map(|bytes| Gate { kind: bytes[0], a: bytes[1], b: bytes[2] })
}

/// What a phase gate adds if its wire's bit is set, in eighths of a turn.
pub fn phase_of(kind: u8) -> u8 {
    match kind {
        T => 1,
        S => 2,
        Z => 4,
        S_DAGGER => 6,
        T_DAGGER => 7,
        _ => panic!("kind {kind} is no phase gate"),
    }
}
