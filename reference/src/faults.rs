//! Faults and the order of checks (document 01, "Faults"; document 02, 2.1, for a second list).
//!
//! Each row of the table is asked by itself. All faults of the call, or of a gate, are collected first; only then does
//! the order of checks choose the one to answer with.

use crate::coefficients::{C_BYTES, L_BYTES, Q_BYTES};
use crate::demands::{rows_are_sound, weights_are_sound};
use crate::entries::Reply;
use crate::gates::{gates_of, Gate, CNOT, GATE_BYTES, MOST_GATES, MOST_WIRES};
use crate::moves::{is_legal, Move, MOVE_BYTES};
use crate::reading::{ROWS_BYTES, WEIGHTS_BYTES};
use crate::trimming::LOG_BYTES;
use crate::writing::WRITTEN_BYTES;

pub const WIRE_COUNT: u64 = 1;
pub const LIST_LENGTH: u64 = 2;
pub const KIND: u64 = 3;
pub const WIRE: u64 = 4;
pub const SAME_WIRE: u64 = 5;
pub const TABLE: u64 = 6;
pub const ROWS: u64 = 7;
pub const LENT_OUTPUT: u64 = 8;
pub const TEXT_LINE: u64 = 9;
pub const MOVE: u64 = 10;
pub const SECOND_LIST: u64 = 11;

/// The number and place of a fault.
pub type Fault = Reply;

pub const DONE: Reply = Reply::DONE;

/// The checks of a call that come before its gates, in order.
const CALL_CHECKS: [u64; 6] = [WIRE_COUNT, LIST_LENGTH, LENT_OUTPUT, TABLE, ROWS, MOVE];

/// The checks within a gate, in order.
const GATE_CHECKS: [u64; 3] = [KIND, WIRE, SAME_WIRE];

/// The reply due to a reading: its first fault, or done.
pub fn reading_reply(n: usize, list: &[u8], weights_len: usize, rows_len: usize) -> Reply {
    let output = weights_len != WEIGHTS_BYTES || rows_len != ROWS_BYTES;
    reply_on_list(n, list, output)
}

/// The reply due to a trim.
pub fn trimming_reply(n: usize, list: &[u8], out_len: usize, log_len: usize) -> Reply {
    reply_on_list(n, list, out_len < WRITTEN_BYTES || log_len < LOG_BYTES)
}

/// The fault of a wire count and a list, or done when they are accepted.
pub fn list_reply(n: usize, list: &[u8]) -> Reply {
    reply_on_list(n, list, false)
}

/// The reply due to two lists that are compared: the fault of the wire count or of the first list; then any fault of the
/// second is told as 11, at the gate where it is.
pub fn comparing_reply(n: usize, first: &[u8], second: &[u8]) -> Reply {
    match (list_reply(n, first), list_reply(n, second)) {
        (DONE, DONE) => DONE,
        (DONE, Reply { place, .. }) => Reply { number: SECOND_LIST, place },
        (fault, _) => fault,
    }
}

/// The reply due to an odd set of weights.
pub fn odd_set_reply(n: usize, weights: &[u8], marks_len: usize) -> Reply {
    let faults = [
        (WIRE_COUNT, wire_count_is_faulty(n)),
        (LENT_OUTPUT, marks_len != WEIGHTS_BYTES),
        (TABLE, weights_are_faulty(n, weights)),
    ];
    reply_to_call(&faults)
}

/// The reply due to coefficients of weights.
pub fn coefficients_reply(n: usize, weights: &[u8], l_len: usize, q_len: usize, c_len: usize) -> Reply {
    let output = l_len != L_BYTES || q_len != Q_BYTES || c_len != C_BYTES;
    let faults =
        [(WIRE_COUNT, wire_count_is_faulty(n)), (LENT_OUTPUT, output), (TABLE, weights_are_faulty(n, weights))];
    reply_to_call(&faults)
}

/// The reply due to new weights.
pub fn new_weights_reply(n: usize, weights: &[u8], marks: &[u8], out_len: usize) -> Reply {
    let table = weights_are_faulty(n, weights) || marks_are_faulty(n, marks);
    reply_to_call(&[(WIRE_COUNT, wire_count_is_faulty(n)), (LENT_OUTPUT, out_len != WEIGHTS_BYTES), (TABLE, table)])
}

/// The reply due to a move on lent marks, which are input and output.
pub fn carry_out_reply(n: usize, marks: &[u8], step: &[u8]) -> Reply {
    let length = marks.len() != WEIGHTS_BYTES;
    let table = marks_are_faulty(n, marks);
    let faults = [(WIRE_COUNT, wire_count_is_faulty(n)), (LENT_OUTPUT, length), (TABLE, table)];
    match reply_to_call(&faults) {
        // Legality is only told of sound marks.
        DONE => {
            let marks = marks.try_into().expect("sound marks are 256");
            let legal = Move::from_bytes(step).is_some_and(|step| is_legal(n, marks, &step));
            reply_to_call(&[(MOVE, !legal)])
        }
        fault => fault,
    }
}

/// The reply due to a search for a move.
pub fn find_reply(n: usize, marks: &[u8], move_len: usize) -> Reply {
    let faults = [
        (WIRE_COUNT, wire_count_is_faulty(n)),
        (LENT_OUTPUT, move_len != MOVE_BYTES),
        (TABLE, marks_are_faulty(n, marks)),
    ];
    reply_to_call(&faults)
}

/// The reply due to writing a list.
pub fn writing_reply(n: usize, weights: &[u8], rows: &[u8], gates_len: usize) -> Reply {
    let faults = [
        (WIRE_COUNT, wire_count_is_faulty(n)),
        (LENT_OUTPUT, gates_len < WRITTEN_BYTES),
        (TABLE, weights_are_faulty(n, weights)),
        (ROWS, rows_are_faulty(n, rows)),
    ];
    reply_to_call(&faults)
}

fn wire_count_is_faulty(n: usize) -> bool {
    n == 0 || n > MOST_WIRES
}

/// Not 256 bytes, or a byte against its rule. The rule needs a wire count; a faulty one is told before anyway.
fn weights_are_faulty(n: usize, weights: &[u8]) -> bool {
    let sound = |table| weights_are_sound(n.min(MOST_WIRES), table);
    !weights.try_into().is_ok_and(sound)
}

/// Not 256 bytes, a mark above 1, or a mark at 0 or from 2^n up.
fn marks_are_faulty(n: usize, marks: &[u8]) -> bool {
    marks.len() != WEIGHTS_BYTES
        || marks.iter().any(|mark| *mark > 1)
        || (0..WEIGHTS_BYTES).any(|p| marks[p] != 0 && (p == 0 || p >> n.min(MOST_WIRES) != 0))
}

/// Not 8 bytes, a bit or row beyond n, or not invertible.
fn rows_are_faulty(n: usize, rows: &[u8]) -> bool {
    let sound = |rows| rows_are_sound(n.min(MOST_WIRES), rows);
    !rows.try_into().is_ok_and(sound)
}

/// The reply to a call on a list: faults of the call, then of its gates.
fn reply_on_list(n: usize, list: &[u8], output_is_faulty: bool) -> Reply {
    let rest = list.chunks_exact(GATE_BYTES).remainder();
    let length = !rest.is_empty() || list.len() > MOST_GATES * GATE_BYTES;
    let faults = [(WIRE_COUNT, wire_count_is_faulty(n)), (LIST_LENGTH, length), (LENT_OUTPUT, output_is_faulty)];
    match reply_to_call(&faults) {
        DONE => first_gate_fault(n, list),
        fault => fault,
    }
}

/// The fault of a call that its order of checks tells, or done.
fn reply_to_call(faults: &[(u64, bool)]) -> Reply {
    let found: Vec<u64> = faults.iter().filter(|(_, is_there)| *is_there).map(|(number, _)| *number).collect();
    first_of(&CALL_CHECKS, &found).map_or(DONE, |number| Reply { number, place: 0 })
}

/// The first gate with a fault, and within it the first fault; or done.
fn first_gate_fault(n: usize, list: &[u8]) -> Reply {
    for (place, gate) in (0..).zip(gates_of(list)) {
        if let Some(number) = first_of(&GATE_CHECKS, &gate_faults(n, gate)) {
            return Reply { number, place };
        }
    }
    DONE
}

/// All faults of one gate, in the table's order.
fn gate_faults(n: usize, gate: Gate) -> Vec<u64> {
    let not_below_n = |wire: u8| usize::from(wire) >= n;
    let is_cnot = gate.kind == CNOT;
    let mut found = Vec::new();
    if !(1..=6).contains(&gate.kind) {
        found.push(KIND);
    }
    if not_below_n(gate.a) || (is_cnot && not_below_n(gate.b)) || (!is_cnot && gate.b != 0) {
        found.push(WIRE);
    }
    if is_cnot && gate.a == gate.b {
        found.push(SAME_WIRE);
    }
    found
}

/// The first number of `order` that is among those found.
fn first_of(order: &[u64], found: &[u64]) -> Option<u64> {
    order.iter().copied().find(|number| found.contains(number))
}
