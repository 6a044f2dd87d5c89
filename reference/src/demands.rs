//! What must hold of any answer, told from running alone (demand 2) and from document 01's rules for weights and rows.

use crate::gates::MOST_WIRES;
use crate::odd_set;
use crate::parity;
use crate::reading::{Reading, Rows, Weights};
use crate::running::{run, State};

/// Holds a reading of an accepted list against all that is demanded of it. Answers the first thing that is amiss.
pub fn check_reading(n: usize, list: &[u8], reading: &Reading) -> Result<(), String> {
    if !weights_are_sound(n, &reading.weights) {
        return Err(format!("weights against their rule: {:?}", reading.weights));
    }
    if !rows_are_sound(n, &reading.rows) {
        return Err(format!("rows against their rule: {:?}", reading.rows));
    }
    let members = odd_set::size(&odd_set::odd_set(&reading.weights));
    let t_count = odd_set::t_count(list);
    if members > t_count {
        return Err(format!("{members} members of the odd set out of {t_count} T gates"));
    }
    check_runs(n, list, reading)
}

/// Demand 2: for each basis state, the end state and the phase that weights and rows tell are those of the list run
/// gate by gate.
pub fn check_runs(n: usize, list: &[u8], reading: &Reading) -> Result<(), String> {
    for x in 0..1u16 << n {
        let end = run(list, x);
        let told = State { bits: told_state(&reading.rows, x), phase: told_phase(&reading.weights, x) };
        if told != end {
            return Err(format!("x = {x} ends as {end:?}, and the reading tells {told:?}"));
        }
    }
    Ok(())
}

/// End bit i is row i of x.
pub fn told_state(rows: &Rows, x: u16) -> u16 {
    (0..).zip(rows).map(|(wire, row)| parity::value(u16::from(*row), x) << wire).sum()
}

/// The phase is the sum of w[p] times p(x), modulo 8.
pub fn told_phase(weights: &Weights, x: u16) -> u8 {
    let mut sum = 0u32;
    for (p, weight) in (0u16..).zip(weights).filter(|(_, weight)| **weight != 0) {
        sum += u32::from(*weight) * u32::from(parity::value(p, x));
    }
    (sum % 8) as u8
}

/// Each weight is 0 to 7; w[0] and every w[p] from 2^n up are 0.
pub fn weights_are_sound(n: usize, weights: &Weights) -> bool {
    weights[0] == 0 && weights.iter().all(|w| *w < 8) && weights[1 << n..].iter().all(|w| *w == 0)
}

/// No row has a bit beyond n, rows from n up are 0, and the first n are invertible.
pub fn rows_are_sound(n: usize, rows: &Rows) -> bool {
    let within = rows.iter().all(|row| u16::from(*row) < 1 << n) && rows[n..].iter().all(|row| *row == 0);
    within && are_invertible(&rows[..n])
}

/// By brute force: no choice of rows but the empty one XORs to 0.
pub fn are_invertible(rows: &[u8]) -> bool {
    assert!(rows.len() <= MOST_WIRES);
    (1u16..1 << rows.len()).all(|choice| {
        let chosen = rows.iter().enumerate().filter(|(i, _)| choice >> i & 1 == 1);
        chosen.fold(0, |xor, (_, row)| xor ^ row) != 0
    })
}
