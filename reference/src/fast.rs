//! The library's own trim once more, in Rust built for speed, as a measure for the proved one (`src/bin/benchmark.rs`).
//!
//! But for the new weights it is no other algorithm. The search ([`search`]) asks the same z in the same order and
//! eliminates the same columns in the same slots; judging, reading and writing go the library's way too. The new weights
//! come from one sum for each wire and each pair, where the library has superset sums. A move is forty bytes from the
//! start, and the outputs are lent, as the library has it. The rest is up to the compiler. The same trim also runs with
//! another finder, given from outside. Beside it stand a replay of logs, with the library's checks ([`replay`]), and
//! two lists run on all states ([`running`]).

pub mod replay;
pub mod running;
pub mod search;

use crate::gates::{gates_of, phase_of, Gate, CNOT, GATE_BYTES, MOST_GATES, MOST_WIRES, T, T_DAGGER};
use crate::moves::Move;
use crate::odd_set::{odd_set, size, Marks};
use crate::reading::{Reading, Rows, Weights, ROWS_BYTES, WEIGHTS_BYTES};
use crate::trimming::{Counts, LOG_BYTES};
use crate::writing::{spelling, WRITTEN_BYTES};
use replay::flip;
use search::{search, Logged};

/// What a trim writes and reports.
pub struct Trimmed {
    pub gates: Vec<u8>,
    pub log: Vec<u8>,
    pub counts: Counts,
}

/// Trims an accepted list with this finder of moves.
pub fn trim(n: usize, list: &[u8], find: impl Fn(usize, &Marks) -> Option<Move>) -> Trimmed {
    let (mut gates, mut log) = (Vec::with_capacity(WRITTEN_BYTES), Vec::with_capacity(LOG_BYTES));
    let logged = |n: usize, marks: &Marks| find(n, marks).map(|step| step.to_bytes());
    let counts = trim_into(n, list, &mut gates, &mut log, logged);
    Trimmed { gates, log, counts }
}

/// The same into lent gates and a lent log, which take the place of what was there.
pub fn trim_into(
    n: usize,
    list: &[u8],
    gates: &mut Vec<u8>,
    log: &mut Vec<u8>,
    find: impl Fn(usize, &Marks) -> Option<Logged>,
) -> Counts {
    assert!(is_accepted(n, list), "the list is accepted");
    gates.clear();
    log.clear();
    let (reading, t_in) = read(n, list);
    let odd_from = odd_set(&reading.weights);
    let mut marks = odd_from;
    let mut moves = 0;
    while let Some(step) = find(n, &marks) {
        flip(&mut marks, step[0], &step[2..][..usize::from(step[1])]);
        log.extend(step);
        moves += 1;
    }
    write_to(n, &new_weights(n, &reading.weights, &marks), &reading.rows, gates);
    Counts { t_in, odd_size: size(&odd_from), t_out: size(&marks), moves, gates: gates.len() / GATE_BYTES }
}

/// Whether the list has none of faults 1 to 5. The library judges every list before it reads it, and so does this trim.
fn is_accepted(n: usize, list: &[u8]) -> bool {
    let sound = |gate: Gate| match gate.kind {
        CNOT => usize::from(gate.a) < n && usize::from(gate.b) < n && gate.a != gate.b,
        T..=T_DAGGER => usize::from(gate.a) < n && gate.b == 0,
        _ => false,
    };
    let long = list.len() % GATE_BYTES == 0 && list.len() <= GATE_BYTES * MOST_GATES;
    (1..=MOST_WIRES).contains(&n) && long && gates_of(list).all(sound)
}

/// A legal move with the smallest z, or None exactly when no move is legal.
pub fn find(n: usize, marks: &Marks) -> Option<Move> {
    search(n, marks).map(|bytes| Move::from_bytes(&bytes).expect("the search gives the bytes of a move"))
}

/// Weights and rows, the rows kept up to date gate by gate, and the number of T and T dagger gates: those that add an odd
/// phase.
pub fn read(n: usize, list: &[u8]) -> (Reading, usize) {
    let mut rows = [0; ROWS_BYTES];
    (0..n).for_each(|i| rows[i] = 1 << i);
    let mut weights = [0; WEIGHTS_BYTES];
    let mut t_in = 0;
    for gate in gates_of(list) {
        let held = rows[usize::from(gate.a)];
        if gate.kind == CNOT {
            rows[usize::from(gate.b)] ^= held;
        } else {
            let weight = &mut weights[usize::from(held)];
            let phase = phase_of(gate.kind);
            *weight = (*weight + phase) % 8;
            t_in += usize::from(phase % 2);
        }
    }
    (Reading { weights, rows }, t_in)
}

/// The new weights, from the sums over the parities that name a wire, and a pair of wires.
pub fn new_weights(n: usize, weights: &Weights, marks: &Marks) -> Weights {
    let difference = |p: usize| u32::from(8 + weights[p] - marks[p]);
    let mut table = *marks;
    let mut singles = [0; 8];
    for (i, single) in singles[..n].iter_mut().enumerate() {
        *single = (0..1 << n).filter(|p| p >> i & 1 == 1).map(difference).sum::<u32>();
    }
    for j in 0..n {
        for i in 0..j {
            let pair = 1 << i | 1 << j;
            let sum: u32 = (0..1 << n).filter(|p| p & pair == pair).map(difference).sum();
            let rest = if sum % 4 == 2 { 6 } else { 0 };
            table[pair] = (table[pair] + rest) % 8;
            singles[i] += 8 - u32::from(rest);
            singles[j] += 8 - u32::from(rest);
        }
    }
    for i in 0..n {
        table[1 << i] = (table[1 << i] + (singles[i] % 8) as u8) % 8;
    }
    table
}

/// A list with these weights and rows.
pub fn write(n: usize, weights: &Weights, rows: &Rows) -> Vec<u8> {
    let mut list = Vec::with_capacity(WRITTEN_BYTES);
    write_to(n, weights, rows, &mut list);
    list
}

/// The same at the end of a lent list.
fn write_to(n: usize, weights: &Weights, rows: &Rows, list: &mut Vec<u8>) {
    for p in (1..1usize << n).filter(|p| weights[*p] != 0) {
        let target = p.trailing_zeros() as u8;
        let others = |list: &mut Vec<u8>| {
            let mut left = p & (p - 1);
            while left != 0 {
                list.extend([CNOT, left.trailing_zeros() as u8, target]);
                left &= left - 1;
            }
        };
        others(list);
        for kind in spelling(weights[p]) {
            list.extend([*kind, target, 0]);
        }
        others(list);
    }
    write_rows(n, rows, list);
}

/// CNOTs that make these rows. `wanted[i]` tells of which wires' present parities row i is the XOR; a CNOT from a to b
/// changes what b holds, so wherever b stands, a joins in.
fn write_rows(n: usize, rows: &Rows, list: &mut Vec<u8>) {
    let mut wanted = *rows;
    let mut cnot = |wanted: &mut Rows, a: usize, b: usize| {
        wanted.iter_mut().for_each(|row| *row ^= (*row >> b & 1) << a);
        list.extend([CNOT, a as u8, b as u8]);
    };
    for r in 0..n {
        if wanted[r] >> r & 1 == 0 {
            let b = (r + 1..n).find(|b| wanted[r] >> b & 1 == 1).expect("the rows are invertible");
            cnot(&mut wanted, r, b);
        }
        for a in (0..n).filter(|a| *a != r) {
            if wanted[r] >> a & 1 == 1 {
                cnot(&mut wanted, a, r);
            }
        }
    }
}
