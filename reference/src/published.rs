//! The published search for a move, taken literally, as a measure for the others (`src/bin/benchmark.rs`): for each
//! pair of columns the matrix of all n + n(n-1)(n-2)/6 conditions is set up anew and its whole nullspace computed.

use crate::coefficients::triples;
use crate::moves::{members, triple_term, Move};
use crate::odd_set::Marks;

/// One bit for each column; an odd set has at most 255.
type Bits = [u64; 4];

fn bit(bits: &Bits, column: usize) -> bool {
    bits[column / 64] >> (column % 64) & 1 == 1
}

fn flip(bits: &mut Bits, column: usize) {
    bits[column / 64] ^= 1 << (column % 64);
}

/// A legal move, or None exactly when there is none: pairs a < b ascending, the first that serves.
pub fn find(n: usize, marks: &Marks) -> Option<Move> {
    let odd_set = members(marks);
    for a in 0..odd_set.len() {
        for b in a + 1..odd_set.len() {
            let z = odd_set[a] ^ odd_set[b];
            if let Some(solution) = nullspace(n, &odd_set, z).into_iter().find(|bits| bit(bits, a) != bit(bits, b)) {
                let y = (0..odd_set.len()).filter(|column| bit(&solution, *column)).map(|column| odd_set[column]);
                return Some(Move { z, y: y.collect() });
            }
        }
    }
    None
}

/// A basis of the sets Y of columns that meet all conditions for z.
fn nullspace(n: usize, odd_set: &[u8], z: u8) -> Vec<Bits> {
    let mut rows: Vec<Bits> = (0..n).map(|wire| row(odd_set, |y| y >> wire & 1)).collect();
    rows.extend(triples(n).map(|wires| row(odd_set, |y| triple_term(z, y, wires))));
    let leading = reduce(&mut rows, odd_set.len());
    let free = (0..odd_set.len()).filter(|column| !leading.contains(column));
    let solution = |column: usize| {
        let mut bits = Bits::default();
        flip(&mut bits, column);
        for (row, leads) in rows.iter().zip(&leading).filter(|(row, _)| bit(row, column)) {
            debug_assert!(bit(row, *leads));
            flip(&mut bits, *leads);
        }
        bits
    };
    free.map(solution).collect()
}

fn row(odd_set: &[u8], term: impl Fn(u8) -> u8) -> Bits {
    let mut bits = Bits::default();
    for (column, _) in odd_set.iter().enumerate().filter(|(_, y)| term(**y) == 1) {
        flip(&mut bits, column);
    }
    bits
}

/// Brings the rows to reduced echelon form. Answers the leading column of each row that has one.
fn reduce(rows: &mut [Bits], columns: usize) -> Vec<usize> {
    let mut leading = Vec::new();
    for column in 0..columns {
        let done = leading.len();
        let Some(pivot) = (done..rows.len()).find(|row| bit(&rows[*row], column)) else { continue };
        rows.swap(done, pivot);
        let own = rows[done];
        for (place, row) in rows.iter_mut().enumerate() {
            if place != done && bit(row, column) {
                row.iter_mut().zip(own).for_each(|(word, other)| *word ^= other);
            }
        }
        leading.push(column);
    }
    leading
}
