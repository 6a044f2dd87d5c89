//! Legal moves (document 01, "Legal moves"), word for word, and how many marks a move changes (document 02, 2.4).

use crate::coefficients::triples;
use crate::odd_set::Marks;

pub const MOVE_BYTES: usize = 40;

/// The most members that Y may have.
pub const MOST_IN_Y: usize = 38;

/// A number z and a set Y, its members ascending.
#[derive(Clone, Debug, PartialEq, Eq)]
pub struct Move {
    pub z: u8,
    pub y: Vec<u8>,
}

impl Move {
    /// z, the number in Y, Y ascending, zeros.
    pub fn to_bytes(&self) -> [u8; MOVE_BYTES] {
        let mut bytes = [0; MOVE_BYTES];
        bytes[0] = self.z;
        bytes[1] = self.y.len() as u8;
        bytes[2..2 + self.y.len()].copy_from_slice(&self.y);
        bytes
    }

    /// The move that these bytes are, if they are one.
    pub fn from_bytes(bytes: &[u8]) -> Option<Move> {
        if bytes.len() != MOVE_BYTES || usize::from(bytes[1]) > MOST_IN_Y {
            return None;
        }
        let (y, rest) = bytes[2..].split_at(usize::from(bytes[1]));
        let ascending = y.windows(2).all(|two| two[0] < two[1]);
        let zeros = rest.iter().all(|byte| *byte == 0);
        (ascending && zeros).then(|| Move { z: bytes[0], y: y.to_vec() })
    }

    /// How the flips of the move meet: whether some y and y XOR z are both in Y, whether z is in Y, and whether Y has
    /// an odd number, so that z is flipped by itself.
    pub fn flips_that_meet(&self) -> [bool; 3] {
        let both = self.y.iter().any(|y| self.y.contains(&(y ^ self.z)));
        [both, self.y.contains(&self.z), self.y.len() % 2 == 1]
    }
}

/// The members of an odd set, ascending.
pub fn members(marks: &Marks) -> Vec<u8> {
    (0..=255).filter(|p| marks[usize::from(*p)] == 1).collect()
}

/// Whether the move is legal on this odd set. Each condition of the paper is asked by itself.
pub fn is_legal(n: usize, marks: &Marks, step: &Move) -> bool {
    let odd_set = members(marks);
    step.y.len() <= MOST_IN_Y
        && step.y.iter().all(|y| odd_set.contains(y))
        && splits_a_pair(&odd_set, step)
        && step.y.iter().fold(0, |xor, y| xor ^ y) == 0
        && triples(n).all(|wires| step.y.iter().filter(|y| triple_term(step.z, **y, wires) == 1).count() % 2 == 0)
}

/// z is a XOR b for some member a in Y and some member b not in Y.
fn splits_a_pair(odd_set: &[u8], step: &Move) -> bool {
    let outside = |b: &&u8| !step.y.contains(b);
    step.y.iter().any(|a| odd_set.iter().filter(outside).any(|b| a ^ b == step.z))
}

/// z_i·y_j·y_k + z_j·y_i·y_k + z_k·y_i·y_j modulo 2.
pub fn triple_term(z: u8, y: u8, (i, j, k): (usize, usize, usize)) -> u8 {
    let (z_at, y_at) = (|wire: usize| z >> wire & 1, |wire: usize| y >> wire & 1);
    (z_at(i) * y_at(j) * y_at(k) + z_at(j) * y_at(i) * y_at(k) + z_at(k) * y_at(i) * y_at(j)) % 2
}

/// The marks after the move: y and y XOR z flipped for each y in Y, z flipped if Y has an odd number, mark 0 cleared.
pub fn carry_out(marks: &Marks, step: &Move) -> Marks {
    let mut after = *marks;
    for y in &step.y {
        after[usize::from(*y)] ^= 1;
        after[usize::from(y ^ step.z)] ^= 1;
    }
    if step.y.len() % 2 == 1 {
        after[usize::from(step.z)] ^= 1;
    }
    after[0] = 0;
    after
}

/// The number of parities whose mark is not the same in both tables. All of both are compared.
pub fn differing(before: &Marks, after: &Marks) -> usize {
    before.iter().zip(after).filter(|(one, other)| one != other).count()
}

/// Where move k lies in a log of this many bytes; None if the log has fewer than 40k + 40. The sum is too wide for a
/// machine word at the largest k.
pub fn part_of_log(log_len: usize, k: usize) -> Option<usize> {
    let start = MOVE_BYTES as u128 * k as u128;
    (start + MOVE_BYTES as u128 <= log_len as u128).then_some(start as usize)
}

/// Carries out the first moves of a log in order, each on the marks that the one before left. Answers the last marks,
/// or what is amiss.
pub fn replay(n: usize, marks: &Marks, log: &[u8], moves: usize) -> Result<Marks, String> {
    let mut marks = *marks;
    for k in 0..moves {
        let start = part_of_log(log.len(), k).ok_or_else(|| format!("the log has no move {k}"))?;
        let bytes = &log[start..start + MOVE_BYTES];
        let step = Move::from_bytes(bytes).ok_or_else(|| format!("move {k} is no move: {bytes:?}"))?;
        if !is_legal(n, &marks, &step) {
            return Err(format!("move {k} is not legal: {step:?} on {:?}", members(&marks)));
        }
        marks = carry_out(&marks, &step);
    }
    Ok(marks)
}
