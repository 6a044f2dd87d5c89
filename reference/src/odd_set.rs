//! The odd set of a weight table and the T count of a list (document 01, "Weights and rows", "The new weights").

use crate::gates::{gates_of, T, T_DAGGER};
use crate::reading::{Weights, WEIGHTS_BYTES};

/// 256 bytes, 1 for each member, else 0.
pub type Marks = [u8; WEIGHTS_BYTES];

/// 1 where the weight is odd, else 0.
pub fn odd_set(weights: &Weights) -> Marks {
    let mut marks = [0; WEIGHTS_BYTES];
    for (mark, weight) in marks.iter_mut().zip(weights) {
        *mark = weight % 2;
    }
    marks
}

/// The number of members: the parities marked 1.
pub fn size(marks: &Marks) -> usize {
    marks.iter().filter(|mark| **mark == 1).count()
}

/// The T count: gates of kinds 2 and 6.
pub fn t_count(list: &[u8]) -> usize {
    gates_of(list).filter(|gate| gate.kind == T || gate.kind == T_DAGGER).count()
}
