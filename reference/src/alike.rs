//! Two lists that act alike (document 02, 2.1), told by running both on every basis state. No rows, weights or
//! coefficients are found on the way.

use crate::running::run;

/// The first basis state that tells two accepted lists apart: it ends in different states, or with different phases.
pub fn told_apart_by(n: usize, first: &[u8], second: &[u8]) -> Option<u16> {
    (0..1u16 << n).find(|x| run(first, *x) != run(second, *x))
}

/// Every basis state goes to the same state with the same phase modulo 8.
pub fn act_alike(n: usize, first: &[u8], second: &[u8]) -> bool {
    told_apart_by(n, first, second).is_none()
}
