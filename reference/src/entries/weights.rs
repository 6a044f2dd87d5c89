//! The entries on weights: odd set, coefficients, new weights.

use super::Reply;

mod c {
    use super::Reply;

    extern "C" {
        pub fn sulmedra_odd_set(
            n: usize,
            weights: *const u8,
            weights_len: usize,
            marks: *mut u8,
            marks_len: usize,
        ) -> Reply;

        pub fn sulmedra_coefficients(
            n: usize,
            weights: *const u8,
            weights_len: usize,
            l: *mut u8,
            l_len: usize,
            q: *mut u8,
            q_len: usize,
            c: *mut u8,
            c_len: usize,
        ) -> Reply;

        pub fn sulmedra_new_weights(
            n: usize,
            weights: *const u8,
            weights_len: usize,
            marks: *const u8,
            marks_len: usize,
            out: *mut u8,
            out_len: usize,
        ) -> Reply;
    }
}

/// Writes the odd set of the weights to the lent marks. A refusal leaves them as they were.
pub fn odd_set(n: usize, weights: &[u8], marks: &mut [u8]) -> Reply {
    // SAFETY: each pointer comes with the length of the slice that it was taken from; the slice that is written is
    // borrowed for writing, so it overlaps nothing; the function keeps no pointer after it has replied.
    unsafe { c::sulmedra_odd_set(n, weights.as_ptr(), weights.len(), marks.as_mut_ptr(), marks.len()) }
}

/// Writes the coefficients of the weights to the lent l, q and c. A refusal leaves them as they were.
pub fn coefficients(n: usize, weights: &[u8], l: &mut [u8], q: &mut [u8], c: &mut [u8]) -> Reply {
    // SAFETY: as for `odd_set`; the three slices that are written are borrowed apart from each other.
    unsafe {
        c::sulmedra_coefficients(
            n,
            weights.as_ptr(),
            weights.len(),
            l.as_mut_ptr(),
            l.len(),
            q.as_mut_ptr(),
            q.len(),
            c.as_mut_ptr(),
            c.len(),
        )
    }
}

/// Writes the new weights for these weights and this odd set to `out`. A refusal leaves it as it was.
pub fn new_weights(n: usize, weights: &[u8], marks: &[u8], out: &mut [u8]) -> Reply {
    // SAFETY: as for `odd_set`.
    unsafe {
        c::sulmedra_new_weights(
            n,
            weights.as_ptr(),
            weights.len(),
            marks.as_ptr(),
            marks.len(),
            out.as_mut_ptr(),
            out.len(),
        )
    }
}
