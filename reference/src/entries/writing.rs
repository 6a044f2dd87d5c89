//! The entry that writes a list.

/// The answer to writing: the number of gates when done.
#[repr(C)]
#[derive(Clone, Copy, Debug, PartialEq, Eq)]
pub struct Written {
    pub number: u64,
    pub place: u64,
    pub gates: u64,
}

mod c {
    use super::Written;

    extern "C" {
        pub fn sulmedra_write(
            n: usize,
            weights: *const u8,
            weights_len: usize,
            rows: *const u8,
            rows_len: usize,
            gates: *mut u8,
            gates_len: usize,
        ) -> Written;
    }
}

/// Writes a list with these weights and rows to the lent gates. A refusal leaves them as they were.
pub fn write(n: usize, weights: &[u8], rows: &[u8], gates: &mut [u8]) -> Written {
    // SAFETY: each pointer comes with the length of the slice that it was taken from; the slice that is written is
    // borrowed for writing, so it overlaps nothing; the function keeps no pointer after it has replied.
    unsafe {
        c::sulmedra_write(
            n,
            weights.as_ptr(),
            weights.len(),
            rows.as_ptr(),
            rows.len(),
            gates.as_mut_ptr(),
            gates.len(),
        )
    }
}
