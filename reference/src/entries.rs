//! The proved library's C functions, each behind a safe function that lends slices.

#[cfg(feature = "program")]
pub mod answering;
#[cfg(feature = "comparing")]
pub mod comparing;
#[cfg(feature = "moves")]
pub mod moves;
#[cfg(feature = "text")]
pub mod text;
#[cfg(feature = "trim")]
pub mod trimming;
#[cfg(feature = "weights")]
pub mod weights;
#[cfg(feature = "writing")]
pub mod writing;

/// What every entry answers: number 0 when done, else document 01's number of the fault and its place. Some answer more
/// beside it, each in a struct of its own.
#[repr(C)]
#[derive(Clone, Copy, Debug, PartialEq, Eq)]
pub struct Reply {
    pub number: u64,
    pub place: u64,
}

impl Reply {
    pub const DONE: Reply = Reply { number: 0, place: 0 };
}

mod c {
    use super::Reply;

    extern "C" {
        pub fn sulmedra_read(
            n: usize,
            gates: *const u8,
            gates_len: usize,
            weights: *mut u8,
            weights_len: usize,
            rows: *mut u8,
            rows_len: usize,
        ) -> Reply;
    }
}

/// Reads a list into the lent weights and rows. A refusal leaves both as they were.
pub fn read(n: usize, gates: &[u8], weights: &mut [u8], rows: &mut [u8]) -> Reply {
    // SAFETY: each pointer comes with the length of the slice that it was taken from; the two slices that are written
    // are borrowed for writing, so they overlap nothing; the function keeps no pointer after it has replied.
    unsafe {
        c::sulmedra_read(
            n,
            gates.as_ptr(),
            gates.len(),
            weights.as_mut_ptr(),
            weights.len(),
            rows.as_mut_ptr(),
            rows.len(),
        )
    }
}
