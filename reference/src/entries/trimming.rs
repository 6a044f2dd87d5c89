//! The entry that trims.

/// The answer to a trim: its counts when done.
#[repr(C)]
#[derive(Clone, Copy, Debug, PartialEq, Eq)]
pub struct Trimmed {
    pub number: u64,
    pub place: u64,
    pub t_in: u64,
    pub odd_size: u64,
    pub t_out: u64,
    pub moves: u64,
    pub gates: u64,
}

mod c {
    use super::Trimmed;

    extern "C" {
        pub fn sulmedra_trim(
            n: usize,
            gates: *const u8,
            gates_len: usize,
            out: *mut u8,
            out_len: usize,
            log: *mut u8,
            log_len: usize,
        ) -> Trimmed;

        #[cfg(before)]
        pub fn before_sulmedra_trim(
            n: usize,
            gates: *const u8,
            gates_len: usize,
            out: *mut u8,
            out_len: usize,
            log: *mut u8,
            log_len: usize,
        ) -> Trimmed;
    }
}

/// Trims a list into `out` and logs the moves. A refusal leaves both as they were.
pub fn trim(n: usize, gates: &[u8], out: &mut [u8], log: &mut [u8]) -> Trimmed {
    // SAFETY: each pointer comes with the length of the slice that it was taken from; the two slices that are written
    // are borrowed for writing, so they overlap nothing; the function keeps no pointer after it has replied.
    unsafe {
        c::sulmedra_trim(n, gates.as_ptr(), gates.len(), out.as_mut_ptr(), out.len(), log.as_mut_ptr(), log.len())
    }
}

/// The same by an earlier library (`build.rs`), for the benchmark alone.
#[cfg(before)]
pub fn trim_before(n: usize, gates: &[u8], out: &mut [u8], log: &mut [u8]) -> Trimmed {
    // SAFETY: as for `trim`.
    unsafe {
        c::before_sulmedra_trim(
            n,
            gates.as_ptr(),
            gates.len(),
            out.as_mut_ptr(),
            out.len(),
            log.as_mut_ptr(),
            log.len(),
        )
    }
}
