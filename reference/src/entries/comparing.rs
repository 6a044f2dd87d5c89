//! The entry that compares two lists.

/// The answer: 1 where the lists act alike, 0 where a basis state tells them apart, and 0 after a refusal.
#[repr(C)]
#[derive(Clone, Copy, Debug, PartialEq, Eq)]
pub struct Compared {
    pub number: u64,
    pub place: u64,
    pub same: u64,
}

mod c {
    use super::Compared;

    extern "C" {
        pub fn sulmedra_compare(
            n: usize,
            first: *const u8,
            first_len: usize,
            second: *const u8,
            second_len: usize,
        ) -> Compared;
    }
}

/// Compares two lists, which may overlap.
pub fn compare(n: usize, first: &[u8], second: &[u8]) -> Compared {
    // SAFETY: each pointer comes with the length of the slice that it was taken from, nothing is written, and the answer
    // holds no pointer.
    unsafe { c::sulmedra_compare(n, first.as_ptr(), first.len(), second.as_ptr(), second.len()) }
}
