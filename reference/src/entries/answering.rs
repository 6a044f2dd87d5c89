//! The entry that answers a text with what the program prints for it.

/// The answer: the number of bytes written when done.
#[repr(C)]
#[derive(Clone, Copy, Debug, PartialEq, Eq)]
pub struct Answered {
    pub number: u64,
    pub place: u64,
    pub bytes: u64,
}

mod c {
    use super::Answered;

    extern "C" {
        pub fn sulmedra_answer(text: *const u8, text_len: usize, out: *mut u8, out_len: usize) -> Answered;
    }
}

/// Writes what the program prints for a text to `out`. A refusal leaves it as it was.
pub fn answer(text: &[u8], out: &mut [u8]) -> Answered {
    // SAFETY: each pointer comes with the length of the slice that it was taken from; the slice that is written is
    // borrowed for writing, so it overlaps nothing; the function keeps no pointer after it has replied.
    unsafe { c::sulmedra_answer(text.as_ptr(), text.len(), out.as_mut_ptr(), out.len()) }
}
