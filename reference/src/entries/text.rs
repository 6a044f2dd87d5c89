//! The entry that reads the text form.

/// The answer to a text: wire count and number of gates when done.
#[repr(C)]
#[derive(Clone, Copy, Debug, PartialEq, Eq)]
pub struct Text {
    pub number: u64,
    pub place: u64,
    pub n: u64,
    pub gates: u64,
}

mod c {
    use super::Text;

    extern "C" {
        pub fn sulmedra_read_text(text: *const u8, text_len: usize, gates: *mut u8, gates_len: usize) -> Text;
    }
}

/// Reads a text into the lent gates. A refusal leaves them as they were.
pub fn read_text(text: &[u8], gates: &mut [u8]) -> Text {
    // SAFETY: each pointer comes with the length of the slice that it was taken from; the slice that is written is
    // borrowed for writing, so it overlaps nothing; the function keeps no pointer after it has replied.
    unsafe { c::sulmedra_read_text(text.as_ptr(), text.len(), gates.as_mut_ptr(), gates.len()) }
}
