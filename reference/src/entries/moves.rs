//! The entries on moves: carry out, find, the part of a log that a move takes.

#[cfg(before)]
use super::Reply;

/// The answer to a move: the number of marks that differ from before, 0 after a refusal.
#[repr(C)]
#[derive(Clone, Copy, Debug, PartialEq, Eq)]
pub struct Carried {
    pub number: u64,
    pub place: u64,
    pub differ: u64,
}

/// The answer to a search: found 1 with a move written, found 0 without.
#[repr(C)]
#[derive(Clone, Copy, Debug, PartialEq, Eq)]
pub struct Found {
    pub number: u64,
    pub place: u64,
    pub found: u64,
}

/// A part of a lent log.
#[repr(C)]
#[derive(Clone, Copy, Debug, PartialEq, Eq)]
pub struct Part {
    pub start: u64,
    pub length: u64,
}

mod c {
    #[cfg(before)]
    use super::Reply;
    use super::{Carried, Found, Part};

    extern "C" {
        pub fn sulmedra_carry_out(
            n: usize,
            marks: *mut u8,
            marks_len: usize,
            step: *const u8,
            step_len: usize,
        ) -> Carried;

        pub fn sulmedra_find(n: usize, marks: *const u8, marks_len: usize, step: *mut u8, step_len: usize) -> Found;

        pub fn sulmedra_move_at(log: *const u8, log_len: usize, k: usize) -> Part;

        // Before request 2.4 the reply was number and place alone.
        #[cfg(before)]
        pub fn before_sulmedra_carry_out(
            n: usize,
            marks: *mut u8,
            marks_len: usize,
            step: *const u8,
            step_len: usize,
        ) -> Reply;

        #[cfg(before)]
        pub fn before_sulmedra_move_at(log: *const u8, log_len: usize, k: usize) -> Part;
    }
}

/// Carries out a move on the lent marks. A refusal leaves them as they were.
pub fn carry_out(n: usize, marks: &mut [u8], step: &[u8]) -> Carried {
    // SAFETY: each pointer comes with the length of the slice that it was taken from; the slice that is written is
    // borrowed for writing, so it overlaps nothing; the function keeps no pointer after it has replied.
    unsafe { c::sulmedra_carry_out(n, marks.as_mut_ptr(), marks.len(), step.as_ptr(), step.len()) }
}

/// Writes a legal move on these marks to the lent forty bytes. They stay as they were where there is none.
pub fn find(n: usize, marks: &[u8], step: &mut [u8]) -> Found {
    // SAFETY: as for `carry_out`.
    unsafe { c::sulmedra_find(n, marks.as_ptr(), marks.len(), step.as_mut_ptr(), step.len()) }
}

/// The part of the log that move k takes.
pub fn move_at(log: &[u8], k: usize) -> Part {
    // SAFETY: the pointer comes with its slice's length, nothing is written, and the answer holds no pointer.
    unsafe { c::sulmedra_move_at(log.as_ptr(), log.len(), k) }
}

/// A move carried out by an earlier library (`build.rs`), for the benchmark alone.
#[cfg(before)]
pub fn carry_out_before(n: usize, marks: &mut [u8], step: &[u8]) -> Reply {
    // SAFETY: as for `carry_out`.
    unsafe { c::before_sulmedra_carry_out(n, marks.as_mut_ptr(), marks.len(), step.as_ptr(), step.len()) }
}

/// The part of the log that move k takes, by an earlier library.
#[cfg(before)]
pub fn move_at_before(log: &[u8], k: usize) -> Part {
    // SAFETY: as for `move_at`.
    unsafe { c::before_sulmedra_move_at(log.as_ptr(), log.len(), k) }
}
