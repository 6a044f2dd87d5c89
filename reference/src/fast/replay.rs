//! A log replayed move by move, in Rust built for speed, as a measure for the proved library: where a move lies in the
//! log, and the move carried out on the marks where they lie, with the number of those that then differ from before.
//!
//! Every call judges its marks and its move, with the library's checks in the library's order, by the product table.
//! Let t be the lowest wire of z. As in the [`search`], where it is the highest, a column is the product entry of the
//! one of y and y XOR z that does not name t. Of a set Y whose members XOR to 0 an even number names t, so Y meets all
//! conditions exactly when the columns XOR to 0 too.
//!
//! [`search`]: super::search

use super::search::{is_member, Logged, PRODUCTS};
use crate::faults::{Fault, LENT_OUTPUT, MOVE, TABLE, WIRE_COUNT};
use crate::gates::MOST_WIRES;
use crate::moves::MOVE_BYTES;
use crate::odd_set::Marks;

/// The bytes of move k; None if the log ends before.
#[inline]
pub fn move_at(log: &[u8], k: usize) -> Option<&[u8]> {
    let start = k.checked_mul(MOVE_BYTES)?;
    log.get(start..)?.get(..MOVE_BYTES)
}

/// Carries out a move on the lent marks. Answers how many of them differ from before, or the fault; then they are as
/// they were.
#[inline]
pub fn carry_out(n: usize, marks: &mut [u8], step: &[u8]) -> Result<usize, Fault> {
    let refused = |number: u64| Err(Fault { number, place: 0 });
    if !(1..=MOST_WIRES).contains(&n) {
        return refused(WIRE_COUNT);
    }
    let Ok(marks) = <&mut Marks>::try_from(marks) else { return refused(LENT_OUTPUT) };
    if !are_sound(n, marks) {
        return refused(TABLE);
    }
    match legal(marks, step) {
        Some((z, ys)) => Ok(flip(marks, z, ys)),
        None => refused(MOVE),
    }
}

/// Whether each mark is 0 or 1, and 0 at parity 0 and beyond n wires. All marks are looked at, so that no branch hangs
/// on one.
#[inline]
fn are_sound(n: usize, marks: &Marks) -> bool {
    let all = |marks: &[u8]| marks.iter().fold(0, |bits, mark| bits | mark);
    let (inside, beyond) = marks.split_at(1 << n);
    marks[0] == 0 && all(inside) <= 1 && all(beyond) == 0
}

/// z and Y of the bytes, if they are a legal move for these sound marks.
#[inline]
fn legal<'a>(marks: &Marks, step: &'a [u8]) -> Option<(u8, &'a [u8])> {
    let [z, count, cells @ ..] = <&Logged>::try_from(step).ok()?;
    // There are 38 cells, the most that Y may have.
    let (ys, rest) = cells.split_at_checked(usize::from(*count))?;
    let is_form = rest.iter().fold(0, |bits, byte| bits | byte) == 0 && ys.windows(2).all(|two| two[0] < two[1]);
    // All 38 are compared, so that many are compared at a time. No member is 0, as the cells after Y are.
    let among = |b: u8| cells.iter().fold(false, |found, y| found | (*y == b));
    let outside = |b: u8| is_member(marks, b) && !among(b);
    let is_legal = is_form
        && ys.iter().all(|y| is_member(marks, *y))
        && ys.iter().any(|y| outside(y ^ z))
        && ys.iter().fold(0, |xor, y| xor ^ y) == 0
        && columns_xor(*z, ys) == 0;
    is_legal.then_some((*z, ys))
}

/// The XOR of the columns of Y for z, which is not 0.
#[inline]
fn columns_xor(z: u8, ys: &[u8]) -> u64 {
    let t = z.trailing_zeros();
    ys.iter().fold(0, |xor, y| xor ^ PRODUCTS[usize::from(y ^ (z * (y >> t & 1)))])
}

/// Flips the marks of a legal move where they lie, and answers how many differ from before. The marks of y and of y XOR
/// z differ together, since each of the two that is in Y flips both; y was a member, so its mark tells whether they do.
/// In the same way z's mark differs where mark 0 does, before z's is flipped by itself and mark 0 is cleared.
#[inline]
pub(super) fn flip(marks: &mut Marks, z: u8, ys: &[u8]) -> usize {
    let mut differ = 0;
    for y in ys {
        let mark = &mut marks[usize::from(*y)];
        differ = differ + 4 * usize::from(*mark) - 2;
        *mark ^= 1;
        marks[usize::from(y ^ z)] ^= 1;
    }
    let (odd, zero) = (ys.len() % 2 == 1, usize::from(marks[0]));
    marks[usize::from(z)] ^= u8::from(odd);
    marks[0] = 0;
    if odd {
        differ + 1 - 3 * zero
    } else {
        differ - zero
    }
}
