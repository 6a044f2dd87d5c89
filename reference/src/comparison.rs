//! One call of an entry, held against the reference: reply, every lent byte, and the guards around them.

#[cfg(feature = "program")]
pub mod answering;
#[cfg(feature = "comparing")]
pub mod comparing;
#[cfg(feature = "moves")]
pub mod moves;
#[cfg(feature = "text")]
pub mod text;
#[cfg(feature = "trim")]
pub mod trimming;
#[cfg(feature = "weights")]
pub mod weights;
#[cfg(feature = "writing")]
pub mod writing;

use crate::demands;
use crate::entries::{self, Reply};
use crate::faults;
use crate::lent::Lent;
use crate::random::Random;
use crate::reading::{self, Reading, ROWS_BYTES, WEIGHTS_BYTES};

/// Reads a list with the entry into outputs of the right lengths. Answers what the entry wrote, or its refusal.
pub fn read(n: usize, list: &[u8], random: &mut Random) -> Result<Reading, Reply> {
    read_into(n, list, WEIGHTS_BYTES, ROWS_BYTES, random)
}

/// Reads a list with the entry into outputs of the given lengths.
pub fn read_into(
    n: usize,
    list: &[u8],
    weights_len: usize,
    rows_len: usize,
    random: &mut Random,
) -> Result<Reading, Reply> {
    let gates = Lent::holding(list, random);
    let mut weights = Lent::noise(weights_len, random);
    let mut rows = Lent::noise(rows_len, random);

    let reply = entries::read(n, gates.part(), weights.part_mut(), rows.part_mut());

    let due = faults::reading_reply(n, list, weights_len, rows_len);
    assert_eq!(reply, due, "reply for n = {n}, lent {weights_len} and {rows_len}, list {list:?}");
    assert!(gates.is_untouched(), "the list is only read");
    if due != Reply::DONE {
        assert!(weights.is_untouched() && rows.is_untouched(), "refusal {due:?} left a mark, n = {n}, list {list:?}");
        return Err(reply);
    }
    assert!(weights.guards_hold() && rows.guards_hold(), "written beyond what was lent, n = {n}, list {list:?}");
    let written = Reading {
        weights: weights.part().try_into().expect("256 weights were lent"),
        rows: rows.part().try_into().expect("8 rows were lent"),
    };
    assert_eq!(demands::check_reading(n, list, &written), Ok(()), "demands for n = {n}, list {list:?}");
    assert_eq!(written, reading::read(n, list), "reading for n = {n}, list {list:?}");
    Ok(written)
}
