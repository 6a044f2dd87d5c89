//! One call of the entry that writes a list, held against the reference.

use crate::entries::writing::{self as entries, Written};
use crate::entries::Reply;
use crate::faults;
use crate::gates::GATE_BYTES;
use crate::lent::Lent;
use crate::random::Random;
use crate::reading::Reading;
use crate::writing::check_written;

/// Writes a list with the entry into an output of the given length. Answers the list, or the refusal.
pub fn write(n: usize, weights: &[u8], rows: &[u8], gates_len: usize, random: &mut Random) -> Result<Vec<u8>, Reply> {
    let lent_weights = Lent::holding(weights, random);
    let lent_rows = Lent::holding(rows, random);
    let mut gates = Lent::noise(gates_len, random);

    let answer = entries::write(n, lent_weights.part(), lent_rows.part(), gates.part_mut());

    let due = faults::writing_reply(n, weights, rows, gates_len);
    let reply = Reply { number: answer.number, place: answer.place };
    assert_eq!(reply, due, "reply for n = {n}, {gates_len} lent, rows {rows:?}, weights {weights:?}");
    assert!(lent_weights.is_untouched() && lent_rows.is_untouched(), "weights and rows are only read");
    if due != Reply::DONE {
        assert_eq!(answer, Written { number: due.number, place: due.place, gates: 0 });
        assert!(gates.is_untouched(), "refusal {due:?} left a mark, n = {n}, rows {rows:?}, weights {weights:?}");
        return Err(reply);
    }
    let length = answer.gates as usize * GATE_BYTES;
    assert!(length <= gates_len, "{} gates in {gates_len} bytes", answer.gates);
    assert!(gates.is_untouched_from(length), "written after the last gate, n = {n}, rows {rows:?}");
    let list = gates.part()[..length].to_vec();
    let wanted = Reading {
        weights: weights.try_into().expect("accepted weights are 256"),
        rows: rows.try_into().expect("accepted rows are 8"),
    };
    assert_eq!(check_written(n, &wanted, &list), Ok(()), "n = {n}, {wanted:?}, list {list:?}");
    Ok(list)
}
