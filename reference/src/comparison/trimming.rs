//! One call of the entry that trims, held against demand 3 and to the smallest z of each logged move.

use crate::entries::trimming::{self as entries, Trimmed};
use crate::entries::Reply;
use crate::faults;
use crate::gates::GATE_BYTES;
use crate::lent::Lent;
use crate::moves::MOVE_BYTES;
use crate::random::Random;
use crate::reading;
use crate::trimming::{check_trim, Counts, LOG_BYTES};
use crate::writing::{check_written, WRITTEN_BYTES};

/// What the entry wrote and reported.
pub struct Answer {
    pub gates: Vec<u8>,
    pub log: Vec<u8>,
    pub counts: Counts,
}

/// Trims a list with the entry into outputs of the least lengths.
pub fn trim(n: usize, list: &[u8], random: &mut Random) -> Result<Answer, Reply> {
    trim_into(n, list, WRITTEN_BYTES, LOG_BYTES, random)
}

/// Trims a list with the entry into outputs of the given lengths, which hold noise before.
pub fn trim_into(n: usize, list: &[u8], out_len: usize, log_len: usize, random: &mut Random) -> Result<Answer, Reply> {
    let lent_list = Lent::holding(list, random);
    let mut out = Lent::noise(out_len, random);
    let mut log = Lent::noise(log_len, random);

    let answer = entries::trim(n, lent_list.part(), out.part_mut(), log.part_mut());

    let due = faults::trimming_reply(n, list, out_len, log_len);
    let reply = Reply { number: answer.number, place: answer.place };
    assert_eq!(reply, due, "reply for n = {n}, lent {out_len} and {log_len}, list {list:?}");
    assert!(lent_list.is_untouched(), "the list is only read");
    if due != Reply::DONE {
        let bare = Trimmed { number: due.number, place: due.place, t_in: 0, odd_size: 0, t_out: 0, moves: 0, gates: 0 };
        assert_eq!(answer, bare, "a refusal has no counts");
        assert!(out.is_untouched() && log.is_untouched(), "refusal {due:?} left a mark, n = {n}, list {list:?}");
        return Err(reply);
    }
    let (d_len, moves_len) = (GATE_BYTES * answer.gates as usize, MOVE_BYTES * answer.moves as usize);
    assert!(d_len <= out_len && moves_len <= log_len, "more reported than lent: {answer:?}");
    assert!(out.is_untouched_from(d_len), "written after the last gate, n = {n}, list {list:?}");
    assert!(log.is_untouched_from(moves_len), "written after the last move, n = {n}, list {list:?}");
    let counts = Counts {
        t_in: answer.t_in as usize,
        odd_size: answer.odd_size as usize,
        t_out: answer.t_out as usize,
        moves: answer.moves as usize,
        gates: answer.gates as usize,
    };
    let (gates, log) = (out.part()[..d_len].to_vec(), log.part()[..moves_len].to_vec());
    assert_eq!(check_trim(n, list, &gates, &log, &counts), Ok(()), "the trim for n = {n}, {counts:?}, list {list:?}");
    assert_eq!(check_written(n, &reading::read(n, &gates), &gates), Ok(()), "how D is written, n = {n}, list {list:?}");
    Ok(Answer { gates, log, counts })
}
