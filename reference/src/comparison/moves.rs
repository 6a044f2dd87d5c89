//! One call of an entry on moves, held against the reference.

use crate::coefficients::signature;
use crate::entries::moves::{self as entries, Found};
use crate::entries::Reply;
use crate::existence::check_found;
use crate::faults;
use crate::lent::Lent;
use crate::moves::{self, Move, MOVE_BYTES};
use crate::odd_set::{size, Marks};
use crate::random::Random;

/// Carries out a move with the entry. The number of marks that it says differ is held against the whole tables before
/// and after. Answers the marks it left, or its refusal.
pub fn carry_out(n: usize, marks: &[u8], step: &[u8], random: &mut Random) -> Result<Marks, Reply> {
    let mut lent_marks = Lent::holding(marks, random);
    let lent_step = Lent::holding(step, random);

    let answer = entries::carry_out(n, lent_marks.part_mut(), lent_step.part());

    let due = faults::carry_out_reply(n, marks, step);
    let reply = Reply { number: answer.number, place: answer.place };
    assert_eq!(reply, due, "reply for n = {n}, move {step:?}, marks {marks:?}");
    assert!(lent_step.is_untouched(), "the move is only read");
    if due != Reply::DONE {
        assert_eq!(answer.differ, 0, "refusal {due:?} tells a count, n = {n}, move {step:?}");
        assert!(lent_marks.is_untouched(), "refusal {due:?} left a mark, n = {n}, move {step:?}, marks {marks:?}");
        return Err(reply);
    }
    assert!(lent_marks.guards_hold(), "written beyond what was lent, n = {n}, move {step:?}, marks {marks:?}");
    let before: &Marks = marks.try_into().expect("accepted marks are 256");
    let after: Marks = lent_marks.part().try_into().expect("256 marks were lent");
    let step = Move::from_bytes(step).expect("accepted bytes are a move");
    let (differ, most) = (answer.differ as usize, 2 * step.y.len() + 1);
    assert!(differ <= most, "{differ} differ, at most {most} can, for n = {n}, {step:?}, marks {marks:?}");
    assert_eq!(differ, moves::differing(before, &after), "marks that differ for n = {n}, {step:?}, marks {marks:?}");
    assert_eq!(after, moves::carry_out(before, &step), "marks for n = {n}, {step:?}, marks {marks:?}");
    assert_eq!(signature(n, &after), signature(n, before), "signature for n = {n}, {step:?}, marks {marks:?}");
    assert!(size(&after) < size(before), "size for n = {n}, {step:?}, marks {marks:?}");
    Ok(after)
}

/// Looks for a move with the entry, in an output of the given length. Answers the move, which has the smallest z of all
/// legal ones, None if it says that there is none, or its refusal.
pub fn find(n: usize, marks: &[u8], step_len: usize, random: &mut Random) -> Result<Option<Move>, Reply> {
    let lent_marks = Lent::holding(marks, random);
    let mut step = Lent::noise(step_len, random);

    let answer = entries::find(n, lent_marks.part(), step.part_mut());

    let due = faults::find_reply(n, marks, step_len);
    let reply = Reply { number: answer.number, place: answer.place };
    assert_eq!(reply, due, "reply for n = {n}, {step_len} lent, marks {marks:?}");
    assert!(lent_marks.is_untouched(), "the marks are only read");
    if due != Reply::DONE {
        assert_eq!(answer, Found { number: due.number, place: due.place, found: 0 });
        assert!(step.is_untouched(), "refusal {due:?} left a mark, n = {n}, marks {marks:?}");
        return Err(reply);
    }
    let marks: &Marks = marks.try_into().expect("accepted marks are 256");
    let bytes = (answer.found != 0).then(|| step.part());
    let found = bytes.map(|bytes| Move::from_bytes(bytes).unwrap_or_else(|| panic!("no move, n = {n}: {bytes:?}")));
    assert_eq!(answer.found, u64::from(found.is_some()), "found is 0 or 1, n = {n}");
    assert_eq!(check_found(n, marks, found.as_ref()), Ok(()), "n = {n}");
    match found {
        Some(_) => assert!(step.guards_hold(), "written beyond what was lent, n = {n}, marks {marks:?}"),
        None => assert!(step.is_untouched(), "none was found, and the forty bytes changed, n = {n}"),
    }
    Ok(found)
}

/// Asks the entry for the part of a log that move k takes. Answers where it starts, or None if it is empty.
pub fn move_at(log: &[u8], k: usize, random: &mut Random) -> Option<usize> {
    let lent_log = Lent::holding(log, random);

    let part = entries::move_at(lent_log.part(), k);

    assert!(lent_log.is_untouched(), "the log is only read");
    let due = moves::part_of_log(log.len(), k);
    match due {
        Some(start) => {
            assert_eq!((part.start, part.length), (start as u64, MOVE_BYTES as u64), "move {k} of {} bytes", log.len());
        }
        // Where an empty part starts says nothing.
        None => assert_eq!(part.length, 0, "move {k} of {} bytes", log.len()),
    }
    due
}
