//! One call of the entry that compares two lists, held against the reference.

use std::ops::Range;

use crate::alike::told_apart_by;
use crate::entries::comparing::{self as entries, Compared};
use crate::entries::Reply;
use crate::faults;
use crate::lent::Lent;
use crate::random::Random;

/// Compares two lists with the entry, each lent by itself. Answers whether they act alike, or the refusal.
pub fn compare(n: usize, first: &[u8], second: &[u8], random: &mut Random) -> Result<bool, Reply> {
    let lent_first = Lent::holding(first, random);
    let lent_second = Lent::holding(second, random);

    let answer = entries::compare(n, lent_first.part(), lent_second.part());

    assert!(lent_first.is_untouched() && lent_second.is_untouched(), "both lists are only read");
    judged(n, first, second, answer)
}

/// Compares two parts of the same lent bytes with the entry: lists that are only read may overlap.
pub fn compare_parts(
    n: usize,
    bytes: &[u8],
    first: Range<usize>,
    second: Range<usize>,
    random: &mut Random,
) -> Result<bool, Reply> {
    let lent = Lent::holding(bytes, random);

    let answer = entries::compare(n, &lent.part()[first.clone()], &lent.part()[second.clone()]);

    assert!(lent.is_untouched(), "both lists are only read");
    judged(n, &bytes[first], &bytes[second], answer)
}

/// What the answer says, if it is the one that is due.
fn judged(n: usize, first: &[u8], second: &[u8], answer: Compared) -> Result<bool, Reply> {
    let due = faults::comparing_reply(n, first, second);
    let reply = Reply { number: answer.number, place: answer.place };
    assert_eq!(reply, due, "reply for n = {n}, lists {first:?} and {second:?}");
    if due != Reply::DONE {
        assert_eq!(answer.same, 0, "refusal {due:?} says that the lists act alike, n = {n}");
        return Err(reply);
    }
    let telling = told_apart_by(n, first, second);
    let alike = telling.is_none();
    assert_eq!(answer.same, u64::from(alike), "n = {n}, state {telling:?} tells {first:?} and {second:?} apart");
    Ok(alike)
}
