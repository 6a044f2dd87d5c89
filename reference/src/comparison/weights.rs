//! One call of an entry on weights, held against the reference.

use crate::coefficients::{self, signature, Coefficients, C_BYTES, L_BYTES, Q_BYTES};
use crate::entries::weights as entries;
use crate::entries::Reply;
use crate::faults;
use crate::lent::Lent;
use crate::new_weights::{self, has_the_shape, same_phases};
use crate::odd_set::{self, Marks};
use crate::random::Random;
use crate::reading::Weights;

/// The odd set by the entry, into marks of the given length.
pub fn odd_set(n: usize, weights: &[u8], marks_len: usize, random: &mut Random) -> Result<Marks, Reply> {
    let lent_weights = Lent::holding(weights, random);
    let mut marks = Lent::noise(marks_len, random);

    let reply = entries::odd_set(n, lent_weights.part(), marks.part_mut());

    let due = faults::odd_set_reply(n, weights, marks_len);
    assert_eq!(reply, due, "reply for n = {n}, {marks_len} marks lent, weights {weights:?}");
    assert!(lent_weights.is_untouched(), "the weights are only read");
    if due != Reply::DONE {
        assert!(marks.is_untouched(), "refusal {due:?} left a mark, n = {n}, weights {weights:?}");
        return Err(reply);
    }
    assert!(marks.guards_hold(), "written beyond what was lent, n = {n}, weights {weights:?}");
    let written: Marks = marks.part().try_into().expect("256 marks were lent");
    let sound: &Weights = weights.try_into().expect("accepted weights are 256");
    assert_eq!(written, odd_set::odd_set(sound), "odd set for n = {n}, weights {weights:?}");
    Ok(written)
}

/// The coefficients by the entry, into outputs of the given lengths.
pub fn coefficients(
    n: usize,
    weights: &[u8],
    (l_len, q_len, c_len): (usize, usize, usize),
    random: &mut Random,
) -> Result<Coefficients, Reply> {
    let lent_weights = Lent::holding(weights, random);
    let mut l = Lent::noise(l_len, random);
    let mut q = Lent::noise(q_len, random);
    let mut c = Lent::noise(c_len, random);

    let reply = entries::coefficients(n, lent_weights.part(), l.part_mut(), q.part_mut(), c.part_mut());

    let due = faults::coefficients_reply(n, weights, l_len, q_len, c_len);
    assert_eq!(reply, due, "reply for n = {n}, lent {l_len}, {q_len} and {c_len}, weights {weights:?}");
    assert!(lent_weights.is_untouched(), "the weights are only read");
    if due != Reply::DONE {
        let untouched = l.is_untouched() && q.is_untouched() && c.is_untouched();
        assert!(untouched, "refusal {due:?} left a mark, n = {n}, weights {weights:?}");
        return Err(reply);
    }
    assert!(l.guards_hold() && q.guards_hold() && c.guards_hold(), "written beyond what was lent, n = {n}");
    let written = Coefficients {
        l: l.part().try_into().expect("8 bytes were lent for l"),
        q: q.part().try_into().expect("64 bytes were lent for q"),
        c: c.part().try_into().expect("512 bytes were lent for c"),
    };
    let sound: &Weights = weights.try_into().expect("accepted weights are 256");
    assert_eq!(written, coefficients::coefficients(n, sound), "coefficients for n = {n}, weights {weights:?}");
    Ok(written)
}

/// The right lengths of l, q and c.
pub const RIGHT_LENGTHS: (usize, usize, usize) = (L_BYTES, Q_BYTES, C_BYTES);

/// The new weights by the entry, into an output of the given length. Where the signatures differ, the paper says
/// nothing of what is written.
pub fn new_weights(
    n: usize,
    weights: &[u8],
    marks: &[u8],
    out_len: usize,
    random: &mut Random,
) -> Result<Weights, Reply> {
    let lent_weights = Lent::holding(weights, random);
    let lent_marks = Lent::holding(marks, random);
    let mut out = Lent::noise(out_len, random);

    let reply = entries::new_weights(n, lent_weights.part(), lent_marks.part(), out.part_mut());

    let due = faults::new_weights_reply(n, weights, marks, out_len);
    assert_eq!(reply, due, "reply for n = {n}, {out_len} lent, weights {weights:?}, marks {marks:?}");
    assert!(lent_weights.is_untouched() && lent_marks.is_untouched(), "weights and marks are only read");
    if due != Reply::DONE {
        assert!(out.is_untouched(), "refusal {due:?} left a mark, n = {n}, weights {weights:?}, marks {marks:?}");
        return Err(reply);
    }
    assert!(out.guards_hold(), "written beyond what was lent, n = {n}, weights {weights:?}, marks {marks:?}");
    let written: Weights = out.part().try_into().expect("256 weights were lent");
    let weights: &Weights = weights.try_into().expect("accepted weights are 256");
    let marks: &Marks = marks.try_into().expect("accepted marks are 256");
    if signature(n, weights) == signature(n, marks) {
        assert!(has_the_shape(&written, marks), "shape for n = {n}, {weights:?}, {marks:?}: {written:?}");
        assert_eq!(odd_set::odd_set(&written), *marks, "odd set for n = {n}, {weights:?}");
        assert!(same_phases(n, &written, weights), "phases for n = {n}, {weights:?}, {marks:?}: {written:?}");
        assert_eq!(Some(written), new_weights::new_weights(n, weights, marks), "n = {n}, {weights:?}, {marks:?}");
    }
    Ok(written)
}
