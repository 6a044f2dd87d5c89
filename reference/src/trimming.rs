//! Demand 3, part by part, of whatever a trim wrote, and the smallest z of each logged move (document 02, 2.7).

use crate::demands::{rows_are_sound, weights_are_sound};
use crate::existence;
use crate::faults;
use crate::gates::GATE_BYTES;
use crate::moves::{carry_out, members, replay, Move, MOVE_BYTES};
use crate::new_weights::{has_the_shape, new_weights};
use crate::odd_set::{odd_set, size, t_count, Marks};
use crate::reading;
use crate::running::run;

/// The fewest bytes that may be lent for a log.
pub const LOG_BYTES: usize = 10_200;

/// The counts that a trim reports.
#[derive(Clone, Copy, Debug, PartialEq, Eq)]
pub struct Counts {
    pub t_in: usize,
    pub odd_size: usize,
    pub t_out: usize,
    pub moves: usize,
    pub gates: usize,
}

/// Holds D, the log and the counts of an accepted C against demand 3, and each logged z to the smallest. `d` has all of
/// D's gates and nothing else, `log` all of the logged moves and nothing else. Answers the first part that fails.
pub fn check_trim(n: usize, c: &[u8], d: &[u8], log: &[u8], counts: &Counts) -> Result<(), String> {
    let odd_from = check_demand_3(n, c, d, log, counts)?;
    check_each_z(n, &odd_from, log)
}

/// Demand 3 alone, whichever legal moves are logged. Answers C's odd set, or the first part that fails.
pub fn check_demand_3(n: usize, c: &[u8], d: &[u8], log: &[u8], counts: &Counts) -> Result<Marks, String> {
    let (odd_from, odd_to) = check_without_log(n, c, d, counts)?;
    let last = replay(n, &odd_from, log, counts.moves)?;
    demand(last == odd_to, || format!("the moves end at {:?}, D has {:?}", members(&last), members(&odd_to)))?;
    demand(log.len() == MOVE_BYTES * counts.moves, || format!("{} bytes of {} moves", log.len(), counts.moves))?;
    Ok(odd_from)
}

/// Each z of a log of legal moves is the smallest that any legal move has on the marks that the move gets.
pub fn check_each_z(n: usize, odd_from: &Marks, log: &[u8]) -> Result<(), String> {
    let mut marks = *odd_from;
    for (k, bytes) in log.chunks(MOVE_BYTES).enumerate() {
        let step = Move::from_bytes(bytes).ok_or_else(|| format!("move {k} is no move: {bytes:?}"))?;
        existence::check_found(n, &marks, Some(&step)).map_err(|amiss| format!("move {k}: {amiss}"))?;
        marks = carry_out(&marks, &step);
    }
    Ok(())
}

/// All of demand 3 that shows without the log. Answers the odd sets of C and of D, or the first part that fails.
pub fn check_without_log(n: usize, c: &[u8], d: &[u8], counts: &Counts) -> Result<(Marks, Marks), String> {
    same_on_every_state(n, c, d)?;
    let (from, to) = (reading::read(n, c), reading::read(n, d));
    let (odd_from, odd_to) = (odd_set(&from.weights), odd_set(&to.weights));
    demand(weights_are_sound(n, &to.weights) && rows_are_sound(n, &to.rows), || format!("D reads as {to:?}"))?;

    demand(counts.t_out == t_count(d), || format!("D has {} T gates, reported {}", t_count(d), counts.t_out))?;
    demand(size(&odd_to) == t_count(d), || format!("{} T gates for {} odd parities", t_count(d), size(&odd_to)))?;
    demand(t_count(d) <= t_count(c), || format!("{} T gates out of {}", t_count(d), t_count(c)))?;
    demand(t_count(d) <= (n * n + n) / 2 + 1, || format!("{} T gates on {n} wires", t_count(d)))?;

    demand(has_the_shape(&to.weights, &odd_to), || format!("D's weights lack the shape: {:?}", to.weights))?;
    let due = new_weights(n, &from.weights, &odd_to);
    demand(due == Some(to.weights), || format!("D's weights are {:?}, due are {due:?}", to.weights))?;
    let left = existence::find(n, &odd_to);
    demand(left.is_none(), || format!("a legal move is left: {left:?} on {:?}", members(&odd_to)))?;

    demand(d.len() == GATE_BYTES * counts.gates, || format!("{} bytes of {} gates", d.len(), counts.gates))?;
    demand(counts.t_in == t_count(c), || format!("C has {} T gates, reported {}", t_count(c), counts.t_in))?;
    demand(counts.odd_size == size(&odd_from), || format!("C's odd set: {}", size(&odd_from)))?;
    demand(counts.moves + counts.t_out <= counts.odd_size, || format!("too many moves: {counts:?}"))?;
    demand(counts.moves > 0 || odd_from == odd_to, || format!("no move, and {:?} is left", members(&odd_to)))?;
    Ok((odd_from, odd_to))
}

/// D is accepted and sends each basis state to the same state with the same phase as C.
fn same_on_every_state(n: usize, c: &[u8], d: &[u8]) -> Result<(), String> {
    let fault = faults::list_reply(n, d);
    demand(fault == faults::DONE, || format!("D is refused: {fault:?}"))?;
    for x in 0..1u16 << n {
        let (by_c, by_d) = (run(c, x), run(d, x));
        demand(by_c == by_d, || format!("x = {x} ends as {by_c:?} by C and as {by_d:?} by D"))?;
    }
    Ok(())
}

pub(crate) fn demand(holds: bool, amiss: impl FnOnce() -> String) -> Result<(), String> {
    if holds {
        Ok(())
    } else {
        Err(amiss())
    }
}
