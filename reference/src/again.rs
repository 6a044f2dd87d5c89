//! Trimming a trimmed block (document 02, 2.2): what must hold of the trim E of a trim D, and of the reply to a reply.

use crate::faults;
use crate::printing::parts;
use crate::reading;
use crate::trimming::{demand, Counts};

/// Holds a trim E of D against the request, where D is any trim: no move, D's T count throughout, D's weights and rows.
/// `first` was counted when D was written, `again` when E was. Answers the first part that fails.
pub fn check_again(n: usize, d: &[u8], first: &Counts, e: &[u8], again: &Counts) -> Result<(), String> {
    demand(again.moves == 0, || format!("moves: {} on a block that was trimmed", again.moves))?;
    for (name, count) in [("T in", again.t_in), ("odd set size", again.odd_size), ("T out", again.t_out)] {
        demand(count == first.t_out, || format!("{name}: {count}, and the first T out is {}", first.t_out))?;
    }
    // Only an accepted list has weights and rows.
    let fault = faults::list_reply(n, e);
    demand(fault == faults::DONE, || format!("E is refused: {fault:?}"))?;
    let (by_d, by_e) = (reading::read(n, d), reading::read(n, e));
    demand(by_e == by_d, || format!("D reads as {by_d:?}, E as {by_e:?}"))
}

/// All of the above, and more where D is the library's own: as many gates, and E is D byte for byte.
pub fn check_left_alone(n: usize, d: &[u8], first: &Counts, e: &[u8], again: &Counts) -> Result<(), String> {
    check_again(n, d, first, e, again)?;
    demand(again.gates == first.gates, || format!("gates: {}, and {} before", again.gates, first.gates))?;
    demand(e == d, || format!("D is {d:?}, E is {e:?}"))
}

/// Holds the reply to a reply, the second line of which was taken out, against the request: the same lines, and as
/// counts `T T T 0000`, where T stands for the T out that was printed first.
pub fn check_printed_again(first: &[u8], again: &[u8]) -> Result<(), String> {
    let shown = |bytes: &[u8]| String::from_utf8_lossy(bytes).into_owned();
    let [wires, counts, gates] = parts(first).ok_or_else(|| format!("no circuit was printed: {:?}", shown(first)))?;
    let t_out = counts.split(|byte| *byte == b' ').nth(2).ok_or_else(|| format!("no T out: {:?}", shown(counts)))?;
    let due = [wires, &[t_out, t_out, t_out, b"0000\n"].join(&b' '), gates].concat();
    demand(again == due, || format!("due is {:?}, printed {:?}", shown(&due), shown(again)))
}

/// A text without its second line, as `sed 2d` has it.
pub fn without_second_line(text: &[u8]) -> Vec<u8> {
    parts(text).map_or_else(|| text.to_vec(), |[first, _, rest]| [first, rest].concat())
}
