//! The text form (document 01, "Text form"): the text is split at its newlines, and the pieces are looked at in order.

use crate::faults::{Fault, LENT_OUTPUT, LIST_LENGTH, TEXT_LINE, WIRE_COUNT};
use crate::gates::{GATE_BYTES, MOST_GATES, MOST_WIRES};

/// The fewest bytes that may be lent for the gates of a text.
pub const TEXT_GATES_BYTES: usize = 12_288;

/// What an accepted text says.
#[derive(Clone, Debug, PartialEq, Eq)]
pub struct Parsed {
    pub n: usize,
    pub gates: Vec<u8>,
}

/// What is due to a text with this many bytes lent for its gates.
pub fn read(text: &[u8], gates_len: usize) -> Result<Parsed, Fault> {
    if gates_len < TEXT_GATES_BYTES {
        return Err(Fault { number: LENT_OUTPUT, place: 0 });
    }
    let pieces: Vec<&[u8]> = text.split(|byte| *byte == b'\n').collect();
    // What stands after the last newline is a line without one, unless it is nothing at all.
    let (open, closed) = pieces.split_last().expect("splitting gives one piece at least");
    let first = closed.first().copied().and_then(|line| hex(line, 1)).ok_or(malformed(1))?;
    let n = usize::from(first[0]);
    if n == 0 || n > MOST_WIRES {
        return Err(Fault { number: WIRE_COUNT, place: 0 });
    }
    let mut gates = Vec::new();
    for (gate_line, line) in (1..).zip(&closed[1..]) {
        if gate_line == MOST_GATES + 1 {
            return Err(Fault { number: LIST_LENGTH, place: 0 });
        }
        gates.extend(hex(line, GATE_BYTES).ok_or(malformed(gate_line + 1))?);
    }
    match (open.is_empty(), closed.len()) {
        (true, _) => Ok(Parsed { n, gates }),
        (false, before) if before == MOST_GATES + 1 => Err(Fault { number: LIST_LENGTH, place: 0 }),
        (false, before) => Err(malformed(before + 1)),
    }
}

/// The text of a wire count and gates, as the paper writes it.
pub fn write(n: usize, gates: &[u8]) -> Vec<u8> {
    let mut text = format!("{n:02x}\n");
    for gate in gates.chunks(GATE_BYTES) {
        text.extend(gate.iter().map(|byte| format!("{byte:02x}")));
        text.push('\n');
    }
    text.into_bytes()
}

/// The bytes that a line spells with two lower-case hex digits each, if it spells so many.
fn hex(line: &[u8], bytes: usize) -> Option<Vec<u8>> {
    const DIGITS: &[u8] = b"0123456789abcdef";
    let value = |digit: &u8| DIGITS.iter().position(|other| other == digit);
    let values: Vec<usize> = line.iter().map(value).collect::<Option<_>>()?;
    (values.len() == 2 * bytes).then(|| values.chunks(2).map(|two| (16 * two[0] + two[1]) as u8).collect())
}

fn malformed(line: usize) -> Fault {
    Fault { number: TEXT_LINE, place: line as u64 }
}
