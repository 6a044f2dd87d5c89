//! What the program prints for a text (document 01, "Text form"), and what must hold of it.

use crate::faults::{self, Fault};
use crate::gates::GATE_BYTES;
use crate::reading;
use crate::text::{self, Parsed, TEXT_GATES_BYTES};
use crate::trimming::{check_without_log, Counts};
use crate::writing::check_written;

/// The most bytes that are printed: n, the counts and 2,112 gates.
pub const REPLY_BYTES: usize = 14_807;

/// So many bytes from the start decide what is printed: one more than n and 4,096 gates take.
pub const READ_BYTES: usize = 28_676;

/// What is printed for an accepted text.
#[derive(Clone, Debug, PartialEq, Eq)]
pub struct Printed {
    pub n: usize,
    pub gates: Vec<u8>,
    pub counts: Counts,
}

/// The circuit of a text, or the first fault: that of the text, then that of its circuit. Everything is lent whole.
pub fn judge(text: &[u8]) -> Result<Parsed, Fault> {
    let circuit = text::read(text, TEXT_GATES_BYTES)?;
    match faults::list_reply(circuit.n, &circuit.gates) {
        faults::DONE => Ok(circuit),
        fault => Err(fault),
    }
}

/// `refused `, the number in two digits, a space and the place in four.
pub fn refused_line(fault: Fault) -> Vec<u8> {
    format!("refused {:02x} {:04x}\n", fault.number, fault.place).into_bytes()
}

/// T in, odd set size, T out and moves as four 4-digit numbers with single spaces.
pub fn counts_line(counts: &Counts) -> Vec<u8> {
    let Counts { t_in, odd_size, t_out, moves, .. } = counts;
    format!("{t_in:04x} {odd_size:04x} {t_out:04x} {moves:04x}\n").into_bytes()
}

/// n, the counts, the gates.
pub fn reply(printed: &Printed) -> Vec<u8> {
    let form = text::write(printed.n, &printed.gates);
    let (first, gates) = form.split_at("01\n".len());
    [first, &counts_line(&printed.counts), gates].concat()
}

/// What a reply says, if it is one. Without its second line a reply is a text; and what it says must print as the same
/// bytes again.
pub fn read_reply(bytes: &[u8]) -> Result<Printed, String> {
    let shown = || String::from_utf8_lossy(&bytes[..bytes.len().min(400)]).into_owned();
    let [first, second, gates] = parts(bytes).ok_or_else(|| format!("too few lines: {:?}", shown()))?;
    let Parsed { n, gates } =
        text::read(&[first, gates].concat(), TEXT_GATES_BYTES).map_err(|fault| format!("{fault:?}: {:?}", shown()))?;
    let numbers = numbers_of(second).ok_or_else(|| format!("no counts: {:?}", shown()))?;
    let [t_in, odd_size, t_out, moves] = numbers[..] else { return Err(format!("not four counts: {:?}", shown())) };
    let counts = Counts { t_in, odd_size, t_out, moves, gates: gates.len() / GATE_BYTES };
    let printed = Printed { n, gates, counts };
    if reply(&printed) != bytes {
        return Err(format!("not in the form: {:?}", shown()));
    }
    Ok(printed)
}

/// Holds what was printed for a text against what is due to it. Answers what it says, the refusal that is due, or what
/// is amiss.
pub fn check_printed(text: &[u8], printed: &[u8]) -> Result<Result<Printed, Fault>, String> {
    let circuit = match judge(text) {
        Ok(circuit) => circuit,
        Err(fault) if printed == refused_line(fault) => return Ok(Err(fault)),
        Err(fault) => return Err(format!("due is {fault:?}, printed {:?}", String::from_utf8_lossy(printed))),
    };
    let said = read_reply(printed)?;
    if said.n != circuit.n {
        return Err(format!("{} wires became {}", circuit.n, said.n));
    }
    check_without_log(circuit.n, &circuit.gates, &said.gates, &said.counts)?;
    check_written(circuit.n, &reading::read(circuit.n, &said.gates), &said.gates)?;
    Ok(Ok(said))
}

/// The first line of a reply, its second, and all after them, if it has both.
pub(crate) fn parts(bytes: &[u8]) -> Option<[&[u8]; 3]> {
    let mut lines = bytes.split_inclusive(|byte| *byte == b'\n');
    let (first, second) = (lines.next()?, lines.next()?);
    Some([first, second, &bytes[first.len() + second.len()..]])
}

/// The numbers of a line, in hex, whatever stands between them.
fn numbers_of(line: &[u8]) -> Option<Vec<usize>> {
    let line = std::str::from_utf8(line).ok()?;
    line.split_whitespace().map(|number| usize::from_str_radix(number, 16).ok()).collect()
}
