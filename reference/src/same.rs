//! What the program `same` says of two files (document 02, 2.1).

use crate::alike::act_alike;
use crate::faults::{self, Fault, SECOND_LIST};
use crate::printing::refused_line;
use crate::text::{self, TEXT_GATES_BYTES};

/// A file: its name as an argument has it, and its bytes.
pub type File<'a> = (&'a str, &'a [u8]);

/// What stands on the output, and on the error output.
#[derive(Clone, Debug, PartialEq, Eq)]
pub struct Said {
    pub printed: String,
    pub complaint: String,
}

/// What is said of two files that could be read. Both texts are judged before the wire counts, and these before the
/// gates.
pub fn said_of(first: File, second: File) -> Said {
    let circuit = |(name, text): File| text::read(text, TEXT_GATES_BYTES).map_err(|fault| refused(name, fault));
    let (one, other) = match (circuit(first), circuit(second)) {
        (Ok(one), Ok(other)) => (one, other),
        (Err(said), _) | (_, Err(said)) => return said,
    };
    if one.n != other.n {
        return said("", &format!("same: {} and {} have different wire counts\n", first.0, second.0));
    }
    match faults::comparing_reply(one.n, &one.gates, &other.gates) {
        faults::DONE if act_alike(one.n, &one.gates, &other.gates) => said("same\n", ""),
        faults::DONE => said("differ\n", ""),
        fault if fault.number == SECOND_LIST => refused(second.0, fault),
        fault => refused(first.0, fault),
    }
}

fn said(printed: &str, complaint: &str) -> Said {
    Said { printed: printed.to_string(), complaint: complaint.to_string() }
}

fn refused(name: &str, fault: Fault) -> Said {
    said(&String::from_utf8_lossy(&refused_line(fault)), &format!("same: {name}: refused\n"))
}
