//! One call of the entry that reads the text form, held against the reference.

use crate::entries::text::{self as entries, Text};
use crate::entries::Reply;
use crate::gates::GATE_BYTES;
use crate::lent::Lent;
use crate::random::Random;
use crate::text::{self, Parsed};

/// Reads a text with the entry into gates of the given length. Answers what it says, or the refusal.
pub fn read_text(bytes: &[u8], gates_len: usize, random: &mut Random) -> Result<Parsed, Reply> {
    let lent_text = Lent::holding(bytes, random);
    let mut gates = Lent::noise(gates_len, random);

    let answer = entries::read_text(lent_text.part(), gates.part_mut());

    let shown = || String::from_utf8_lossy(&bytes[..bytes.len().min(400)]).into_owned();
    let due = text::read(bytes, gates_len);
    assert!(lent_text.is_untouched(), "the text is only read");
    match &due {
        Err(fault) => {
            let bare = Text { number: fault.number, place: fault.place, n: 0, gates: 0 };
            assert_eq!(answer, bare, "{gates_len} lent, {} bytes of text {:?}", bytes.len(), shown());
            assert!(gates.is_untouched(), "refusal {fault:?} left a mark, text {:?}", shown());
        }
        Ok(parsed) => {
            let count = (parsed.gates.len() / GATE_BYTES) as u64;
            let full = Text { number: 0, place: 0, n: parsed.n as u64, gates: count };
            assert_eq!(answer, full, "{gates_len} lent, {} bytes of text {:?}", bytes.len(), shown());
            assert!(gates.is_untouched_from(parsed.gates.len()), "written after the last gate, text {:?}", shown());
            assert_eq!(gates.part()[..parsed.gates.len()], parsed.gates, "gates of text {:?}", shown());
        }
    }
    due
}
