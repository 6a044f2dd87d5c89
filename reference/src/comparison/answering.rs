//! One call of the entry that answers a text, held against the reference.

use crate::comparison::trimming::trim;
use crate::entries::answering::{self as entries, Answered};
use crate::entries::Reply;
use crate::faults::{Fault, LENT_OUTPUT};
use crate::lent::Lent;
use crate::printing::{check_printed, judge, reply, Printed, REPLY_BYTES};
use crate::random::Random;

/// What was printed for a text, and what it says: a trimmed circuit or a fault.
pub struct Answer {
    pub bytes: Vec<u8>,
    pub said: Result<Printed, Fault>,
}

/// Answers a text with the entry into an output of the least length.
pub fn answer(text: &[u8], random: &mut Random) -> Answer {
    answer_into(text, REPLY_BYTES, random).expect("there is room for every reply")
}

/// Answers a text with the entry into an output of the given length, which holds noise before.
pub fn answer_into(text: &[u8], out_len: usize, random: &mut Random) -> Result<Answer, Reply> {
    let lent_text = Lent::holding(text, random);
    let mut out = Lent::noise(out_len, random);

    let answer = entries::answer(lent_text.part(), out.part_mut());

    let shown = || format!("{} bytes of text {:?}", text.len(), String::from_utf8_lossy(&text[..text.len().min(400)]));
    assert!(lent_text.is_untouched(), "the text is only read");
    if out_len < REPLY_BYTES {
        assert_eq!(answer, Answered { number: LENT_OUTPUT, place: 0, bytes: 0 }, "{out_len} lent, {}", shown());
        assert!(out.is_untouched(), "a refusal left a mark, {}", shown());
        return Err(Reply { number: answer.number, place: answer.place });
    }
    assert_eq!((answer.number, answer.place), (0, 0), "{out_len} lent, {}", shown());
    let length = answer.bytes as usize;
    assert!(length <= REPLY_BYTES, "{length} bytes reported, {}", shown());
    assert!(out.is_untouched_from(length), "written after the last line, {}", shown());
    let bytes = out.part()[..length].to_vec();
    match check_printed(text, &bytes) {
        Ok(said) => Ok(Answer { bytes, said }),
        Err(amiss) => panic!("{amiss}, {}", shown()),
    }
}

/// Answers a text as above, and trims its circuit with the entry that gives a log. Both choose alike, so what the log
/// shows of one trim holds of the other: the number of moves that was printed is the log's.
pub fn answer_and_trim(text: &[u8], random: &mut Random) -> Answer {
    let answered = answer(text, random);
    if let Ok(circuit) = judge(text) {
        let trimmed = trim(circuit.n, &circuit.gates, random).expect("the circuit was accepted");
        let due = Printed { n: circuit.n, gates: trimmed.gates, counts: trimmed.counts };
        assert_eq!(answered.bytes, reply(&due), "the trim of {:?}", String::from_utf8_lossy(text));
    }
    answered
}
