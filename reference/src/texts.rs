//! Texts to try, by the text reader alone and by whole replies, and a count of what was said to them.

use crate::random::Random;

/// How often each answer came up: accepted at 0, the faults at their numbers.
#[derive(Default)]
pub struct Told([usize; 12]);

impl Told {
    pub fn note(&mut self, number: u64) {
        self.0[number as usize] += 1;
    }

    pub fn times(&self, number: usize) -> usize {
        self.0[number]
    }

    pub fn all_came_up(&self, numbers: &[usize]) {
        for number in numbers {
            assert!(self.0[*number] > 0, "answer {number} never came up: {:?}", self.0);
        }
    }
}

/// Texts with a malformed line, and its number.
pub const MALFORMED: [(&[u8], u64); 33] = [
    (b"", 1),
    (b"\n", 1),
    (b"\n\n", 1),
    (b"0", 1),
    (b"01", 1),
    (b"1\n", 1),
    (b"001\n", 1),
    (b"0A\n", 1),
    (b" 1\n", 1),
    (b"01\r\n", 1),
    (b"01\r\n020000\r\n", 1),
    (b"\xef\xbb\xbf01\n", 1),
    (b"01\0\n", 1),
    (b"01 \n", 1),
    (b"01020000\n", 1),
    (b"01 020000\n", 1),
    (b"0x\n020000\n", 1),
    (b"01\n\n", 2),
    (b"01\n0", 2),
    (b"01\n020000", 2),
    (b"01\n02000\n", 2),
    (b"01\n0200000\n", 2),
    (b"01\n02000A\n", 2),
    (b"01\n02000g\n", 2),
    (b"01\n02 00 00\n", 2),
    (b"01\n020000\r\n", 2),
    (b"01\n020000 \n", 2),
    (b"01\n020000020000\n", 2),
    (b"01\n0200\n00\n", 2),
    (b"01\n020000\n\n", 3),
    (b"01\n020000\n\n020000\n", 3),
    (b"01\n020000\n020000", 3),
    (b"01\n020000\n0", 3),
];

/// Wire counts that are refused.
pub const NO_WIRE_COUNTS: [usize; 7] = [0, 9, 10, 16, 17, 128, 255];

/// What may stand where gate line 4,097 would: it gives 2 whatever it is.
pub const ONE_LINE_MORE: [&str; 9] =
    ["020000\n", "\n", "z", "0", "020000", "zzzzzz\n", "02000\n", "020000\n020000\n", "\n\n\n"];

/// Changes, puts in, doubles or takes out a byte.
pub fn damage(text: &mut Vec<u8>, random: &mut Random) {
    let place = random.below(text.len());
    let noise = random.byte();
    let byte =
        random.one_of(&[b'\n', b'0', b'1', b'9', b'a', b'f', b'g', b'A', b'F', b' ', b'\r', b'/', b':', b'`', noise]);
    match random.below(4) {
        0 => text[place] = byte,
        1 => text.insert(place, byte),
        2 => text.insert(place, text[place]),
        _ => drop(text.remove(place)),
    }
}

/// Noise, noise of bytes that texts are made of, or noise after a line one; by turns.
pub fn noise(round: usize, most: usize, random: &mut Random) -> Vec<u8> {
    let length = random.between(0, most);
    let noise = random.bytes(length);
    match round % 3 {
        0 => noise,
        1 => noise.iter().map(|byte| b"0123456789abcdef\n\n"[usize::from(*byte) % 18]).collect(),
        _ => [b"0", &[b"0123456789"[random.below(10)]][..], b"\n", &noise].concat(),
    }
}

/// A text with one byte changed to an `x`, and the line that it is in.
pub fn crossed_out(text: &[u8], random: &mut Random) -> (Vec<u8>, u64) {
    let place = random.below(text.len());
    let line = text[..place].iter().filter(|byte| **byte == b'\n').count() as u64 + 1;
    let mut crossed = text.to_vec();
    crossed[place] = b'x';
    (crossed, line)
}
