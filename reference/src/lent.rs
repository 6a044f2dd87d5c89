//! Lent buffers: random noise before the call, guard bytes on both sides, all of it remembered.

use crate::random::Random;

const GUARD_BYTES: usize = 64;

pub struct Lent {
    bytes: Vec<u8>,
    before: Vec<u8>,
    length: usize,
}

impl Lent {
    /// A buffer of noise.
    pub fn noise(length: usize, random: &mut Random) -> Lent {
        let bytes = random.bytes(GUARD_BYTES + length + GUARD_BYTES);
        Lent { before: bytes.clone(), bytes, length }
    }

    /// A buffer with this content, between guards of noise: what is read beyond it is noise too.
    pub fn holding(content: &[u8], random: &mut Random) -> Lent {
        let mut lent = Lent::noise(content.len(), random);
        lent.part_mut().copy_from_slice(content);
        lent.before.clone_from(&lent.bytes);
        lent
    }

    /// The lent part.
    pub fn part(&self) -> &[u8] {
        &self.bytes[GUARD_BYTES..GUARD_BYTES + self.length]
    }

    pub fn part_mut(&mut self) -> &mut [u8] {
        &mut self.bytes[GUARD_BYTES..GUARD_BYTES + self.length]
    }

    /// Lent part and guards are as they were before the call.
    pub fn is_untouched(&self) -> bool {
        self.bytes == self.before
    }

    /// The lent part from `start` on, and the bytes around the lent part, are as they were before the call.
    pub fn is_untouched_from(&self, start: usize) -> bool {
        let rest = GUARD_BYTES + start;
        self.bytes[..GUARD_BYTES] == self.before[..GUARD_BYTES] && self.bytes[rest..] == self.before[rest..]
    }

    /// The bytes around the lent part are as they were before the call.
    pub fn guards_hold(&self) -> bool {
        let end = GUARD_BYTES + self.length;
        self.bytes[..GUARD_BYTES] == self.before[..GUARD_BYTES] && self.bytes[end..] == self.before[end..]
    }
}
