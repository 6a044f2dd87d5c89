//! The library's own search for a legal move with the smallest z.
//!
//! Let t be the highest wire of z. One of y and y XOR z does not name t; its product entry is y's column for z, and y XOR
//! z has the same. A set Y meets all conditions exactly when its columns XOR to 0 and an even number of Y names t. Two
//! members that differ by z are a pair. Suppose that the columns of some members XOR to 0 and one of a pair is among
//! them, without its partner. Either of the two may stand in Y, and with one of them the number is even. So a move with
//! z is legal exactly when there are such members.
//!
//! For one z the columns go into the slots of an XOR basis, first one of each pair, then those of the members without a
//! partner. While the members are few, many z have no dependency at all. That is found out before, without a note of
//! what is made of what. The columns of the members without t are the same for all z with that highest wire, so they
//! are eliminated once.

use std::iter;

use crate::moves::MOVE_BYTES;
use crate::odd_set::Marks;

/// A move as it stands in a log.
pub type Logged = [u8; MOVE_BYTES];

/// A legal move with the smallest z, or None exactly when no move is legal.
pub fn search(n: usize, marks: &Marks) -> Option<Logged> {
    let mut list = [0; 256];
    let count = gather(n, marks, &mut list);
    let (mut room, mut slots) = ([0; PRODUCT_BITS], Slots::empty());
    (0..n).find_map(|t| scan_wire(n, marks, &list[..count], t, &mut room, &mut slots))
}

/// Lists the members ascending. Each parity is put at the end of the list and stays there if it is marked: no branch
/// hangs on the marks.
#[inline]
fn gather(n: usize, marks: &Marks, list: &mut [u8; 256]) -> usize {
    let mut count = 0;
    for (p, mark) in marks[..1 << n].iter().enumerate() {
        list[count] = p as u8;
        count += usize::from(*mark);
    }
    count
}

/// All z whose highest wire is t, ascending. Whatever the room and the slots held before is overwritten or not looked at.
#[inline]
fn scan_wire(
    n: usize,
    marks: &Marks,
    odd_set: &[u8],
    t: usize,
    room: &mut Vectors,
    slots: &mut Slots,
) -> Option<Logged> {
    let half = half(n, odd_set, t, room);
    for z in (1 << t..2 << t).map(|z: usize| z as u8) {
        if !odd_set.iter().any(|y| is_member(marks, y ^ z)) {
            continue;
        }
        if half.is_some_and(|half| all_apart(half, room, marks, odd_set, z, t)) {
            continue;
        }
        let found = slots.search(marks, odd_set, z, t);
        if found.is_some() {
            return found;
        }
    }
    None
}

#[inline]
pub(super) fn is_member(marks: &Marks, p: u8) -> bool {
    marks[usize::from(p)] == 1
}

#[inline]
fn names(y: u8, t: usize) -> bool {
    y >> t & 1 == 1
}

/// The mask of the slots of the columns of all members without t, if they are independent. No column names t, so at most
/// n(n-1)/2 are independent; where there are more members, none is eliminated beforehand.
#[inline]
fn half(n: usize, odd_set: &[u8], t: usize, room: &mut Vectors) -> Option<u64> {
    if odd_set.len() > n * (n - 1) / 2 {
        return None;
    }
    all_grow(0, room, odd_set.iter().filter(|y| !names(**y, t)).map(|y| PRODUCTS[usize::from(*y)]))
}

/// Whether the columns for z are independent: to those of the members without t, which are in, come those of the members
/// with t that have no partner. Slots outside the mask of the half are free, so nothing has to be put back.
#[inline]
fn all_apart(half: u64, room: &mut Vectors, marks: &Marks, odd_set: &[u8], z: u8, t: usize) -> bool {
    let singles = odd_set.iter().filter(|y| names(**y, t) && !is_member(marks, *y ^ z));
    all_grow(half, room, singles.map(|y| PRODUCTS[usize::from(y ^ z)])).is_some()
}

/// Puts columns in beside the slots in the mask; answers the mask of all of them if they are independent.
#[inline]
fn all_grow(mut filled: u64, room: &mut Vectors, columns: impl Iterator<Item = u64>) -> Option<u64> {
    for column in columns {
        let more = grow(column, filled, room);
        if more == filled {
            return None;
        }
        filled = more;
    }
    Some(filled)
}

/// The most bits of a product entry.
const PRODUCT_BITS: usize = 36;

/// For i ≤ j, bit j(j+1)/2 + i of entry p is set when p names both.
pub(super) static PRODUCTS: [u64; 256] = products();

const fn products() -> [u64; 256] {
    let mut table = [0; 256];
    let mut p = 0;
    while p < 256 {
        let mut j = 0;
        while j < 8 {
            let mut i = 0;
            while i <= j {
                table[p] |= ((p >> i & p >> j & 1) as u64) << (j * (j + 1) / 2 + i);
                i += 1;
            }
            j += 1;
        }
        p += 1;
    }
    table
}

/// A basis under XOR. The slot of a vector is its highest bit; 0 is no vector.
type Vectors = [u64; PRODUCT_BITS];

/// What a column comes down to.
enum Reduced {
    /// 0, these slots taken off it.
    Dependent { used: u64 },
    /// What is left of it. Its slot is free.
    Independent { slot: usize, left: u64, used: u64 },
}

/// Takes slots off a column, each time the one at its highest bit.
#[inline]
fn reduce(vectors: &Vectors, column: u64) -> Reduced {
    let (mut left, mut used) = (column, 0);
    while left != 0 {
        let slot = left.ilog2() as usize;
        if vectors[slot] == 0 {
            return Reduced::Independent { slot, left, used };
        }
        left ^= vectors[slot];
        used ^= 1 << slot;
    }
    Reduced::Dependent { used }
}

/// Puts a column in, unless it depends on the slots in the mask; answers the mask with the slot that it opened.
#[inline]
fn grow(column: u64, filled: u64, room: &mut Vectors) -> u64 {
    let mut left = column;
    while left != 0 {
        let slot = left.ilog2() as usize;
        if filled >> slot & 1 == 0 {
            room[slot] = left;
            return filled ^ 1 << slot;
        }
        left ^= room[slot];
    }
    filled
}

/// A basis that can say which members a dependency is made of. What stands beside a free slot says nothing.
struct Slots {
    vectors: Vectors,
    /// The slots that were taken off a column before it opened its own.
    by: [u64; PRODUCT_BITS],
    /// The member whose column opened the slot.
    member: [u8; PRODUCT_BITS],
}

impl Slots {
    fn empty() -> Slots {
        Slots { vectors: [0; PRODUCT_BITS], by: [0; PRODUCT_BITS], member: [0; PRODUCT_BITS] }
    }

    /// A legal move with z, if there is one: pairs first, of each the one without t.
    #[inline]
    fn search(&mut self, marks: &Marks, odd_set: &[u8], z: u8, t: usize) -> Option<Logged> {
        self.vectors = [0; PRODUCT_BITS];
        for y in odd_set.iter().filter(|y| !names(**y, t) && is_member(marks, *y ^ z)) {
            if let Some(used) = self.insert(PRODUCTS[usize::from(*y)], *y) {
                return self.name(marks, odd_set, z, used, *y);
            }
        }
        for y in odd_set.iter().filter(|y| !is_member(marks, *y ^ z)) {
            let without_t = y ^ (z * (y >> t & 1));
            if let Some(used) = self.insert(PRODUCTS[usize::from(without_t)], *y) {
                let found = self.name(marks, odd_set, z, used, *y);
                if found.is_some() {
                    return found;
                }
            }
        }
        None
    }

    /// Puts a member's column in, or answers the slots that XOR to it.
    #[inline]
    fn insert(&mut self, column: u64, member: u8) -> Option<u64> {
        match reduce(&self.vectors, column) {
            Reduced::Dependent { used } => Some(used),
            Reduced::Independent { slot, left, used } => {
                self.vectors[slot] = left;
                self.by[slot] = used;
                self.member[slot] = member;
                None
            }
        }
    }

    /// The move with z that the last member makes with those of the used slots, unless none of them is one of a pair. If
    /// they do not XOR to 0, an odd number of them names t: then the first that is one of a pair gives place to its
    /// partner.
    #[inline]
    fn name(&self, marks: &Marks, odd_set: &[u8], z: u8, used: u64, last: u8) -> Option<Logged> {
        let mask = self.by_members(used);
        let chosen = iter::once(last).chain(bits(mask).map(|slot| self.member[slot]));
        let of_pair = chosen.clone().find(|y| is_member(marks, y ^ z))?;
        let mut set = [false; 256];
        let mut xor = 0;
        for y in chosen {
            set[usize::from(y)] = true;
            xor ^= y;
        }
        if xor != 0 {
            set[usize::from(of_pair)] = false;
            set[usize::from(of_pair ^ z)] = true;
        }
        Some(logged(z, odd_set.iter().copied().filter(|y| set[usize::from(*y)])))
    }

    /// From slots to the members that are in them. A slot stands for the member that opened it and for the slots, all of
    /// them above, that were taken off that one's column.
    #[inline]
    fn by_members(&self, used: u64) -> u64 {
        let (mut mask, mut ahead) = (used, used);
        while ahead != 0 {
            let slot = ahead.trailing_zeros();
            mask ^= self.by[slot as usize];
            ahead = mask & !1 << slot;
        }
        mask
    }
}

/// The bits of a mask, the lowest first.
#[inline]
fn bits(mask: u64) -> impl Iterator<Item = usize> + Clone {
    let mut left = mask;
    iter::from_fn(move || {
        let bit = left.trailing_zeros() as usize;
        left &= left.wrapping_sub(1);
        (bit < 64).then_some(bit)
    })
}

/// The move with this z and Y.
#[inline]
fn logged(z: u8, set: impl Iterator<Item = u8>) -> Logged {
    let mut bytes = [0; MOVE_BYTES];
    bytes[0] = z;
    for (place, y) in set.enumerate() {
        bytes[1] += 1;
        bytes[2 + place] = y;
    }
    bytes
}
