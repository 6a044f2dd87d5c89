//! A small generator of its own, with a fixed seed for each test, and random circuits, weights, odd sets, rows and
//! moves.

use crate::demands::are_invertible;
use crate::existence::separating;
use crate::fast;
use crate::gates::{CNOT, GATE_BYTES, MOST_WIRES, PHASE_KINDS, S, S_DAGGER, T, T_DAGGER, Z};
use crate::moves::{is_legal, members, Move, MOST_IN_Y, MOVE_BYTES};
use crate::odd_set::Marks;
use crate::reading::{Rows, Weights, ROWS_BYTES, WEIGHTS_BYTES};

/// The splitmix64 generator.
pub struct Random {
    state: u64,
}

impl Random {
    pub fn new(seed: u64) -> Random {
        Random { state: seed }
    }

    pub fn word(&mut self) -> u64 {
        self.state = self.state.wrapping_add(0x9e37_79b9_7f4a_7c15);
        let mut z = self.state;
        z = (z ^ (z >> 30)).wrapping_mul(0xbf58_476d_1ce4_e5b9);
        z = (z ^ (z >> 27)).wrapping_mul(0x94d0_49bb_1331_11eb);
        z ^ (z >> 31)
    }

    /// A number below `bound`.
    pub fn below(&mut self, bound: usize) -> usize {
        (self.word() % bound as u64) as usize
    }

    /// A number from `low` to `high`, both included.
    pub fn between(&mut self, low: usize, high: usize) -> usize {
        low + self.below(high - low + 1)
    }

    pub fn one_of<A: Copy>(&mut self, choices: &[A]) -> A {
        choices[self.below(choices.len())]
    }

    pub fn byte(&mut self) -> u8 {
        self.word().to_le_bytes()[7]
    }

    pub fn bytes(&mut self, length: usize) -> Vec<u8> {
        let words = length.div_ceil(8);
        let mut bytes: Vec<u8> = (0..words).flat_map(|_| self.word().to_le_bytes()).collect();
        bytes.truncate(length);
        bytes
    }

    fn sixteenths(&mut self, share: usize) -> bool {
        self.below(16) < share
    }
}

/// What the gates of one random circuit are drawn from. A circuit draws its own taste first, so that circuits of
/// CNOTs alone, of phases alone, of T alone and on few wires all come up.
struct Taste {
    wires: Vec<u8>,
    cnots_in_sixteen: usize,
    phase_kinds: &'static [u8],
}

impl Taste {
    fn draw(random: &mut Random, n: usize) -> Taste {
        let all: Vec<u8> = (0..n as u8).collect();
        let some: Vec<u8> = all.iter().copied().filter(|_| random.sixteenths(8)).collect();
        let few = random.sixteenths(4) && !some.is_empty();
        Taste {
            wires: if few { some } else { all },
            cnots_in_sixteen: random.one_of(&[0, 1, 4, 8, 8, 12, 15, 16]),
            phase_kinds: random.one_of(&[&PHASE_KINDS[..], &PHASE_KINDS, &[T, T_DAGGER], &[T], &[S, Z, S_DAGGER]]),
        }
    }

    fn gate(&self, random: &mut Random) -> [u8; GATE_BYTES] {
        let place = random.below(self.wires.len());
        let a = self.wires[place];
        if self.wires.len() > 1 && random.sixteenths(self.cnots_in_sixteen) {
            // A step of 1 up to all but one around the wires never comes back to the same wire.
            let step = random.between(1, self.wires.len() - 1);
            return [CNOT, a, self.wires[(place + step) % self.wires.len()]];
        }
        [random.one_of(self.phase_kinds), a, 0]
    }
}

/// A random accepted list of exactly `length` gates on n wires.
pub fn circuit(random: &mut Random, n: usize, length: usize) -> Vec<u8> {
    assert!((1..=MOST_WIRES).contains(&n));
    let taste = Taste::draw(random, n);
    (0..length).flat_map(|_| taste.gate(random)).collect()
}

/// Every gate that is accepted on n wires.
pub fn all_gates(n: usize) -> Vec<[u8; GATE_BYTES]> {
    let wires = 0..n as u8;
    let cnots = wires.clone().flat_map(|a| wires.clone().map(move |b| [CNOT, a, b])).filter(|[_, a, b]| a != b);
    let phases = wires.clone().flat_map(|a| PHASE_KINDS.map(|kind| [kind, a, 0]));
    cnots.chain(phases).collect()
}

/// A random gate on n wires whose first fault is `number`. As far as they can, its other bytes hold later faults too.
pub fn faulty_gate(random: &mut Random, n: usize, number: u64) -> [u8; GATE_BYTES] {
    let inside = random.below(n) as u8;
    let outside = random.between(n, 255) as u8;
    let further = random.between(n, 255) as u8;
    let not_zero = random.between(1, 255) as u8;
    let phase = random.between(2, 6) as u8;
    let no_kind = random.one_of(&[0, 7, 8, 9, 129, 130, 254, 255]);
    match number {
        3 => random.one_of(&[
            [no_kind, inside, 0],
            [no_kind, inside, inside],
            [no_kind, outside, outside],
            [no_kind, outside, 0],
            [no_kind, inside, outside],
        ]),
        4 => random.one_of(&[
            [1, outside, inside],
            [1, inside, outside],
            [1, outside, outside],
            [1, outside, further],
            [phase, outside, 0],
            [phase, outside, outside],
            [phase, inside, not_zero],
        ]),
        5 => [1, inside, inside],
        _ => panic!("fault {number} is no gate's"),
    }
}

/// Random sound weights on n wires. The values come from a palette that is drawn first, so that even tables, odd tables
/// and nearly empty ones all come up.
pub fn weights(random: &mut Random, n: usize) -> Weights {
    let palettes: [&[u8]; 6] = [&[0, 1, 2, 3, 4, 5, 6, 7], &[0, 2, 4, 6], &[1, 3, 5, 7], &[0, 1], &[3, 5], &[7]];
    let palette = random.one_of(&palettes);
    let share = random.one_of(&[1, 4, 8, 16, 16]);
    let mut weights = [0; WEIGHTS_BYTES];
    for weight in &mut weights[1..1 << n] {
        let value = random.one_of(palette);
        *weight = if random.sixteenths(share) { value } else { 0 };
    }
    weights
}

/// A random odd set on n wires of exactly `size` members.
pub fn marks(random: &mut Random, n: usize, size: usize) -> Marks {
    let mut left: Vec<usize> = (1..1 << n).collect();
    let mut marks = [0; WEIGHTS_BYTES];
    for _ in 0..size {
        let place = random.below(left.len());
        marks[left.swap_remove(place)] = 1;
    }
    marks
}

/// Random invertible rows on n wires.
pub fn rows(random: &mut Random, n: usize) -> Rows {
    loop {
        let mut rows = [0; ROWS_BYTES];
        for row in &mut rows[..n] {
            *row = random.below(1 << n) as u8;
        }
        if are_invertible(&rows[..n]) {
            return rows;
        }
    }
}

/// A circuit with an odd set of exactly `size` members, and with even weights and other rows beside it.
pub fn circuit_of_odd_set(random: &mut Random, n: usize, size: usize) -> Vec<u8> {
    let odd = marks(random, n, size);
    let mut table = weights(random, n);
    for (weight, mark) in table.iter_mut().zip(odd) {
        *weight = *weight & 6 | mark;
    }
    fast::write(n, &table, &rows(random, n))
}

/// Even weights added at random to a weight table: the odd set and the signature stay.
pub fn add_even_weights(random: &mut Random, n: usize, weights: &Weights) -> Weights {
    let mut changed = *weights;
    for weight in &mut changed[1..1 << n] {
        *weight = (*weight + random.one_of(&[0, 0, 2, 4, 6])) % 8;
    }
    changed
}

/// A random legal move on this odd set: random pairs are asked, each on the pair and some of the other members only, so
/// that the same set gives many moves. None if no try succeeds.
pub fn legal_move(random: &mut Random, n: usize, marks: &Marks) -> Option<Move> {
    let odd_set = members(marks);
    (0..20).filter(|_| odd_set.len() > 1).find_map(|_| {
        let (a, b) = (random.one_of(&odd_set), random.one_of(&odd_set));
        let share = random.between(4, 16);
        let mut some = *marks;
        for y in odd_set.iter().filter(|y| **y != a && **y != b) {
            some[usize::from(*y)] = u8::from(random.sixteenths(share));
        }
        if a == b {
            return None;
        }
        separating(n, &some, a, b)
    })
}

/// A random legal move, and more in Y, so that flips meet. Members c and c XOR z together with z add nothing to any
/// sum: each of the three joins Y, or leaves it. Where z is no member this is done an even number of times, and z stays
/// out. None if there is no legal move to begin with, or if Y gets too many.
pub fn legal_move_with_pairs(random: &mut Random, n: usize, marks: &Marks) -> Option<Move> {
    let Move { z, y } = legal_move(random, n, marks)?;
    let pairs: Vec<u8> = members(marks).into_iter().filter(|c| marks[usize::from(c ^ z)] == 1).collect();
    let mut set = [0; WEIGHTS_BYTES];
    y.iter().for_each(|y| set[usize::from(*y)] = 1);
    let times = random.between(1, 4) * if marks[usize::from(z)] == 1 { 1 } else { 2 };
    for c in (0..times).map(|_| random.one_of(&pairs)) {
        [c, c ^ z, z].iter().for_each(|y| set[usize::from(*y)] ^= 1);
    }
    let step = Move { z, y: members(&set) };
    if step.y.len() > MOST_IN_Y {
        return None;
    }
    assert!(is_legal(n, marks, &step), "a legal move again: {step:?} on {:?}", members(marks));
    Some(step)
}

/// The bytes of a move, one or two of them changed: those that it fills, or a few of the zeros after.
pub fn damaged_move(random: &mut Random, n: usize, step: &Move) -> [u8; MOVE_BYTES] {
    let bytes = step.to_bytes();
    let end = (step.y.len() + 5).min(MOVE_BYTES);
    // A parity of n wires.
    let mixed = ((u16::from(bytes[0]) + u16::from(bytes[2])) & ((1 << n) - 1)) as u8;
    let mut changed = bytes;
    for _ in 0..random.between(1, 2) {
        let place = random.below(end);
        let near = changed[place] ^ 1 << random.below(n);
        changed[place] = random.one_of(&[near, near, 0, 1, mixed]);
    }
    changed
}
