//! Damaged lists and lists of noise. What is due is told by the reference; each test also sees to it that the answers
//! it is there for do come up.

use sulmedra_reference::comparison::{read, read_into};
use sulmedra_reference::gates::{GATE_BYTES, MOST_GATES};
use sulmedra_reference::random::{circuit, Random};

/// How often each answer came up: accepted at 0, the faults at their numbers.
#[derive(Default)]
struct Told([usize; 9]);

impl Told {
    fn note(&mut self, n: usize, list: &[u8], random: &mut Random) {
        let number = read(n, list, random).map_or_else(|reply| reply.number, |_| 0);
        self.0[number as usize] += 1;
    }

    fn all_came_up(&self, numbers: &[usize]) {
        for number in numbers {
            assert!(self.0[*number] > 0, "answer {number} never came up: {:?}", self.0);
        }
    }
}

/// A byte that is near the limits as often as it is anything.
fn damage(random: &mut Random) -> u8 {
    let any = random.byte();
    let small = random.below(10) as u8;
    random.one_of(&[any, small, small])
}

#[test]
fn one_byte_changed() {
    let mut random = Random::new(30);
    for n in 1..=8 {
        let mut told = Told::default();
        for _ in 0..400 {
            let length = random.between(1, 50);
            let mut list = circuit(&mut random, n, length);
            let place = random.below(list.len());
            list[place] = damage(&mut random);
            told.note(n, &list, &mut random);
        }
        told.all_came_up(&[0, 3, 4]);
    }
}

#[test]
fn some_bytes_changed() {
    let mut random = Random::new(31);
    let mut told = Told::default();
    for n in 1..=8 {
        for _ in 0..300 {
            let length = random.between(1, 50);
            let mut list = circuit(&mut random, n, length);
            for _ in 0..random.between(2, 6) {
                let place = random.below(list.len());
                list[place] = damage(&mut random);
            }
            told.note(n, &list, &mut random);
        }
    }
    told.all_came_up(&[0, 3, 4, 5]);
}

#[test]
fn one_byte_changed_in_lists_of_the_most_gates() {
    let mut random = Random::new(32);
    let mut told = Told::default();
    for n in 1..=8 {
        let list = circuit(&mut random, n, MOST_GATES);
        for _ in 0..6 {
            let mut damaged = list.clone();
            let place = random.below(list.len());
            damaged[place] = random.between(7, 255) as u8;
            told.note(n, &damaged, &mut random);
        }
    }
    told.all_came_up(&[3, 4]);
}

#[test]
fn bytes_cut_out_or_put_in() {
    let mut random = Random::new(33);
    let mut told = Told::default();
    for n in 1..=8 {
        for _ in 0..400 {
            let length = random.between(2, 50);
            let mut list = circuit(&mut random, n, length);
            let count = random.between(1, 6);
            let place = random.between(0, list.len() - count);
            if random.below(2) == 0 {
                list.drain(place..place + count);
            } else {
                let added: Vec<u8> = (0..count).map(|_| damage(&mut random)).collect();
                list.splice(place..place, added);
            }
            told.note(n, &list, &mut random);
        }
    }
    told.all_came_up(&[0, 2, 3, 4, 5]);
}

#[test]
fn lists_of_noise() {
    let mut random = Random::new(34);
    let mut told = Told::default();
    for _ in 0..3000 {
        let n = random.one_of(&[0, 1, 2, 3, 4, 5, 6, 7, 8, 8, 9, 255, 256, usize::MAX]);
        let length = random.one_of(&[3, 6, 30, 31, 300, 3000, 12_288, 12_289, 12_291]);
        let list = random.bytes(length);
        told.note(n, &list, &mut random);
    }
    told.all_came_up(&[1, 2, 3]);
}

/// Noise of small bytes gets past the kind check often enough to meet all the others.
#[test]
fn lists_of_small_noise() {
    let mut random = Random::new(35);
    let mut told = Told::default();
    for _ in 0..6000 {
        let n = random.between(0, 9);
        let length = random.between(0, 8) * GATE_BYTES + random.one_of(&[0, 0, 0, 0, 0, 1, 2]);
        let list: Vec<u8> = (0..length).map(|place| random.below(if place % 3 == 2 { 3 } else { 8 }) as u8).collect();
        told.note(n, &list, &mut random);
    }
    told.all_came_up(&[0, 1, 2, 3, 4, 5]);
}

/// Any call at all: wire count, list and lengths drawn apart from each other.
#[test]
fn calls_drawn_at_random() {
    let mut random = Random::new(36);
    let mut refused_for_output = 0;
    for _ in 0..3000 {
        let n = random.between(0, 10);
        let length = random.between(0, 40);
        let list = random.bytes(length);
        let weights = random.one_of(&[0, 255, 256, 256, 256, 257]);
        let rows = random.one_of(&[0, 7, 8, 8, 8, 9]);
        let answer = read_into(n, &list, weights, rows, &mut random);
        refused_for_output += usize::from(answer.is_err_and(|reply| reply.number == 8));
    }
    assert!(refused_for_output > 0, "no call was refused for its outputs");
}
