//! Limits and lengths: wire counts of a full machine word, lists around the most bytes, outputs of wrong lengths.

use sulmedra_reference::comparison::{read, read_into};
use sulmedra_reference::entries::Reply;
use sulmedra_reference::gates::{GATE_BYTES, MOST_GATES};
use sulmedra_reference::random::{circuit, Random};

const WRONG_WIRE_COUNT: Reply = Reply { number: 1, place: 0 };
const WRONG_LIST_LENGTH: Reply = Reply { number: 2, place: 0 };
const WRONG_OUTPUT: Reply = Reply { number: 8, place: 0 };

/// Wire counts that are refused. Those past 255 would pass for 1 to 8 if a part of the word were cut off.
const REFUSED_WIRE_COUNTS: [usize; 17] = [
    0,
    9,
    10,
    16,
    127,
    128,
    255,
    256,
    257,
    256 + 8,
    (1 << 16) + 1,
    (1 << 31) + 8,
    (1 << 32) + 1,
    (1 << 32) + 8,
    (1 << 63) + 1,
    usize::MAX - 1,
    usize::MAX,
];

#[test]
fn wire_counts_one_to_eight_are_accepted() {
    let mut random = Random::new(10);
    for n in 1..=8 {
        let reading = read(n, &[], &mut random).expect("the empty list is accepted");
        assert_eq!(reading.weights, [0; 256]);
        assert_eq!(reading.rows[..n], [1, 2, 4, 8, 16, 32, 64, 128][..n]);
        assert_eq!(reading.rows[n..], [0; 8][n..]);
    }
}

#[test]
fn other_wire_counts_are_refused() {
    let mut random = Random::new(11);
    for n in REFUSED_WIRE_COUNTS {
        for length in [0, 1, 7, MOST_GATES] {
            let list = circuit(&mut random, 1, length);
            assert_eq!(read(n, &list, &mut random), Err(WRONG_WIRE_COUNT), "n = {n}, {length} gates");
        }
    }
}

#[test]
fn lists_around_the_most_gates() {
    let mut random = Random::new(12);
    for n in 1..=8 {
        let list = circuit(&mut random, n, MOST_GATES + 2);
        let most = 4096 * GATE_BYTES;
        assert!(read(n, &list[..most], &mut random).is_ok(), "4,096 gates on {n} wires");
        assert_eq!(read(n, &list[..most + 3], &mut random), Err(WRONG_LIST_LENGTH), "4,097 gates on {n} wires");
        for length in [12_286, 12_287, 12_289, 12_290, 12_291, 12_292, 12_294] {
            assert_eq!(read(n, &list[..length], &mut random), Err(WRONG_LIST_LENGTH), "{length} bytes, {n} wires");
        }
    }
}

#[test]
fn lists_far_beyond_the_most_gates() {
    let mut random = Random::new(13);
    for gates in [5000, 8192, 21_846, 65_536, 65_537] {
        let list = circuit(&mut random, 8, gates);
        assert_eq!(read(8, &list, &mut random), Err(WRONG_LIST_LENGTH), "{gates} gates");
    }
}

#[test]
fn short_lists_that_are_not_whole_gates() {
    let mut random = Random::new(14);
    for n in 1..=8 {
        let list = circuit(&mut random, n, 20);
        for length in 0..=list.len() {
            let answer = read(n, &list[..length], &mut random);
            match length % GATE_BYTES {
                0 => assert!(answer.is_ok(), "{length} bytes on {n} wires"),
                _ => assert_eq!(answer, Err(WRONG_LIST_LENGTH), "{length} bytes on {n} wires"),
            }
        }
    }
}

#[test]
fn outputs_of_wrong_lengths_are_refused() {
    let mut random = Random::new(15);
    for n in 1..=8 {
        let list = circuit(&mut random, n, 30);
        for weights in [0, 1, 8, 255, 256, 257, 512, 65_536 + 256] {
            for rows in [0, 1, 7, 8, 9, 16, 256, 256 + 8] {
                let answer = read_into(n, &list, weights, rows, &mut random);
                if weights == 256 && rows == 8 {
                    assert!(answer.is_ok(), "the right lengths on {n} wires");
                } else {
                    assert_eq!(answer, Err(WRONG_OUTPUT), "{weights} weights and {rows} rows lent, {n} wires");
                }
            }
        }
    }
}
