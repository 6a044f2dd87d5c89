//! Trims by the library: every part of demand 3, literally, and the smallest z of each logged move, on what it wrote
//! (`comparison::trimming` asks for all of it).

use sulmedra_reference::comparison::trimming::{trim, trim_into};
use sulmedra_reference::entries::Reply;
use sulmedra_reference::existence::smallest_z_of_pairs;
use sulmedra_reference::gates::{GATE_BYTES, MOST_GATES, T, T_DAGGER};
use sulmedra_reference::moves;
use sulmedra_reference::odd_set::odd_set;
use sulmedra_reference::random::{circuit, circuit_of_odd_set, Random};
use sulmedra_reference::reading::read;
use sulmedra_reference::trimming::Counts;
use sulmedra_reference::writing::plain_list;

fn refused(number: u64, place: usize) -> Reply {
    Reply { number, place: place as u64 }
}

/// Trims and answers the counts.
fn accept(n: usize, list: &[u8], random: &mut Random) -> Counts {
    trim(n, list, random).expect("a list without a fault is accepted").counts
}

#[test]
fn m6_keeps_seven_t() {
    let mut m6 = [0; 256];
    m6[1..8].copy_from_slice(&[1, 1, 7, 1, 7, 7, 1]);
    let answer = trim(3, &plain_list(&m6), &mut Random::new(260)).expect("M6 is accepted");
    assert_eq!((answer.counts.odd_size, answer.counts.t_out, answer.counts.moves), (7, 7, 0));
    assert_eq!(read(3, &answer.gates).weights, m6);
}

#[test]
fn m7_ends_at_no_t_in_one_move() {
    let mut m7 = [0; 256];
    m7[1..16].fill(1);
    let answer = trim(4, &plain_list(&m7), &mut Random::new(261)).expect("M7 is accepted");
    let counts = answer.counts;
    assert_eq!((counts.t_in, counts.odd_size, counts.t_out, counts.moves), (15, 15, 0, 1));
    assert_eq!(read(4, &answer.gates).weights, [0; 256]);
}

#[test]
fn m7_without_parity_one_ends_at_one_t() {
    let mut table = [0; 256];
    table[2..16].fill(1);
    let answer = trim(4, &plain_list(&table), &mut Random::new(262)).expect("the circuit is accepted");
    assert_eq!((answer.counts.t_in, answer.counts.odd_size, answer.counts.t_out), (14, 14, 1));
    let mut due = [0; 256];
    due[1] = 7;
    assert_eq!(read(4, &answer.gates).weights, due);
}

#[test]
fn document_01s_example() {
    let answer = trim(1, &[2, 0, 0, 2, 0, 0], &mut Random::new(263)).expect("the circuit is accepted");
    assert_eq!(answer.gates, [3, 0, 0]);
    assert_eq!(answer.counts, Counts { t_in: 2, odd_size: 0, t_out: 0, moves: 0, gates: 1 });
}

#[test]
fn the_empty_list() {
    let mut random = Random::new(264);
    for n in 1..=8 {
        let counts = accept(n, &[], &mut random);
        assert_eq!((counts.t_in, counts.odd_size, counts.t_out, counts.moves), (0, 0, 0, 0));
    }
}

#[test]
fn short_random_circuits() {
    let mut random = Random::new(265);
    for (n, rounds) in [(1, 300), (2, 400), (3, 500), (4, 600), (5, 600), (6, 400), (7, 300), (8, 200)] {
        for _ in 0..rounds {
            let length = random.between(0, 80);
            let list = circuit(&mut random, n, length);
            accept(n, &list, &mut random);
        }
    }
}

#[test]
fn middling_random_circuits() {
    let mut random = Random::new(266);
    for (n, rounds) in [(1, 40), (2, 40), (3, 60), (4, 100), (5, 100), (6, 80), (7, 40), (8, 25)] {
        let mut moves = 0;
        for _ in 0..rounds {
            let length = random.between(81, 700);
            let list = circuit(&mut random, n, length);
            moves += accept(n, &list, &mut random).moves;
        }
        assert!(n < 4 || moves > 0, "moves came up for n = {n}");
    }
}

#[test]
fn long_random_circuits() {
    let mut random = Random::new(267);
    for n in 1..=8 {
        for length in [2000, 4095, MOST_GATES, MOST_GATES] {
            let list = circuit(&mut random, n, length);
            accept(n, &list, &mut random);
        }
    }
}

/// Odd sets of chosen sizes, dense ones too, with even weights and other rows beside them.
#[test]
fn circuits_of_chosen_odd_sets() {
    let mut random = Random::new(268);
    for n in 2..=8 {
        let most = (1 << n) - 1;
        let mut sizes = vec![most, most - 1, most / 2];
        sizes.extend((0..8).map(|_| random.between(0, most)));
        for size in sizes {
            let list = circuit_of_odd_set(&mut random, n, size);
            let counts = accept(n, &list, &mut random);
            assert_eq!(counts.odd_size, size);
        }
    }
}

/// Every list of up to two gates on up to three wires.
#[test]
fn every_short_list() {
    let mut random = Random::new(270);
    for n in 1..=3 {
        let gates = sulmedra_reference::random::all_gates(n);
        for first in &gates {
            accept(n, first, &mut random);
            for second in &gates {
                accept(n, &[*first, *second].concat(), &mut random);
            }
        }
    }
}

#[test]
fn outputs_one_byte_short_are_refused() {
    let mut random = Random::new(271);
    for n in 1..=8 {
        let list = circuit(&mut random, n, 40);
        for (out, log) in [(6335, 10_200), (6336, 10_199), (6335, 10_199), (0, 10_200), (6336, 0), (0, 0)] {
            let answer = trim_into(n, &list, out, log, &mut random).map(|answer| answer.counts);
            assert_eq!(answer, Err(refused(8, 0)), "{out} and {log} lent");
        }
        for (out, log) in [(6336, 10_200), (6337, 10_201), (12_288, 65_536)] {
            assert!(trim_into(n, &list, out, log, &mut random).is_ok(), "{out} and {log} lent");
        }
    }
}

#[test]
fn lists_around_the_most_gates() {
    let mut random = Random::new(272);
    for n in [1, 3, 8] {
        let list = circuit(&mut random, n, MOST_GATES + 1);
        assert!(trim(n, &list[..12_288], &mut random).is_ok());
        for length in [1, 2, 4, 12_287, 12_289, 12_290, 12_291] {
            let answer = trim(n, &list[..length], &mut random).map(|answer| answer.counts);
            assert_eq!(answer, Err(refused(2, 0)), "{length} bytes");
        }
    }
}

/// Wire count, list length, outputs and gates, each faulty or not, in the order 1, 2, 8, gates.
#[test]
fn the_order_of_checks() {
    let mut random = Random::new(273);
    for round in 0..1600 {
        let faulty: [bool; 4] = std::array::from_fn(|place| round >> place & 1 == 1);
        let sound_n = random.between(1, 8);
        let n = if faulty[0] { random.one_of(&[0, 9, 16, 255, 256, 257, 1 << 32, usize::MAX]) } else { sound_n };
        let gates = random.between(1, 30);
        let mut list = circuit(&mut random, sound_n, gates);
        let place = random.below(gates);
        let (number, gate) =
            random.one_of(&[(3, [7, 0, 0]), (3, [0, 9, 9]), (4, [2, 8, 0]), (4, [3, 0, 1]), (5, [1, 0, 0])]);
        if faulty[3] {
            list[GATE_BYTES * place..][..GATE_BYTES].copy_from_slice(&gate);
        }
        if faulty[1] {
            list.push(1);
        }
        let (out, log) = if faulty[2] { random.one_of(&[(6335, 10_200), (6336, 10_199)]) } else { (6336, 10_200) };
        let first = [(1, 0), (2, 0), (8, 0), (number, place)].into_iter().zip(faulty).find(|(_, faulty)| *faulty);
        let due = first.map_or(Ok(()), |((number, place), _)| Err(refused(number, place)));
        assert_eq!(trim_into(n, &list, out, log, &mut random).map(|_| ()), due);
    }
}

/// Lists with a byte changed: the reference tells which are still accepted, and those are trimmed.
#[test]
fn damaged_lists() {
    let mut random = Random::new(274);
    let (mut accepted, mut told) = (0, [0; 9]);
    for n in 1..=6 {
        for _ in 0..250 {
            let length = random.between(1, 60);
            let mut list = circuit(&mut random, n, length);
            let place = random.below(list.len());
            list[place] = random.below(9) as u8;
            match trim(n, &list, &mut random) {
                Ok(_) => accepted += 1,
                Err(reply) => told[reply.number as usize] += 1,
            }
        }
    }
    assert!(accepted > 100 && told[3] > 0 && told[4] > 0, "all came up: {accepted}, {told:?}");
}

/// One more T or T dagger never changes what is counted by more than it should: T in grows by one, the odd set moves by
/// one.
#[test]
fn one_more_t() {
    let mut random = Random::new(275);
    for n in 1..=7 {
        for _ in 0..20 {
            let length = random.between(0, 200);
            let mut list = circuit(&mut random, n, length);
            let before = accept(n, &list, &mut random);
            let place = random.between(0, length) * GATE_BYTES;
            list.splice(place..place, [random.one_of(&[T, T_DAGGER]), random.below(n) as u8, 0]);
            let after = accept(n, &list, &mut random);
            assert_eq!(after.t_in, before.t_in + 1);
            assert_eq!(after.odd_size.abs_diff(before.odd_size), 1);
        }
    }
}

/// The log once more, by itself: its moves lead from C's odd set to D's.
#[test]
fn the_log_leads_to_the_last_odd_set() {
    let mut random = Random::new(276);
    let mut all = 0;
    for n in 4..=7 {
        let list = circuit(&mut random, n, 600);
        let answer = trim(n, &list, &mut random).expect("accepted");
        let start = odd_set(&read(n, &list).weights);
        let end = moves::replay(n, &start, &answer.log, answer.counts.moves).expect("each move is legal");
        assert_eq!(end, odd_set(&read(n, &answer.gates).weights));
        all += answer.counts.moves;
    }
    assert!(all > 0, "moves came up");
}

/// The log once more, by itself: on the marks that a move gets, no pair of members serves with a smaller z. Here the
/// pairs are asked one by one, which the check of every trim does not do.
#[test]
fn each_logged_z_is_the_smallest() {
    let mut random = Random::new(277);
    let mut larger = 0;
    for n in 4..=8 {
        for _ in 0..6 {
            let list = circuit(&mut random, n, 600);
            let answer = trim(n, &list, &mut random).expect("accepted");
            let mut marks = odd_set(&read(n, &list).weights);
            for bytes in answer.log.chunks(moves::MOVE_BYTES) {
                let step = moves::Move::from_bytes(bytes).expect("forty bytes of a move");
                assert_eq!(smallest_z_of_pairs(n, &marks), Some(step.z), "n = {n}, {:?}", moves::members(&marks));
                larger += usize::from(step.z > 1);
                marks = moves::carry_out(&marks, &step);
            }
            assert_eq!(smallest_z_of_pairs(n, &marks), None, "n = {n}, {:?}", moves::members(&marks));
        }
    }
    assert!(larger > 20, "z above 1 came up: {larger}");
}
