//! Two lists compared by the library (document 02, 2.1), held against both lists run on every basis state
//! (`comparison::comparing` asks for all of it).

use sulmedra_reference::comparison::comparing::{compare, compare_parts};
use sulmedra_reference::entries::{trimming, Reply};
use sulmedra_reference::fast;
use sulmedra_reference::gates::{gates_of, CNOT, GATE_BYTES, MOST_GATES, S, T, T_DAGGER, Z};
use sulmedra_reference::random::{all_gates, circuit, circuit_of_odd_set, faulty_gate, Random};
use sulmedra_reference::reading::{read, Weights};
use sulmedra_reference::running::run;
use sulmedra_reference::texts::Told;
use sulmedra_reference::trimming::LOG_BYTES;
use sulmedra_reference::variations::{
    all_terms, idle_weights, reordered, rewritten, spliced, term, undoing, with_one_gate_other,
};
use sulmedra_reference::writing::{plain_list, WRITTEN_BYTES};
use sulmedra_reference::{existence, published};

const SAME: Result<bool, Reply> = Ok(true);
const DIFFER: Result<bool, Reply> = Ok(false);

fn refused(number: u64, place: usize) -> Result<bool, Reply> {
    Err(Reply { number, place: place as u64 })
}

/// The lists in both orders, which the library must answer alike.
fn both_ways(n: usize, one: &[u8], other: &[u8], random: &mut Random) -> Result<bool, Reply> {
    let answer = compare(n, one, other, random);
    assert_eq!(compare(n, other, one, random), answer, "n = {n}, {other:?} beside {one:?}");
    answer
}

/// A random list of up to so many gates.
fn some_list(n: usize, most: usize, random: &mut Random) -> Vec<u8> {
    let length = random.between(0, most);
    circuit(random, n, length)
}

/// All pairs of these lists. Answers how many act alike.
fn alike_among(n: usize, lists: &[Vec<u8>], random: &mut Random) -> usize {
    let alike = |one: &Vec<u8>, random: &mut Random| {
        lists.iter().filter(|other| compare(n, one, other, random) == SAME).count()
    };
    lists.iter().map(|one| alike(one, random)).sum()
}

/// No gate does nothing, and no two do the same: each of these lists acts like itself alone.
#[test]
fn every_pair_of_lists_of_up_to_one_gate() {
    let mut random = Random::new(350);
    for n in 1..=8 {
        let mut lists: Vec<Vec<u8>> = all_gates(n).iter().map(|gate| gate.to_vec()).collect();
        lists.push(Vec::new());
        assert_eq!(lists.len(), 1 + n * n + 4 * n);
        assert_eq!(alike_among(n, &lists, &mut random), lists.len(), "n = {n}");
    }
}

/// Counted by hand. On one wire 6, 3, 4, 4, 3, 4, 4 and 3 of the 31 lists add 0 to 7. On two wires 13 of the 157 lists
/// do nothing. Phases on one wire give 2·91 pairs more, on both wires 25·4, one CNOT gives 2·31, two different ones 2.
#[test]
fn every_pair_of_lists_of_up_to_two_gates() {
    let mut random = Random::new(351);
    for (n, alike) in [(1, 127), (2, 13 * 13 + 2 * 91 + 25 * 4 + 2 * 31 + 2)] {
        let gates = all_gates(n);
        let mut lists = vec![Vec::new()];
        lists.extend(gates.iter().map(|gate| gate.to_vec()));
        lists.extend(gates.iter().flat_map(|first| gates.iter().map(|second| [*first, *second].concat())));
        assert_eq!(alike_among(n, &lists, &mut random), alike, "n = {n}");
    }
}

#[test]
fn random_pairs() {
    let mut random = Random::new(352);
    for (n, most) in [(1, 6), (2, 4), (3, 3), (4, 40), (5, 40), (6, 60), (7, 60), (8, 60)] {
        let (mut alike, mut apart) = (0, 0);
        for _ in 0..400 {
            let (one, other) = (some_list(n, most, &mut random), some_list(n, most, &mut random));
            match both_ways(n, &one, &other, &mut random).expect("both lists are accepted") {
                true => alike += 1,
                false => apart += 1,
            }
        }
        assert!(apart > 200 && (alike > 10 || n > 3), "n = {n}: {alike} and {apart}");
    }
}

/// Other gates that act alike; then one gate of these is changed too.
#[test]
fn lists_in_other_gates() {
    let mut random = Random::new(353);
    let mut other_bytes = 0;
    for n in 1..=8 {
        for round in 0..60 {
            let list = some_list(n, if round % 10 == 0 { 400 } else { 60 }, &mut random);
            let times = random.between(1, 40);
            let other = rewritten(&mut random, n, &list, times);
            assert_eq!(both_ways(n, &list, &other, &mut random), SAME);
            assert_eq!(compare(n, &list, &with_one_gate_other(&mut random, n, &other), &mut random), DIFFER);
            other_bytes += usize::from(other != list);
        }
    }
    assert_eq!(other_bytes, 8 * 60);
}

/// One gate put in, taken out or changed, at every place of a list.
#[test]
fn one_gate_other() {
    let mut random = Random::new(354);
    for n in 1..=8 {
        let list = circuit(&mut random, n, 40);
        let gates = all_gates(n);
        for place in 0..=40 {
            let put_in = spliced(&list, place, 0, &random.one_of(&gates));
            assert_eq!(both_ways(n, &list, &put_in, &mut random), DIFFER, "put in at {place}");
            if place < 40 {
                let taken_out = spliced(&list, place, 1, &[]);
                assert_eq!(both_ways(n, &list, &taken_out, &mut random), DIFFER, "taken out at {place}");
                let present = &list[GATE_BYTES * place..][..GATE_BYTES];
                let others: Vec<[u8; GATE_BYTES]> = gates.iter().copied().filter(|gate| gate != present).collect();
                let changed = spliced(&list, place, 1, &random.one_of(&others));
                assert_eq!(both_ways(n, &list, &changed, &mut random), DIFFER, "changed at {place}");
            }
        }
    }
}

/// A list and the list with one term more, before it, so that the phases differ by that term alone, and after it. The
/// term is then taken back, either by what undoes its gates or by the term that adds up with it to a whole turn.
#[test]
fn a_phase_on_one_two_or_three_wires() {
    let mut random = Random::new(355);
    let mut terms = 0;
    for n in 1..=8 {
        for (wires, times) in all_terms(n) {
            let list = some_list(n, 30, &mut random);
            let more = plain_list(&term(&wires, times));
            let less = plain_list(&term(&wires, 8 - times));
            let case = format!("n = {n}, {times} times on {wires:?}");
            assert_eq!(both_ways(n, &list, &[&more[..], &list].concat(), &mut random), DIFFER, "{case}, before");
            assert_eq!(both_ways(n, &list, &[&list[..], &more].concat(), &mut random), DIFFER, "{case}, after");
            for back in [undoing(&more), less] {
                let nothing = [&more[..], &back].concat();
                assert_eq!(both_ways(n, &list, &[&nothing[..], &list].concat(), &mut random), SAME, "{case}, before");
                assert_eq!(both_ways(n, &list, &[&list[..], &nothing].concat(), &mut random), SAME, "{case}, after");
            }
            terms += 1;
        }
    }
    // Over n = 1 to 8: 36 wires, 84 pairs and 126 triples.
    assert_eq!(terms, 7 * 36 + 3 * 84 + 126);
}

/// The phases are equal on every state, and the rows are not: a CNOT more at the end, between any two wires, or two
/// wires exchanged.
#[test]
fn other_rows_alone() {
    let mut random = Random::new(356);
    let mut cnots = 0;
    for n in 2..=8 {
        for gate in all_gates(n).into_iter().filter(|gate| gate[0] == CNOT) {
            let [_, a, b] = gate;
            let list = some_list(n, 30, &mut random);
            for last in [&gate[..], &[CNOT, a, b, CNOT, b, a, CNOT, a, b]] {
                let other = [&list[..], last].concat();
                assert!((0..1 << n).all(|x| run(&list, x).phase == run(&other, x).phase));
                assert_eq!(both_ways(n, &list, &other, &mut random), DIFFER, "n = {n}, {last:?}");
            }
            cnots += 1;
        }
    }
    assert_eq!(cnots, 168);
}

/// Weights that are not the same, and phases that are: those of up to fifteen parities add up to nothing.
#[test]
fn other_weights_alone() {
    let mut random = Random::new(357);
    for n in 2..=8 {
        for round in 0..90 {
            let list = some_list(n, 60, &mut random);
            let place = random.between(0, list.len() / GATE_BYTES);
            let idle = plain_list(&idle_weights(&mut random, n, (2 + round % 3).min(n)));
            let other = spliced(&list, place, 0, &idle);
            assert_ne!(read(n, &list).weights, read(n, &other).weights);
            assert_eq!(both_ways(n, &list, &other, &mut random), SAME);
            let short = spliced(&list, place, 0, &spliced(&idle, random.below(idle.len() / GATE_BYTES), 1, &[]));
            assert_eq!(both_ways(n, &list, &short, &mut random), DIFFER);
        }
    }
}

/// The library's own trim.
fn trimmed(n: usize, list: &[u8]) -> Vec<u8> {
    let (mut out, mut log) = (vec![0; WRITTEN_BYTES], vec![0; LOG_BYTES]);
    let answer = trimming::trim(n, list, &mut out, &mut log);
    assert_eq!(answer.number, 0, "n = {n}, list {list:?}");
    out.truncate(GATE_BYTES * answer.gates as usize);
    out
}

/// A list beside its trims, by the library and by others; and beside these with one gate changed.
#[test]
fn lists_beside_their_trims() {
    let mut random = Random::new(358);
    let (mut with_moves, mut other_weights) = (0, 0);
    for (n, rounds) in [(1, 10), (2, 20), (3, 20), (4, 40), (5, 40), (6, 30), (7, 10), (8, 6)] {
        for _ in 0..rounds {
            let size = random.between(0, (1 << n) - 1);
            let list = circuit_of_odd_set(&mut random, n, size);
            let own = trimmed(n, &list);
            let others = [fast::find, existence::find, published::find].map(|find| fast::trim(n, &list, find));
            with_moves += usize::from(others[0].counts.moves > 0);
            for d in others.iter().map(|other| &other.gates).chain([&own]) {
                assert_eq!(both_ways(n, &list, d, &mut random), SAME);
                assert_eq!(compare(n, &list, &with_one_gate_other(&mut random, n, d), &mut random), DIFFER);
                other_weights += usize::from(read(n, d).weights != read(n, &list).weights);
            }
        }
    }
    assert!(with_moves > 60 && other_weights > 300, "{with_moves} with moves, {other_weights} with other weights");
}

/// These weights, one parity after another in a random order.
fn shuffled(weights: &Weights, random: &mut Random) -> Vec<u8> {
    let mut left: Vec<usize> = (0..weights.len()).filter(|p| weights[*p] != 0).collect();
    let mut list = Vec::new();
    while !left.is_empty() {
        let p = left.swap_remove(random.below(left.len()));
        let mut alone = [0; 256];
        alone[p] = weights[p];
        list.extend(plain_list(&alone));
    }
    list
}

/// A list beside the one written from its weights and rows, and beside its weights in any order before its CNOTs.
#[test]
fn lists_written_in_another_order() {
    let mut random = Random::new(359);
    for (n, rounds) in [(1, 20), (2, 30), (3, 40), (4, 40), (5, 40), (6, 30), (7, 20), (8, 10)] {
        for _ in 0..rounds {
            let list = some_list(n, 400, &mut random);
            let reading = read(n, &list);
            let written = fast::write(n, &reading.weights, &reading.rows);
            let cnots = gates_of(&list).filter(|gate| gate.kind == CNOT).flat_map(|gate| [CNOT, gate.a, gate.b]);
            let other: Vec<u8> = shuffled(&reading.weights, &mut random).into_iter().chain(cnots).collect();
            assert_eq!(both_ways(n, &list, &written, &mut random), SAME);
            assert_eq!(both_ways(n, &list, &other, &mut random), SAME);
            assert_eq!(both_ways(n, &written, &other, &mut random), SAME);
        }
    }
}

/// The same bytes as both lists, lent twice and lent once, and parts of one list that overlap.
#[test]
fn one_list_as_both() {
    let mut random = Random::new(360);
    for n in 1..=8 {
        for length in [0, 1, 2, 60, 1000] {
            let list = circuit(&mut random, n, length);
            let all = 0..list.len();
            assert_eq!(compare(n, &list, &list, &mut random), SAME, "n = {n}, {length} gates lent twice");
            assert_eq!(compare_parts(n, &list, all.clone(), all, &mut random), SAME, "n = {n}, {length} gates");
        }
        // The same gates four times over: parts of one length act alike, and one gate less does not.
        let list = circuit(&mut random, n, 20).repeat(4);
        for (first, second, due) in [
            (0..120, 60..180, SAME),
            (60..240, 0..180, SAME),
            (0..240, 0..237, DIFFER),
            (3..240, 0..240, DIFFER),
            (0..60, 0..61, refused(11, 0)),
            (0..61, 0..60, refused(2, 0)),
        ] {
            let case = format!("n = {n}, {first:?} and {second:?}");
            assert_eq!(compare_parts(n, &list, first, second, &mut random), due, "{case}");
        }
    }
}

#[test]
fn empty_lists() {
    let mut random = Random::new(361);
    for n in 1..=8 {
        assert_eq!(compare(n, &[], &[], &mut random), SAME);
        for gate in all_gates(n) {
            assert_eq!(both_ways(n, &[], &gate, &mut random), DIFFER, "n = {n}, {gate:?}");
            let due = if [CNOT, Z].contains(&gate[0]) { SAME } else { DIFFER };
            assert_eq!(both_ways(n, &[], &[gate, gate].concat(), &mut random), due, "n = {n}, {gate:?} twice");
        }
        for length in [1, 10, 100, 1000] {
            let list = circuit(&mut random, n, length);
            assert_eq!(both_ways(n, &[], &[&list[..], &undoing(&list)].concat(), &mut random), SAME);
        }
    }
    // M7: fifteen T gates that do nothing together, and fourteen of them.
    let mut m7 = [0; 256];
    m7[1..16].fill(1);
    for n in 4..=8 {
        assert_eq!(both_ways(n, &[], &plain_list(&m7), &mut random), SAME, "n = {n}");
        m7[15] = 0;
        assert_eq!(both_ways(n, &[], &plain_list(&m7), &mut random), DIFFER, "n = {n}");
        m7[15] = 1;
    }
}

/// Lists of 4,096 gates: in another order, with the first, a middle or the last gate changed, beside short ones.
#[test]
fn lists_of_the_most_gates() {
    let mut random = Random::new(362);
    for n in 1..=8 {
        let list = circuit(&mut random, n, MOST_GATES);
        let other = reordered(&mut random, &list, 20);
        assert_eq!(both_ways(n, &list, &other, &mut random), SAME, "n = {n}");
        for place in [0, 1, 2048, MOST_GATES - 1] {
            let less = spliced(&list, place, 1, &[]);
            assert_eq!(both_ways(n, &list, &less, &mut random), DIFFER, "n = {n}, one less at {place}");
            let again = spliced(&less, place, 0, &list[GATE_BYTES * place..][..GATE_BYTES]);
            assert_eq!(compare(n, &again, &other, &mut random), SAME, "n = {n}, put back at {place}");
        }
        let short = circuit(&mut random, n, 96);
        let padded = [&short[..], &[Z, 0, 0].repeat(MOST_GATES - 96)].concat();
        assert_eq!(both_ways(n, &short, &padded, &mut random), SAME, "n = {n}");
        assert_eq!(both_ways(n, &short, &padded[..padded.len() - GATE_BYTES], &mut random), DIFFER, "n = {n}");
        assert_eq!(both_ways(n, &[], &[T, 0, 0].repeat(MOST_GATES), &mut random), SAME, "512 whole turns");
        assert_eq!(both_ways(n, &[], &[T_DAGGER, 0, 0].repeat(MOST_GATES - 4), &mut random), DIFFER, "half a turn");
    }
}

#[test]
fn lists_of_wrong_lengths() {
    let mut random = Random::new(363);
    for n in 1..=8 {
        let long = circuit(&mut random, n, MOST_GATES + 1000);
        let sound = circuit(&mut random, n, 10);
        for length in [1, 2, 4, 5, 29, 12_286, 12_287, 12_289, 12_290, 12_291, 12_292, 12_294, 15_000] {
            let wrong = &long[..length];
            for right in [&sound[..], &[], &long[..12_288]] {
                assert_eq!(compare(n, wrong, right, &mut random), refused(2, 0), "{length} bytes first");
                assert_eq!(compare(n, right, wrong, &mut random), refused(11, 0), "{length} bytes second");
            }
            assert_eq!(compare(n, wrong, wrong, &mut random), refused(2, 0), "{length} bytes both");
        }
    }
    let far = circuit(&mut random, 8, 65_537);
    for gates in [8192, 21_846, 65_536, 65_537] {
        let wrong = &far[..GATE_BYTES * gates];
        assert_eq!(compare(8, wrong, &[], &mut random), refused(2, 0), "{gates} gates first");
        assert_eq!(compare(8, &[], wrong, &mut random), refused(11, 0), "{gates} gates second");
    }
}

/// Wire counts come before both lists, whatever these are.
#[test]
fn wire_counts_that_are_refused() {
    let mut random = Random::new(364);
    let sound = circuit(&mut random, 1, 5);
    let long = circuit(&mut random, 1, MOST_GATES + 1);
    for n in [0, 9, 10, 255, 256, 257, 264, (1 << 32) + 1, (1 << 63) + 8, usize::MAX - 1, usize::MAX] {
        for first in [&[][..], &sound, &long, &sound[..4], &[0, 0, 0], &[CNOT, 0, 0]] {
            for second in [&[][..], &sound, &long, &sound[..4], &[0, 0, 0], &[CNOT, 0, 0]] {
                assert_eq!(compare(n, first, second, &mut random), refused(1, 0), "n = {n}");
            }
        }
    }
}

/// Gates on n wires with every fault that a gate can have.
fn faulty_gates(n: usize) -> [(u64, [u8; GATE_BYTES]); 9] {
    let beyond = n as u8;
    [
        (3, [0, 0, 0]),
        (3, [7, 0, 0]),
        (3, [255, 255, 255]),
        (4, [T, beyond, 0]),
        (4, [CNOT, beyond, 0]),
        (4, [CNOT, 0, beyond]),
        (4, [CNOT, beyond, beyond]),
        (4, [S, 0, 1]),
        (5, [CNOT, 0, 0]),
    ]
}

/// Every fault of a gate at the first place, in the middle and at the last, in lists of one gate, of some and of the
/// most. The first list has its own number, the second 11.
#[test]
fn faults_of_gates() {
    let mut random = Random::new(365);
    for n in 1..=8 {
        for length in [1, 40, MOST_GATES] {
            let list = circuit(&mut random, n, length);
            for (number, gate) in faulty_gates(n) {
                for place in [0, length / 2, length - 1] {
                    let faulty = spliced(&list, place, 1, &gate);
                    let case = format!("n = {n}, {gate:?} at {place} of {length}");
                    assert_eq!(compare(n, &faulty, &list, &mut random), refused(number, place), "{case}, first");
                    assert_eq!(compare(n, &list, &faulty, &mut random), refused(11, place), "{case}, second");
                    assert_eq!(compare(n, &faulty, &faulty, &mut random), refused(number, place), "{case}, both");
                }
            }
        }
    }
}

/// A list that is accepted on one wire more is judged by the wire count that is given.
#[test]
fn gates_beyond_the_wires() {
    let mut random = Random::new(366);
    for n in 1..8 {
        let sound = circuit(&mut random, n, 30);
        for place in [0, 7, 30] {
            let wide = spliced(&sound, place, 0, &[T, n as u8, 0]);
            assert_eq!(compare(n, &wide, &sound, &mut random), refused(4, place), "n = {n}");
            assert_eq!(compare(n, &sound, &wide, &mut random), refused(11, place), "n = {n}");
            assert_eq!(both_ways(n + 1, &sound, &wide, &mut random), DIFFER, "n = {}", n + 1);
            assert_eq!(both_ways(n + 1, &wide, &wide, &mut random), SAME, "n = {}", n + 1);
        }
    }
}

/// Wire count, length and gates of the first list, length and gates of the second, each faulty or not: the first faulty
/// one in this order is told.
#[test]
fn the_order_of_checks() {
    let mut random = Random::new(367);
    let mut told = Told::default();
    for round in 0..3200 {
        let faulty: [bool; 5] = std::array::from_fn(|place| round >> place & 1 == 1);
        let sound_n = random.between(1, 8);
        let n = if faulty[0] { random.one_of(&[0, 9, 256, 257, usize::MAX]) } else { sound_n };
        let mut list = |length: bool, gate: bool| {
            let gates = if length && random.below(8) == 0 { MOST_GATES + 1 } else { random.between(1, 30) };
            let mut list = circuit(&mut random, sound_n, gates);
            let (place, number) = (random.below(gates), random.one_of(&[3, 4, 5]));
            if gate {
                list = spliced(&list, place, 1, &faulty_gate(&mut random, sound_n, number));
            }
            if length && gates <= MOST_GATES {
                list.truncate(list.len() - random.between(1, 2));
            }
            (list, number, place)
        };
        let (first, number, place) = list(faulty[1], faulty[2]);
        let (second, _, second_place) = list(faulty[3], faulty[4]);
        let order = [(1, 0), (2, 0), (number, place), (11, 0), (11, second_place)];
        let due = order.into_iter().zip(faulty).find(|(_, faulty)| *faulty);
        let answer = compare(n, &first, &second, &mut random);
        match due {
            Some(((number, place), _)) => assert_eq!(answer, refused(number, place), "n = {n}, {first:?}, {second:?}"),
            None => assert!(answer.is_ok(), "n = {n}, {first:?}, {second:?}"),
        }
        told.note(number_of(answer));
    }
    told.all_came_up(&[0, 1, 2, 3, 4, 5, 11]);
}

/// The number of the fault, 0 for none.
fn number_of(answer: Result<bool, Reply>) -> u64 {
    answer.map_or_else(|reply| reply.number, |_| 0)
}

/// A list with a few bytes changed, put in or taken out, or as it was.
fn damaged(list: &[u8], random: &mut Random) -> Vec<u8> {
    let mut list = list.to_vec();
    for _ in 0..random.one_of(&[0, 0, 1, 1, 2, 4]) {
        let place = random.below(list.len());
        match random.below(12) {
            0 => list.insert(place, random.byte()),
            1 => drop(list.remove(place)),
            _ => list[place] = random.below(9) as u8,
        }
    }
    list
}

/// Damage in either list or in both.
#[test]
fn damaged_lists() {
    let mut random = Random::new(368);
    let (mut told, mut alike) = (Told::default(), 0);
    for _ in 0..6000 {
        let n = random.between(1, 8);
        let length = random.between(2, 20);
        let list = circuit(&mut random, n, length);
        let (first, second) = (damaged(&list, &mut random), damaged(&list, &mut random));
        let answer = compare(n, &first, &second, &mut random);
        alike += usize::from(answer == SAME);
        told.note(number_of(answer));
    }
    told.all_came_up(&[0, 2, 3, 4, 5, 11]);
    assert!(alike > 300 && told.times(0) > alike + 300, "{alike} of {} act alike", told.times(0));
}

/// Any bytes at all, small ones too, and any wire count.
#[test]
fn lists_of_noise() {
    let mut random = Random::new(369);
    let mut told = Told::default();
    for _ in 0..6000 {
        let n = random.one_of(&[0, 1, 2, 3, 4, 5, 6, 7, 8, 8, 9, 255, 256, usize::MAX]);
        let mut noise = || {
            let length = GATE_BYTES * random.below(5) + random.one_of(&[0, 0, 0, 0, 0, 0, 1, 2]);
            let most = random.one_of(&[4, 8, 256]);
            (0..length).map(|place| random.below(if place % 3 == 2 { 3 } else { most }) as u8).collect::<Vec<u8>>()
        };
        let (first, second) = (noise(), noise());
        told.note(number_of(compare(n, &first, &second, &mut random)));
    }
    told.all_came_up(&[0, 1, 2, 3, 4, 5, 11]);
}
