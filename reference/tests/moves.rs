//! Carrying out, finding and logging moves with the library, held against the reference.

use std::collections::BTreeMap;

use sulmedra_reference::coefficients::triples;
use sulmedra_reference::comparison::moves::{carry_out, find, move_at};
use sulmedra_reference::entries::Reply;
use sulmedra_reference::existence::separating;
use sulmedra_reference::moves::{is_legal, members, triple_term, Move, MOST_IN_Y};
use sulmedra_reference::odd_set::{odd_set, size, Marks};
use sulmedra_reference::random::{damaged_move, legal_move, legal_move_with_pairs, marks, rows, Random};
use sulmedra_reference::reading::read;
use sulmedra_reference::writing::plain_list;
use sulmedra_reference::{fast, moves, published};

fn refused(number: u64) -> Reply {
    Reply { number, place: 0 }
}

fn odd_set_of(parities: impl IntoIterator<Item = usize>) -> Marks {
    let mut marks = [0; 256];
    parities.into_iter().for_each(|p| marks[p] = 1);
    marks
}

/// Finds and carries out moves until there is none. Answers the number of moves.
fn exhaust(n: usize, start: &Marks, random: &mut Random) -> usize {
    let mut marks = *start;
    let mut moves = 0;
    while let Some(step) = find(n, &marks, 40, random).expect("sound marks") {
        marks = carry_out(n, &marks, &step.to_bytes(), random).expect("a found move is legal");
        moves += 1;
    }
    assert!(size(&marks) <= (n * n + n) / 2 + 1, "no move is left, n = {n}, members {:?}", members(&marks));
    assert!(moves + size(&marks) <= size(start));
    moves
}

#[test]
fn m8_leaves_nothing() {
    let mut random = Random::new(220);
    let step = Move { z: 1, y: vec![2, 4, 6, 8, 10, 12, 14] };
    let left = carry_out(4, &odd_set_of(1..16), &step.to_bytes(), &mut random);
    assert_eq!(left, Ok([0; 256]));
}

#[test]
fn every_odd_set_on_up_to_three_wires() {
    let mut random = Random::new(221);
    for n in 1..=3 {
        for set in 0..1usize << ((1 << n) - 1) {
            exhaust(n, &odd_set_of((1..1 << n).filter(|p| set >> (p - 1) & 1 == 1)), &mut random);
        }
    }
}

#[test]
fn random_odd_sets_of_every_size() {
    let mut random = Random::new(222);
    for (n, rounds) in [(4, 60), (5, 12), (6, 3)] {
        let mut moves = 0;
        for size in 0..1 << n {
            for _ in 0..rounds {
                let start = marks(&mut random, n, size);
                moves += exhaust(n, &start, &mut random);
            }
        }
        assert!(moves > 100, "moves came up for n = {n}");
    }
}

/// On seven and eight wires: small sets, sets around the bound, large ones, and what moves leave of them.
#[test]
fn random_odd_sets_on_many_wires() {
    let mut random = Random::new(223);
    for (n, sizes) in [
        (7, [0, 1, 2, 12, 16, 20, 24, 27, 28, 29, 30, 31, 64, 127]),
        (8, [0, 1, 2, 14, 18, 24, 30, 35, 36, 37, 38, 39, 128, 255]),
    ] {
        for size in sizes {
            let start = marks(&mut random, n, size);
            exhaust(n, &start, &mut random);
        }
    }
}

/// Sets that random moves have brought to their end, with a few parities flipped: near the border between none and
/// some.
#[test]
fn near_the_end_of_moves() {
    let mut random = Random::new(224);
    let mut told = [0, 0];
    for n in [4, 5, 6, 7] {
        for _ in 0..4 {
            let mut end = marks(&mut random, n, 1 << (n - 1));
            while let Some(step) = legal_move(&mut random, n, &end) {
                end = carry_out(n, &end, &step.to_bytes(), &mut random).expect("the move is legal");
            }
            for round in 0..40 {
                let mut near = end;
                for _ in 0..round % (n + 1) {
                    near[random.between(1, (1 << n) - 1)] ^= 1;
                }
                let found = find(n, &near, 40, &mut random).expect("sound marks").is_some();
                told[usize::from(found)] += 1;
            }
        }
    }
    assert!(told[0] > 50 && told[1] > 50, "both answers came up: {told:?}");
}

/// Odd sets of every size on every number of wires. `find` holds each z to the smallest that any legal move has, whatever
/// the size.
#[test]
fn the_z_found_is_the_smallest() {
    let mut random = Random::new(235);
    for (n, rounds) in [(1, 20), (2, 20), (3, 40), (4, 200), (5, 100), (6, 60), (7, 40), (8, 30)] {
        let mut told = Told::default();
        for size in 0..1 << n {
            for _ in 0..rounds {
                let marks = marks(&mut random, n, size);
                told.add(find(n, &marks, 40, &mut random).expect("sound marks"));
            }
        }
        assert!(told.none > 0 && (n < 4 || told.smallest > 100 && told.larger > 20), "all came up, n = {n}: {told:?}");
    }
}

#[test]
fn every_odd_set_on_four_wires() {
    let mut random = Random::new(236);
    let mut told = Told::default();
    for set in 0..1usize << 15 {
        let marks = odd_set_of((1..16).filter(|p| set >> (p - 1) & 1 == 1));
        told.add(find(4, &marks, 40, &mut random).expect("sound marks"));
    }
    assert!(told.none > 1000 && told.smallest > 1000 && told.larger > 1000, "all came up: {told:?}");
}

/// What trimming leaves, with a few parities flipped: there the smallest z that serves is often large, and many smaller
/// ones fail.
#[test]
fn the_smallest_z_where_few_serve() {
    let mut random = Random::new(237);
    for (n, ends, least) in [(5, 40, 10), (6, 30, 20), (7, 20, 30), (8, 15, 40)] {
        let mut seen = [false; 256];
        for _ in 0..ends {
            let mut end = marks(&mut random, n, 1 << (n - 1));
            while let Some(step) = fast::find(n, &end) {
                end = moves::carry_out(&end, &step);
            }
            for flips in [1, 1, 2, 2, 3, 3, 4, 4, 5, 5, 6, 8, 10, 12] {
                let mut near = end;
                (0..flips).for_each(|_| near[random.between(1, (1 << n) - 1)] ^= 1);
                if let Some(step) = find(n, &near, 40, &mut random).expect("sound marks") {
                    seen[usize::from(step.z)] = true;
                }
            }
        }
        let different = seen.into_iter().filter(|z| *z).count();
        assert!(different >= least, "{different} different z on {n} wires");
    }
}

/// Few members on many wires, and a move all the same: a set on four or five wires, seen through random rows, and some
/// members beside it.
#[test]
fn the_smallest_z_of_few_members() {
    let mut random = Random::new(239);
    for n in 6..=8 {
        let mut told = Told::default();
        for _ in 0..400 {
            let inner = random.between(4, 5);
            let size = random.between(8, (1 << inner) - 1);
            let rows = rows(&mut random, n);
            let seen = |p: u8| (0..n).filter(|i| p >> i & 1 == 1).fold(0, |xor, i| xor ^ usize::from(rows[i]));
            let mut few = odd_set_of(members(&marks(&mut random, inner, size)).into_iter().map(seen));
            (0..random.below(10)).for_each(|_| few[random.between(1, (1 << n) - 1)] = 1);
            told.add(find(n, &few, 40, &mut random).expect("sound marks"));
        }
        assert!(told.none > 5 && told.smallest > 5 && told.larger > 100, "all came up, n = {n}: {told:?}");
    }
}

/// The same marks get the same z, however many wires are said to be there and whatever lies around.
#[test]
fn equal_marks_equal_z() {
    let mut random = Random::new(238);
    for n in 2..=7 {
        for _ in 0..60 {
            let size = random.between(1, (1 << n) - 1);
            let marks = marks(&mut random, n, size);
            let z =
                |n: usize, random: &mut Random| find(n, &marks, 40, random).expect("sound marks").map(|step| step.z);
            let first = z(n, &mut random);
            for wires in n..=8 {
                assert_eq!(z(wires, &mut random), first, "{wires} wires, members {:?}", members(&marks));
            }
        }
    }
}

/// How often no move was found, one with z = 1, which is the smallest there is, and one with a larger z.
#[derive(Debug, Default)]
struct Told {
    none: usize,
    smallest: usize,
    larger: usize,
}

impl Told {
    fn add(&mut self, found: Option<Move>) {
        match found {
            None => self.none += 1,
            Some(step) if step.z == 1 => self.smallest += 1,
            Some(_) => self.larger += 1,
        }
    }
}

/// Sets whose every pair serves one way round only, always with the smaller in Y, or always with the larger: a finder
/// that tries one way misses the only moves there are.
#[test]
fn only_one_of_a_and_b_can_be_in_y() {
    let mut random = Random::new(225);
    let (mut smaller_only, mut larger_only) = (0, 0);
    for round in 0..6000 {
        let n = 4 + round % 2;
        let size = random.between(5, 9);
        let marks = marks(&mut random, n, size);
        let odd_set = members(&marks);
        let pairs = || odd_set.iter().flat_map(|a| odd_set.iter().map(move |b| (*a, *b))).filter(|(a, b)| a < b);
        let smaller = pairs().any(|(a, b)| separating(n, &marks, a, b).is_some());
        let larger = pairs().any(|(a, b)| separating(n, &marks, b, a).is_some());
        if smaller != larger {
            let found = find(n, &marks, 40, &mut random).expect("sound marks");
            assert!(found.is_some(), "n = {n}, members {odd_set:?}");
            smaller_only += usize::from(smaller);
            larger_only += usize::from(larger);
        }
    }
    assert!(smaller_only > 5 && larger_only > 5, "both came up: {smaller_only} and {larger_only}");
}

/// A random legal move with some of its forty bytes changed, on its own marks and on others.
#[test]
fn damaged_moves() {
    let mut random = Random::new(226);
    let (mut accepted, mut refusals) = (0, 0);
    for n in 2..=8 {
        for _ in 0..if n == 8 { 60 } else { 150 } {
            let least = if n < 4 { 0 } else { 2 * n };
            let size = random.between(least, (1 << n) - 1);
            let marks = marks(&mut random, n, size);
            let Some(step) = legal_move(&mut random, n, &marks) else { continue };
            let answer = carry_out(n, &marks, &step.to_bytes(), &mut random);
            assert!(answer.is_ok(), "a legal move, n = {n}, {step:?}");
            for _ in 0..12 {
                let changed = damaged_move(&mut random, n, &step);
                let mut other_marks = marks;
                if random.below(3) == 0 {
                    other_marks[random.between(1, (1 << n) - 1)] ^= 1;
                }
                match carry_out(n, &other_marks, &changed, &mut random) {
                    Ok(_) => accepted += 1,
                    Err(reply) => {
                        assert_eq!(reply, refused(10));
                        refusals += 1;
                    }
                }
            }
        }
    }
    assert!(accepted > 50 && refusals > 1000, "both came up: {accepted} accepted, {refusals} refused");
}

/// Each z with the Y of a legal move: only those that split a pair and meet the triples are legal.
#[test]
fn every_z_with_one_y() {
    let mut random = Random::new(227);
    let mut accepted = 0;
    for n in 3..=8 {
        for _ in 0..5 {
            let marks = marks(&mut random, n, (1 << n) - 2);
            let step = legal_move(&mut random, n, &marks).unwrap_or(Move { z: 0, y: vec![] });
            for z in 0..=255 {
                let other = Move { z, y: step.y.clone() };
                let answer = carry_out(n, &marks, &other.to_bytes(), &mut random);
                accepted += usize::from(answer.is_ok());
            }
        }
    }
    assert!(accepted > 30, "legal moves came up: {accepted}");
}

/// Every subset of an odd set on four wires with every z: what is accepted is exactly what is legal.
#[test]
fn every_move_of_a_small_set() {
    let mut random = Random::new(228);
    let mut accepted = 0;
    for _ in 0..6 {
        let marks = marks(&mut random, 4, 9);
        let odd_set = members(&marks);
        for set in 0..1usize << odd_set.len() {
            let y: Vec<u8> =
                (0..odd_set.len()).filter(|place| set >> place & 1 == 1).map(|place| odd_set[place]).collect();
            for z in 0..16 {
                let answer = carry_out(4, &marks, &Move { z, y: y.clone() }.to_bytes(), &mut random);
                accepted += usize::from(answer.is_ok());
            }
        }
    }
    assert!(accepted > 0, "legal moves came up");
}

/// Y of wires j, k and both, with z of wire i alone, fails at the triple of the three and nowhere else.
#[test]
fn each_triple_by_itself() {
    let mut random = Random::new(234);
    for n in 3..=8 {
        for (i, j, k) in triples(n).flat_map(|(i, j, k)| [(i, j, k), (j, i, k), (k, i, j)]) {
            let (z, one, other) = (1 << i, 1 << j, 1 << k);
            let step = Move { z, y: vec![one, other, one | other] };
            let odd = |wires: &_| step.y.iter().filter(|y| triple_term(z, **y, *wires) == 1).count() % 2 == 1;
            assert_eq!(triples(n).filter(odd).count(), 1);
            let mut marks = odd_set_of([one, other, one | other, one | z].map(usize::from));
            (0..4).for_each(|_| marks[random.between(1, (1 << n) - 1)] = 1);
            let answer = carry_out(n, &marks, &step.to_bytes(), &mut random);
            assert_eq!(answer, Err(refused(10)), "n = {n}, z of wire {i}, Y of wires {j} and {k}");
        }
    }
}

/// Moves as large as they may be: an odd number of moves with the same pair a, b, added up, is one more with that pair.
#[test]
fn moves_of_up_to_the_most_members() {
    let mut random = Random::new(229);
    let mut sizes = [0; MOST_IN_Y + 1];
    for _ in 0..30 {
        let marks = marks(&mut random, 8, 150);
        let odd_set = members(&marks);
        let (a, b) = (odd_set[0], odd_set[1]);
        let mut solutions: Vec<Vec<u8>> = Vec::new();
        while solutions.len() < 12 {
            let mut some = marks;
            for y in &odd_set[2..] {
                some[usize::from(*y)] = random.below(2) as u8;
            }
            solutions.extend(separating(8, &some, a, b).map(|step| step.y));
        }
        for _ in 0..40 {
            let mut sum = [0; 256];
            for _ in 0..random.one_of(&[3, 5, 7]) {
                let place = random.below(solutions.len());
                solutions[place].iter().for_each(|y| sum[usize::from(*y)] ^= 1);
            }
            let step = Move { z: a ^ b, y: members(&sum) };
            if step.y.len() > MOST_IN_Y {
                continue;
            }
            assert!(is_legal(8, &marks, &step), "{step:?} on {odd_set:?}");
            assert!(carry_out(8, &marks, &step.to_bytes(), &mut random).is_ok());
            sizes[step.y.len()] += 1;
        }
    }
    assert!(sizes[38] > 0, "a move of 38 members came up: {sizes:?}");
}

/// Every way in which the flips of a move meet: y and y XOR z both in Y or no two such, z in Y or not, an odd number in
/// Y or an even one. They are made on purpose, since a search need not find them. `carry_out` holds the number of marks
/// that differ against the tables each time.
#[test]
fn marks_that_differ_however_the_flips_meet() {
    let mut random = Random::new(250);
    let mut came_up = BTreeMap::new();
    for n in 4..=8 {
        for _ in 0..300 {
            let size = random.between(2 * n, (1 << n) - 1);
            let marks = marks(&mut random, n, size);
            let moves = [legal_move(&mut random, n, &marks), legal_move_with_pairs(&mut random, n, &marks)];
            for step in moves.iter().flatten() {
                let answer = carry_out(n, &marks, &step.to_bytes(), &mut random);
                assert!(answer.is_ok(), "a legal move, n = {n}, {step:?}");
                *came_up.entry(step.flips_that_meet()).or_insert(0) += 1;
            }
        }
    }
    assert!(came_up.len() == 8 && came_up.values().all(|times| *times > 50), "all came up: {came_up:?}");
}

/// Whole logs of trims, by two finders: each move is looked up in the log and carried out, and
/// `carry_out` holds the number of marks that differ against the tables each time.
#[test]
fn logs_of_trims_are_replayed() {
    let mut random = Random::new(251);
    for find in [fast::find, published::find] {
        let mut moves = 0;
        for n in (4..=8).flat_map(|n| [n; 6]) {
            let size = random.between(1 << (n - 2), (1 << n) - 1);
            let mut marks = marks(&mut random, n, size);
            let trimmed = fast::trim(n, &plain_list(&marks), find);
            for k in 0..trimmed.counts.moves {
                let start = move_at(&trimmed.log, k, &mut random).expect("the log has the move");
                marks = carry_out(n, &marks, &trimmed.log[start..start + 40], &mut random).expect("the move is legal");
            }
            assert_eq!(move_at(&trimmed.log, trimmed.counts.moves, &mut random), None, "the log has no more");
            assert_eq!(marks, odd_set(&read(n, &trimmed.gates).weights), "the odd set at the end, n = {n}");
            moves += trimmed.counts.moves;
        }
        assert!(moves > 150, "moves came up: {moves}");
    }
}

/// Forty bytes that are no move at all.
#[test]
fn bytes_that_are_no_move() {
    let mut random = Random::new(230);
    let all = odd_set_of(1..16);
    let step = Move { z: 1, y: vec![2, 4, 6, 8, 10, 12, 14] }.to_bytes();
    for length in [0, 1, 2, 39, 41, 80] {
        let bytes: Vec<u8> = step.iter().chain(&[0; 40]).copied().take(length).collect();
        assert_eq!(carry_out(4, &all, &bytes, &mut random), Err(refused(10)), "{length} bytes");
    }
    for count in (0..7).chain(8..=255) {
        let mut bytes = step;
        bytes[1] = count;
        assert_eq!(carry_out(4, &all, &bytes, &mut random), Err(refused(10)), "{count} in Y");
    }
    for place in 9..40 {
        for value in [1, 15, 255] {
            let mut bytes = step;
            bytes[place] = value;
            assert_eq!(carry_out(4, &all, &bytes, &mut random), Err(refused(10)), "{value} among the zeros");
        }
    }
    for place in 2..8 {
        let mut bytes = step;
        bytes.swap(place, place + 1);
        assert_eq!(carry_out(4, &all, &bytes, &mut random), Err(refused(10)), "not ascending at {place}");
    }
    // A byte once more, or twice more: the XOR and the triples come out even all the same, but Y is no set.
    for y in [[2, 2, 2, 4, 6, 8, 10, 12, 14], [2, 3, 3, 4, 6, 8, 10, 12, 14], [2, 4, 6, 8, 10, 12, 14, 14, 14]] {
        let twice = Move { z: 1, y: y.to_vec() }.to_bytes();
        assert_eq!(carry_out(4, &all, &twice, &mut random), Err(refused(10)), "{y:?}");
    }
}

#[test]
fn marks_against_their_rule_are_refused() {
    let mut random = Random::new(231);
    let step = Move { z: 1, y: vec![2, 4, 6, 8, 10, 12, 14] }.to_bytes();
    for n in 4..=8 {
        let sound = odd_set_of(1..16);
        for p in 0..256 {
            for mark in [1, 2, 3, 255] {
                if mark == 1 && p != 0 && p < 1 << n {
                    continue;
                }
                let mut faulty = sound;
                faulty[p] = mark;
                assert_eq!(carry_out(n, &faulty, &step, &mut random), Err(refused(6)), "mark {mark} at {p}");
                assert_eq!(find(n, &faulty, 40, &mut random), Err(refused(6)), "mark {mark} at {p}");
            }
        }
        for length in [0, 255, 257, 512] {
            let marks = vec![0; length];
            assert_eq!(carry_out(n, &marks, &step, &mut random), Err(refused(8)), "{length} marks, input and output");
            assert_eq!(find(n, &marks, 40, &mut random), Err(refused(6)), "{length} marks, input");
        }
        for length in [0, 1, 39, 41, 80] {
            assert_eq!(find(n, &sound, length, &mut random), Err(refused(8)), "{length} bytes for a move");
        }
    }
}

/// Wire count, lengths, marks and move, each faulty or not, in the order 1, 8, 6, 10.
#[test]
fn the_order_of_checks() {
    let mut random = Random::new(232);
    for round in 0..1600 {
        let (wires, length, mark, step) = (round & 1 != 0, round & 2 != 0, round & 4 != 0, round & 8 != 0);
        let n = if wires {
            random.one_of(&[0, 9, 16, 255, 256, 260, 1 << 32 | 4, usize::MAX])
        } else {
            random.between(4, 8)
        };
        let mut marks = odd_set_of(1..16).to_vec();
        if mark {
            marks[0] = 1;
        }
        let mut bytes = Move { z: 1, y: vec![2, 4, 6, 8, 10, 12, 14] }.to_bytes().to_vec();
        if step && round & 16 == 0 {
            bytes[0] = 0;
        } else if step {
            bytes.truncate(39);
        }
        let due =
            |told: [Option<u64>; 4]| told.into_iter().flatten().next().map_or(Ok(()), |number| Err(refused(number)));
        let told = |faulty: bool, number: u64| faulty.then_some(number);

        let due_found = due([told(wires, 1), told(length, 8), told(mark, 6), None]);
        let move_len = if length { random.one_of(&[0, 39, 41]) } else { 40 };
        assert_eq!(find(n, &marks, move_len, &mut random).map(|_| ()), due_found);

        if length {
            marks.resize(random.one_of(&[0, 255, 257]), 0);
        }
        let due_carried = due([told(wires, 1), told(length, 8), told(mark, 6), told(step, 10)]);
        assert_eq!(carry_out(n, &marks, &bytes, &mut random).map(|_| ()), due_carried);
    }
}

#[test]
fn moves_of_a_log() {
    let mut random = Random::new(233);
    let mut there = 0;
    for length in (0..=400).chain([10_159, 10_160, 10_199, 10_200, 10_201, 10_240, 65_536]) {
        let log = random.bytes(length);
        for k in (0..12).chain([
            253,
            254,
            255,
            256,
            1 << 16,
            1 << 32,
            1 << 61,
            1 << 63,
            usize::MAX / 40 - 1,
            usize::MAX / 40,
            usize::MAX / 40 + 1,
            usize::MAX - 1,
            usize::MAX,
        ]) {
            there += usize::from(move_at(&log, k, &mut random).is_some());
        }
    }
    assert!(there > 1000, "moves came up: {there}");
}
