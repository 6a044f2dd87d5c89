//! The reference's moves, held against each other and against the paper. No C function is called.

use std::collections::BTreeMap;

use sulmedra_reference::coefficients::signature;
use sulmedra_reference::existence::{
    check_found, find, find_by_trying_all, separating, smallest_z, smallest_z_of_pairs,
};
use sulmedra_reference::faults::{carry_out_reply, Fault, DONE};
use sulmedra_reference::moves::{carry_out, differing, is_legal, members, part_of_log, replay, Move};
use sulmedra_reference::odd_set::{size, Marks};
use sulmedra_reference::random::{damaged_move, legal_move, legal_move_with_pairs, marks, Random};
use sulmedra_reference::{fast, published};

fn odd_set_of(parities: impl IntoIterator<Item = usize>) -> Marks {
    let mut marks = [0; 256];
    parities.into_iter().for_each(|p| marks[p] = 1);
    marks
}

fn m8() -> Move {
    Move { z: 1, y: vec![2, 4, 6, 8, 10, 12, 14] }
}

#[test]
fn m8_is_legal_and_leaves_nothing() {
    let all = odd_set_of(1..16);
    assert!(is_legal(4, &all, &m8()));
    assert_eq!(carry_out(&all, &m8()), [0; 256]);
    assert_eq!(replay(4, &all, &m8().to_bytes(), 1), Ok([0; 256]));
    assert!(replay(4, &all, &m8().to_bytes(), 2).is_err(), "one move is not two");
}

/// Equal tables, and tables that become different parity by parity, each by itself and all together.
#[test]
fn tables_that_differ_one_by_one() {
    let mut random = Random::new(119);
    for size in [0, 1, 128, 255] {
        let before = marks(&mut random, 8, size);
        let mut after = before;
        assert_eq!(differing(&before, &after), 0);
        for p in 0..256 {
            let mut one = before;
            one[p] ^= 1;
            assert_eq!(differing(&before, &one), 1, "parity {p}");
            after[p] ^= 1;
            assert_eq!(differing(&before, &after), p + 1);
        }
    }
}

/// M8 changes all fifteen marks of four wires, whether z is a member or becomes one.
#[test]
fn m8_makes_fifteen_marks_differ() {
    for odd_set in [odd_set_of(1..16), odd_set_of(2..16)] {
        assert!(is_legal(4, &odd_set, &m8()));
        assert_eq!(differing(&odd_set, &carry_out(&odd_set, &m8())), 15);
    }
}

/// A move of 38 members, no two of which differ by z, and z not among them: 76 marks differ, and with no move more can.
#[test]
fn the_most_marks_that_differ() {
    let y = [
        2, 12, 21, 27, 29, 36, 37, 38, 42, 55, 60, 62, 74, 101, 102, 110, 112, 113, 121, 122, 131, 139, 147, 148, 154,
        167, 172, 190, 195, 201, 205, 210, 213, 218, 221, 224, 242, 245,
    ];
    let (step, all) = (Move { z: 5, y: y.to_vec() }, odd_set_of(1..256));
    assert_eq!(step.flips_that_meet(), [false, false, false]);
    assert!(is_legal(8, &all, &step));
    assert_eq!(differing(&all, &carry_out(&all, &step)), 76);
    assert_eq!(carry_out_fast(8, &all, &step.to_bytes()), DONE);
}

/// M8 with one thing wrong at a time.
#[test]
fn each_condition_can_fail() {
    let all = odd_set_of(1..16);
    let with = |z: u8, y: &[u8]| Move { z, y: y.to_vec() };
    assert!(is_legal(4, &odd_set_of(2..15), &m8()), "what is neither in Y nor its b does not matter");
    assert!(!is_legal(4, &odd_set_of([1, 2, 4, 6, 8, 10, 12, 14]), &m8()), "no member b outside Y");
    assert!(!is_legal(4, &odd_set_of((1..16).filter(|p| *p != 6)), &m8()), "6 is no member");
    assert!(!is_legal(4, &all, &with(1, &[2, 4, 6, 8, 10, 12])), "the XOR of Y is not 0");
    assert!(!is_legal(4, &all, &with(0, &m8().y)), "z is no XOR of two members");
    assert!(!is_legal(4, &all, &with(1, &[])), "no a in Y");
    // The XOR of {2, 4, 6} is 0 and it splits pairs, but the triple of wires 0, 1, 2 has 6 alone.
    assert!(!is_legal(3, &odd_set_of(1..8), &with(1, &[2, 4, 6])), "a triple is odd");
    assert!(!is_legal(2, &odd_set_of(1..4), &with(1, &[1, 2, 3])), "nothing outside Y");
}

#[test]
fn bytes_that_are_no_move() {
    let bytes = m8().to_bytes();
    assert_eq!(Move::from_bytes(&bytes), Some(m8()));
    assert_eq!(Move::from_bytes(&bytes[..39]), None);
    assert_eq!(Move::from_bytes(&[&bytes[..], &[0]].concat()), None);
    let changed = |place: usize, value: u8| {
        let mut bytes = bytes;
        bytes[place] = value;
        Move::from_bytes(&bytes)
    };
    assert_eq!(changed(1, 39), None, "39 in Y");
    assert_eq!(changed(1, 8), None, "an eighth member that is 0");
    assert_eq!(changed(1, 6), None, "14 stands where zeros should");
    assert_eq!(changed(3, 2), None, "2 twice");
    assert_eq!(changed(3, 7), None, "not ascending");
    assert_eq!(changed(39, 1), None, "not zeros");
    assert!(changed(0, 3).is_some(), "another z is a move, if not a legal one");
}

/// Every odd set on up to three wires, and some on four and five: the elimination and trying everything give the same
/// smallest z, and none in the same places.
#[test]
fn the_smallest_z_by_elimination_is_the_smallest() {
    let tried = |n: usize, marks: &Marks| find_by_trying_all(n, marks).map(|step| step.z);
    for n in 1..=3 {
        for set in 0..1usize << ((1 << n) - 1) {
            let marks = odd_set_of((1..1 << n).filter(|p| set >> (p - 1) & 1 == 1));
            assert_eq!(smallest_z(n, &marks), tried(n, &marks), "n = {n}, {set:b}");
        }
    }
    let mut random = Random::new(110);
    for (n, sizes) in [(4, 0..16), (5, 5..13)] {
        let (mut none, mut larger) = (0, 0);
        for size in sizes.cycle().take(160) {
            let marks = marks(&mut random, n, size);
            let z = smallest_z(n, &marks);
            assert_eq!(z, tried(n, &marks), "members {:?}", members(&marks));
            none += usize::from(z.is_none());
            larger += usize::from(z > Some(1));
        }
        assert!(0 < none && none < 160 && larger > 5, "all came up, n = {n}: {none} of 160 none, {larger} above 1");
    }
}

/// Asked once for each z and asked pair by pair, the equations give the same smallest z: on random sets, on what moves
/// leave of them, and near that.
#[test]
fn two_eliminations_agree_on_the_smallest_z() {
    let mut random = Random::new(116);
    let agree = |n: usize, marks: &Marks| {
        assert_eq!(smallest_z(n, marks), smallest_z_of_pairs(n, marks), "n = {n}, {:?}", members(marks));
    };
    for n in 1..=8 {
        for _ in 0..if n < 7 { 40 } else { 12 } {
            let size = random.between(0, (1 << n) - 1);
            let mut left = marks(&mut random, n, size);
            agree(n, &left);
            while let Some(step) = find(n, &left) {
                left = carry_out(&left, &step);
            }
            agree(n, &left);
            (0..3).for_each(|_| left[random.between(1, (1 << n) - 1)] ^= 1);
            agree(n, &left);
        }
    }
}

/// No member a in Y is a member b not in Y: with z = 0 no Y is legal.
#[test]
fn z_0_never_serves() {
    let mut random = Random::new(117);
    for size in 0..12 {
        let marks = marks(&mut random, 4, size);
        let odd_set = members(&marks);
        for set in 0..1usize << size {
            let y = (0..size).filter(|place| set >> place & 1 == 1).map(|place| odd_set[place]).collect();
            assert!(!is_legal(4, &marks, &Move { z: 0, y }));
        }
    }
}

/// Legal moves for all pairs of all kinds of sets: those with the smallest z are accepted as found, the others refused.
#[test]
fn a_legal_move_with_a_larger_z_is_refused() {
    let mut random = Random::new(118);
    let (mut accepted, mut refused) = (0, 0);
    for n in 4..=7 {
        for _ in 0..6 {
            let size = random.between(2 * n, 4 * n);
            let marks = marks(&mut random, n, size);
            let odd_set = members(&marks);
            let pairs = odd_set.iter().flat_map(|a| odd_set.iter().map(move |b| (*a, *b))).filter(|(a, b)| a != b);
            let legal: Vec<Move> = pairs.filter_map(|(a, b)| separating(n, &marks, a, b)).collect();
            let smallest = legal.iter().map(|step| step.z).min();
            for step in &legal {
                match check_found(n, &marks, Some(step)) {
                    Ok(()) => accepted += 1,
                    Err(amiss) => {
                        assert!(amiss.starts_with("the smallest z is"), "{amiss}");
                        refused += 1;
                    }
                }
                assert_eq!(check_found(n, &marks, Some(step)).is_ok(), Some(step.z) == smallest, "{step:?}");
            }
            assert_eq!(check_found(n, &marks, None).is_ok(), legal.is_empty(), "n = {n}, {odd_set:?}");
        }
    }
    assert!(accepted > 20 && refused > 100, "both came up: {accepted} accepted, {refused} refused");
}

/// The smallest z alone is not enough: the move must be legal too.
#[test]
fn a_move_that_is_not_legal_is_refused() {
    let all = odd_set_of(1..16);
    assert_eq!(check_found(4, &all, Some(&m8())), Ok(()));
    assert!(check_found(4, &all, None).is_err(), "there is one");
    assert!(check_found(4, &all, Some(&Move { z: 1, y: vec![2, 4, 6, 8, 10, 12] })).is_err(), "the XOR is not 0");
    assert!(check_found(3, &odd_set_of(1..8), Some(&Move { z: 1, y: vec![] })).is_err(), "there is none");
}

/// Three searches that share only the paper agree, on random sets of every size and on what trimming leaves of them.
/// The one built for speed gives the smallest z.
#[test]
fn three_finders_agree() {
    let mut random = Random::new(111);
    for n in 1..=8 {
        let most = (1 << n) - 1;
        let sizes: Vec<usize> =
            if n < 6 { (0..=most).collect() } else { (0..20).map(|_| random.between(0, most)).collect() };
        for size in sizes {
            let mut left = marks(&mut random, n, size);
            while let Some(step) = fast::find(n, &left) {
                assert_eq!(check_found(n, &left, Some(&step)), Ok(()), "n = {n}");
                left = carry_out(&left, &step);
            }
            assert_eq!(check_found(n, &left, None), Ok(()), "n = {n}");
            if n < 8 {
                assert_eq!(published::find(n, &left), None, "n = {n}, {:?}", members(&left));
            }
        }
    }
}

#[test]
fn the_published_search_gives_legal_moves() {
    let mut random = Random::new(112);
    let mut found = 0;
    for n in 3..=7 {
        for _ in 0..30 {
            let size = random.between(0, (1 << n) - 1);
            let marks = marks(&mut random, n, size);
            let step = published::find(n, &marks);
            assert_eq!(step.is_some(), find(n, &marks).is_some(), "n = {n}, {:?}", members(&marks));
            if let Some(step) = step {
                assert!(is_legal(n, &marks, &step), "{step:?} on {:?}", members(&marks));
                found += 1;
            }
        }
    }
    assert!(found > 30);
}

/// The paper's promise on legal moves, on what the elimination finds: the signature stays and the set shrinks.
#[test]
fn a_legal_move_keeps_the_signature_and_shrinks_the_set() {
    let mut random = Random::new(113);
    let mut odd = 0;
    for n in 1..=8 {
        for _ in 0..20 {
            let size_before = random.between(0, (1 << n) - 1);
            let before = marks(&mut random, n, size_before);
            let Some(step) = find(n, &before) else { continue };
            let after = carry_out(&before, &step);
            assert_eq!(signature(n, &after), signature(n, &before), "n = {n}, {step:?}, {:?}", members(&before));
            assert!(size(&after) < size_before, "n = {n}, {step:?}, {:?}", members(&before));
            odd += step.y.len() % 2;
        }
    }
    assert!(odd > 0, "an odd number in Y came up");
}

/// Above (n² + n)/2 + 1 members there is always a move.
#[test]
fn large_sets_have_a_move() {
    let mut random = Random::new(114);
    for n in 3..=8 {
        for size in (n * n + n) / 2 + 2..=((n * n + n) / 2 + 4).min((1 << n) - 1) {
            let marks = marks(&mut random, n, size);
            assert!(find(n, &marks).is_some(), "n = {n}, {:?}", members(&marks));
        }
    }
}

/// Only one of the two of a pair can be in Y: it comes up, so the two ways round a pair are not the same question.
#[test]
fn the_two_ways_round_a_pair_differ() {
    let mut random = Random::new(115);
    let mut differ = 0;
    for _ in 0..400 {
        let size = random.between(5, 12);
        let marks = marks(&mut random, 4, size);
        let odd_set = members(&marks);
        let (a, b) = (odd_set[0], odd_set[1]);
        differ += usize::from(separating(4, &marks, a, b).is_some() != separating(4, &marks, b, a).is_some());
    }
    assert!(differ > 0);
}

/// Carries out a move by the code built for speed, with reply, marks and count held against the paper. Answers the
/// reply.
fn carry_out_fast(n: usize, marks: &[u8], step: &[u8]) -> Fault {
    let mut left = marks.to_vec();
    let answer = fast::replay::carry_out(n, &mut left, step);
    let due = carry_out_reply(n, marks, step);
    if due != DONE {
        assert_eq!(answer, Err(due), "n = {n}, move {step:?}, marks {marks:?}");
        assert_eq!(left, marks, "refusal {due:?} left a mark, n = {n}, move {step:?}");
        return due;
    }
    let before: &Marks = marks.try_into().expect("accepted marks are 256");
    let after = carry_out(before, &Move::from_bytes(step).expect("accepted bytes are a move"));
    assert_eq!(left, after, "marks for n = {n}, move {step:?}, marks {marks:?}");
    assert_eq!(answer, Ok(differing(before, &after)), "n = {n}, move {step:?}, marks {marks:?}");
    due
}

/// Random legal moves, however their flips meet, and the same with some of their bytes or a mark changed.
#[test]
fn the_fast_carry_out_agrees_on_legal_and_damaged_moves() {
    let mut random = Random::new(131);
    let (mut came_up, mut accepted, mut refused) = (BTreeMap::new(), 0, 0);
    for n in 4..=8 {
        for _ in 0..200 {
            let size = random.between(2 * n, (1 << n) - 1);
            let marks = marks(&mut random, n, size);
            let moves = [legal_move(&mut random, n, &marks), legal_move_with_pairs(&mut random, n, &marks)];
            for step in moves.iter().flatten() {
                assert_eq!(carry_out_fast(n, &marks, &step.to_bytes()), DONE, "n = {n}, {step:?}");
                *came_up.entry(step.flips_that_meet()).or_insert(0) += 1;
                for _ in 0..12 {
                    let changed = damaged_move(&mut random, n, step);
                    let mut other_marks = marks;
                    other_marks[random.between(1, (1 << n) - 1)] ^= u8::from(random.below(3) == 0);
                    match carry_out_fast(n, &other_marks, &changed) {
                        DONE => accepted += 1,
                        _ => refused += 1,
                    }
                }
            }
        }
    }
    assert!(came_up.len() == 8 && came_up.values().all(|times| *times > 30), "all came up: {came_up:?}");
    assert!(accepted > 100 && refused > 1000, "both came up: {accepted} accepted, {refused} refused");
}

/// Every z of four wires, and two beyond, with every set of members of small odd sets.
#[test]
fn the_fast_carry_out_agrees_on_every_move_of_a_small_set() {
    let mut random = Random::new(132);
    let mut accepted = 0;
    for _ in 0..8 {
        let marks = marks(&mut random, 4, 10);
        let odd_set = members(&marks);
        for set in 0..1usize << odd_set.len() {
            let y: Vec<u8> =
                (0..odd_set.len()).filter(|place| set >> place & 1 == 1).map(|place| odd_set[place]).collect();
            for z in 0..=17 {
                let step = Move { z, y: y.clone() }.to_bytes();
                accepted += usize::from(carry_out_fast(4, &marks, &step) == DONE);
            }
        }
    }
    assert!(accepted > 20, "legal moves came up: {accepted}");
}

/// Wire counts, lengths, marks and moves, sound and faulty, each with each other.
#[test]
fn the_fast_carry_out_agrees_on_faulty_arguments() {
    let of_length =
        |bytes: &[u8], length: usize| bytes.iter().chain(&[0; 256]).copied().take(length).collect::<Vec<u8>>();
    let with = |bytes: &[u8], place: usize, value: u8| {
        let mut changed = bytes.to_vec();
        changed[place] = value;
        changed
    };
    let (all, step) = (odd_set_of(1..16), m8().to_bytes());
    let mut tables = [0, 255, 256, 257, 512].map(|length| of_length(&all, length)).to_vec();
    tables.extend((0..256).flat_map(|p| [0, 1, 2, 255].map(|mark| with(&all, p, mark))));
    let mut moves = [0, 39, 40, 41].map(|length| of_length(&step, length)).to_vec();
    let changes = [(0, 0), (0, 3), (1, 0), (1, 6), (1, 8), (1, 39), (3, 2), (3, 7), (9, 1), (39, 255)];
    moves.extend(changes.map(|(place, value)| with(&step, place, value)));
    // Out of order, or a member more than once: every sum comes out even all the same, but Y is no ascending set.
    let lists: [&[u8]; 4] = [
        &[4, 2, 6, 8, 10, 12, 14],
        &[2, 2, 2, 4, 6, 8, 10, 12, 14],
        &[2, 3, 3, 4, 6, 8, 10, 12, 14],
        &[2, 4, 6, 8, 10, 12, 14, 14, 14],
    ];
    moves.extend(lists.map(|y| Move { z: 1, y: y.to_vec() }.to_bytes().to_vec()));
    let mut came_up = BTreeMap::new();
    for n in (0..=10).chain([255, 256, 260, 1 << 32 | 4, usize::MAX]) {
        for (marks, step) in tables.iter().flat_map(|marks| moves.iter().map(move |step| (marks, step))) {
            *came_up.entry(carry_out_fast(n, marks, step).number).or_insert(0) += 1;
        }
    }
    let numbers: Vec<u64> = came_up.keys().copied().collect();
    assert_eq!(numbers, [0, 1, 6, 8, 10], "done and every fault came up: {came_up:?}");
}

#[test]
fn parts_of_a_log() {
    assert_eq!(part_of_log(0, 0), None);
    assert_eq!(part_of_log(39, 0), None);
    assert_eq!(part_of_log(40, 0), Some(0));
    assert_eq!(part_of_log(79, 1), None);
    assert_eq!(part_of_log(80, 1), Some(40));
    assert_eq!(part_of_log(10_200, 254), Some(10_160));
    assert_eq!(part_of_log(10_200, 255), None);
    assert_eq!(part_of_log(10_200, usize::MAX), None);
    assert_eq!(part_of_log(10_200, usize::MAX / 40 + 1), None, "40k is past the machine word");
}

/// The code built for speed gives the same parts.
#[test]
fn fast_parts_of_a_log() {
    let log = Random::new(133).bytes(400);
    let mut there = 0;
    for length in 0..=log.len() {
        for k in (0..12).chain([1 << 61, usize::MAX / 40, usize::MAX / 40 + 1, usize::MAX]) {
            let due = part_of_log(length, k).map(|start| &log[start..start + 40]);
            assert_eq!(fast::replay::move_at(&log[..length], k), due, "move {k} of {length} bytes");
            there += usize::from(due.is_some());
        }
    }
    assert!(there > 1000, "moves came up: {there}");
}
