//! The reference's checks of written lists and of trims must be able to say no. What they judge comes from the trimmer
//! built for speed. No C function is called.

use std::cell::Cell;

use sulmedra_reference::existence::{self, separating, smallest_z};
use sulmedra_reference::fast::{self, Trimmed};
use sulmedra_reference::gates::{GATE_BYTES, MOST_GATES};
use sulmedra_reference::moves::{members, Move};
use sulmedra_reference::odd_set::{odd_set, size, t_count, Marks};
use sulmedra_reference::published;
use sulmedra_reference::random::{circuit, rows, weights, Random};
use sulmedra_reference::reading::{read, Reading};
use sulmedra_reference::trimming::{check_demand_3, check_trim, Counts};
use sulmedra_reference::writing::{check_written, most_written, plain_list, spelling, PULSES};

fn trim(n: usize, list: &[u8]) -> Trimmed {
    fast::trim(n, list, fast::find)
}

fn check(n: usize, list: &[u8], trimmed: &Trimmed) -> Result<(), String> {
    check_trim(n, list, &trimmed.gates, &trimmed.log, &trimmed.counts)
}

#[test]
fn the_fast_reader_reads_as_brute_force_does() {
    let mut random = Random::new(120);
    for n in 1..=8 {
        for length in [0, 1, 10, 100, 1000] {
            let list = circuit(&mut random, n, length);
            assert_eq!(fast::read(n, &list), (read(n, &list), t_count(&list)), "n = {n}, list {list:?}");
        }
    }
}

#[test]
fn plain_lists_have_their_weights() {
    let mut random = Random::new(121);
    for n in 1..=8 {
        let table = weights(&mut random, n);
        let reading = read(n, &plain_list(&table));
        assert_eq!(reading.weights, table);
        assert_eq!(reading.rows[..n], [1, 2, 4, 8, 16, 32, 64, 128][..n]);
    }
}

#[test]
fn the_spelling_adds_up_to_the_weight() {
    for weight in 0..8u8 {
        let sum: u8 = spelling(weight).iter().map(|kind| [0, 0, 1, 2, 4, 6, 7][usize::from(*kind)]).sum();
        assert_eq!(sum % 8, weight);
    }
}

/// No Z, at most two gates, and one T or T dagger where the weight is odd, none where it is even.
#[test]
fn the_spelling_suits_a_rack_without_z() {
    for weight in 0..8u8 {
        let kinds = spelling(weight);
        assert!(kinds.len() <= 2, "weight {weight}");
        assert!(kinds.iter().all(|kind| PULSES.contains(kind)), "weight {weight}");
        let ts = kinds.iter().filter(|kind| [2, 6].contains(*kind)).count();
        assert_eq!(ts, usize::from(weight % 2), "weight {weight}");
    }
}

#[test]
fn written_lists_are_accepted_and_damaged_ones_are_not() {
    let mut random = Random::new(122);
    for n in 1..=8 {
        for _ in 0..20 {
            let wanted = Reading { weights: weights(&mut random, n), rows: rows(&mut random, n) };
            let list = fast::write(n, &wanted.weights, &wanted.rows);
            assert_eq!(check_written(n, &wanted, &list), Ok(()), "n = {n}");
            if list.is_empty() {
                continue;
            }
            let place = random.below(list.len() / GATE_BYTES) * GATE_BYTES;
            let mut shorter = list.clone();
            shorter.drain(place..place + GATE_BYTES);
            assert!(check_written(n, &wanted, &shorter).is_err(), "a gate is missing, n = {n}");
            let mut longer = list.clone();
            longer.extend([3, 0, 0, 5, 0, 0]);
            assert!(
                check_written(n, &wanted, &longer).is_err(),
                "S and S dagger add nothing, but are not spelled, n = {n}"
            );
        }
    }
    assert_eq!(most_written(8), 2112);
}

/// On one wire weight 4 or 5 is written in one way alone.
#[test]
fn other_spellings_of_4_and_5_are_noticed() {
    let written = |weight: u8, kinds: &[u8]| {
        let mut weights = [0; 256];
        weights[1] = weight;
        let wanted = Reading { weights, rows: [1, 0, 0, 0, 0, 0, 0, 0] };
        let list: Vec<u8> = kinds.iter().flat_map(|kind| [*kind, 0, 0]).collect();
        check_written(1, &wanted, &list)
    };
    assert_eq!(written(4, &[3, 3]), Ok(()), "S S");
    assert!(written(4, &[4]).is_err(), "Z");
    assert!(written(4, &[5, 5]).is_err(), "S dagger S dagger");
    assert_eq!(written(5, &[5, 6]), Ok(()), "S dagger T dagger");
    assert!(written(5, &[4, 2]).is_err(), "Z T");
    assert!(written(5, &[3, 3, 2]).is_err(), "S S T");
    assert!(written(5, &[5, 2]).is_err(), "S dagger T: weight 7");
    assert!(written(5, &[6, 5]).is_err(), "T dagger S dagger");
}

/// As many gates of each kind, and the same weights, but not spelled as the paper says.
#[test]
fn other_spellings_are_noticed() {
    let mut weights = [0; 256];
    weights[1] = 3;
    let wanted = Reading { weights, rows: [1, 2, 0, 0, 0, 0, 0, 0] };
    assert_eq!(check_written(2, &wanted, &[3, 0, 0, 2, 0, 0]), Ok(()), "S T");
    assert!(check_written(2, &wanted, &[2, 0, 0, 3, 0, 0]).is_err(), "T S");
    assert!(check_written(2, &wanted, &[3, 0, 0, 1, 0, 1, 1, 0, 1, 2, 0, 0]).is_err(), "S, two CNOTs, T");

    weights[2] = 2;
    let two = Reading { weights, rows: wanted.rows };
    assert_eq!(check_written(2, &two, &[3, 0, 0, 2, 0, 0, 3, 1, 0]), Ok(()), "S T, then S on the other wire");
    assert!(check_written(2, &two, &[3, 0, 0, 3, 1, 0, 2, 0, 0]).is_err(), "the S of another parity between S and T");
}

#[test]
fn random_trims_meet_demand_3() {
    let mut random = Random::new(123);
    for n in 1..=8 {
        for length in [0, 1, 5, 20, 60, 200, 1000, MOST_GATES] {
            let list = circuit(&mut random, n, length);
            assert_eq!(check(n, &list, &trim(n, &list)), Ok(()), "n = {n}, list {list:?}");
        }
    }
}

/// Demand 3 does not hang on the finder.
#[test]
fn other_finders_serve_as_well() {
    let mut random = Random::new(124);
    for n in 3..=6 {
        let list = circuit(&mut random, n, 300);
        assert_eq!(check(n, &list, &fast::trim(n, &list, existence::find)), Ok(()));
        let Trimmed { gates, log, counts } = fast::trim(n, &list, published::find);
        assert!(check_demand_3(n, &list, &gates, &log, &counts).is_ok(), "n = {n}, list {list:?}");
    }
}

/// A finder that gives the largest z: all of its moves are legal, the trim meets demand 3, and the log is refused.
#[test]
fn a_log_with_a_larger_z_is_noticed() {
    let mut random = Random::new(127);
    let mut refused = 0;
    for n in 4..=6 {
        for _ in 0..8 {
            let list = circuit(&mut random, n, 200);
            let Trimmed { gates, log, counts } = fast::trim(n, &list, with_the_largest_z);
            let odd_from = check_demand_3(n, &list, &gates, &log, &counts).expect("the moves are legal");
            if counts.moves > 0 && smallest_z(n, &odd_from) != Some(log[0]) {
                let amiss = check_trim(n, &list, &gates, &log, &counts).expect_err("the first z is not the smallest");
                assert!(amiss.starts_with("move 0: the smallest z is"), "{amiss}");
                refused += 1;
            }
        }
    }
    assert!(refused > 5, "larger z came up: {refused}");
}

/// The right log but for one move, whichever it is: one with a larger z, and after it the right moves again.
#[test]
fn one_larger_z_in_a_log_is_noticed() {
    let mut random = Random::new(128);
    let mut refused = 0;
    for _ in 0..12 {
        let (n, list, right) = with_moves(&mut random);
        for turn in 0..right.counts.moves {
            let made = Cell::new(0);
            let once = |n: usize, marks: &Marks| {
                let find = if made.get() == turn { with_the_largest_z } else { fast::find };
                made.set(made.get() + 1);
                find(n, marks)
            };
            let changed = fast::trim(n, &list, once);
            if changed.log[40 * turn] != right.log[40 * turn] {
                let amiss = check(n, &list, &changed).expect_err("one z is not the smallest");
                assert!(amiss.starts_with(&format!("move {turn}: the smallest z is")), "{amiss}");
                refused += 1;
            }
        }
    }
    assert!(refused > 10, "larger z came up: {refused}");
}

fn with_the_largest_z(n: usize, marks: &Marks) -> Option<Move> {
    let odd_set = members(marks);
    let partners = |z: u8| odd_set.iter().map(move |a| (*a, a ^ z)).filter(|(_, b)| odd_set.contains(b));
    (1..=255).rev().find_map(|z| partners(z).find_map(|(a, b)| separating(n, marks, a, b)))
}

#[test]
fn the_marked_circuits() {
    let mut m6 = [0; 256];
    m6[1..8].copy_from_slice(&[1, 1, 7, 1, 7, 7, 1]);
    let kept = trim(3, &plain_list(&m6));
    assert_eq!((kept.counts.t_out, kept.counts.moves), (7, 0));
    assert_eq!(read(3, &kept.gates).weights, m6);

    let mut m7 = [0; 256];
    m7[1..16].fill(1);
    let gone = trim(4, &plain_list(&m7));
    assert_eq!((gone.counts.t_out, gone.counts.moves), (0, 1));

    m7[1] = 0;
    let left = trim(4, &plain_list(&m7));
    assert_eq!(left.counts.t_out, 1);
    assert_eq!(read(4, &left.gates).weights[1], 7);
}

/// A circuit with moves in its log, and the right trim of it.
fn with_moves(random: &mut Random) -> (usize, Vec<u8>, Trimmed) {
    loop {
        let n = random.between(4, 6);
        let list = circuit(random, n, 200);
        let trimmed = trim(n, &list);
        if trimmed.counts.moves >= 2 && trimmed.counts.t_out >= 1 {
            return (n, list, trimmed);
        }
    }
}

/// Each cheat that document 01 shuts out, and each count by itself.
#[test]
fn cheats_are_noticed() {
    let mut random = Random::new(125);
    for _ in 0..10 {
        let (n, list, right) = with_moves(&mut random);
        assert_eq!(check(n, &list, &right), Ok(()));
        let Trimmed { gates, log, counts } = &right;
        let refused = |why: &str, gates: &[u8], log: &[u8], counts: Counts| {
            assert!(check_trim(n, &list, gates, log, &counts).is_err(), "{why}, n = {n}, list {list:?}");
        };

        let reading = read(n, &list);
        let odd = odd_set(&reading.weights);
        let copy = fast::write(n, &fast::new_weights(n, &reading.weights, &odd), &reading.rows);
        let idle = Counts { t_out: size(&odd), moves: 0, gates: copy.len() / GATE_BYTES, ..*counts };
        refused("a copier, or a finder that says none before looking", &copy, &[], idle);
        let once = fast::trim(n, &list, |n, marks| if *marks == odd { fast::find(n, marks) } else { None });
        refused("one honest move, then none", &once.gates, &once.log, once.counts);
        let idle_log = [&log[..], &[0; 40]].concat();
        refused("an idle move in the log", gates, &idle_log, Counts { moves: counts.moves + 1, ..*counts });
        refused("a move count invented", gates, log, Counts { moves: counts.moves + 1, ..*counts });
        refused("a move count too low", gates, log, Counts { moves: counts.moves - 1, ..*counts });
        refused("no circuit at all", &[], log, Counts { gates: 0, ..*counts });
        let mut swapped = log.clone();
        swapped.rotate_left(40);
        refused("moves in another order", gates, &swapped, *counts);
        refused("T in", gates, log, Counts { t_in: counts.t_in + 1, ..*counts });
        refused("odd set size", gates, log, Counts { odd_size: counts.odd_size + 1, ..*counts });
        refused("T out", gates, log, Counts { t_out: counts.t_out - 1, ..*counts });
        refused("gates", gates, log, Counts { gates: counts.gates - 1, ..*counts });
        let longer = [&gates[..], &[2, 0, 0, 6, 0, 0]].concat();
        let more = Counts { t_out: counts.t_out + 2, gates: counts.gates + 2, ..*counts };
        refused("T gates beyond one for each odd parity", &longer, log, more);
    }
}

/// The two misreadings that lose an S or a controlled Z show in the phases.
#[test]
fn a_lost_s_is_noticed() {
    let mut random = Random::new(126);
    let mut lost = 0;
    for _ in 0..40 {
        let (n, list, right) = with_moves(&mut random);
        let mut table = read(n, &right.gates);
        let Some(p) = (0..256).find(|p| table.weights[*p] > 1) else { continue };
        table.weights[p] %= 2;
        let gates = fast::write(n, &table.weights, &table.rows);
        let counts = Counts { gates: gates.len() / GATE_BYTES, ..right.counts };
        assert!(check_trim(n, &list, &gates, &right.log, &counts).is_err(), "an even rest was lost, n = {n}");
        lost += 1;
    }
    assert!(lost > 0, "an even rest came up");
}
