//! The reference's own decision whether two lists act alike, and what is said of two files. No C function is called.

use sulmedra_reference::alike::{act_alike, told_apart_by};
use sulmedra_reference::coefficients::coefficients;
use sulmedra_reference::demands::told_phase;
use sulmedra_reference::fast::running::{one_by_one, side_by_side};
use sulmedra_reference::faults::{comparing_reply, DONE};
use sulmedra_reference::gates::{GATE_BYTES, MOST_GATES};
use sulmedra_reference::random::{all_gates, circuit, Random};
use sulmedra_reference::reading::read;
use sulmedra_reference::same::{said_of, Said};
use sulmedra_reference::variations::{
    all_terms, idle_weights, reordered, rewritten, term, undoing, with_one_gate_other,
};
use sulmedra_reference::writing::{plain_list, same_wires};

/// A list and what undoes it act like the empty list, in both orders.
#[test]
fn what_undoes_a_list() {
    let mut random = Random::new(160);
    for n in 1..=8 {
        for length in [0, 1, 2, 20, 200] {
            let list = circuit(&mut random, n, length);
            let back = undoing(&list);
            assert_eq!(undoing(&back), list);
            for both in [[&list[..], &back].concat(), [&back[..], &list].concat()] {
                assert_eq!(told_apart_by(n, &both, &[]), None, "n = {n}, {both:?}");
            }
        }
    }
}

/// Lists act alike exactly when their rows and their coefficients are equal, which are found in other ways; the order of
/// the two does not matter. The benchmark's runs say the same.
#[test]
fn other_ways_tell_the_same() {
    let mut random = Random::new(161);
    for n in 1..=8 {
        let (mut alike, mut apart) = (0, 0);
        for round in 0..120 {
            let length = random.between(0, 30);
            let list = circuit(&mut random, n, length);
            let other = match round % 3 {
                0 => rewritten(&mut random, n, &list, 10),
                1 => with_one_gate_other(&mut random, n, &list),
                _ => circuit(&mut random, n, length),
            };
            let (one, two) = (read(n, &list), read(n, &other));
            let equal = one.rows == two.rows && coefficients(n, &one.weights) == coefficients(n, &two.weights);
            assert_eq!(act_alike(n, &list, &other), equal, "n = {n}, {list:?} and {other:?}");
            assert_eq!(told_apart_by(n, &list, &other), told_apart_by(n, &other, &list));
            let runs = [one_by_one, side_by_side].map(|alike| alike(n, &list, &other));
            assert_eq!(runs, [equal; 2], "n = {n}, {list:?} and {other:?}");
            alike += usize::from(equal);
            apart += usize::from(!equal);
        }
        assert!(alike >= 40 && apart >= 40, "n = {n}: {alike} and {apart}");
    }
}

/// A term adds its phase on the states that set all of its wires; the first of these is the first to tell.
#[test]
fn terms_of_a_phase() {
    let mut random = Random::new(162);
    for n in 1..=8 {
        for (wires, times) in all_terms(n) {
            let all = wires.iter().map(|wire| 1 << wire).sum::<u16>();
            let phase = times << (wires.len() - 1);
            let weights = term(&wires, times);
            for x in 0..1 << n {
                assert_eq!(told_phase(&weights, x), if x & all == all { phase } else { 0 }, "{wires:?}, x = {x}");
            }
            let (list, more) = (circuit(&mut random, n, 10), plain_list(&weights));
            assert_eq!(read(n, &more).rows, same_wires(n));
            assert_eq!(told_apart_by(n, &list, &[&more[..], &list].concat()), Some(all), "n = {n}, {wires:?}");
        }
    }
}

/// Every way to make lists that act alike makes them, and one gate other never does.
#[test]
fn variations_do_what_they_say() {
    let mut random = Random::new(163);
    let (mut reorders, mut lengths) = (0, [0; 3]);
    for n in 1..=8 {
        for _ in 0..60 {
            let length = random.between(0, 40);
            let list = circuit(&mut random, n, length);
            let other = reordered(&mut random, &list, 3);
            assert_eq!(told_apart_by(n, &list, &other), None, "n = {n}, {list:?} and {other:?}");
            assert_eq!(other.len(), list.len());
            reorders += usize::from(other != list);
            let unlike = with_one_gate_other(&mut random, n, &list);
            assert!(!act_alike(n, &list, &unlike), "n = {n}, {list:?} and {unlike:?}");
            lengths[1 + unlike.len() / GATE_BYTES - length] += 1;
        }
        for parities in 2..=n.min(4) {
            let idle = idle_weights(&mut random, n, parities);
            assert_eq!(idle.iter().map(|weight| usize::from(*weight)).sum::<usize>(), 16 - (16 >> parities));
            assert_eq!(told_apart_by(n, &plain_list(&idle), &[]), None, "n = {n}, {idle:?}");
        }
    }
    assert!(reorders > 300 && lengths.iter().all(|times| *times > 80), "{reorders}, {lengths:?}");
}

/// Eight T are a whole turn. No fewer are, and a state that is sent elsewhere tells as well as a phase does.
#[test]
fn states_that_tell() {
    for times in 0..=16 {
        let due = if times % 8 == 0 { None } else { Some(2) };
        assert_eq!(told_apart_by(2, &[2, 1, 0].repeat(times), &[]), due, "{times} T");
    }
    assert_eq!(told_apart_by(3, &[1, 2, 0], &[]), Some(4));
    assert_eq!(told_apart_by(3, &[1, 0, 1, 4, 1, 0], &[1, 0, 1]), Some(1), "Z on what wire 1 then holds");
    for n in 1..=8 {
        let gates = all_gates(n);
        let alike = |one: &[u8; 3]| gates.iter().filter(|other| act_alike(n, one, *other)).count();
        assert!(gates.iter().all(|gate| alike(gate) == 1 && !act_alike(n, gate, &[])), "n = {n}");
    }
}

/// The order of checks, by hand.
#[test]
fn faults_of_two_lists() {
    let due = |n: usize, first: &[u8], second: &[u8]| {
        let reply = comparing_reply(n, first, second);
        (reply.number, reply.place)
    };
    let long = [2, 0, 0].repeat(MOST_GATES + 1);
    assert_eq!(comparing_reply(1, &long[3..], &[]), DONE);
    assert_eq!(comparing_reply(1, &[], &long[3..]), DONE);
    for n in [0, 9, 256, 257, usize::MAX] {
        assert_eq!(due(n, &[0], &[0]), (1, 0), "n = {n}");
    }
    assert_eq!(due(2, &long, &[0]), (2, 0));
    assert_eq!(due(2, &[2, 0, 0, 7, 0, 0], &[0]), (3, 1));
    assert_eq!(due(2, &[2, 2, 0], &[0, 0, 0]), (4, 0));
    assert_eq!(due(2, &[2, 1, 0, 2, 0, 0, 1, 1, 1], &[0, 0, 0]), (5, 2));
    assert_eq!(due(2, &[], &[0]), (11, 0));
    assert_eq!(due(2, &[], &long), (11, 0));
    for gate in [[0, 0, 0], [7, 0, 0], [2, 2, 0], [1, 0, 2], [3, 0, 1], [1, 1, 1]] {
        assert_eq!(due(2, &[2, 0, 0], &[&[2, 0, 0, 2, 0, 0][..], &gate].concat()), (11, 2), "{gate:?}");
    }
}

#[test]
fn what_is_said_of_two_files() {
    for (first, second, printed, complaint) in [
        ("01\n020000\n020000\n", "01\n030000\n", "same\n", ""),
        ("01\n020000\n", "01\n030000\n", "differ\n", ""),
        ("01\n020000", "01\n03000\n", "refused 09 0002\n", "same: a: refused\n"),
        ("01\n070000\n", "01\n03000\n", "refused 09 0002\n", "same: b: refused\n"),
        ("01\n070000\n", "09\n", "refused 01 0000\n", "same: b: refused\n"),
        ("01\n070000\n", "02\n080000\n", "", "same: a and b have different wire counts\n"),
        ("01\n070000\n", "01\n080000\n", "refused 03 0000\n", "same: a: refused\n"),
        ("01\n020000\n", "01\n020000\n010000\n", "refused 0b 0001\n", "same: b: refused\n"),
    ] {
        let said = said_of(("a", first.as_bytes()), ("b", second.as_bytes()));
        assert_eq!(said, Said { printed: printed.to_string(), complaint: complaint.to_string() });
    }
}
