//! The checks of a second trim, and of the reply to a reply, must be able to say no. What they judge comes from the
//! trimmer built for speed, or is written by hand. No C function is called.

use sulmedra_reference::again::{check_again, check_left_alone, check_printed_again, without_second_line};
use sulmedra_reference::fast::{self, Trimmed};
use sulmedra_reference::gates::{GATE_BYTES, MOST_GATES};
use sulmedra_reference::odd_set::{odd_set, size, t_count};
use sulmedra_reference::printing::{counts_line, reply, Printed};
use sulmedra_reference::random::{circuit, circuit_of_odd_set, Random};
use sulmedra_reference::reading::read;
use sulmedra_reference::trimming::Counts;
use sulmedra_reference::writing::{plain_list, same_wires};

fn trim(n: usize, list: &[u8]) -> Trimmed {
    fast::trim(n, list, fast::find)
}

/// The counts that are due to a second trim, after a first one with these.
fn counted_again(first: Counts) -> Counts {
    Counts { t_in: first.t_out, odd_size: first.t_out, moves: 0, ..first }
}

#[test]
fn second_trims_are_accepted() {
    let mut random = Random::new(150);
    for n in 1..=8 {
        for length in [0, 1, 5, 20, 60, 200, 1000, MOST_GATES] {
            let first = trim(n, &circuit(&mut random, n, length));
            let again = trim(n, &first.gates);
            let judged = check_left_alone(n, &first.gates, &first.counts, &again.gates, &again.counts);
            assert_eq!(judged, Ok(()), "n = {n}, D {:?}", first.gates);
        }
    }
}

/// Seven T gates that all stay: each count of the second trim by itself, then the first T out.
#[test]
fn each_count_is_looked_at() {
    let mut m6 = [0; 256];
    m6[1..8].copy_from_slice(&[1, 1, 7, 1, 7, 7, 1]);
    let first = trim(3, &plain_list(&m6));
    let (d, right) = (&first.gates, trim(3, &first.gates).counts);
    let amiss = |first: Counts, again: Counts| check_again(3, d, &first, d, &again).err().unwrap_or_default();
    assert_eq!(amiss(first.counts, right), "");
    for (name, wrong) in [
        ("moves: ", Counts { moves: 1, ..right }),
        ("T in: ", Counts { t_in: 8, ..right }),
        ("T in: ", Counts { t_in: 6, ..right }),
        ("odd set size: ", Counts { odd_size: 8, ..right }),
        ("odd set size: ", Counts { odd_size: 6, ..right }),
        ("T out: ", Counts { t_out: 8, ..right }),
        ("T out: ", Counts { t_out: 6, ..right }),
    ] {
        assert!(amiss(first.counts, wrong).starts_with(name), "{wrong:?} gives {:?}", amiss(first.counts, wrong));
    }
    for t_out in [0, 6, 8] {
        let other = Counts { t_out, ..first.counts };
        assert!(amiss(other, right).starts_with("T in: "), "T out {t_out} gives {:?}", amiss(other, right));
    }
    // Whatever came in first does not matter.
    assert_eq!(amiss(Counts { t_in: 90, odd_size: 9, moves: 2, ..first.counts }, right), "");
}

/// Of another D the weights and rows alone are kept; of the library's own, the bytes and the number of gates too.
#[test]
fn bytes_count_where_the_library_wrote_them() {
    let mut random = Random::new(151);
    for n in 1..=8 {
        let Trimmed { gates: d, counts, .. } = trim(n, &circuit(&mut random, n, 100));
        let again = counted_again(counts);
        let longer = [&d[..], &[3, 0, 0, 5, 0, 0]].concat();
        assert_eq!(check_left_alone(n, &d, &counts, &d, &again), Ok(()));
        assert_eq!(check_again(n, &d, &counts, &longer, &again), Ok(()), "S and S dagger add nothing");
        let amiss = check_left_alone(n, &d, &counts, &longer, &again).expect_err("other bytes");
        assert!(amiss.starts_with("D is "), "{amiss}");
        let amiss = check_left_alone(n, &d, &counts, &d, &Counts { gates: counts.gates + 1, ..again });
        assert!(amiss.expect_err("another number of gates").starts_with("gates: "));
    }
}

/// E lacks a gate of D, whichever it is, or has one more, or a faulty one. The counts stay right.
#[test]
fn other_weights_and_rows_are_noticed() {
    let mut random = Random::new(152);
    for n in 2..=6 {
        let Trimmed { gates: d, counts, .. } = trim(n, &circuit(&mut random, n, 100));
        let again = counted_again(counts);
        let amiss = |e: &[u8]| check_again(n, &d, &counts, e, &again).expect_err("E is not D");
        for place in (0..d.len()).step_by(GATE_BYTES) {
            let shorter = [&d[..place], &d[place + GATE_BYTES..]].concat();
            assert!(amiss(&shorter).starts_with("D reads as"), "without the gate at byte {place} of {d:?}");
        }
        for gate in [[1, 0, 1], [2, 0, 0], [4, 1, 0]] {
            assert!(amiss(&[&d[..], &gate].concat()).starts_with("D reads as"), "{gate:?} after {d:?}");
        }
        for gate in [&[7, 0, 0][..], &[2, 8, 0], &[1, 0, 0], &[2]] {
            assert!(amiss(&[&d[..], gate].concat()).starts_with("E is refused"), "{gate:?} after {d:?}");
        }
    }
}

/// What is wrong with a block that passes for trimmed shows in the right trim of it.
fn shows(n: usize, d: &[u8]) -> String {
    let t_out = t_count(d);
    let passes = Counts { t_in: t_out, odd_size: t_out, t_out, moves: 0, gates: d.len() / GATE_BYTES };
    let again = trim(n, d);
    check_again(n, d, &passes, &again.gates, &again.counts).expect_err("the block was not trimmed")
}

/// Weights that no trim gives: on a parity of two wires the rest is 0 or 6, on more wires there is none.
#[test]
fn blocks_of_another_shape_are_noticed() {
    for (n, p, weight) in [(2, 3, 2), (2, 3, 4), (2, 3, 3), (2, 3, 5), (3, 7, 2), (3, 7, 7), (8, 0x81, 2), (8, 255, 6)]
    {
        let mut table = [0; 256];
        table[p] = weight;
        let d = fast::write(n, &table, &same_wires(n));
        assert!(shows(n, &d).starts_with("D reads as"), "weight {weight} on {p}: {}", shows(n, &d));
    }
    for table in [[0, 0, 0, 6], [0, 0, 0, 7], [0, 2, 0, 1], [0, 4, 6, 0], [0, 3, 5, 7]] {
        let mut weights = [0; 256];
        weights[..4].copy_from_slice(&table);
        let again = trim(2, &fast::write(2, &weights, &same_wires(2)));
        assert_eq!(read(2, &again.gates).weights, weights, "{table:?} stays");
    }
}

/// Two T gates where one S would do, and T and T dagger for nothing.
#[test]
fn more_t_gates_than_odd_parities_are_noticed() {
    assert_eq!(shows(1, &[2, 0, 0, 2, 0, 0]), "odd set size: 0, and the first T out is 2");
    assert_eq!(shows(1, &[2, 0, 0, 2, 0, 0, 2, 0, 0]), "odd set size: 1, and the first T out is 3");
    assert_eq!(shows(2, &[2, 1, 0, 6, 1, 0]), "odd set size: 0, and the first T out is 2");
}

/// A copier's block, with the new weights for all of C's odd set: the moves that it leaves out are made now.
#[test]
fn a_move_that_is_left_is_noticed() {
    let mut m7 = [0; 256];
    m7[1..16].fill(1);
    assert_eq!(shows(4, &plain_list(&m7)), "moves: 1 on a block that was trimmed");
    let mut random = Random::new(153);
    for n in 4..=8 {
        let reading = read(n, &circuit_of_odd_set(&mut random, n, (1 << n) - 2));
        let odd = odd_set(&reading.weights);
        let copy = fast::write(n, &fast::new_weights(n, &reading.weights, &odd), &reading.rows);
        assert_eq!(t_count(&copy), size(&odd));
        assert!(shows(n, &copy).starts_with("moves: "), "n = {n}: {}", shows(n, &copy));
    }
}

#[test]
fn the_second_line_is_taken_out() {
    for (text, due) in [
        (&b"04\n000e 000e 0001 0001\n060000\n"[..], &b"04\n060000\n"[..]),
        (b"01\n0000 0000 0000 0000\n", b"01\n"),
        (b"02\n0001 0001 0001 0000\n030000\n030000\n050100\n060100\n", b"02\n030000\n030000\n050100\n060100\n"),
        (b"refused 09 0001\n", b"refused 09 0001\n"),
        (b"a\nb", b"a\n"),
        (b"\n\n\n", b"\n\n"),
        (b"", b""),
    ] {
        assert_eq!(without_second_line(text), due, "{:?}", String::from_utf8_lossy(text));
    }
}

/// Only the same lines with the counts that are due will do.
#[test]
fn other_second_replies_are_noticed() {
    let first = b"04\n000e 000d 0001 0002\n060000\n";
    assert_eq!(check_printed_again(first, b"04\n0001 0001 0001 0000\n060000\n"), Ok(()));
    for wrong in [
        &first[..],
        b"04\n000e 0001 0001 0000\n060000\n",
        b"04\n0001 000d 0001 0000\n060000\n",
        b"04\n0001 0001 0000 0000\n060000\n",
        b"04\n0001 0001 0001 0002\n060000\n",
        b"04\n0001 0001 0001 0000\n",
        b"04\n0001 0001 0001 0000\n020000\n",
        b"04\n0001 0001 0001 0000\n060000\n060000\n",
        b"04\n0001 0001 0001 0000\n060000",
        b"05\n0001 0001 0001 0000\n060000\n",
        b"04\n060000\n",
        b"refused 09 0002\n",
        b"",
    ] {
        assert!(check_printed_again(first, wrong).is_err(), "{:?}", String::from_utf8_lossy(wrong));
    }
    for first in [&b"refused 01 0000\n"[..], b"04\n060000\n", b""] {
        assert!(check_printed_again(first, b"04\n0001 0001 0001 0000\n060000\n").is_err(), "a first that is no reply");
        assert!(check_printed_again(first, first).is_err(), "a first that is no reply, twice");
    }
}

/// The line of counts as it is printed, and with it the whole reply, against what the words say.
#[test]
fn printed_counts_are_those_of_the_second_trim() {
    let mut random = Random::new(154);
    for n in 1..=8 {
        let Trimmed { gates, counts, .. } = trim(n, &circuit(&mut random, n, 300));
        let t_out = counts.t_out;
        let again = counted_again(counts);
        let due = format!("{t_out:04x} {t_out:04x} {t_out:04x} 0000\n");
        assert_eq!(counts_line(&again), due.as_bytes());
        let printed = |counts: Counts| reply(&Printed { n, gates: gates.clone(), counts });
        assert_eq!(check_printed_again(&printed(counts), &printed(again)), Ok(()));
    }
}
