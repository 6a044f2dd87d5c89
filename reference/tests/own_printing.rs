//! The reference's own check of what is printed: it must be able to say no. No C function is called.

use sulmedra_reference::fast;
use sulmedra_reference::faults::Fault;
use sulmedra_reference::odd_set::t_count;
use sulmedra_reference::printing::{check_printed, read_reply, refused_line, reply, Printed, REPLY_BYTES};
use sulmedra_reference::random::{circuit, Random};
use sulmedra_reference::reading::read;
use sulmedra_reference::text::{self, write};
use sulmedra_reference::trimming::Counts;

/// A right reply to a list.
fn right(n: usize, list: &[u8]) -> Printed {
    let trimmed = fast::trim(n, list, fast::find);
    Printed { n, gates: trimmed.gates, counts: trimmed.counts }
}

#[test]
fn document_01s_example() {
    let printed = b"01\n0002 0000 0000 0000\n030000\n";
    let counts = Counts { t_in: 2, odd_size: 0, t_out: 0, moves: 0, gates: 1 };
    let said = Printed { n: 1, gates: vec![3, 0, 0], counts };
    assert_eq!(reply(&said), printed);
    assert_eq!(read_reply(printed), Ok(said.clone()));
    assert_eq!(check_printed(b"01\n020000\n020000\n", printed), Ok(Ok(said)));
}

#[test]
fn lines_of_refusals() {
    assert_eq!(refused_line(Fault { number: 9, place: 4097 }), b"refused 09 1001\n");
    assert_eq!(refused_line(Fault { number: 10, place: 0 }), b"refused 0a 0000\n");
    let fault = Fault { number: 4, place: 1 };
    assert_eq!(check_printed(b"01\n020000\n020100\n", b"refused 04 0001\n"), Ok(Err(fault)));
    for wrong in [
        &b"refused 04 0002\n"[..],
        b"refused 03 0001\n",
        b"refused 4 0001\n",
        b"refused 04 0001",
        b"refused 04 0001\n\n",
        b"Refused 04 0001\n",
        b"",
        b"01\n0002 0000 0000 0000\n030000\n",
    ] {
        assert!(check_printed(b"01\n020000\n020100\n", wrong).is_err(), "{:?}", String::from_utf8_lossy(wrong));
    }
    assert!(check_printed(b"01\n020000\n", b"refused 04 0000\n").is_err(), "a sound text is not refused");
}

/// Only the form that document 01 gives is a reply.
#[test]
fn other_forms_are_noticed() {
    for wrong in [
        &b""[..],
        b"01\n",
        b"01\n0002 0000 0000 0000",
        b"01\n0002 0000 0000 0000\n030000",
        b"01\n0002 0000 0000 0000\n030000\n\n",
        b"1\n0002 0000 0000 0000\n030000\n",
        b"01\n2 0 0 0\n030000\n",
        b"01\n0002  0000 0000 0000\n030000\n",
        b"01\n0002 0000 0000 0000 \n030000\n",
        b"01\n0002 0000 0000\n030000\n",
        b"01\n0002 0000 0000 0000 0001\n030000\n",
        b"01\n000A 0000 0000 0000\n030000\n",
        b"01\n0002 0000 0000 0000\n03000A\n",
        b"01\r\n0002 0000 0000 0000\n030000\n",
        b"01\n0002 0000 0000 0000\r\n030000\n",
        b"01\n030000\n0002 0000 0000 0000\n",
    ] {
        assert!(read_reply(wrong).is_err(), "{:?}", String::from_utf8_lossy(wrong));
    }
}

/// Weights 4 and 5 as document 01 spelled them before document 02.
#[test]
fn a_printed_z_is_noticed() {
    assert!(check_printed(b"01\n040000\n", b"01\n0000 0000 0000 0000\n030000\n030000\n").is_ok(), "S S");
    assert!(check_printed(b"01\n040000\n", b"01\n0000 0000 0000 0000\n040000\n").is_err(), "Z");
    let text = b"01\n040000\n020000\n";
    assert!(check_printed(text, b"01\n0001 0001 0001 0000\n050000\n060000\n").is_ok(), "S dagger T dagger");
    assert!(check_printed(text, b"01\n0001 0001 0001 0000\n040000\n020000\n").is_err(), "Z T");
}

/// Each count by itself, another wire count, and cheats on the gates.
#[test]
fn wrong_replies_are_noticed() {
    let mut random = Random::new(140);
    let mut tried = 0;
    while tried < 10 {
        let n = random.between(4, 6);
        let list = circuit(&mut random, n, 200);
        let said = right(n, &list);
        let Counts { t_in, odd_size, t_out, moves, gates } = said.counts;
        if moves < 2 || t_out == 0 {
            continue;
        }
        tried += 1;
        let text = write(n, &list);
        assert_eq!(check_printed(&text, &reply(&said)), Ok(Ok(said.clone())));
        let refused = |why: &str, wrong: Printed| {
            assert!(check_printed(&text, &reply(&wrong)).is_err(), "{why}, n = {n}, list {list:?}");
        };
        let with = |counts: Counts| Printed { counts, ..said.clone() };
        refused("T in", with(Counts { t_in: t_in + 1, ..said.counts }));
        refused("odd set size", with(Counts { odd_size: odd_size + 1, ..said.counts }));
        refused("T out", with(Counts { t_out: t_out - 1, ..said.counts }));
        refused("no moves", with(Counts { moves: 0, ..said.counts }));
        refused("too many moves", with(Counts { moves: odd_size - t_out + 1, ..said.counts }));
        refused("one wire more", Printed { n: n + 1, ..said.clone() });
        let copy = Counts { t_out: t_count(&list), moves: 0, gates: list.len() / 3, ..said.counts };
        refused("a copier", Printed { gates: list.clone(), counts: copy, ..said.clone() });
        let cut = said.gates[..said.gates.len() - 3].to_vec();
        refused("a gate is missing", Printed { gates: cut, ..with(Counts { gates: gates - 1, ..said.counts }) });
    }
}

/// The longest reply: n, the counts and 2,112 gates.
#[test]
fn the_longest_reply() {
    let gates = [1, 0, 1].repeat(2112);
    let counts = Counts { t_in: 0, odd_size: 0, t_out: 0, moves: 0, gates: 2112 };
    assert_eq!(reply(&Printed { n: 8, gates, counts }).len(), REPLY_BYTES);
}

/// The example texts are the circuits that the README says: M6, and M7 without parity 1; both leave the wires as they
/// were, and the stored replies are right ones.
#[test]
fn the_example_texts() {
    let ccz = include_bytes!("../../examples/ccz.txt");
    let fourteen = include_bytes!("../../examples/fourteen.txt");
    for (bytes, n, values) in
        [(&ccz[..], 3, &[1, 1, 7, 1, 7, 7, 1][..]), (fourteen, 4, &[0, 1, 1, 1, 1, 1, 1, 1, 1, 1, 1, 1, 1, 1, 1])]
    {
        let circuit = text::read(bytes, 12_288).expect("an example is accepted");
        let reading = read(n, &circuit.gates);
        assert_eq!((circuit.n, &reading.weights[1..=values.len()]), (n, values));
        assert_eq!(reading.rows[..n], [1, 2, 4, 8][..n]);
        assert_eq!(t_count(&circuit.gates), values.iter().filter(|weight| **weight != 0).count());
    }
    let kept = check_printed(ccz, include_bytes!("../../examples/ccz.out")).expect("right").expect("accepted");
    assert_eq!((kept.counts.t_in, kept.counts.t_out, kept.counts.moves), (7, 7, 0));
    let left =
        check_printed(fourteen, include_bytes!("../../examples/fourteen.out")).expect("right").expect("accepted");
    assert_eq!((left.counts.t_in, left.counts.t_out, left.gates), (14, 1, vec![6, 0, 0]));
}

/// The README shows the doubly controlled Z line by line, and both replies as they are stored.
#[test]
fn the_readme_shows_them() {
    let readme = include_str!("../../README.md");
    for stored in [include_str!("../../examples/ccz.out"), include_str!("../../examples/fourteen.out")] {
        let block: String = stored.lines().map(|line| format!("    {line}\n")).collect();
        assert!(readme.contains(&block), "not in the README:\n{block}");
    }
    let rows = readme.lines().filter_map(|line| line.strip_prefix("| `")?.split('`').next());
    let listed: Vec<&str> = rows.filter(|row| row.bytes().all(|byte| byte.is_ascii_hexdigit())).collect();
    assert_eq!(listed, include_str!("../../examples/ccz.txt").lines().collect::<Vec<_>>());
}
