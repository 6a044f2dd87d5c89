//! The reference's own reading of the text form. No C function is called.

use sulmedra_reference::entries::Reply;
use sulmedra_reference::gates::MOST_GATES;
use sulmedra_reference::random::{circuit, Random};
use sulmedra_reference::text::{read, write, Parsed};

fn refusal(text: &[u8]) -> (u64, u64) {
    let Reply { number, place } = read(text, 12_288).expect_err("the text is refused");
    (number, place)
}

#[test]
fn what_is_written_reads_back() {
    let mut random = Random::new(130);
    for n in 1..=8 {
        for length in [0, 1, 2, 50, MOST_GATES] {
            let gates = circuit(&mut random, n, length);
            assert_eq!(read(&write(n, &gates), 12_288), Ok(Parsed { n, gates }));
        }
    }
}

#[test]
fn document_01s_example() {
    assert_eq!(read(b"01\n020000\n020000\n", 12_288), Ok(Parsed { n: 1, gates: vec![2, 0, 0, 2, 0, 0] }));
    assert_eq!(write(1, &[2, 0, 0, 2, 0, 0]), b"01\n020000\n020000\n");
}

#[test]
fn malformed_lines() {
    for (text, line) in [
        (&b""[..], 1),
        (b"\n", 1),
        (b"01", 1),
        (b"1\n", 1),
        (b"001\n", 1),
        (b"0x\n", 1),
        (b"0A\n", 1),
        (b"01\r\n", 1),
        (b"01 \n", 1),
        (b"01\n\n", 2),
        (b"01\n020000", 2),
        (b"01\n02000\n", 2),
        (b"01\n0200000\n", 2),
        (b"01\n02000A\n", 2),
        (b"01\n020000\n02 000\n", 3),
        (b"01\n020000\n\n020000\n", 3),
        (b"01\n020000\n0", 3),
        (b"zz\nzz\n", 1),
    ] {
        assert_eq!(refusal(text), (9, line), "{:?}", String::from_utf8_lossy(text));
    }
}

/// Gates are not judged here, only their form is.
#[test]
fn gates_are_not_judged() {
    assert_eq!(read(b"01\nffffff\n", 12_288), Ok(Parsed { n: 1, gates: vec![255; 3] }));
}

#[test]
fn counts_and_lengths() {
    for n in [0, 9, 255] {
        assert_eq!(refusal(format!("{n:02x}\nzz\n").as_bytes()), (1, 0), "n = {n}: line one comes before line two");
    }
    assert_eq!(read(b"", 12_287).map_err(|fault| fault.number), Err(8), "8 comes before the lines");
    let most = write(8, &[2, 0, 0].repeat(MOST_GATES));
    assert!(read(&most, 12_288).is_ok());
    for last in ["020000\n", "\n", "z", "020000", "zzzzzz\n", "020000\n020000\n"] {
        let text = [&most[..], last.as_bytes()].concat();
        assert_eq!(refusal(&text), (2, 0), "gate line 4,097 is {last:?}");
    }
    let mut earlier = most.clone();
    let place = earlier.len() - 2;
    earlier[place] = b'G';
    assert_eq!(refusal(&[&earlier[..], b"020000\n"].concat()), (9, 4097), "line 4,097 comes before line 4,098");
}
