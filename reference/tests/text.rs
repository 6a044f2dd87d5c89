//! Texts that the library reads, held against the reference.

use sulmedra_reference::comparison::text::read_text;
use sulmedra_reference::entries::Reply;
use sulmedra_reference::gates::MOST_GATES;
use sulmedra_reference::random::{circuit, Random};
use sulmedra_reference::text::{write, Parsed};
use sulmedra_reference::texts::{crossed_out, damage, noise, Told, MALFORMED, NO_WIRE_COUNTS, ONE_LINE_MORE};

/// Reads a text into outputs of the least length.
fn read(text: &[u8], random: &mut Random) -> Result<Parsed, Reply> {
    read_text(text, 12_288, random)
}

fn refused(number: u64, place: u64) -> Result<Parsed, Reply> {
    Err(Reply { number, place })
}

/// The number of the fault, 0 for none.
fn number_of(said: Result<Parsed, Reply>) -> u64 {
    said.map_or_else(|reply| reply.number, |_| 0)
}

#[test]
fn document_01s_example() {
    let mut random = Random::new(280);
    let said = read(b"01\n020000\n020000\n", &mut random);
    assert_eq!(said, Ok(Parsed { n: 1, gates: vec![2, 0, 0, 2, 0, 0] }));
}

#[test]
fn random_texts() {
    let mut random = Random::new(281);
    for n in 1..=8 {
        for _ in 0..150 {
            let length = random.between(0, 60);
            let gates = circuit(&mut random, n, length);
            assert_eq!(read(&write(n, &gates), &mut random), Ok(Parsed { n, gates }));
        }
        for length in [MOST_GATES - 1, MOST_GATES] {
            let gates = circuit(&mut random, n, length);
            assert_eq!(read(&write(n, &gates), &mut random), Ok(Parsed { n, gates }));
        }
    }
}

/// Only the form is read here: any three bytes are a gate.
#[test]
fn gates_of_any_bytes() {
    let mut random = Random::new(282);
    for byte in 0..=255 {
        let gates = vec![byte, 255 - byte, byte ^ 90];
        assert_eq!(read(&write(8, &gates), &mut random), Ok(Parsed { n: 8, gates }));
    }
    for length in [1, 100, MOST_GATES] {
        let gates = random.bytes(3 * length);
        assert_eq!(read(&write(5, &gates), &mut random), Ok(Parsed { n: 5, gates }));
    }
}

/// Every pair of bytes as line one.
#[test]
fn every_line_one() {
    let mut random = Random::new(283);
    let mut told = Told::default();
    for first in 0..=255 {
        for second in (0..=255).step_by(if first == b'0' { 1 } else { 7 }) {
            told.note(number_of(read(&[first, second, b'\n'], &mut random)));
        }
    }
    assert_eq!(told.times(0), 8, "01 to 08 are accepted");
    told.all_came_up(&[1, 9]);
}

/// Every byte in each place of a gate line.
#[test]
fn every_byte_in_a_gate_line() {
    let mut random = Random::new(284);
    let mut accepted = 0;
    for place in 3..10 {
        for byte in 0..=255 {
            let mut text = b"02\n010001\n".to_vec();
            text[place] = byte;
            accepted += usize::from(read(&text, &mut random).is_ok());
        }
    }
    assert_eq!(accepted, 6 * 16 + 1, "sixteen digits in six places, and the newline");
}

#[test]
fn malformed_lines() {
    let mut random = Random::new(285);
    for (text, line) in MALFORMED {
        assert_eq!(read(text, &mut random), refused(9, line), "{:?}", String::from_utf8_lossy(text));
    }
}

/// Line one's form comes before its count, and its count before line two's form.
#[test]
fn the_order_of_lines() {
    let mut random = Random::new(286);
    for n in NO_WIRE_COUNTS {
        assert_eq!(read(format!("{n:02x}\n").as_bytes(), &mut random), refused(1, 0), "n = {n}");
        assert_eq!(read(format!("{n:02x}\nzz\n").as_bytes(), &mut random), refused(1, 0), "n = {n}");
        assert_eq!(read(format!("{n:02x}").as_bytes(), &mut random), refused(9, 1), "n = {n} without newline");
    }
    assert_eq!(read(b"zz\nzz\n", &mut random), refused(9, 1));
    assert_eq!(read(b"01\nzzzzzz\n0\n", &mut random), refused(9, 2));
}

#[test]
fn texts_around_the_most_gates() {
    let mut random = Random::new(287);
    for n in [1, 8] {
        let most = write(n, &circuit(&mut random, n, MOST_GATES));
        assert!(read(&most, &mut random).is_ok(), "4,096 gate lines");
        for line in ONE_LINE_MORE {
            let text = [&most[..], line.as_bytes()].concat();
            assert_eq!(read(&text, &mut random), refused(2, 0), "gate line 4,097 is {line:?}");
        }
        let mut unfinished = most.clone();
        unfinished.pop();
        assert_eq!(read(&unfinished, &mut random), refused(9, 4097), "line 4,097 has no newline");
        let mut damaged = [&most[..], b"020000\n"].concat();
        let place = most.len() - 2;
        damaged[place] = b'G';
        assert_eq!(read(&damaged, &mut random), refused(9, 4097), "line 4,097 comes before line 4,098");
        let far = [&most[..], &b"020000\n".repeat(100_000)].concat();
        assert_eq!(read(&far, &mut random), refused(2, 0), "many more lines");
    }
    let long = vec![b'0'; 3_000_000];
    assert_eq!(read(&long, &mut random), refused(9, 1), "one line of megabytes");
}

#[test]
fn outputs_around_the_least_length() {
    let mut random = Random::new(288);
    for text in [&b"01\n020000\n"[..], b"", b"zz", b"09\n"] {
        for length in [0, 3, 6336, 12_287] {
            assert_eq!(read_text(text, length, &mut random), refused(8, 0), "{length} bytes lent");
        }
    }
    for length in [12_288, 12_289, 12_291, 20_000] {
        assert!(read_text(b"01\n020000\n", length, &mut random).is_ok(), "{length} bytes lent");
        let most = write(3, &circuit(&mut random, 3, MOST_GATES));
        assert!(read_text(&most, length, &mut random).is_ok());
        let more = [&most[..], b"020000\n"].concat();
        assert_eq!(read_text(&more, length, &mut random), refused(2, 0));
    }
}

/// A random text with a byte or two changed, cut out or put in.
#[test]
fn damaged_texts() {
    let mut random = Random::new(289);
    let mut told = Told::default();
    for _ in 0..4000 {
        let n = random.between(1, 8);
        let length = random.between(0, 12);
        let mut text = write(n, &circuit(&mut random, n, length));
        for _ in 0..random.between(1, 2) {
            damage(&mut text, &mut random);
        }
        told.note(number_of(read(&text, &mut random)));
    }
    told.all_came_up(&[0, 1, 9]);
}

#[test]
fn damage_in_long_texts() {
    let mut random = Random::new(290);
    let text = write(8, &circuit(&mut random, 8, MOST_GATES));
    for _ in 0..60 {
        let (damaged, line) = crossed_out(&text, &mut random);
        assert_eq!(read(&damaged, &mut random), refused(9, line));
        let cut = random.below(text.len());
        let _ = read(&text[..cut], &mut random);
    }
}

/// Noise, and noise of bytes that texts are made of.
#[test]
fn texts_of_noise() {
    let mut random = Random::new(291);
    let mut told = Told::default();
    for round in 0..4000 {
        let text = noise(round, 40, &mut random);
        told.note(number_of(read(&text, &mut random)));
    }
    told.all_came_up(&[1, 9]);
}
