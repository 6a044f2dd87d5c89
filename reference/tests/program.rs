//! Whole replies to texts, by the C function and by the program, held against the reference (`comparison::answering`
//! asks for all that shows in what is printed). Texts go to the C function by thousands, to the program by hundreds.

use std::fs::{self, File};
use std::io::Write;
use std::os::fd::OwnedFd;
use std::os::unix::net::UnixStream;
use std::os::unix::process::ExitStatusExt;
use std::process::Stdio;
use std::time::Duration;

use sulmedra_reference::comparison::answering::{answer, answer_and_trim, answer_into};
use sulmedra_reference::faults::Fault;
use sulmedra_reference::gates::{GATE_BYTES, MOST_GATES};
use sulmedra_reference::printing::{Printed, READ_BYTES, REPLY_BYTES};
use sulmedra_reference::program::{run, run_after, run_on_file, run_on_pieces, run_without_end, unread_pipe, Ended};
use sulmedra_reference::random::{circuit, circuit_of_odd_set, rows, weights, Random};
use sulmedra_reference::text::write;
use sulmedra_reference::texts::{crossed_out, damage, noise, Told, MALFORMED, NO_WIRE_COUNTS, ONE_LINE_MORE};
use sulmedra_reference::trimming::Counts;
use sulmedra_reference::{fast, writing};

/// What the program prints for a text, which is what the C function writes for it.
fn both(text: &[u8], random: &mut Random) -> Result<Printed, Fault> {
    let answer = answer(text, random);
    assert_eq!(shown(&run(text)), shown(&answer.bytes), "{} bytes of text {:?}", text.len(), shown(text));
    answer.said
}

fn shown(bytes: &[u8]) -> String {
    String::from_utf8_lossy(&bytes[..bytes.len().min(20_000)]).into_owned()
}

fn refused(number: u64, place: u64) -> Result<Printed, Fault> {
    Err(Fault { number, place })
}

/// The number of the fault, 0 for none.
fn number_of(said: &Result<Printed, Fault>) -> u64 {
    said.as_ref().map_or_else(|fault| fault.number, |_| 0)
}

#[test]
fn document_01s_example() {
    let mut random = Random::new(300);
    let text = b"01\n020000\n020000\n";
    assert_eq!(run(text), b"01\n0002 0000 0000 0000\n030000\n");
    let counts = Counts { t_in: 2, odd_size: 0, t_out: 0, moves: 0, gates: 1 };
    assert_eq!(both(text, &mut random), Ok(Printed { n: 1, gates: vec![3, 0, 0], counts }));
}

/// The manual's example: a Z is read, and written as S S, with a T as S dagger T dagger.
#[test]
fn a_z_is_read_and_none_is_written() {
    let mut random = Random::new(321);
    let text = b"02\n040000\n040100\n020100\n";
    assert_eq!(shown(&run(text)), "02\n0001 0001 0001 0000\n030000\n030000\n050100\n060100\n");
    let said = answer_and_trim(text, &mut random).said.expect("a sound text is accepted");
    assert_eq!(said.gates, [3, 0, 0, 3, 0, 0, 5, 1, 0, 6, 1, 0]);
}

/// A refusal is one line of sixteen bytes and nothing else.
#[test]
fn lines_of_refusals() {
    let mut random = Random::new(301);
    let far = [&b"08\n"[..], &b"020000\n".repeat(2748), b"070000\n"].concat();
    let late = [&b"08\n"[..], &b"020000\n".repeat(MOST_GATES - 1), b"02000A\n"].concat();
    for (text, line) in [
        (&b"00\n"[..], &b"refused 01 0000\n"[..]),
        (b"01\n010000\n", b"refused 05 0000\n"),
        (b"", b"refused 09 0001\n"),
        (b"01\n020000\n020000\n020100\n", b"refused 04 0002\n"),
        (&far, b"refused 03 0abc\n"),
        (&late, b"refused 09 1001\n"),
    ] {
        assert_eq!(run(text), line, "{:?}", shown(text));
        assert_eq!(answer(text, &mut random).bytes, line, "{:?}", shown(text));
    }
}

/// The two circuits of the README, with the replies that are stored beside them.
#[test]
fn the_example_texts() {
    let mut random = Random::new(302);
    for (text, reply) in [
        (&include_bytes!("../../examples/ccz.txt")[..], &include_bytes!("../../examples/ccz.out")[..]),
        (include_bytes!("../../examples/fourteen.txt"), include_bytes!("../../examples/fourteen.out")),
    ] {
        assert_eq!(shown(&answer_and_trim(text, &mut random).bytes), shown(reply));
        assert_eq!(shown(&run(text)), shown(reply));
    }
}

#[test]
fn random_texts() {
    let mut random = Random::new(303);
    for (n, rounds) in [(1, 500), (2, 500), (3, 500), (4, 500), (5, 400), (6, 300), (7, 200), (8, 120)] {
        for round in 0..rounds {
            let length = if round % 20 == 0 { random.between(81, 700) } else { random.between(0, 80) };
            let text = write(n, &circuit(&mut random, n, length));
            assert!(answer_and_trim(&text, &mut random).said.is_ok(), "a sound text is accepted");
        }
    }
}

#[test]
fn random_texts_by_the_program() {
    let mut random = Random::new(304);
    for n in 1..=8 {
        for _ in 0..40 {
            let length = random.between(0, 120);
            let text = write(n, &circuit(&mut random, n, length));
            assert!(both(&text, &mut random).is_ok(), "a sound text is accepted");
        }
    }
}

/// Odd sets of chosen sizes, dense ones too, with even weights and other rows beside them: many moves, long replies.
#[test]
fn texts_of_chosen_odd_sets() {
    let mut random = Random::new(305);
    let (mut moves, mut longest) = (0, 0);
    for n in 2..=8 {
        let most = (1 << n) - 1;
        for size in [most, most / 2, random.between(0, most), random.between(0, most)] {
            let text = write(n, &circuit_of_odd_set(&mut random, n, size));
            let printed = both(&text, &mut random).expect("accepted");
            assert_eq!(printed.counts.odd_size, size);
            moves += printed.counts.moves;
            longest = longest.max(printed.counts.gates);
        }
    }
    assert!(moves > 0 && longest > 100, "{moves} moves, {longest} gates at most");
}

/// M6, M7 and M7 without parity 1, as document 01 says that they end.
#[test]
fn the_marked_circuits() {
    let mut random = Random::new(306);
    let mut ends = |n: usize, values: &[u8]| {
        let mut table = [0; 256];
        table[1..=values.len()].copy_from_slice(values);
        let counts = both(&write(n, &writing::plain_list(&table)), &mut random).expect("accepted").counts;
        (counts.odd_size, counts.t_out, counts.moves)
    };
    assert_eq!(ends(3, &[1, 1, 7, 1, 7, 7, 1]), (7, 7, 0));
    assert_eq!(ends(4, &[1; 15]), (15, 0, 1));
    let (size, t_out, _) = ends(4, &[0, 1, 1, 1, 1, 1, 1, 1, 1, 1, 1, 1, 1, 1, 1]);
    assert_eq!((size, t_out), (14, 1));
}

/// Empty lists: n alone.
#[test]
fn texts_of_one_line() {
    let mut random = Random::new(307);
    let counts = Counts { t_in: 0, odd_size: 0, t_out: 0, moves: 0, gates: 0 };
    for n in 1..=8 {
        let due = Printed { n, gates: Vec::new(), counts };
        assert_eq!(both(format!("{n:02x}\n").as_bytes(), &mut random), Ok(due));
    }
    for n in NO_WIRE_COUNTS {
        assert_eq!(both(format!("{n:02x}\n").as_bytes(), &mut random), refused(1, 0), "n = {n}");
        assert_eq!(both(format!("{n:02x}\nzz\n").as_bytes(), &mut random), refused(1, 0), "n = {n}");
        assert_eq!(both(format!("{n:02x}").as_bytes(), &mut random), refused(9, 1), "n = {n} without newline");
    }
}

#[test]
fn malformed_lines() {
    let mut random = Random::new(308);
    for (text, line) in MALFORMED {
        assert_eq!(both(text, &mut random), refused(9, line), "{:?}", shown(text));
    }
}

/// Every fault of a gate at its place; a malformed line anywhere comes first.
#[test]
fn faults_of_gates() {
    let mut random = Random::new(309);
    for (number, gate) in [
        (3, [0, 0, 0]),
        (3, [7, 0, 0]),
        (3, [255, 255, 255]),
        (3, [0, 9, 9]),
        (4, [2, 8, 0]),
        (4, [1, 0, 8]),
        (4, [1, 255, 255]),
        (4, [4, 0, 1]),
        (5, [1, 0, 0]),
    ] {
        for (before, after) in [(0, 0), (0, 3), (9, 5), (300, 1), (MOST_GATES - 1, 0)] {
            let n = random.between(1, 8);
            let first = circuit(&mut random, n, before);
            let gates = [&first[..], &gate, &circuit(&mut random, n, after)].concat();
            let text = write(n, &gates);
            assert_eq!(both(&text, &mut random), refused(number, before as u64), "n = {n}, gate {gate:?}");
            if before + after + 1 < MOST_GATES {
                let line = (before + after + 3) as u64;
                let malformed = [&text[..], b"02\n"].concat();
                assert_eq!(both(&malformed, &mut random), refused(9, line), "n = {n}, gate {gate:?}");
            }
        }
    }
}

/// The first faulty gate is named, and within it the first fault.
#[test]
fn gates_with_any_bytes() {
    let mut random = Random::new(310);
    let mut told = Told::default();
    for _ in 0..3000 {
        let n = random.between(1, 8);
        let length = random.between(1, 20);
        let mut gates = circuit(&mut random, n, length);
        for _ in 0..random.between(1, 3) {
            let place = random.below(gates.len());
            gates[place] = random.below(10) as u8;
        }
        told.note(number_of(&answer(&write(n, &gates), &mut random).said));
    }
    told.all_came_up(&[0, 3, 4, 5]);
}

#[test]
fn damaged_texts() {
    let mut random = Random::new(311);
    let mut told = Told::default();
    for round in 0..4000 {
        let n = random.between(1, 8);
        let length = random.between(0, 12);
        let mut text = write(n, &circuit(&mut random, n, length));
        damage(&mut text, &mut random);
        if round % 20 == 0 {
            told.note(number_of(&both(&text, &mut random)));
        } else {
            told.note(number_of(&answer(&text, &mut random).said));
        }
    }
    told.all_came_up(&[0, 1, 3, 4, 5, 9]);
}

#[test]
fn damage_in_long_texts() {
    let mut random = Random::new(312);
    let whole = write(8, &circuit(&mut random, 8, MOST_GATES));
    for _ in 0..40 {
        let (text, line) = crossed_out(&whole, &mut random);
        assert_eq!(both(&text, &mut random), refused(9, line));
    }
}

/// Noise, and noise of bytes that texts are made of.
#[test]
fn texts_of_noise() {
    let mut random = Random::new(313);
    let mut told = Told::default();
    for round in 0..4000 {
        let text = noise(round, 60, &mut random);
        if round % 20 < 3 {
            told.note(number_of(&both(&text, &mut random)));
        } else {
            told.note(number_of(&answer(&text, &mut random).said));
        }
    }
    told.all_came_up(&[1, 9]);
    for length in [READ_BYTES, 100_000, 1_000_000] {
        let noise = random.bytes(length);
        let _ = both(&noise, &mut random);
    }
}

#[test]
fn texts_around_the_most_gates() {
    let mut random = Random::new(314);
    for n in [1, 2, 8] {
        let most = write(n, &circuit(&mut random, n, MOST_GATES));
        assert_eq!(most.len() + 1, READ_BYTES);
        assert!(both(&most, &mut random).is_ok(), "4,096 gate lines");
        assert_eq!(both(&most[..most.len() - 1], &mut random), refused(9, 4097), "line 4,097 has no newline");
        assert_eq!(both(&most[..most.len() - 7], &mut random).map(|_| ()), Ok(()), "4,095 gate lines");
        for line in ONE_LINE_MORE {
            let text = [&most[..], line.as_bytes()].concat();
            assert_eq!(both(&text, &mut random), refused(2, 0), "gate line 4,097 is {line:?}");
        }
        let mut damaged = [&most[..], b"020000\n"].concat();
        damaged[most.len() - 2] = b'G';
        assert_eq!(both(&damaged, &mut random), refused(9, 4097), "line 4,097 comes before line 4,098");
        let mut faulty = [&most[..], b"020000\n"].concat();
        faulty[3..9].copy_from_slice(b"070000");
        assert_eq!(both(&faulty, &mut random), refused(2, 0), "the text is judged before its gates");
    }
}

/// Many megabytes: the program stops reading when it has what decides, and the rest of the pipe breaks.
#[test]
fn texts_of_many_megabytes() {
    let mut random = Random::new(315);
    const LONG: usize = 32 << 20;
    let most = write(4, &circuit(&mut random, 4, MOST_GATES));
    let (line, first) = (b"020000\n", &b"04\n"[..]);
    let lines = [first, &line.repeat(LONG / line.len())].concat();
    assert_eq!(both(&lines, &mut random), refused(2, 0));
    assert_eq!(both(&vec![b'0'; LONG], &mut random), refused(9, 1), "one line");
    assert_eq!(both(&[first, &vec![b'2'; LONG]].concat(), &mut random), refused(9, 2), "a second line");
    assert_eq!(both(&[&most[..], &vec![0; LONG]].concat(), &mut random), refused(2, 0), "zeros after a sound text");
    let mut damaged = lines.clone();
    damaged[READ_BYTES - 3] = b'x';
    assert_eq!(both(&damaged, &mut random), refused(9, 4097), "a late fault");
    damaged[READ_BYTES - 3] = line[5];
    damaged[READ_BYTES + 3] = b'x';
    assert_eq!(both(&damaged, &mut random), refused(2, 0), "a fault that comes too late");
}

/// What stands after the first 28,676 bytes changes nothing, and is not waited for.
#[test]
fn the_first_bytes_decide() {
    let mut random = Random::new(316);
    for _ in 0..10 {
        let mut text = write(3, &circuit(&mut random, 3, MOST_GATES + 100));
        for _ in 0..random.below(2) {
            damage(&mut text, &mut random);
        }
        let cut = &text[..READ_BYTES];
        let due = answer(cut, &mut random).bytes;
        assert_eq!(answer(&text, &mut random).bytes, due);
        assert_eq!(run(&text), due);
        assert_eq!(run_without_end(cut), due, "the program waits for more");
    }
    assert_eq!(run_on_file("/dev/zero"), b"refused 09 0001\n", "an input that never ends");
}

/// The same text in pieces of odd sizes, some of them with a pause after each: reads come back short.
#[test]
fn texts_in_pieces() {
    let mut random = Random::new(317);
    for n in [1, 4, 8] {
        for length in [1, 60, MOST_GATES] {
            let text = write(n, &circuit(&mut random, n, length));
            let due = answer(&text, &mut random).bytes;
            for size in [1, 3, 7, 13, 1021, 4097] {
                let pieces: Vec<&[u8]> = text.chunks(size).collect();
                assert_eq!(shown(&run_on_pieces(&pieces, Duration::ZERO)), shown(&due), "pieces of {size}");
                if pieces.len() <= 40 {
                    let printed = run_on_pieces(&pieces, Duration::from_millis(2));
                    assert_eq!(shown(&printed), shown(&due), "pieces of {size}, with pauses");
                }
            }
            let mut pieces = Vec::new();
            let mut rest = &text[..];
            while !rest.is_empty() {
                let (piece, left) = rest.split_at(random.between(0, 900).min(rest.len()));
                pieces.push(piece);
                rest = left;
            }
            assert_eq!(shown(&run_on_pieces(&pieces, Duration::ZERO)), shown(&due), "random pieces, empty ones too");
        }
    }
}

#[test]
fn texts_from_files() {
    let folder = concat!(env!("CARGO_MANIFEST_DIR"), "/../examples/");
    assert_eq!(run_on_file(&format!("{folder}fourteen.txt")), include_bytes!("../../examples/fourteen.out"));
    assert_eq!(run_on_file("/dev/null"), b"refused 09 0001\n");
}

const FOURTEEN: &str = concat!(env!("CARGO_MANIFEST_DIR"), "/../examples/fourteen.txt");
const FOURTEEN_PRINTED: &str = include_str!("../../examples/fourteen.out");

/// The example of fourteen T gates as input, in a shell that does `first` before it becomes the program.
fn fourteen_after(first: &str, output: Stdio) -> Ended {
    run_after(first, Stdio::from(File::open(FOURTEEN).expect("the example is there")), output)
}

/// The program ended by itself: with status 0, and with these on its output and its error output.
fn by_itself(ended: Ended, printed: &str, complaint: &str, case: &str) {
    assert_eq!((shown(&ended.printed).as_str(), ended.complaint.as_str()), (printed, complaint), "{case}");
    assert_eq!((ended.status.code(), ended.status.signal()), (Some(0), None), "{case}");
}

/// The manual's diagnostics, word for word. Nothing is printed for an input that cannot be read.
#[test]
fn streams_that_fail() {
    for (first, printed, complaint) in [
        ("", FOURTEEN_PRINTED, ""),
        ("exec < /", "", "trim: standard input: Is a directory\n"),
        ("exec <&-", "", "trim: standard input: Bad file descriptor\n"),
        ("exec > /dev/full", "", "trim: standard output: No space left on device\n"),
        ("exec >&-", "", "trim: standard output: Bad file descriptor\n"),
        ("exec < / 2> /dev/full", "", ""),
        ("exec > /dev/full 2>&-", "", ""),
    ] {
        by_itself(fourteen_after(first, Stdio::piped()), printed, complaint, first);
    }
}

/// The example, then a read that fails because no more has come yet: a part of a circuit is not taken for the whole.
#[test]
fn a_read_that_fails_after_some_bytes() {
    let (mut ours, theirs) = UnixStream::pair().expect("the system has sockets");
    theirs.set_nonblocking(true).expect("reads need not wait");
    ours.write_all(&fs::read(FOURTEEN).expect("the example is there")).expect("there is room");
    let ended = run_after("", Stdio::from(OwnedFd::from(theirs)), Stdio::piped());
    by_itself(ended, "", "trim: standard input: Resource temporarily unavailable\n", "no more bytes yet");
}

/// Output that nobody reads: standard error tells, as SIGPIPE is ignored, by the shell or by the program itself.
#[test]
fn a_pipe_that_nobody_reads() {
    for first in ["", "trap '' PIPE"] {
        let ended = fourteen_after(first, Stdio::from(unread_pipe()));
        by_itself(ended, "", "trim: standard output: Broken pipe\n", first);
    }
}

/// A file that may not grow as long as the reply has its first part, and standard error tells.
#[test]
fn a_reply_that_is_cut_off() {
    let mut random = Random::new(320);
    let text = write(8, &fast::write(8, &weights(&mut random, 8), &rows(&mut random, 8)));
    let due = run(&text);
    assert!(due.len() > 1024, "{} bytes", due.len());
    let folder = env!("CARGO_TARGET_TMPDIR");
    let (input, output) = (format!("{folder}/long.txt"), format!("{folder}/cut_off.txt"));
    fs::write(&input, &text).expect("the folder is there");
    let into = |path: &str| Stdio::from(File::create(path).expect("the folder is there"));
    let from = || Stdio::from(File::open(&input).expect("it was just written"));
    let ended = run_after("trap '' XFSZ\nulimit -f 1", from(), into(&output));
    by_itself(ended, "", "trim: standard output: File too large\n", "one block");
    let part = fs::read(&output).expect("the program has written it");
    assert!((1..due.len()).contains(&part.len()), "{} of {} bytes", part.len(), due.len());
    assert_eq!(shown(&part), shown(&due[..part.len()]));
    by_itself(run_after("trap '' XFSZ", from(), into(&output)), "", "", "no limit");
    assert_eq!(fs::read(&output).expect("the program has written it"), due);
}

/// Arguments and options are ignored.
#[test]
fn arguments() {
    let ended = fourteen_after("exec \"$0\" --help examples", Stdio::piped());
    by_itself(ended, FOURTEEN_PRINTED, "", "--help");
}

/// Outputs one byte short and shorter are refused with 8, whatever the text is; longer ones keep their rest.
#[test]
fn outputs_around_the_least_length() {
    let mut random = Random::new(319);
    let most = write(8, &circuit(&mut random, 8, MOST_GATES));
    let more = [&most[..], b"020000\n"].concat();
    for text in [&b"01\n020000\n"[..], b"", b"zz", b"09\n", b"01\n010000\n", &most, &more] {
        for length in [0, 1, 15, 16, GATE_BYTES * MOST_GATES, REPLY_BYTES - 1] {
            let reply = answer_into(text, length, &mut random).map(|answer| answer.bytes);
            assert_eq!(reply.map_err(|reply| (reply.number, reply.place)), Err((8, 0)), "{length} bytes lent");
        }
        let least = answer(text, &mut random).bytes;
        for length in [REPLY_BYTES, REPLY_BYTES + 1, 20_000, 1 << 20] {
            let answer = answer_into(text, length, &mut random).expect("there is room");
            assert_eq!(shown(&answer.bytes), shown(&least), "{length} bytes lent");
        }
    }
}
