//! The program `same` on two files (document 02, 2.1): its output, its error output and its status, word for word. Where
//! both files can be read, the reference says what is due (`same::said_of`).

use std::ffi::OsString;
use std::fs::{self, File, Permissions};
use std::os::unix::ffi::OsStringExt;
use std::os::unix::fs::{symlink, PermissionsExt};
use std::os::unix::process::ExitStatusExt;
use std::path::Path;
use std::process::Stdio;

use sulmedra_reference::gates::{CNOT, GATE_BYTES, MOST_GATES};
use sulmedra_reference::printing::READ_BYTES;
use sulmedra_reference::program::{run_same, run_same_after, unread_pipe, Ended};
use sulmedra_reference::random::{circuit, Random};
use sulmedra_reference::same::{said_of, Said};
use sulmedra_reference::text::write;
use sulmedra_reference::texts::{crossed_out, damage, MALFORMED, NO_WIRE_COUNTS, ONE_LINE_MORE};
use sulmedra_reference::variations::{reordered, rewritten, with_one_gate_other};

const EXAMPLES: &str = concat!(env!("CARGO_MANIFEST_DIR"), "/../examples");

/// T and T, and S, which act alike; and Z, which does not.
const TT: &[u8] = b"01\n020000\n020000\n";
const S: &[u8] = b"01\n030000\n";
const Z: &[u8] = b"01\n040000\n";

/// A folder of a test's own, with nothing in it.
fn folder(name: &str) -> String {
    let folder = format!("{}/same_{name}", env!("CARGO_TARGET_TMPDIR"));
    if Path::new(&folder).exists() {
        fs::remove_dir_all(&folder).expect("what an earlier test left can be removed");
    }
    fs::create_dir_all(&folder).expect("there is room for a folder");
    folder
}

fn put(folder: &str, name: impl AsRef<Path>, bytes: &[u8]) {
    fs::write(Path::new(folder).join(name), bytes).expect("the folder is there");
}

/// A folder with the three files above, by the names that are used below.
fn folder_of_three(name: &str) -> String {
    let folder = folder(name);
    [("tt", TT), ("s", S), ("z", Z)].into_iter().for_each(|(name, text)| put(&folder, name, text));
    folder
}

/// What the program said: it ended by itself, with status 0.
fn said_by(ended: Ended) -> Said {
    assert_eq!((ended.status.code(), ended.status.signal()), (Some(0), None), "{}", ended.complaint);
    Said { printed: shown(&ended.printed), complaint: ended.complaint }
}

fn said(printed: &str, complaint: &str) -> Said {
    Said { printed: printed.to_string(), complaint: complaint.to_string() }
}

fn shown(bytes: &[u8]) -> String {
    String::from_utf8_lossy(&bytes[..bytes.len().min(400)]).into_owned()
}

/// Writes two files, lets the program compare them, and holds what it says against the reference. The files stay as they
/// are.
fn compared(folder: &str, first: &[u8], second: &[u8]) -> Said {
    put(folder, "one.txt", first);
    put(folder, "other.txt", second);
    let told = said_by(run_same(folder, &["one.txt", "other.txt"]));
    assert_eq!(told, said_of(("one.txt", first), ("other.txt", second)), "{:?} and {:?}", shown(first), shown(second));
    for (name, text) in [("one.txt", first), ("other.txt", second)] {
        assert!(fs::read(Path::new(folder).join(name)).is_ok_and(|bytes| bytes == text), "{name} was changed");
    }
    told
}

#[test]
fn the_example_texts() {
    for (first, second, line) in [
        ("ccz.txt", "ccz_other.txt", "same\n"),
        ("ccz_other.txt", "ccz.txt", "same\n"),
        ("ccz.txt", "ccz.txt", "same\n"),
        ("ccz.txt", "ccz_wrong.txt", "differ\n"),
        ("ccz_wrong.txt", "ccz_other.txt", "differ\n"),
    ] {
        assert_eq!(said_by(run_same(EXAMPLES, &[first, second])), said(line, ""), "{first} {second}");
    }
}

#[test]
fn lines_by_hand() {
    let folder = folder_of_three("by_hand");
    put(&folder, "refused", b"01\n020000\n010000\n");
    put(&folder, "open", b"01\n020000");
    put(&folder, "two", b"02\n020000\n020000\n");
    for (first, second, printed, complaint) in [
        ("tt", "s", "same\n", ""),
        ("s", "tt", "same\n", ""),
        ("tt", "tt", "same\n", ""),
        ("tt", "z", "differ\n", ""),
        ("refused", "s", "refused 05 0001\n", "same: refused: refused\n"),
        ("s", "refused", "refused 0b 0001\n", "same: refused: refused\n"),
        ("refused", "refused", "refused 05 0001\n", "same: refused: refused\n"),
        ("open", "s", "refused 09 0002\n", "same: open: refused\n"),
        ("s", "open", "refused 09 0002\n", "same: open: refused\n"),
        ("refused", "open", "refused 09 0002\n", "same: open: refused\n"),
        ("tt", "two", "", "same: tt and two have different wire counts\n"),
        ("two", "tt", "", "same: two and tt have different wire counts\n"),
    ] {
        assert_eq!(said_by(run_same(&folder, &[first, second])), said(printed, complaint), "{first} {second}");
    }
}

/// Sound texts, and a text with each fault. Those of the text come first, then those of the gates.
const JUDGED: [&[u8]; 16] = [
    b"02\n",
    b"02\n020000\n010001\n",
    b"02\n010001\n020000\n",
    b"00\n",
    b"09\n020000\n",
    b"",
    b"02",
    b"02\n020000\n0200\n",
    b"02\n070000\n02000A\n",
    b"02\n000000\n",
    b"02\n020000\n030000\n070000\n",
    b"02\n020000\n020200\n",
    b"02\n010200\n",
    b"02\n020000\n040001\n",
    b"02\n020000\n010101\n",
    b"03\n020000\n010101\n",
];

/// Every pair of the texts above, one text as both files too.
#[test]
fn every_pair_of_faults() {
    let folder = folder("faults");
    let (mut lines, mut wire_counts) = (Vec::new(), 0);
    for first in JUDGED {
        for second in JUDGED {
            let told = compared(&folder, first, second);
            wire_counts += usize::from(told.complaint == "same: one.txt and other.txt have different wire counts\n");
            lines.push(told.printed);
        }
    }
    for (line, times) in [("same\n", 5), ("differ\n", 4), ("refused 0b 0000\n", 6), ("refused 0b 0001\n", 9)] {
        assert_eq!(lines.iter().filter(|other| *other == line).count(), times, "{line:?}");
    }
    assert_eq!(wire_counts, 18);
}

/// A gate that is refused at the first place, in the middle and at the last, in one file and in the other.
#[test]
fn places_of_faults() {
    let mut random = Random::new(380);
    let folder = folder("places");
    for n in [1, 5, 8] {
        let sound = circuit(&mut random, n, MOST_GATES);
        for (number, gate) in [(3, [9, 0, 0]), (4, [2, 8, 0]), (4, [4, 0, 1]), (5, [CNOT, 0, 0])] {
            for place in [0, 2748, MOST_GATES - 1] {
                let mut list = sound.clone();
                list[GATE_BYTES * place..][..GATE_BYTES].copy_from_slice(&gate);
                let (sound, faulty) = (write(n, &sound), write(n, &list));
                let first = format!("refused {number:02x} {place:04x}\n");
                assert_eq!(compared(&folder, &faulty, &sound), said(&first, "same: one.txt: refused\n"));
                let second = format!("refused 0b {place:04x}\n");
                assert_eq!(compared(&folder, &sound, &faulty), said(&second, "same: other.txt: refused\n"));
            }
        }
    }
}

#[test]
fn malformed_lines() {
    let folder = folder("malformed");
    for (text, line) in MALFORMED {
        let printed = format!("refused 09 {line:04x}\n");
        assert_eq!(compared(&folder, text, S), said(&printed, "same: one.txt: refused\n"), "{:?}", shown(text));
        assert_eq!(compared(&folder, S, text), said(&printed, "same: other.txt: refused\n"), "{:?}", shown(text));
    }
    for n in NO_WIRE_COUNTS {
        let text = format!("{n:02x}\nzz\n").into_bytes();
        assert_eq!(compared(&folder, &text, S), said("refused 01 0000\n", "same: one.txt: refused\n"), "n = {n}");
        assert_eq!(compared(&folder, S, &text), said("refused 01 0000\n", "same: other.txt: refused\n"), "n = {n}");
    }
}

#[test]
fn different_wire_counts() {
    let folder = folder("wire_counts");
    for n in 1..=8 {
        for other in 1..=8 {
            let told = compared(&folder, &write(n, &[]), &write(other, &[]));
            match n == other {
                true => assert_eq!(told, said("same\n", "")),
                false => assert_eq!(told, said("", "same: one.txt and other.txt have different wire counts\n")),
            }
        }
    }
}

/// Files that cannot be opened or read. Both are read before anything is judged, and the first that fails is told.
#[test]
fn files_that_are_not_there() {
    let folder = folder_of_three("missing");
    fs::create_dir(format!("{folder}/inner")).expect("the folder is there");
    symlink("nowhere", format!("{folder}/link")).expect("the folder is there");
    put(&folder, "empty", b"");
    let (long, too_long) = ("a".repeat(300), "a".repeat(4097));
    for (first, second, complaint) in [
        ("none", "s", "same: none: No such file or directory\n"),
        ("s", "none", "same: none: No such file or directory\n"),
        ("none", "nothing", "same: none: No such file or directory\n"),
        ("empty", "none", "same: none: No such file or directory\n"),
        ("none", "empty", "same: none: No such file or directory\n"),
        ("link", "s", "same: link: No such file or directory\n"),
        ("inner", "s", "same: inner: Is a directory\n"),
        ("s", "inner", "same: inner: Is a directory\n"),
        ("s", ".", "same: .: Is a directory\n"),
        ("inner", "none", "same: inner: Is a directory\n"),
        ("none", "inner", "same: none: No such file or directory\n"),
        ("s/inner", "s", "same: s/inner: Not a directory\n"),
        ("s", "inner/s", "same: inner/s: No such file or directory\n"),
        ("", "s", "same: : No such file or directory\n"),
        ("s", "", "same: : No such file or directory\n"),
        ("--help", "s", "same: --help: No such file or directory\n"),
        ("s", "-", "same: -: No such file or directory\n"),
        ("s", &long, &format!("same: {long}: File name too long\n")),
        ("s", &too_long, "same: the name of a file: File name too long\n"),
        (&too_long, "none", "same: the name of a file: File name too long\n"),
    ] {
        assert_eq!(said_by(run_same(&folder, &[first, second])), said("", complaint), "{first:?} {second:?}");
    }
}

#[test]
fn a_file_that_may_not_be_read() {
    let folder = folder_of_three("denied");
    let path = format!("{folder}/shut");
    put(&folder, "shut", S);
    fs::set_permissions(&path, Permissions::from_mode(0o000)).expect("the file is ours");
    if File::open(&path).is_ok() {
        println!("left out: this user may read every file");
        return;
    }
    for (first, second) in [("shut", "s"), ("s", "shut"), ("shut", "none")] {
        let told = said_by(run_same(&folder, &[first, second]));
        assert_eq!(told, said("", "same: shut: Permission denied\n"), "{first} {second}");
    }
}

#[test]
fn other_numbers_of_arguments() {
    let folder = folder_of_three("arguments");
    for arguments in [&[][..], &["s"], &["none"], &["--help"], &["s", "tt", "z"], &["s", "s", ""], &["none"; 7]] {
        let told = said_by(run_same(&folder, arguments));
        assert_eq!(told, said("", "usage: same FIRST SECOND\n"), "{arguments:?}");
    }
}

/// Names are taken as they are, and told as they are.
#[test]
fn names_of_files() {
    let folder = folder_of_three("names");
    let inner = format!("{folder}/inner folder");
    fs::create_dir(&inner).expect("the folder is there");
    symlink("../tt", format!("{inner}/link")).expect("the folder is there");
    for name in ["a name.txt", " ", "-", "--", "-h", "100%s%n%d", "it's \"it\"", "$HOME;`ls`", "line\nbreak", "naïve"]
    {
        put(&folder, name, TT);
        assert_eq!(said_by(run_same(&folder, &[name, "s"])), said("same\n", ""), "{name:?}");
        assert_eq!(said_by(run_same(&folder, &["z", name])), said("differ\n", ""), "{name:?}");
        put(&folder, name, b"01\n");
        put(&inner, name, b"02\n");
        let (here, there) = (name.to_string(), format!("{folder}/inner folder/{name}"));
        let complaint = format!("same: {here} and {there} have different wire counts\n");
        assert_eq!(said_by(run_same(&folder, &[&here, &there])), said("", &complaint));
        put(&folder, name, b"01\n020100\n");
        let complaint = format!("same: {name}: refused\n");
        assert_eq!(said_by(run_same(&folder, &[name, "s"])), said("refused 04 0000\n", &complaint));
        assert_eq!(said_by(run_same(&folder, &["s", name])), said("refused 0b 0000\n", &complaint));
        fs::remove_file(format!("{folder}/{name}")).expect("the file is there");
        let complaint = format!("same: {name}: No such file or directory\n");
        assert_eq!(said_by(run_same(&folder, &["s", name])), said("", &complaint));
    }
    for name in ["./tt", "inner folder/../tt", "inner folder/link", &format!("{folder}/tt")] {
        assert_eq!(said_by(run_same(&folder, &["s", name])), said("same\n", ""), "{name:?}");
    }
    // Bytes that are no text in UTF-8 name no file that could be opened.
    let odd = OsString::from_vec(vec![b'o', 0xff, b'd', 0x80]);
    let complaint = format!("same: {}: Invalid or incomplete multibyte or wide character\n", odd.to_string_lossy());
    put(&folder, &odd, TT);
    assert_eq!(said_by(run_same(&folder, &[&odd, &OsString::from("s")])), said("", &complaint));
    put(&folder, &odd, b"");
    assert_eq!(said_by(run_same(&folder, &[&odd, &odd])), said("", &complaint));
}

/// 4,096 gate lines in both files, and one more.
#[test]
fn texts_around_the_most_gates() {
    let mut random = Random::new(381);
    let folder = folder("long");
    for n in [1, 2, 8] {
        let list = circuit(&mut random, n, MOST_GATES);
        let most = write(n, &list);
        assert_eq!(most.len() + 1, READ_BYTES);
        let other = write(n, &reordered(&mut random, &list, 20));
        assert_eq!(compared(&folder, &most, &other), said("same\n", ""));
        assert_eq!(compared(&folder, &most, &most[..most.len() - 7]), said("differ\n", ""), "one gate less");
        let open = &most[..most.len() - 1];
        assert_eq!(compared(&folder, open, &most), said("refused 09 1001\n", "same: one.txt: refused\n"));
        assert_eq!(compared(&folder, &most, open), said("refused 09 1001\n", "same: other.txt: refused\n"));
        for line in ONE_LINE_MORE {
            let long = [&most[..], line.as_bytes()].concat();
            let first = said("refused 02 0000\n", "same: one.txt: refused\n");
            assert_eq!(compared(&folder, &long, &most), first, "gate line 4,097 is {line:?}");
            assert_eq!(compared(&folder, &long, &long), first, "gate line 4,097 is {line:?}");
            let second = said("refused 02 0000\n", "same: other.txt: refused\n");
            assert_eq!(compared(&folder, &most, &long), second, "gate line 4,097 is {line:?}");
        }
        for _ in 0..10 {
            let (crossed, line) = crossed_out(&most, &mut random);
            let printed = format!("refused 09 {line:04x}\n");
            assert_eq!(compared(&folder, &most, &crossed), said(&printed, "same: other.txt: refused\n"));
        }
    }
}

/// What stands after the first 28,676 bytes changes nothing; files that never end are no trouble.
#[test]
fn the_first_bytes_decide() {
    let mut random = Random::new(382);
    let folder = folder_of_three("endless");
    let most = write(4, &circuit(&mut random, 4, MOST_GATES));
    let line = b"020000\n";
    for long in [[&most[..], &line.repeat(1 << 16)].concat(), [&most[..], &vec![0; 1 << 20]].concat()] {
        assert_eq!(compared(&folder, &long, &most), said("refused 02 0000\n", "same: one.txt: refused\n"));
        assert_eq!(compared(&folder, &most, &long), said("refused 02 0000\n", "same: other.txt: refused\n"));
    }
    let late = [&b"04\n"[..], &line.repeat(MOST_GATES - 1), b"02000x\n", &line.repeat(1 << 10)].concat();
    assert_eq!(compared(&folder, &late, &most), said("refused 09 1001\n", "same: one.txt: refused\n"));
    for name in ["/dev/zero", "/dev/null"] {
        let due = said("refused 09 0001\n", &format!("same: {name}: refused\n"));
        for arguments in [[name, "s"], ["s", name], [name, name]] {
            assert_eq!(said_by(run_same(&folder, &arguments)), due, "{arguments:?}");
        }
    }
}

/// Standard input by its name, as a file and as a pipe. A pipe gives some bytes, and after a while the others.
#[test]
fn standard_input_as_a_file() {
    let folder = folder_of_three("input");
    let from = |name: &str| Stdio::from(File::open(format!("{folder}/{name}")).expect("the file is there"));
    for (name, line) in [("tt", "same\n"), ("z", "differ\n")] {
        for arguments in [["/dev/stdin", "s"], ["s", "/dev/stdin"]] {
            let ended = run_same_after("", &folder, &arguments, from(name), Stdio::piped());
            assert_eq!(said_by(ended), said(line, ""), "{name} as input, {arguments:?}");
            let pieces = "(head -c 5; sleep 0.1; head -c 6; sleep 0.1; cat) | \"$0\" \"$@\"\nexit";
            let ended = run_same_after(pieces, &folder, &arguments, from(name), Stdio::piped());
            assert_eq!(said_by(ended), said(line, ""), "{name} in pieces, {arguments:?}");
        }
    }
    let ended = run_same_after("", &folder, &["s", "/dev/stdin"], Stdio::null(), Stdio::piped());
    assert_eq!(said_by(ended), said("refused 09 0001\n", "same: /dev/stdin: refused\n"));
}

/// Streams that fail, or that are not there. Standard input is not asked for anything; where it is closed, its name is
/// that of no file, and not of the file that was read before.
#[test]
fn streams_that_fail() {
    let folder = folder_of_three("streams");
    for (first, arguments, printed, complaint) in [
        ("exec <&-", ["tt", "s"], "same\n", ""),
        ("exec <&-", ["tt", "/dev/stdin"], "", "same: /dev/stdin: No such file or directory\n"),
        ("exec <&-", ["/dev/stdin", "tt"], "", "same: /dev/stdin: No such file or directory\n"),
        ("exec < /", ["tt", "z"], "differ\n", ""),
        ("exec > /dev/full", ["tt", "s"], "", "same: standard output: No space left on device\n"),
        ("exec > /dev/full", ["tt", "z"], "", "same: standard output: No space left on device\n"),
        ("exec >&-", ["tt", "s"], "", "same: standard output: Bad file descriptor\n"),
        ("exec <&- >&-", ["tt", "z"], "", "same: standard output: Bad file descriptor\n"),
        (
            "exec > /dev/full",
            ["tt", "/dev/null"],
            "",
            "same: standard output: No space left on device\nsame: /dev/null: refused\n",
        ),
        ("exec > /dev/full", ["none", "s"], "", "same: none: No such file or directory\n"),
        ("exec >&-", ["none", "s"], "", "same: none: No such file or directory\n"),
        ("exec 2>&-", ["tt", "s"], "same\n", ""),
        ("exec 2>&-", ["none", "s"], "", ""),
        ("exec 2> /dev/full", ["none", "s"], "", ""),
        ("exec > /dev/full 2>&-", ["tt", "s"], "", ""),
    ] {
        let ended = run_same_after(first, &folder, &arguments, Stdio::null(), Stdio::piped());
        assert_eq!(said_by(ended), said(printed, complaint), "{first}, {arguments:?}");
    }
}

/// Output that nobody reads: standard error tells, as SIGPIPE is ignored, by the shell or by the program itself.
#[test]
fn a_pipe_that_nobody_reads() {
    let folder = folder_of_three("unread");
    for first in ["", "trap '' PIPE"] {
        let ended = run_same_after(first, &folder, &["tt", "s"], Stdio::null(), Stdio::from(unread_pipe()));
        assert_eq!(said_by(ended), said("", "same: standard output: Broken pipe\n"), "{first:?}");
    }
}

/// Lists beside others that act alike, beside those with one gate changed, and beside any.
#[test]
fn random_pairs() {
    let mut random = Random::new(383);
    let folder = folder("random");
    let (mut same, mut differ) = (0, 0);
    for n in 1..=8 {
        for round in 0..45 {
            let (length, times) = (random.between(0, 120), random.between(0, 30));
            let list = circuit(&mut random, n, length);
            let alike = rewritten(&mut random, n, &list, times);
            let (other, due) = match round % 3 {
                0 => (alike, Some("same\n")),
                1 => (with_one_gate_other(&mut random, n, &alike), Some("differ\n")),
                _ => (circuit(&mut random, n, length % 4), None),
            };
            let told = compared(&folder, &write(n, &list), &write(n, &other));
            assert!(due.is_none_or(|due| told == said(due, "")), "n = {n}: {told:?}");
            same += usize::from(told.printed == "same\n");
            differ += usize::from(told.printed == "differ\n");
        }
    }
    assert_eq!(same + differ, 8 * 45);
    assert!(same >= 8 * 15 && differ >= 8 * 15, "{same} and {differ}");
}

/// The texts of one list, and this done to the first file, to the second or to both, by turns. Each of these starts of
/// a line must come up.
fn damaged(name: &str, mut random: Random, to_text: fn(Vec<u8>, &mut Random) -> Vec<u8>, starts: &[&str]) {
    let folder = folder(name);
    let mut lines = Vec::new();
    for round in 0..240 {
        let n = random.between(1, 8);
        let length = random.between(1, 12);
        let list = circuit(&mut random, n, length);
        let [first, second] = [0, 1].map(|file| match round % 3 == file {
            true => write(n, &list),
            false => to_text(write(n, &list), &mut random),
        });
        lines.push(compared(&folder, &first, &second).printed);
    }
    for start in starts {
        assert!(lines.iter().any(|line| line.starts_with(start)), "{start} never came up");
    }
}

/// A byte of a text changed, put in or taken out.
#[test]
fn damaged_texts() {
    let any_byte = |mut text: Vec<u8>, random: &mut Random| {
        damage(&mut text, random);
        text
    };
    damaged("damaged_texts", Random::new(384), any_byte, &["differ", "refused 09", "refused 0b"]);
}

/// A digit of a gate changed, so that the text keeps its form.
#[test]
fn damaged_gates() {
    let low_digit = |mut text: Vec<u8>, random: &mut Random| {
        let gate = random.below(text.len() / 7);
        text[3 + 7 * gate + random.one_of(&[1, 3, 5])] = random.one_of(b"01234567");
        text
    };
    let starts = ["same", "differ", "refused 03", "refused 04", "refused 05", "refused 0b"];
    damaged("damaged_gates", Random::new(385), low_digit, &starts);
}
