//! The proved programs `trim` and `same`, run as processes.
//!
//! They are `crates/trim/out/trim` and `crates/same/out/same`, as `rt run` makes them in `crates/trim` and in
//! `crates/same`. The variables SULMEDRA_PROGRAM and SULMEDRA_SAME name other files to run. Where no program is named
//! below, it is `trim`.

use std::ffi::OsStr;
use std::fs::{self, File};
use std::io::{ErrorKind, Read, Write};
use std::path::PathBuf;
use std::process::{Child, ChildStdin, Command, ExitStatus, Stdio};
use std::sync::mpsc::{channel, Receiver};
use std::thread;
use std::time::Duration;
use std::{env, io};

/// Longer than any run may take. A run that takes longer is ended, and the test fails.
const PATIENCE: Duration = Duration::from_secs(60);

/// Runs the program on these pieces, one write for each with a pause after it, and then the end of its input. Answers
/// all of its output. It may stop reading before the end.
pub fn run_on_pieces(pieces: &[&[u8]], pause: Duration) -> Vec<u8> {
    let mut child = start(Stdio::piped());
    let input = child.stdin.take().expect("the input is a pipe");
    thread::scope(|threads| {
        threads.spawn(move || feed(input, pieces, pause).map(drop));
        finish(child)
    })
}

/// Runs the program on a text in one piece.
pub fn run(text: &[u8]) -> Vec<u8> {
    run_on_pieces(&[text], Duration::ZERO)
}

/// Runs the program on a text whose end never comes: the pipe stays open until the program has ended by itself.
pub fn run_without_end(text: &[u8]) -> Vec<u8> {
    let mut child = start(Stdio::piped());
    let input = child.stdin.take().expect("the input is a pipe");
    thread::scope(|threads| {
        let fed = threads.spawn(move || feed(input, &[text], Duration::ZERO));
        let printed = finish(child);
        drop(fed.join());
        printed
    })
}

/// Runs the program with a file as its input.
pub fn run_on_file(path: &str) -> Vec<u8> {
    let file = File::open(path).unwrap_or_else(|error| panic!("{path}: {error}"));
    finish(start(Stdio::from(file)))
}

/// How a run ended: what reached its output, where that is a pipe of ours, and its error output, and its status.
pub struct Ended {
    pub printed: Vec<u8>,
    pub complaint: String,
    pub status: ExitStatus,
}

/// Runs the program from a shell, which does `first`, such as `exec >&-`, and then becomes the program.
pub fn run_after(first: &str, input: Stdio, output: Stdio) -> Ended {
    ended_shell(&mut TRIM.after(first), input, output)
}

/// Runs `same` with these arguments in a folder, from which names are looked up. Its input is empty.
pub fn run_same(folder: &str, arguments: &[impl AsRef<OsStr>]) -> Ended {
    run_same_after("", folder, arguments, Stdio::null(), Stdio::piped())
}

/// Runs `same` with these arguments in a folder, from a shell that does `first` there.
pub fn run_same_after(
    first: &str,
    folder: &str,
    arguments: &[impl AsRef<OsStr>],
    input: Stdio,
    output: Stdio,
) -> Ended {
    ended_shell(SAME.after(first).args(arguments).current_dir(folder), input, output)
}

/// The writing end of a pipe that nobody reads any more: its reader was a process that has ended.
pub fn unread_pipe() -> ChildStdin {
    let mut reader = Command::new("true").stdin(Stdio::piped()).spawn().expect("there is a command that only ends");
    let mut writer = reader.stdin.take().expect("the input is a pipe");
    reader.wait().expect("it has ended");
    // A process that another test has just started may hold the reading end for a moment longer.
    loop {
        match writer.write_all(b" ") {
            Err(error) if error.kind() == ErrorKind::BrokenPipe => return writer,
            written => written.expect("a pipe takes what is written until nobody reads it"),
        }
    }
}

/// A program, and the variable that names another file to run.
struct Program {
    name: &'static str,
    variable: &'static str,
}

const TRIM: Program = Program { name: "trim", variable: "SULMEDRA_PROGRAM" };
const SAME: Program = Program { name: "same", variable: "SULMEDRA_SAME" };

impl Program {
    fn path(&self) -> PathBuf {
        if let Some(path) = env::var_os(self.variable) {
            return PathBuf::from(path);
        }
        PathBuf::from(env!("CARGO_MANIFEST_DIR")).join("..").join("crates").join(self.name).join("out").join(self.name)
    }

    fn missing(&self, error: io::Error) -> ! {
        panic!("{}: {error}; run `rt run` in crates/{} first", self.path().display(), self.name)
    }

    /// A shell that does `first` and then becomes the program, with the arguments that are added. It finds the program
    /// from any folder.
    fn after(&self, first: &str) -> Command {
        let path = fs::canonicalize(self.path()).unwrap_or_else(|error| self.missing(error));
        let mut shell = Command::new("sh");
        shell.arg("-c").arg(format!("{first}\nexec \"$0\" \"$@\"")).arg(path);
        shell
    }
}

fn start(input: Stdio) -> Child {
    let child = Command::new(TRIM.path()).stdin(input).stdout(Stdio::piped()).stderr(Stdio::piped()).spawn();
    child.unwrap_or_else(|error| TRIM.missing(error))
}

fn ended_shell(shell: &mut Command, input: Stdio, output: Stdio) -> Ended {
    let child = shell.stdin(input).stdout(output).stderr(Stdio::piped()).spawn();
    ended(child.expect("there is a shell"))
}

/// Writes the pieces and gives the pipe back. The other side may close it before all is written.
fn feed(mut input: ChildStdin, pieces: &[&[u8]], pause: Duration) -> Option<ChildStdin> {
    for piece in pieces {
        match input.write_all(piece) {
            Err(error) if error.kind() == ErrorKind::BrokenPipe => return None,
            written => written.expect("the program's input takes what is written"),
        }
        if !pause.is_zero() {
            thread::sleep(pause);
        }
    }
    Some(input)
}

/// All of the output of a program that ends by itself, with status 0 and nothing on its error output.
fn finish(child: Child) -> Vec<u8> {
    let Ended { printed, complaint, status } = ended(child);
    assert!(status.success(), "ended with {status}");
    assert!(complaint.is_empty(), "on the error output: {complaint:?}");
    printed
}

fn ended(mut child: Child) -> Ended {
    let output = child.stdout.take().map_or_else(|| all_of(io::empty()), all_of);
    let errors = all_of(child.stderr.take().expect("the error output is a pipe"));
    let printed = output.recv_timeout(PATIENCE);
    let Ok((printed, complaint)) = printed.and_then(|printed| Ok((printed, errors.recv_timeout(PATIENCE)?))) else {
        child.kill().expect("the program can be ended");
        child.wait().expect("the program has ended");
        panic!("the program runs on");
    };
    Ended {
        printed: printed.expect("the output can be read"),
        complaint: String::from_utf8_lossy(&complaint.expect("the error output can be read")).into_owned(),
        status: child.wait().expect("the program has ended"),
    }
}

/// Reads a stream to its end, beside whatever else goes on.
fn all_of(mut stream: impl Read + Send + 'static) -> Receiver<io::Result<Vec<u8>>> {
    let (send, receive) = channel();
    thread::spawn(move || {
        let mut bytes = Vec::new();
        let read = stream.read_to_end(&mut bytes);
        // Nobody listens any more once the run has taken too long.
        let _ = send.send(read.map(|_| bytes));
    });
    receive
}
