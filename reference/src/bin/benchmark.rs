//! The proved trim beside others on the same circuits, in one run: an optimised Rust trimmer with the same search, the
//! published search taken literally, which computes a nullspace of all conditions anew for each pair, and, where it is
//! linked, the library before the last change (`build.rs` says how). Then logs of trims, replayed move by move by the
//! proved library, by the Rust and by the library before. Then pairs of lists, compared by the proved library and by
//! running both on all states.
//!
//! Run it by `cargo run --profile benchmark --offline --bin benchmark`. Times are the shortest of several runs that take
//! turns. Nothing is asserted of them.

use std::hint::black_box;
use std::time::{Duration, Instant};

use sulmedra_reference::entries::{comparing, moves, trimming};
use sulmedra_reference::fast::{self, replay, running, search::search};
use sulmedra_reference::gates::MOST_GATES;
use sulmedra_reference::moves::MOVE_BYTES;
use sulmedra_reference::odd_set::{odd_set, Marks};
use sulmedra_reference::published;
use sulmedra_reference::random::{self, marks, rows, weights, Random};
use sulmedra_reference::trimming::LOG_BYTES;
use sulmedra_reference::variations::reordered;
use sulmedra_reference::writing::WRITTEN_BYTES;

/// The circuits of one line.
const CIRCUITS: usize = 3;

/// How long the turns on one circuit go on, and the fewest turns.
const TIME_FOR_A_CIRCUIT: Duration = Duration::from_millis(40);
const FEWEST_TURNS: usize = 3;

/// The logs that are replayed, the wires of their circuits, and the turns.
const LOGS: usize = 300;
const WIRES_OF_LOGS: usize = 8;
const TURNS_OF_LOGS: usize = 500;

/// The pairs of lists that are compared, the seed of their circuits, their wires, and the turns.
const PAIRS: usize = 10;
const SEED_OF_PAIRS: u64 = 500;
const WIRES_OF_PAIRS: usize = 8;
const TURNS_OF_PAIRS: usize = 100;

/// Who trims. The first is the one that the others are compared with.
const TRIMMERS: &[Trimmer] = if cfg!(before) {
    &[Trimmer::Proved, Trimmer::Rust, Trimmer::Published, Trimmer::Before]
} else {
    &[Trimmer::Proved, Trimmer::Rust, Trimmer::Published]
};

#[derive(Clone, Copy, PartialEq, Eq)]
enum Trimmer {
    Proved,
    Rust,
    Published,
    Before,
}

/// What is lent to the trims.
struct Lent {
    out: Vec<u8>,
    log: Vec<u8>,
    rust_out: Vec<u8>,
    rust_log: Vec<u8>,
}

impl Lent {
    fn new() -> Lent {
        Lent {
            out: vec![0; WRITTEN_BYTES],
            log: vec![0; LOG_BYTES],
            rust_out: Vec::with_capacity(WRITTEN_BYTES),
            rust_log: Vec::with_capacity(LOG_BYTES),
        }
    }
}

/// What came of a trim.
#[derive(Clone, Copy, Default)]
struct Outcome {
    t_out: u64,
    moves: u64,
}

impl Trimmer {
    fn name(self) -> &'static str {
        match self {
            Trimmer::Proved => "proved",
            Trimmer::Rust => "Rust",
            Trimmer::Published => "published",
            Trimmer::Before => "before",
        }
    }

    fn trim(self, n: usize, list: &[u8], lent: &mut Lent) -> Outcome {
        let literally = |n: usize, marks: &Marks| published::find(n, marks).map(|step| step.to_bytes());
        let proved = |answer: trimming::Trimmed| {
            assert_eq!(answer.number, 0, "the circuit is accepted");
            Outcome { t_out: answer.t_out, moves: answer.moves }
        };
        let counts = match self {
            Trimmer::Proved => return proved(trimming::trim(n, list, &mut lent.out, &mut lent.log)),
            #[cfg(before)]
            Trimmer::Before => return proved(trimming::trim_before(n, list, &mut lent.out, &mut lent.log)),
            #[cfg(not(before))]
            Trimmer::Before => unreachable!("no earlier library is linked"),
            Trimmer::Rust => fast::trim_into(n, list, &mut lent.rust_out, &mut lent.rust_log, search),
            Trimmer::Published => fast::trim_into(n, list, &mut lent.rust_out, &mut lent.rust_log, literally),
        };
        Outcome { t_out: counts.t_out as u64, moves: counts.moves as u64 }
    }
}

/// What one trimmer took for some circuits, one after the other, and what came of them.
#[derive(Clone, Copy, Default)]
struct Tally {
    time: Duration,
    outcome: Outcome,
}

/// Some circuits by all trimmers.
#[derive(Clone, Default)]
struct Line {
    circuits: u32,
    tallies: [Tally; 4],
}

fn main() {
    let mut random = Random::new(300);
    println!(
        "Trims of the same circuits. Averages for a circuit, times in microseconds; a ratio is to the proved time,"
    );
    println!("and above 1 it says that the proved library is faster.");
    let mut all = Line::default();
    for n in 4..=8 {
        let (most, bound) = ((1 << n) - 1, (n * n + n) / 2 + 1);
        print_head();
        let mut of_n = Line::default();
        for size in [n, bound / 2, bound.min(most), (most + bound) / 2, most - 1] {
            let line = compare(n, size, &mut random);
            print_line(&n.to_string(), &size.to_string(), &line);
            of_n.add(&line);
        }
        print_line(&n.to_string(), "all", &of_n);
        all.add(&of_n);
    }
    println!("\nAll of these circuits:");
    print_head();
    print_line("4-8", "all", &all);
    println!("\nHow the time grows with the odd set:");
    print_head();
    for size in [4, 8, 12, 16, 20, 24, 28, 32, 36, 40, 48, 64, 96, 128, 160, 192, 224, 255] {
        print_line("8", &size.to_string(), &compare(8, size, &mut random));
    }
    compare_replays();
    compare_comparisons();
}

impl Line {
    fn add(&mut self, other: &Line) {
        self.circuits += other.circuits;
        for (tally, more) in self.tallies.iter_mut().zip(other.tallies) {
            tally.time += more.time;
            tally.outcome.t_out += more.outcome.t_out;
            tally.outcome.moves += more.outcome.moves;
        }
    }
}

/// Times some random circuits with odd sets of this size.
fn compare(n: usize, size: usize, random: &mut Random) -> Line {
    let mut line = Line::default();
    (0..CIRCUITS).for_each(|_| line.add(&compare_one(n, &circuit(n, size, random))));
    line
}

/// The shortest times of all on one circuit.
fn compare_one(n: usize, list: &[u8]) -> Line {
    let mut lent = Lent::new();
    let mut line = Line { circuits: 1, ..Line::default() };
    line.tallies[..TRIMMERS.len()].iter_mut().for_each(|tally| tally.time = Duration::MAX);
    let start = Instant::now();
    let mut turns = 0;
    while turns < FEWEST_TURNS || start.elapsed() < TIME_FOR_A_CIRCUIT {
        for (trimmer, tally) in TRIMMERS.iter().zip(&mut line.tallies) {
            let start = Instant::now();
            tally.outcome = black_box(trimmer.trim(n, black_box(list), &mut lent));
            tally.time = start.elapsed().min(tally.time);
        }
        turns += 1;
    }
    line
}

/// A list whose odd set has `size` members, with even weights and rows at random.
fn circuit(n: usize, size: usize, random: &mut Random) -> Vec<u8> {
    let odd = marks(random, n, size);
    let mut table = weights(random, n);
    table.iter_mut().zip(odd).for_each(|(weight, mark)| *weight = *weight & 6 | mark);
    fast::write(n, &table, &rows(random, n))
}

/// The time of each trimmer, the ratio of each other's to the first's, and the T gates out and moves of each.
fn print_head() {
    print!("\nwires  odd set");
    TRIMMERS.iter().for_each(|trimmer| print!("  {:>9}", trimmer.name()));
    TRIMMERS[1..].iter().for_each(|trimmer| print!("  {:>9}", format!("{}/", trimmer.name())));
    println!("  T out of each; moves of each");
}

fn print_line(wires: &str, size: &str, line: &Line) {
    let tallies = &line.tallies[..TRIMMERS.len()];
    let first = tallies[0].time.as_secs_f64();
    print!("{wires:>5}  {size:>7}");
    tallies.iter().for_each(|tally| print!("  {:9.2}", tally.time.as_secs_f64() * 1e6 / f64::from(line.circuits)));
    tallies[1..].iter().for_each(|tally| print!("  {:9.2}", tally.time.as_secs_f64() / first));
    let average = |sum: u64| format!("{:.1}", sum as f64 / f64::from(line.circuits));
    let t_out: Vec<String> = tallies.iter().map(|tally| average(tally.outcome.t_out)).collect();
    let moves: Vec<String> = tallies.iter().map(|tally| average(tally.outcome.moves)).collect();
    println!("  {}; {}", t_out.join(" "), moves.join(" "));
}

/// A log, and the odd set that its moves start from.
struct Log {
    odd_set: Marks,
    bytes: Vec<u8>,
}

impl Log {
    fn moves(&self) -> usize {
        self.bytes.len() / MOVE_BYTES
    }
}

/// Replays all logs. Answers the sum of the numbers of marks that differ, over all moves.
type Replayer = fn(&[Log]) -> u64;

/// Who replays. The first is the one that the others are compared with.
const REPLAYERS: &[(&str, Replayer)] = &[
    ("proved", |logs| {
        replay_all(logs, |n, marks, log, k| {
            let part = moves::move_at(log, k);
            let answer = moves::carry_out(n, marks, bytes_of(log, part));
            (answer.number, answer.differ)
        })
    }),
    ("Rust", |logs| {
        replay_all(logs, |n, marks, log, k| {
            let step = replay::move_at(log, k).expect("the log has the move");
            replay::carry_out(n, marks, step).map_or_else(|fault| (fault.number, 0), |differ| (0, differ as u64))
        })
    }),
    // It tells no count.
    #[cfg(before)]
    ("before", |logs| {
        replay_all(logs, |n, marks, log, k| {
            let part = moves::move_at_before(log, k);
            (moves::carry_out_before(n, marks, bytes_of(log, part)).number, 0)
        })
    }),
];

fn bytes_of(log: &[u8], part: moves::Part) -> &[u8] {
    &log[part.start as usize..][..part.length as usize]
}

/// Each log from a copy of its odd set on. `carry` looks move k of a log up and carries it out on the marks; it answers
/// the number of the reply, and how many marks differ.
fn replay_all(logs: &[Log], carry: impl Fn(usize, &mut [u8], &[u8], usize) -> (u64, u64)) -> u64 {
    let mut sum = 0;
    for log in logs {
        let mut marks = log.odd_set;
        for k in 0..log.moves() {
            let (number, differ) = carry(black_box(WIRES_OF_LOGS), black_box(&mut marks), black_box(&log.bytes), k);
            assert_eq!(number, 0, "the move is legal");
            sum += differ;
        }
    }
    sum
}

/// The logs of trims of random circuits, always the same ones. They come from the one call of the Rust's trim that is
/// timed above: with a second call of it here the compiler would inline less, and its times would be longer.
fn logs() -> Vec<Log> {
    let mut random = Random::new(400);
    let mut lent = Lent::new();
    let mut log = || {
        let size = random.between(30, 255);
        let list = circuit(WIRES_OF_LOGS, size, &mut random);
        Trimmer::Rust.trim(WIRES_OF_LOGS, &list, &mut lent);
        Log { odd_set: odd_set(&fast::read(WIRES_OF_LOGS, &list).0.weights), bytes: lent.rust_log.clone() }
    };
    (0..LOGS).map(|_| log()).collect()
}

/// All logs by all, in turns; the shortest times, shared out among the moves.
fn compare_replays() {
    let logs = logs();
    let counts: Vec<u64> = REPLAYERS[..2].iter().map(|(_, replayer)| replayer(&logs)).collect();
    assert_eq!(counts[0], counts[1], "the proved library and the Rust count the same marks");
    let mut times = vec![Duration::MAX; REPLAYERS.len()];
    for _ in 0..TURNS_OF_LOGS {
        for ((_, replayer), time) in REPLAYERS.iter().zip(&mut times) {
            let start = Instant::now();
            black_box(replayer(black_box(&logs)));
            *time = start.elapsed().min(*time);
        }
    }
    let steps = || logs.iter().flat_map(|log| log.bytes.chunks(MOVE_BYTES));
    let moves = steps().count() as f64;
    let members = steps().map(|step| f64::from(step[1])).sum::<f64>() / moves;
    println!(
        "\nReplays of {LOGS} logs of trims on {WIRES_OF_LOGS} wires: {moves} moves, {members:.1} in Y on average."
    );
    println!("Each move is looked up in its log and carried out. Times for a move, in nanoseconds:\n");
    println!("{:>9}  {:>9}  {:>9}", "", "time", "/ proved");
    for ((name, _), time) in REPLAYERS.iter().zip(&times) {
        let (time, first) = (time.as_secs_f64(), times[0].as_secs_f64());
        println!("{name:>9}  {:9.1}  {:9.2}", time * 1e9 / moves, time / first);
    }
}

/// Says whether two accepted lists act alike.
type Comparer = fn(&[u8], &[u8]) -> bool;

/// Who compares two lists. The first is the one that the others are compared with, and the only one that judges them.
const COMPARERS: &[(&str, Comparer)] = &[
    ("proved", |first, second| {
        let answer = comparing::compare(WIRES_OF_PAIRS, first, second);
        assert_eq!(answer.number, 0, "both lists are accepted");
        answer.same == 1
    }),
    ("one by one", |first, second| running::one_by_one(WIRES_OF_PAIRS, first, second)),
    ("side by side", |first, second| running::side_by_side(WIRES_OF_PAIRS, first, second)),
];

/// Random circuits of the most gates, always the same ones, each with its gates in another order too. The two act alike,
/// so that no run ends early.
fn pairs_of_lists() -> Vec<[Vec<u8>; 2]> {
    let mut random = Random::new(SEED_OF_PAIRS);
    let mut pair = || {
        let list = random::circuit(&mut random, WIRES_OF_PAIRS, MOST_GATES);
        let other = reordered(&mut random, &list, 50);
        assert_ne!(list, other, "the order changed");
        [list, other]
    };
    (0..PAIRS).map(|_| pair()).collect()
}

/// All pairs by all, in turns; the shortest times, shared out among the pairs.
fn compare_comparisons() {
    let pairs = pairs_of_lists();
    let mut times = vec![Duration::MAX; COMPARERS.len()];
    for _ in 0..TURNS_OF_PAIRS {
        for ((name, comparer), time) in COMPARERS.iter().zip(&mut times) {
            let start = Instant::now();
            let alike = pairs.iter().all(|[first, second]| black_box(comparer(black_box(first), black_box(second))));
            *time = start.elapsed().min(*time);
            assert!(alike, "{name} says that the lists of a pair act alike");
        }
    }
    println!("\nComparisons of {PAIRS} pairs of lists of {MOST_GATES} gates on {WIRES_OF_PAIRS} wires that act alike,");
    println!("random circuits of seed {SEED_OF_PAIRS}. The Rust runs all states, one by one or some side by side.");
    println!("Times for a pair, in microseconds:\n");
    println!("{:>12}  {:>9}  {:>9}", "", "time", "/ proved");
    for ((name, _), time) in COMPARERS.iter().zip(&times) {
        let (time, first) = (time.as_secs_f64(), times[0].as_secs_f64());
        println!("{name:>12}  {:9.1}  {:9.2}", time * 1e6 / PAIRS as f64, time / first);
    }
}
