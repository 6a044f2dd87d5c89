//! Trimming a trimmed block (document 02, 2.2): what the library or the program has trimmed stays as it is, and what
//! anyone has trimmed keeps its weights and rows. Each call of the library is held against demand 3 too, and all lent
//! bytes are watched (`comparison`).

use std::cell::RefCell;
use std::fs::{self, File};
use std::mem;
use std::process::Stdio;

use sulmedra_reference::again::{check_again, check_left_alone, check_printed_again, without_second_line};
use sulmedra_reference::comparison::answering::answer;
use sulmedra_reference::comparison::trimming::{trim, trim_into, Answer};
use sulmedra_reference::fast::{self, Trimmed};
use sulmedra_reference::gates::{gates_of, Gate, CNOT, GATE_BYTES, MOST_GATES, S, S_DAGGER, T, T_DAGGER, Z};
use sulmedra_reference::moves::Move;
use sulmedra_reference::odd_set::{odd_set, Marks};
use sulmedra_reference::printing::read_reply;
use sulmedra_reference::program::{run, run_after};
use sulmedra_reference::random::{circuit, circuit_of_odd_set, legal_move, Random};
use sulmedra_reference::reading::{read, Weights};
use sulmedra_reference::text::write;
use sulmedra_reference::trimming::{check_demand_3, Counts};
use sulmedra_reference::writing::{costliest_rows, most_written, plain_list, same_wires};
use sulmedra_reference::{existence, published};

/// How often first trims made moves, and how often they left even rests, which a second trim could settle otherwise.
#[derive(Debug, Default)]
struct Seen {
    circuits: usize,
    with_moves: usize,
    with_rest_on_wire: usize,
    with_rest_on_pair: usize,
}

impl Seen {
    fn note(&mut self, n: usize, first: &Answer) {
        let weights = read(n, &first.gates).weights;
        let rest_on = |wires: u32| (1..256usize).any(|p| p.count_ones() == wires && weights[p] > 1);
        self.circuits += 1;
        self.with_moves += usize::from(first.counts.moves > 0);
        self.with_rest_on_wire += usize::from(rest_on(1));
        self.with_rest_on_pair += usize::from(rest_on(2));
    }

    /// At least so many first trims made moves, left an even rest on a wire, and on a pair of wires.
    fn came_up(&self, with_moves: usize, on_wire: usize, on_pair: usize) {
        let enough = self.with_moves >= with_moves && self.with_rest_on_wire >= on_wire;
        assert!(enough && self.with_rest_on_pair >= on_pair, "{self:?}");
    }
}

/// Trims a list with the library, and what it wrote once more. Answers the first trim.
fn twice(n: usize, list: &[u8], random: &mut Random) -> Answer {
    let first = trim(n, list, random).expect("a list without a fault is accepted");
    let again = trim(n, &first.gates, random).expect("what was written is accepted");
    let judged = check_left_alone(n, &first.gates, &first.counts, &again.gates, &again.counts);
    assert_eq!(judged, Ok(()), "n = {n}, list {list:?}");
    first
}

/// So many random circuits on each number of wires, with a number of gates in this range.
fn random_circuits(mut random: Random, gates: (usize, usize), rounds: [usize; 8]) -> Seen {
    let mut seen = Seen::default();
    for (n, rounds) in (1..).zip(rounds) {
        for _ in 0..rounds {
            let length = random.between(gates.0, gates.1);
            let list = circuit(&mut random, n, length);
            seen.note(n, &twice(n, &list, &mut random));
        }
    }
    seen
}

#[test]
fn short_circuits() {
    let rounds = [300, 600, 1000, 1500, 1500, 1200, 800, 500];
    random_circuits(Random::new(330), (0, 80), rounds).came_up(70, 5000, 3000);
}

#[test]
fn middling_circuits() {
    let rounds = [60, 80, 120, 700, 700, 600, 300, 200];
    random_circuits(Random::new(331), (81, 700), rounds).came_up(700, 2200, 1700);
}

#[test]
fn long_circuits() {
    let mut random = Random::new(332);
    let mut seen = Seen::default();
    for n in 1..=8 {
        for length in [2000, 3000, MOST_GATES - 1, MOST_GATES, MOST_GATES, MOST_GATES, MOST_GATES, MOST_GATES] {
            let list = circuit(&mut random, n, length);
            seen.note(n, &twice(n, &list, &mut random));
        }
    }
    seen.came_up(15, 40, 25);
}

/// Odd sets of chosen sizes, dense ones too, with even weights and other rows beside them.
#[test]
fn circuits_of_chosen_odd_sets() {
    let mut random = Random::new(333);
    let mut seen = Seen::default();
    for (n, rounds) in [(2, 60), (3, 120), (4, 1200), (5, 1200), (6, 800), (7, 400), (8, 200)] {
        let most = (1 << n) - 1;
        let mut sizes = vec![most, most - 1, most / 2];
        sizes.extend((0..rounds).map(|_| random.between(0, most)));
        for size in sizes {
            let list = circuit_of_odd_set(&mut random, n, size);
            let first = twice(n, &list, &mut random);
            assert_eq!(first.counts.odd_size, size);
            seen.note(n, &first);
        }
    }
    seen.came_up(2500, 3300, 3200);
}

/// Written lists of the greatest length: two gates on every parity, and the costliest rows.
#[test]
fn the_longest_written_lists() {
    let mut random = Random::new(334);
    let mut seen = Seen::default();
    for n in 2..=8 {
        for palette in [&[3, 4, 5][..], &[4], &[3], &[5], &[4, 4, 4, 3]] {
            let mut table = [0; 256];
            table[1..1 << n].iter_mut().for_each(|weight| *weight = random.one_of(palette));
            let list = fast::write(n, &table, &costliest_rows(n));
            assert_eq!(list.len() / GATE_BYTES + 1, most_written(n), "n = {n}");
            seen.note(n, &twice(n, &list, &mut random));
        }
    }
    seen.came_up(15, 10, 10);
}

/// M6 keeps its seven T gates, M7 none of its fifteen, and M7 without parity 1 one of fourteen: then, and once more.
#[test]
fn the_marked_circuits() {
    let mut random = Random::new(335);
    for (n, values, t_out) in
        [(3, &[1, 1, 7, 1, 7, 7, 1][..], 7), (4, &[1; 15], 0), (4, &[0, 1, 1, 1, 1, 1, 1, 1, 1, 1, 1, 1, 1, 1, 1], 1)]
    {
        let mut table = [0; 256];
        table[1..=values.len()].copy_from_slice(values);
        assert_eq!(twice(n, &plain_list(&table), &mut random).counts.t_out, t_out);
    }
}

/// The rest of a longer output stays as it was, and so does all of a longer log.
#[test]
fn longer_outputs() {
    let mut random = Random::new(336);
    for n in 1..=8 {
        for (out, log) in [(6337, 10_200), (6336, 10_201), (6339, 10_240), (12_288, 65_536)] {
            let list = circuit(&mut random, n, 300);
            let first = trim_into(n, &list, out, log, &mut random).expect("accepted");
            let again = trim_into(n, &first.gates, out, log, &mut random).expect("accepted");
            let judged = check_left_alone(n, &first.gates, &first.counts, &again.gates, &again.counts);
            assert_eq!(judged, Ok(()), "n = {n}, {out} and {log} lent, list {list:?}");
        }
    }
}

/// Holds D to be a trim of C, lets the library trim it, and trims what that wrote once more. Answers E.
fn after_another(n: usize, c: &[u8], first: &Trimmed, random: &mut Random) -> Answer {
    let Trimmed { gates: d, log, counts } = first;
    let is_trim = check_demand_3(n, c, d, log, counts).map(|_| ());
    assert_eq!(is_trim, Ok(()), "n = {n}, D {d:?} for C {c:?}");
    let again = trim(n, d, random).expect("a trim of C is accepted");
    assert_eq!(check_again(n, d, counts, &again.gates, &again.counts), Ok(()), "n = {n}, D {d:?} for C {c:?}");
    let third = trim(n, &again.gates, random).expect("what was written is accepted");
    let judged = check_left_alone(n, &again.gates, &again.counts, &third.gates, &third.counts);
    assert_eq!(judged, Ok(()), "n = {n}, E {:?}", again.gates);
    again
}

/// Random legal moves until no legal move is left.
fn with_random_moves(n: usize, list: &[u8], random: &mut Random) -> Trimmed {
    let random = RefCell::new(random);
    let any = |n: usize, marks: &Marks| legal_move(&mut random.borrow_mut(), n, marks);
    fast::trim(n, list, |n, marks| any(n, marks).or_else(|| existence::find(n, marks)))
}

/// The library's search made in Rust, the reference's own, the published one, and moves at random. Which T gates are
/// left hangs on the moves, and so trims come up that the library would not make.
#[test]
fn trims_with_other_moves() {
    let mut random = Random::new(337);
    let (mut with_moves, mut unlike) = (0, 0);
    for (n, rounds) in [(3, 20), (4, 160), (5, 160), (6, 100), (7, 40), (8, 16)] {
        for _ in 0..rounds {
            let size = random.between(1 << (n - 1), (1 << n) - 1);
            let list = circuit_of_odd_set(&mut random, n, size);
            let own = trim(n, &list, &mut random).expect("accepted");
            let finders: [fn(usize, &Marks) -> Option<Move>; 3] = [fast::find, existence::find, published::find];
            let mut trims: Vec<Trimmed> = finders.map(|find| fast::trim(n, &list, find)).into();
            trims.push(with_random_moves(n, &list, &mut random));
            for other in &trims {
                after_another(n, &list, other, &mut random);
                with_moves += usize::from(other.counts.moves > 0);
                unlike += usize::from(odd_set_of(n, &other.gates) != odd_set_of(n, &own.gates));
            }
        }
    }
    assert!(with_moves > 1800 && unlike > 250, "{with_moves} with moves, {unlike} unlike the library's");
}

fn odd_set_of(n: usize, list: &[u8]) -> Marks {
    odd_set(&read(n, list).weights)
}

/// Gates that add this weight, one T or T dagger among them exactly where it is odd. But for single gates none are
/// those that document 02 chose.
fn spelled_otherwise(weight: u8, random: &mut Random) -> &'static [u8] {
    let ways: [&[&[u8]]; 8] = [
        &[&[]],
        &[&[T], &[S, T_DAGGER]],
        &[&[S], &[Z, S_DAGGER]],
        &[&[T, S], &[Z, T_DAGGER]],
        &[&[Z], &[S_DAGGER, S_DAGGER]],
        &[&[Z, T], &[T_DAGGER, S_DAGGER]],
        &[&[S_DAGGER], &[Z, S]],
        &[&[T_DAGGER], &[S_DAGGER, T]],
    ];
    random.one_of(ways[usize::from(weight)])
}

/// Gates on a wire that holds parity p, for the weight that is left there. None is left then.
fn spend(left: &mut Weights, p: u8, wire: u8, random: &mut Random) -> Vec<u8> {
    let weight = mem::take(&mut left[usize::from(p)]);
    spelled_otherwise(weight, random).iter().flat_map(|kind| [*kind, wire, 0]).collect()
}

/// The CNOTs of a list, and where they bring a parity about, the weight that is left there.
fn along_the_cnots(n: usize, list: &[u8], left: &mut Weights, random: &mut Random) -> Vec<u8> {
    let (mut held, mut gates) = (same_wires(n), Vec::new());
    for Gate { a, b, .. } in gates_of(list).filter(|gate| gate.kind == CNOT) {
        held[usize::from(b)] ^= held[usize::from(a)];
        gates.extend([CNOT, a, b]);
        gates.extend(spend(left, held[usize::from(b)], b, random));
    }
    gates
}

/// All weights that are left, from the highest parity down, each on any wire that the parity names.
fn from_the_highest(left: &mut Weights, random: &mut Random) -> Vec<u8> {
    let mut gates = Vec::new();
    for p in (1..=255u8).rev() {
        if left[usize::from(p)] != 0 {
            let mut others: Vec<u8> = (0..8).filter(|wire| p >> wire & 1 == 1).collect();
            let target = others.swap_remove(random.below(others.len()));
            let gather: Vec<u8> = others.iter().flat_map(|wire| [CNOT, *wire, target]).collect();
            gates.extend([&gather[..], &spend(left, p, target, random), &gather].concat());
        }
    }
    gates
}

/// These weights and the rows of a list, written otherwise than by the library: the CNOTs are the list's own, and
/// parities that do not come up along them stand before. Some have idle gates up to the most gates that are accepted.
fn written_otherwise(n: usize, list: &[u8], weights: &Weights, random: &mut Random) -> Vec<u8> {
    let mut left = *weights;
    let along = along_the_cnots(n, list, &mut left, random);
    let mut gates = [from_the_highest(&mut left, random), along].concat();
    if random.below(8) == 0 {
        let wire = random.below(n) as u8;
        let room = MOST_GATES - gates.len() / GATE_BYTES;
        gates.extend([Z, wire, 0, Z, wire, 0].repeat(room / 2));
    }
    gates
}

/// The library's own trim in other gates is as good a trim. It is brought back to the library's own gates, since these
/// hang on the weights and rows alone.
#[test]
fn trims_written_otherwise() {
    let mut random = Random::new(338);
    let (mut seen, mut other_bytes, mut full) = (Seen::default(), 0, 0);
    for (n, rounds) in [(1, 40), (2, 80), (3, 120), (4, 250), (5, 250), (6, 150), (7, 80), (8, 40)] {
        for round in 0..rounds {
            let (size, length) = (random.between(0, (1 << n) - 1), random.between(0, 300));
            let list = match round % 2 {
                0 => circuit_of_odd_set(&mut random, n, size),
                _ => circuit(&mut random, n, length),
            };
            let own = trim(n, &list, &mut random).expect("accepted");
            let reading = read(n, &own.gates);
            let gates = written_otherwise(n, &list, &reading.weights, &mut random);
            assert_eq!(read(n, &gates), reading, "n = {n}, list {list:?}");
            other_bytes += usize::from(gates != own.gates);
            full += usize::from(gates.len() / GATE_BYTES >= MOST_GATES - 1);
            seen.note(n, &own);
            let counts = Counts { gates: gates.len() / GATE_BYTES, ..own.counts };
            let again = after_another(n, &list, &Trimmed { gates, log: own.log, counts }, &mut random);
            assert_eq!(again.gates, own.gates, "n = {n}, list {list:?}");
        }
    }
    seen.came_up(300, 800, 600);
    assert!(other_bytes > 900 && full > 100, "{other_bytes} in other bytes, {full} of the greatest length: {seen:?}");
}

fn shown(bytes: &[u8]) -> String {
    String::from_utf8_lossy(&bytes[..bytes.len().min(20_000)]).into_owned()
}

/// The program's reply to a text, and its reply to that without the second line. A third changes nothing any more.
fn printed_twice(text: &[u8]) -> (Vec<u8>, Vec<u8>) {
    let first = run(text);
    let again = run(&without_second_line(&first));
    assert_eq!(check_printed_again(&first, &again), Ok(()), "text {:?}", shown(text));
    assert_eq!(shown(&run(&without_second_line(&again))), shown(&again), "text {:?}", shown(text));
    (first, again)
}

/// The same by the C function.
fn answered_twice(text: &[u8], random: &mut Random) -> (Vec<u8>, Vec<u8>) {
    let first = answer(text, random).bytes;
    let again = answer(&without_second_line(&first), random).bytes;
    assert_eq!(check_printed_again(&first, &again), Ok(()), "text {:?}", shown(text));
    (first, again)
}

/// So many random texts on n wires, by the program, and every fifth by the C function too.
fn short_texts(n: usize, rounds: usize, random: &mut Random) {
    for round in 0..rounds {
        let length = random.between(0, 120);
        let text = write(n, &circuit(random, n, length));
        let printed = printed_twice(&text);
        if round % 5 == 0 {
            assert_eq!(answered_twice(&text, random), printed, "text {:?}", shown(&text));
        }
    }
}

#[test]
fn short_texts_on_few_wires() {
    let mut random = Random::new(339);
    (1..=4).for_each(|n| short_texts(n, 300, &mut random));
}

#[test]
fn short_texts_on_many_wires() {
    let mut random = Random::new(343);
    (5..=8).for_each(|n| short_texts(n, 300, &mut random));
}

#[test]
fn texts_of_chosen_odd_sets() {
    let mut random = Random::new(340);
    let mut with_moves = 0;
    for n in 2..=8 {
        let most = (1 << n) - 1;
        for round in 0..100 {
            let size = if round == 0 { most } else { random.between(0, most) };
            let text = write(n, &circuit_of_odd_set(&mut random, n, size));
            let printed = printed_twice(&text);
            with_moves += usize::from(read_reply(&printed.0).expect("a reply").counts.moves > 0);
            if round % 10 == 0 {
                assert_eq!(answered_twice(&text, &mut random), printed, "text {:?}", shown(&text));
            }
        }
    }
    assert!(with_moves > 350, "moves came up for {with_moves} texts");
}

#[test]
fn long_texts() {
    let mut random = Random::new(341);
    for n in 1..=8 {
        for length in [700, 2000, MOST_GATES, MOST_GATES] {
            let text = write(n, &circuit(&mut random, n, length));
            assert_eq!(answered_twice(&text, &mut random), printed_twice(&text), "text {:?}", shown(&text));
        }
    }
}

/// The doubly controlled Z loses nothing, so it is printed as it was the first time.
const CCZ_AGAIN: &str = "03\n0007 0007 0007 0000\n020000\n020100\n010100\n060000\n010100\n020200\n010200\n060000\n\
    010200\n010201\n060100\n010201\n010100\n010200\n020000\n010100\n010200\n";

/// Of the fourteen T gates one is left, and stays.
const FOURTEEN_AGAIN: &str = "04\n0001 0001 0001 0000\n060000\n";

/// The README's circuits: by the program, by the C function, and as a shell has it, with `sed 2d` between two runs.
#[test]
fn the_example_texts() {
    let mut random = Random::new(342);
    for (name, due) in [("ccz", CCZ_AGAIN), ("fourteen", FOURTEEN_AGAIN)] {
        let path = format!("{}/../examples/{name}.txt", env!("CARGO_MANIFEST_DIR"));
        let text = fs::read(&path).expect("the example is there");
        assert_eq!(shown(&printed_twice(&text).1), due);
        assert_eq!(shown(&answered_twice(&text, &mut random).1), due);
        let input = Stdio::from(File::open(&path).expect("the example is there"));
        let ended = run_after("\"$0\" | sed 2d | \"$0\"\nexit", input, Stdio::piped());
        assert_eq!((shown(&ended.printed).as_str(), ended.complaint.as_str()), (due, ""));
        assert_eq!(ended.status.code(), Some(0));
    }
}
