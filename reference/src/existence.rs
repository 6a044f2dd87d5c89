//! Whether a legal move exists, and which z is the smallest, from the paper's conditions as they stand.
//!
//! The conditions on Y are equations modulo 2, one for each wire and one for each triple of wires. The unknowns tell
//! which members lie in Y. The equations are solved row by row, by two eliminations of their own:
//!
//! - [`find`] solves them once for each z, from the smallest up, with one bit for each member in a row. In the solved
//!   form the unknown of every member is a sum of free unknowns. Where the sums of a and of b = a XOR z differ, one
//!   free unknown alone, set to 1, brings exactly one of the two into Y. Where they are the same for all such a and b,
//!   every Y has both or neither, and no move with this z is legal.
//! - [`separating`] asks for one a and b, in this order: a lies in Y and b does not, and the others are unknown.
//!
//! The paper allows at most 38 members in Y, and the equations do not speak of their number. But a solution that leaves
//! every free unknown out of Y, or all but one, has at most one member more than there are independent equations. So
//! one of at most 38 exists wherever any exists, as long as at most 37 equations are independent; each elimination
//! checks this of itself. It holds always: once z is brought to a single wire by a change of the wires, only the
//! triples with that wire say anything, and n wires and (n - 1)(n - 2)/2 pairs of the others are at most 29.

use crate::coefficients::triples;
use crate::moves::{is_legal, members, triple_term, Move, MOST_IN_Y};
use crate::odd_set::Marks;

/// A legal move on this odd set with the smallest z that any has, or None exactly when there is none. All z are asked:
/// 0 and those beyond n wires never serve, since no two members differ by them.
pub fn find(n: usize, marks: &Marks) -> Option<Move> {
    let odd_set = members(marks);
    let step = (0..=255).find_map(|z| with_z(n, &odd_set, z))?;
    assert!(step.y.len() <= MOST_IN_Y, "too many independent equations for {odd_set:?}");
    assert!(is_legal(n, marks, &step), "a solution is a legal move: {step:?} on {odd_set:?}");
    Some(step)
}

/// The smallest z that a legal move on this odd set has.
pub fn smallest_z(n: usize, marks: &Marks) -> Option<u8> {
    find(n, marks).map(|step| step.z)
}

/// Holds what a finder gave for this odd set against all that is demanded of it: none exactly when there is none, else a
/// legal move, and no legal move has a smaller z (document 02, 2.7). Answers the first thing amiss.
pub fn check_found(n: usize, marks: &Marks, found: Option<&Move>) -> Result<(), String> {
    let on = || format!("on {:?}", members(marks));
    match (found, smallest_z(n, marks)) {
        (None, None) => Ok(()),
        (None, Some(z)) => Err(format!("none was found, and there is one with z = {z} {}", on())),
        (Some(step), _) if !is_legal(n, marks, step) => Err(format!("not legal: {step:?} {}", on())),
        (Some(step), Some(z)) if step.z == z => Ok(()),
        (Some(step), Some(z)) => Err(format!("the smallest z is {z}, and this is {step:?} {}", on())),
        (Some(step), None) => panic!("{step:?} is legal, and the elimination says that there is none {}", on()),
    }
}

/// One bit for each member, in their order; an odd set has at most 255.
type Bits = [u64; 4];

fn bit(place: usize) -> Bits {
    let mut bits = Bits::default();
    bits[place / 64] = 1 << (place % 64);
    bits
}

fn has(bits: &Bits, place: usize) -> bool {
    bits[place / 64] >> (place % 64) & 1 == 1
}

fn xor(one: &Bits, other: &Bits) -> Bits {
    std::array::from_fn(|word| one[word] ^ other[word])
}

fn first(bits: &Bits) -> Option<usize> {
    (0..4).find(|word| bits[*word] != 0).map(|word| 64 * word + bits[word].trailing_zeros() as usize)
}

/// A legal move with this z, or None exactly when there is none.
fn with_z(n: usize, odd_set: &[u8], z: u8) -> Option<Move> {
    let place_of = |y: u8| odd_set.binary_search(&y).ok();
    let pairs = || (0..odd_set.len()).filter_map(|a| Some((a, place_of(odd_set[a] ^ z)?)));
    pairs().next()?;
    let sums = sums_of_free(odd_set.len(), equations(n, odd_set, z));
    let free = pairs().find_map(|(a, b)| first(&xor(&sums[a], &sums[b])))?;
    let inside = (0..odd_set.len()).filter(|place| has(&sums[*place], free));
    Some(Move { z, y: inside.map(|place| odd_set[place]).collect() })
}

/// The conditions on Y for this z: an even number of the members in each row lie in Y. For a wire these are the members
/// that name it. For a triple they are those with z_i·y_j·y_k + z_j·y_i·y_k + z_k·y_i·y_j odd, all y at once.
fn equations(n: usize, odd_set: &[u8], z: u8) -> Vec<Bits> {
    let naming = |wire: usize| {
        let places = (0..odd_set.len()).filter(|place| odd_set[*place] >> wire & 1 == 1);
        places.fold(Bits::default(), |bits, place| xor(&bits, &bit(place)))
    };
    let mut rows: Vec<Bits> = (0..n).map(naming).collect();
    for (i, j, k) in triples(n) {
        let z_at = |wire: usize| u64::from(z >> wire & 1);
        let (y_i, y_j, y_k) = (rows[i], rows[j], rows[k]);
        rows.push(std::array::from_fn(|word| {
            let (y_i, y_j, y_k) = (y_i[word], y_j[word], y_k[word]);
            (z_at(i) * (y_j & y_k)) ^ (z_at(j) * (y_i & y_k)) ^ (z_at(k) * (y_i & y_j))
        }));
    }
    rows
}

/// Solves homogeneous equations: for each unknown the free unknowns whose sum it is, a free one being its own sum.
fn sums_of_free(unknowns: usize, mut rows: Vec<Bits>) -> Vec<Bits> {
    let mut sums: Vec<Bits> = (0..unknowns).map(bit).collect();
    let mut leading = Vec::new();
    for done in 0..rows.len() {
        let own = rows[done];
        let Some(unknown) = first(&own) else { continue };
        leading.push((unknown, done));
        for (_, row) in rows.iter_mut().enumerate().filter(|(place, row)| *place != done && has(row, unknown)) {
            *row = xor(row, &own);
        }
    }
    // Each leading unknown now stands in its own row alone, so the rest of the row is free.
    for (unknown, row) in leading {
        sums[unknown] = xor(&rows[row], &bit(unknown));
    }
    sums
}

/// A legal move with z = a XOR b that has a in Y and b not, or None exactly when there is none.
pub fn separating(n: usize, marks: &Marks, a: u8, b: u8) -> Option<Move> {
    let z = a ^ b;
    let others: Vec<u8> = members(marks).into_iter().filter(|y| *y != a && *y != b).collect();
    let wires = (0..n).map(|wire| equation(&others, a, |y| y >> wire & 1));
    let all = wires.chain(triples(n).map(|wires| equation(&others, a, |y| triple_term(z, y, wires))));
    let chosen = solve(all.collect())?;

    let mut y: Vec<u8> = chosen.into_iter().map(|place| others[place]).chain([a]).collect();
    y.sort_unstable();
    assert!(y.len() <= MOST_IN_Y, "too many independent equations for {:?}", members(marks));
    let step = Move { z, y };
    assert!(is_legal(n, marks, &step), "a solution is a legal move: {step:?} on {:?}", members(marks));
    Some(step)
}

/// One condition as an equation: the unknowns' coefficients, and last what they must sum to so that a joins in.
fn equation(others: &[u8], a: u8, term: impl Fn(u8) -> u8) -> Vec<u8> {
    others.iter().chain([&a]).map(|y| term(*y)).collect()
}

/// Solves equations modulo 2 row by row. Answers the unknowns that are 1 when every free one is 0, or None if the
/// equations contradict each other.
fn solve(mut rows: Vec<Vec<u8>>) -> Option<Vec<usize>> {
    let unknowns = rows.first().map_or(0, |row| row.len() - 1);
    let mut leading = Vec::new();
    for unknown in 0..unknowns {
        let done = leading.len();
        let Some(pivot) = (done..rows.len()).find(|row| rows[*row][unknown] == 1) else { continue };
        rows.swap(done, pivot);
        let own = rows[done].clone();
        for (_, row) in rows.iter_mut().enumerate().filter(|(place, row)| *place != done && row[unknown] == 1) {
            row.iter_mut().zip(&own).for_each(|(value, other)| *value ^= other);
        }
        leading.push(unknown);
    }
    if rows[leading.len()..].iter().any(|row| row[unknowns] == 1) {
        return None;
    }
    Some(leading.iter().zip(&rows).filter(|(_, row)| row[unknowns] == 1).map(|(unknown, _)| *unknown).collect())
}

/// The smallest z that serves, pair by pair: for each z every a and b that differ by it are asked, both ways round.
pub fn smallest_z_of_pairs(n: usize, marks: &Marks) -> Option<u8> {
    let odd_set = members(marks);
    let partners = |z: u8| odd_set.iter().map(move |a| (*a, a ^ z)).filter(|(_, b)| odd_set.contains(b));
    (1..=255).find(|z| partners(*z).any(|(a, b)| separating(n, marks, a, b).is_some()))
}

/// Every z from the smallest up and every set Y of members is tried. For small odd sets only.
pub fn find_by_trying_all(n: usize, marks: &Marks) -> Option<Move> {
    let odd_set = members(marks);
    assert!(odd_set.len() < 16, "too many sets to try them all");
    let sets = || 0..1u32 << odd_set.len();
    let chosen =
        |set: u32| (0..).zip(&odd_set).filter(move |(place, _)| set >> place & 1 == 1).map(|(_, y)| *y).collect();
    let mut moves = (0..1u16 << n).flat_map(|z| sets().map(move |set| Move { z: z as u8, y: chosen(set) }));
    moves.find(|step| is_legal(n, marks, step))
}
