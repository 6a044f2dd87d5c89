//! The new weights (document 01, "The new weights"), found by trying the values that the paper allows and comparing
//! phases. No coefficient is computed on the way.

use crate::coefficients::pairs;
use crate::demands::told_phase;
use crate::odd_set::Marks;
use crate::reading::Weights;

/// What the rest may be on a parity of one wire, and of two.
const ON_ONE_WIRE: [u8; 4] = [0, 2, 4, 6];
const ON_TWO_WIRES: [u8; 2] = [0, 6];

/// The weights of these members, 1 each, with the rest that gives the phase of `weights` on every state. None if no
/// rest does: then the two have different signatures.
///
/// Pairs come first. What two wires add beyond the two of them alone is told by parities that name both, and among
/// those that may get a rest only the pair itself does. Then each wire alone settles its own rest.
pub fn new_weights(n: usize, weights: &Weights, marks: &Marks) -> Option<Weights> {
    let mut table = *marks;
    for (i, j) in pairs(n) {
        let p = 1 << i | 1 << j;
        let fits = |rest: &u8| together(&with_rest(&table, p, *rest), i, j) == together(weights, i, j);
        table = with_rest(&table, p, ON_TWO_WIRES.into_iter().find(fits)?);
    }
    for p in (0..n).map(|i| 1 << i) {
        let fits = |rest: &u8| told_phase(&with_rest(&table, p, *rest), p as u16) == told_phase(weights, p as u16);
        table = with_rest(&table, p, ON_ONE_WIRE.into_iter().find(fits)?);
    }
    same_phases(n, &table, weights).then_some(table)
}

/// Every table of the paper's shape for these members that has the phases of `weights`: all rests are tried. For few
/// wires only, as there are 4^n·2^(n(n-1)/2) of them.
pub fn all_new_weights(n: usize, weights: &Weights, marks: &Marks) -> Vec<Weights> {
    assert!(n <= 4, "too many rests to try them all");
    let mut tables = vec![*marks];
    for (p, values) in
        (0..n).map(|i| (1 << i, &ON_ONE_WIRE[..])).chain(pairs(n).map(|(i, j)| (1 << i | 1 << j, &ON_TWO_WIRES[..])))
    {
        tables = tables.iter().flat_map(|table| values.iter().map(move |rest| with_rest(table, p, *rest))).collect();
    }
    tables.retain(|table| same_phases(n, table, weights));
    tables
}

/// Each weight is the mark and an even rest modulo 8: 0 or 6 on a parity of two wires, anything even on one, 0 on
/// others.
pub fn has_the_shape(table: &Weights, marks: &Marks) -> bool {
    (0..table.len()).all(|p| {
        let rest = (8 + table[p] % 8 - marks[p]) % 8;
        let wires = (0..8).filter(|wire| p >> wire & 1 == 1).count();
        match wires {
            1 => ON_ONE_WIRE.contains(&rest),
            2 => ON_TWO_WIRES.contains(&rest),
            _ => rest == 0,
        }
    })
}

/// The two tables give the same phase on every basis state.
pub fn same_phases(n: usize, one: &Weights, other: &Weights) -> bool {
    (0..1u16 << n).all(|x| told_phase(one, x) == told_phase(other, x))
}

/// The phase on the state with wires i and j set, less those with only one of them set.
fn together(weights: &Weights, i: usize, j: usize) -> u8 {
    let alone = told_phase(weights, 1 << i) + told_phase(weights, 1 << j);
    (16 + told_phase(weights, 1 << i | 1 << j) - alone) % 8
}

/// The table with an even rest added at p: added, as a weight may already stand there.
fn with_rest(table: &Weights, p: usize, rest: u8) -> Weights {
    let mut changed = *table;
    changed[p] = (changed[p] + rest) % 8;
    changed
}
