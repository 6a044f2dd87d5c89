//! Coefficients and signature (document 01, "Signature"): plain sums over all parities with signed integers, and only
//! then the modulus.

use crate::reading::Weights;

pub const L_BYTES: usize = 8;
pub const Q_BYTES: usize = 64;
pub const C_BYTES: usize = 512;

#[derive(Clone, Debug, PartialEq, Eq)]
pub struct Coefficients {
    /// l(i) at i.
    pub l: [u8; L_BYTES],
    /// q(i,j) at 8j + i for i < j, 0 elsewhere.
    pub q: [u8; Q_BYTES],
    /// c(i,j,k) at 64k + 8j + i for i < j < k, 0 elsewhere.
    pub c: [u8; C_BYTES],
}

/// All pairs of wires i < j below n.
pub fn pairs(n: usize) -> impl Iterator<Item = (usize, usize)> {
    (0..n).flat_map(|j| (0..j).map(move |i| (i, j)))
}

/// All triples of wires i < j < k below n.
pub fn triples(n: usize) -> impl Iterator<Item = (usize, usize, usize)> {
    (0..n).flat_map(|k| pairs(k).map(move |(i, j)| (i, j, k)))
}

/// The coefficients of weights on n wires.
pub fn coefficients(n: usize, weights: &Weights) -> Coefficients {
    let mut found = Coefficients { l: [0; L_BYTES], q: [0; Q_BYTES], c: [0; C_BYTES] };
    for i in 0..n {
        found.l[i] = modulo(sum_with(weights, &[i]), 8);
    }
    for (i, j) in pairs(n) {
        found.q[8 * j + i] = modulo(-sum_with(weights, &[i, j]), 4);
    }
    for (i, j, k) in triples(n) {
        found.c[64 * k + 8 * j + i] = modulo(sum_with(weights, &[i, j, k]), 2);
    }
    found
}

/// The signature: all coefficients modulo 2.
pub fn signature(n: usize, weights: &Weights) -> Coefficients {
    let mut found = coefficients(n, weights);
    for value in found.l.iter_mut().chain(&mut found.q).chain(&mut found.c) {
        *value %= 2;
    }
    found
}

/// The phase on x that the coefficients tell: l(i), 2·q(i,j) and 4·c(i,j,k) over the wires, pairs and triples whose
/// bits of x are all set.
pub fn phase(n: usize, coefficients: &Coefficients, x: u16) -> u8 {
    let set = |wire: usize| x >> wire & 1 == 1;
    let mut sum = 0u32;
    for i in (0..n).filter(|i| set(*i)) {
        sum += u32::from(coefficients.l[i]);
    }
    for (i, j) in pairs(n).filter(|(i, j)| set(*i) && set(*j)) {
        sum += 2 * u32::from(coefficients.q[8 * j + i]);
    }
    for (i, j, k) in triples(n).filter(|(i, j, k)| set(*i) && set(*j) && set(*k)) {
        sum += 4 * u32::from(coefficients.c[64 * k + 8 * j + i]);
    }
    (sum % 8) as u8
}

/// The sum of the weights of those parities that name all of these wires.
fn sum_with(weights: &Weights, wires: &[usize]) -> i64 {
    let named = |p: &usize| wires.iter().all(|wire| p >> wire & 1 == 1);
    (0..weights.len()).filter(named).map(|p| i64::from(weights[p])).sum()
}

fn modulo(sum: i64, modulus: i64) -> u8 {
    sum.rem_euclid(modulus) as u8
}
