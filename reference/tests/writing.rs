//! Lists that the library writes: read back by brute force, spelled as the papers say, and no longer than they allow.

use sulmedra_reference::comparison::writing::write;
use sulmedra_reference::entries::Reply;
use sulmedra_reference::gates::GATE_BYTES;
use sulmedra_reference::random::{rows, weights, Random};
use sulmedra_reference::writing::{costliest_rows, most_written, same_wires};

fn refused(number: u64) -> Reply {
    Reply { number, place: 0 }
}

#[test]
fn nothing_to_write() {
    let mut random = Random::new(240);
    for n in 1..=8 {
        let list = write(n, &[0; 256], &same_wires(n), 6336, &mut random).expect("sound weights and rows");
        assert!(list.len() <= GATE_BYTES * n * n);
    }
}

#[test]
fn every_weight_alone() {
    let mut random = Random::new(241);
    for n in [1, 2, 3, 8] {
        for p in 1..1 << n {
            for weight in 1..8 {
                let mut table = [0; 256];
                table[p] = weight;
                assert!(write(n, &table, &same_wires(n), 6336, &mut random).is_ok());
            }
        }
    }
}

/// Every table of rows on up to three wires: 1, 6 and 168 of them are invertible, the others are refused.
#[test]
fn every_table_of_rows_on_up_to_three_wires() {
    let mut random = Random::new(242);
    for (n, invertible) in [(1, 1), (2, 6), (3, 168)] {
        let mut accepted = 0;
        for digits in 0..1usize << (n * n) {
            let mut wanted = [0; 8];
            (0..n).for_each(|wire| wanted[wire] = (digits >> (n * wire) & ((1 << n) - 1)) as u8);
            let table = weights(&mut random, n);
            match write(n, &table, &wanted, 6336, &mut random) {
                Ok(_) => accepted += 1,
                Err(reply) => assert_eq!(reply, refused(7)),
            }
        }
        assert_eq!(accepted, invertible, "n = {n}");
    }
}

#[test]
fn random_weights_and_rows() {
    let mut random = Random::new(243);
    for (n, rounds) in [(1, 50), (2, 100), (3, 150), (4, 150), (5, 150), (6, 100), (7, 80), (8, 60)] {
        for _ in 0..rounds {
            let (table, wanted) = (weights(&mut random, n), rows(&mut random, n));
            let lent = random.one_of(&[6336, 6336, 6337, 6339, 12_288]);
            assert!(write(n, &table, &wanted, lent, &mut random).is_ok());
        }
    }
}

/// Weights that take two gates on every parity, and the costliest rows: one gate less than document 01's limit, which
/// leaves room for n gates in the last row too.
#[test]
fn the_longest_lists() {
    let mut random = Random::new(244);
    for n in 2..=8 {
        let mut table = [0; 256];
        table[1..1 << n].iter_mut().for_each(|weight| *weight = random.one_of(&[3, 4, 5]));
        let list = write(n, &table, &costliest_rows(n), 6336, &mut random).expect("sound weights and rows");
        assert_eq!(list.len() / GATE_BYTES + 1, most_written(n), "n = {n}");
    }
}

#[test]
fn dependent_rows_are_refused() {
    let mut random = Random::new(245);
    assert_eq!(write(2, &[0; 256], &[1, 1, 0, 0, 0, 0, 0, 0], 6336, &mut random), Err(refused(7)), "M9");
    for n in 1..=8 {
        for _ in 0..100 {
            let table = weights(&mut random, n);
            let mut wanted = rows(&mut random, n);
            let changed = random.below(n);
            let chosen = random.below(1 << n) & !(1 << changed);
            wanted[changed] = (0..n).filter(|wire| chosen >> wire & 1 == 1).fold(0, |xor, wire| xor ^ wanted[wire]);
            assert_eq!(write(n, &table, &wanted, 6336, &mut random), Err(refused(7)), "n = {n}, rows {wanted:?}");
        }
    }
}

#[test]
fn rows_beyond_the_wires_are_refused() {
    let mut random = Random::new(246);
    for n in 1..=8 {
        let (table, sound) = (weights(&mut random, n), rows(&mut random, n));
        for wire in n..8 {
            for row in [1, 1 << (n - 1), 1 << wire, 255] {
                let mut wanted = sound;
                wanted[wire] = row;
                assert_eq!(write(n, &table, &wanted, 6336, &mut random), Err(refused(7)), "row {wire} is {row}");
            }
        }
        for wire in 0..n {
            for bit in n..8 {
                let mut wanted = sound;
                wanted[wire] |= 1 << bit;
                assert_eq!(write(n, &table, &wanted, 6336, &mut random), Err(refused(7)), "bit {bit} in row {wire}");
            }
        }
        for length in [0, 1, 7, 9, 16] {
            let wanted: Vec<u8> = sound.iter().chain(&[0; 8]).copied().take(length).collect();
            assert_eq!(write(n, &table, &wanted, 6336, &mut random), Err(refused(7)), "{length} rows");
        }
    }
}

#[test]
fn outputs_around_the_least_length() {
    let mut random = Random::new(247);
    for n in 1..=8 {
        let (table, wanted) = (weights(&mut random, n), rows(&mut random, n));
        for length in [0, 1, 3, 6333, 6334, 6335] {
            assert_eq!(write(n, &table, &wanted, length, &mut random), Err(refused(8)), "{length} bytes lent");
        }
        for length in [6336, 6337, 6338, 6339, 12_288, 65_536] {
            assert!(write(n, &table, &wanted, length, &mut random).is_ok(), "{length} bytes lent");
        }
    }
}

#[test]
fn weights_against_their_rule_are_refused() {
    let mut random = Random::new(248);
    for n in 1..=8 {
        let (sound, wanted) = (weights(&mut random, n), rows(&mut random, n));
        for p in 0..256 {
            for weight in [1, 7, 8, 255] {
                if weight < 8 && p != 0 && p < 1 << n {
                    continue;
                }
                let mut table = sound;
                table[p] = weight;
                assert_eq!(write(n, &table, &wanted, 6336, &mut random), Err(refused(6)), "weight {weight} at {p}");
            }
        }
        for length in [0, 8, 255, 257] {
            assert_eq!(write(n, &vec![0; length], &wanted, 6336, &mut random), Err(refused(6)), "{length} weights");
        }
    }
}

/// Wire count, output, weights and rows, each faulty or not, in the order 1, 8, 6, 7.
#[test]
fn the_order_of_checks() {
    let mut random = Random::new(249);
    for round in 0..1600 {
        let faulty: [bool; 4] = std::array::from_fn(|place| round >> place & 1 == 1);
        let sound_n = random.between(1, 8);
        let n = if faulty[0] { random.one_of(&[0, 9, 16, 255, 256, 257, 1 << 32, usize::MAX]) } else { sound_n };
        let length = if faulty[1] { random.one_of(&[0, 6335]) } else { 6336 };
        let mut table = weights(&mut random, sound_n).to_vec();
        let mut wanted = rows(&mut random, sound_n).to_vec();
        if faulty[2] {
            match random.below(3) {
                0 => table[0] = 1,
                1 => table[1] = 8,
                _ => table.truncate(255),
            }
        }
        if faulty[3] {
            match random.below(2) {
                0 => wanted[0] = 0,
                _ => wanted.truncate(7),
            }
        }
        let first = [1, 8, 6, 7].into_iter().zip(faulty).find(|(_, faulty)| *faulty);
        let due = first.map_or(Ok(()), |(number, _)| Err(refused(number)));
        assert_eq!(write(n, &table, &wanted, length, &mut random).map(|_| ()), due);
    }
}
