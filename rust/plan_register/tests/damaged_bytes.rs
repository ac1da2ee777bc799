//! Registers with bytes changed, added or left out.

mod common;

use common::calls::{contents_of, distinct_grids, with_drawn_holdings};
use common::question_5::{check, check_layout, likely_byte};
use reference::examples::{held_register, register, shapes_up_to};
use reference::random::Random;

/// Small registers, to be damaged.
fn registers() -> Vec<Vec<u8>> {
    let two_digits = [vec![0, 9, 10], vec![9, 15, 15], vec![10, 0, 11]];
    vec![
        held_register(2, 2, 12, 3, &[("00/01", [0, 12]), ("01/10", [999, 1])]),
        held_register(1, 1, 9, 2, &[("1", [1]), ("8", [100])]),
        register(1, 3, 15, 1, &[]),
        register(2, 1, 3, 2, &["0/1", "2/3"]),
        register(1, 2, 0, 1, &["00"]),
        register(3, 1, 5, 12, &["0/0/1", "0/1/1", "2/3/4"]),
        contents_of(1, 3, 15, 3, &two_digits).bytes(),
    ]
}

#[test]
fn undamaged_registers_are_taken() {
    for bytes in registers() {
        assert!(check(&bytes));
    }
}

#[test]
fn every_byte_changed_to_every_value() {
    let mut still_registers = 0;
    for whole in registers() {
        for k in 0..whole.len() {
            for byte in (0..=255).filter(|&byte| byte != whole[k]) {
                let mut bytes = whole.clone();
                bytes[k] = byte;
                still_registers += usize::from(check(&bytes));
            }
        }
    }
    // Another top, a cell that keeps the order, or another holding.
    assert!(still_registers > 50, "{still_registers}");
}

#[test]
fn two_bytes_changed() {
    let mut random = Random::new(91);
    let mut met = [0, 0];
    for whole in registers() {
        for _ in 0..3000 {
            let mut bytes = whole.clone();
            for _ in 0..2 {
                let k = random.below(whole.len() as u64) as usize;
                bytes[k] = likely_byte(&mut random);
            }
            met[usize::from(check(&bytes))] += 1;
        }
    }
    assert!(met.iter().all(|&times| times > 100), "{met:?}");
}

#[test]
fn a_byte_more_or_fewer() {
    for whole in registers() {
        for k in 0..whole.len() {
            let mut shorter = whole.clone();
            shorter.remove(k);
            assert!(!check(&shorter));
            for byte in [whole[k], b' ', b'0', b'\n'] {
                let mut longer = whole.clone();
                longer.insert(k, byte);
                assert!(!check(&longer));
            }
        }
    }
}

#[test]
fn every_other_length() {
    for whole in registers() {
        let lines = whole.len() - 31;
        for length in (0..whole.len() + 2 * lines).filter(|&length| length != whole.len()) {
            let again = whole.iter().chain(&whole[31..]).chain(&whole[31..]);
            let bytes: Vec<u8> = again.copied().take(length).collect();
            assert!(!check(&bytes));
        }
    }
}

#[test]
fn one_byte_changed_in_every_shape() {
    let mut random = Random::new(92);
    for (m, n) in shapes_up_to(128) {
        let top = random.between(1, 15) as u8;
        let entries = distinct_grids(&mut random, m * n, top, 2);
        let contents = contents_of(m, n, top, 3, &entries);
        let whole = with_drawn_holdings(&mut random, contents).bytes();
        assert!(check_layout(&whole));
        // Each byte twice.
        for k in (31..whole.len()).flat_map(|k| [k, k]) {
            let mut bytes = whole.clone();
            bytes[k] = match random.below(4) {
                0 => random.below(256) as u8,
                _ => likely_byte(&mut random),
            };
            check_layout(&bytes);
        }
    }
}

#[test]
fn bytes_of_a_large_register() {
    let mut random = Random::new(94);
    let entries = distinct_grids(&mut random, 128, 15, 490);
    let contents = contents_of(8, 16, 15, 500, &entries);
    let whole = with_drawn_holdings(&mut random, contents).bytes();
    let mut met = [0, 0];
    for _ in 0..100 {
        let mut bytes = whole.clone();
        let k = random.between(31, whole.len() as u64 - 1) as usize;
        bytes[k] = likely_byte(&mut random);
        met[usize::from(check_layout(&bytes))] += 1;
    }
    assert!(met.iter().all(|&times| times > 10), "{met:?}");
}
