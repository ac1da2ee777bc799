//! What several tests share.
#![allow(dead_code)]

pub mod faults;

use reference::layout::register_length;

/// The bounds of a form that is written as one (low, high) for each cell.
pub fn form(bounds: &[(u8, u8)]) -> (Vec<u8>, Vec<u8>) {
    bounds.iter().copied().unzip()
}

/// A slice of the exact length of a register, filled with a byte that no register has.
pub fn unopened(m: u64, n: u64, capacity: u64) -> Vec<u8> {
    vec![b'#'; register_length(m, n, capacity) as usize]
}
