//! Inputs: random ones, edited ones.

use crate::lines::{count, enter, line_1, strike};
use reference::holdings::CLIENTS;
use reference::lists::Pool;
use reference::random::Random;

/// Bytes that a line may have, and some that it may not.
pub const LIKELY: &[u8] = b" 0123456789\n\r\t+-.x\0\x80\xff";

/// Line 1 and so many command lines, each laid as it should be.
pub fn drawn(random: &mut Random, pool: &Pool, capacity: u64, count: usize) -> Vec<Vec<u8>> {
    let head = line_1([pool.m as u64, pool.n as u64, pool.top.into(), capacity]);
    let commands = (0..count).map(|_| drawn_command(random, pool));
    std::iter::once(head).chain(commands).collect()
}

/// A command line that is laid as it should be, on grids of the pool. Now and then a cell is
/// above top, a low above its high, or the client none of 1 to 8.
pub fn drawn_command(random: &mut Random, pool: &Pool) -> Vec<u8> {
    match random.below(8) {
        0..=2 => enter(sent_client(random), &sent_grid(random, pool)),
        3..=4 => strike(sent_client(random), &sent_grid(random, pool)),
        _ => {
            let (mut low, mut high) = pool.form(random);
            if random.once_in(8) {
                std::mem::swap(&mut low, &mut high);
            }
            raise(random, pool.top, &mut low);
            raise(random, pool.top, &mut high);
            count(&low, &high)
        }
    }
}

/// A client's number, most often 1 or 2, so that strikes find what was entered.
fn sent_client(random: &mut Random) -> u64 {
    match random.below(24) {
        0 => [0, 9, 257, 999_999][random.below(4) as usize],
        1..=16 => random.between(1, 2),
        _ => random.between(1, CLIENTS),
    }
}

fn sent_grid(random: &mut Random, pool: &Pool) -> Vec<u8> {
    let mut grid = pool.grid(random);
    raise(random, pool.top, &mut grid);
    grid
}

/// Now and then puts a cell above top.
fn raise(random: &mut Random, top: u8, cells: &mut [u8]) {
    if random.once_in(16) {
        let k = random.below(cells.len() as u64) as usize;
        cells[k] = random.between(u64::from(top) + 1, 255) as u8;
    }
}

/// A byte out of these.
pub fn one_of(random: &mut Random, bytes: &[u8]) -> u8 {
    bytes[random.below(bytes.len() as u64) as usize]
}

/// The bytes with an edit: one changed, put in or taken out, or some doubled or taken out.
pub fn edited(random: &mut Random, bytes: &[u8]) -> Vec<u8> {
    let mut edited = bytes.to_vec();
    if bytes.is_empty() {
        return vec![one_of(random, LIKELY)];
    }
    let k = random.below(bytes.len() as u64) as usize;
    let end = (k + random.between(1, 40) as usize).min(bytes.len());
    match random.below(8) {
        0..=2 => edited[k] = one_of(random, LIKELY),
        3 => edited[k] = random.below(256) as u8,
        4 => edited.insert(k, one_of(random, LIKELY)),
        5 => _ = edited.remove(k),
        6 => edited
            .splice(k..k, bytes[k..end].iter().copied())
            .for_each(drop),
        _ => edited.drain(k..end).for_each(drop),
    }
    edited
}
