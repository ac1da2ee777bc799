//! Open, enter, strike and count in plain Rust, unverified, written with care for speed: question 5
//! is one scan, a class is looked for by halving, lines are moved as one block, a holding is
//! written where it stands, and the entries within bounds are counted on their lines.

use crate::call::first_no_of_bounds;
use crate::head::{number, write_number, Head};
use crate::line::{compare, written, HOLDINGS, LONGEST};
use crate::same_search;
use crate::scan::laid_out;
use crate::within::Bounds;
use plan_register::numbers::{CLIENT, DONE, FULL, HELD, HOLDING, LAYOUT, LENGTH, NOT_HELD};
use plan_register::{Counted, Placed};
use std::cmp::Ordering;

/// The most that a client holds of a class.
const MOST: usize = 999;

/// Open in plain Rust.
pub fn open(m: usize, n: usize, top: usize, capacity: usize, register: &mut [u8]) -> Placed {
    let head = Head {
        m,
        n,
        top,
        capacity,
        count: 0,
    };
    match head.first_no() {
        DONE if register.len() != head.start(capacity) => placeless(LENGTH),
        DONE => {
            head.write(register);
            for line in register[head.start(0)..].chunks_exact_mut(head.width()) {
                line.fill(b' ');
                line[head.width() - 1] = b'\n';
            }
            placeless(DONE)
        }
        number => placeless(number),
    }
}

/// Enter in plain Rust.
pub fn enter(register: &mut [u8], client: usize, grid: &[u8]) -> Placed {
    match Sought::new(register, client, grid) {
        Err(number) => placeless(number),
        Ok(Sought {
            head, place: Ok(k), ..
        }) => {
            let holding = holding(register, head, k, client);
            match held(holding) {
                MOST => placeless(HOLDING),
                held => {
                    write_number(holding, held + 1);
                    placed(HELD, k)
                }
            }
        }
        Ok(Sought { head, .. }) if head.count == head.capacity => placeless(FULL),
        Ok(Sought {
            head,
            line,
            place: Err(k),
        }) => {
            let (start, next, end) = (head.start(k), head.start(k + 1), head.start(head.count));
            register.copy_within(start..end, next);
            register[start..next].copy_from_slice(&line[..head.width()]);
            write_count(register, head.count + 1);
            placed(DONE, k)
        }
    }
}

/// Strike in plain Rust.
pub fn strike(register: &mut [u8], client: usize, grid: &[u8]) -> Placed {
    match Sought::new(register, client, grid) {
        Err(number) => placeless(number),
        Ok(Sought { place: Err(_), .. }) => placeless(NOT_HELD),
        Ok(Sought {
            head, place: Ok(k), ..
        }) => {
            let holding = holding(register, head, k, client);
            match held(holding) {
                0 => placeless(NOT_HELD),
                held => {
                    write_number(holding, held - 1);
                    if is_held_by_nobody(register, head, k) {
                        remove(register, head, k);
                    }
                    placed(DONE, k)
                }
            }
        }
    }
}

/// The client's holding on the line of entry `k`.
fn holding(register: &mut [u8], head: Head, k: usize, client: usize) -> &mut [u8] {
    let start = head.start(k) + head.cells() + 3 * (client - 1);
    &mut register[start..start + 3]
}

/// The number in a holding, which is laid out.
fn held(holding: &[u8]) -> usize {
    number(holding).unwrap_or(0)
}

/// Are all holdings of entry `k` 0?
fn is_held_by_nobody(register: &[u8], head: Head, k: usize) -> bool {
    let start = head.start(k) + head.cells();
    register[start..start + HOLDINGS] == *b"  0  0  0  0  0  0  0  0"
}

/// Entry `k` goes, and the later ones move up.
fn remove(register: &mut [u8], head: Head, k: usize) {
    let (start, next, end) = (head.start(k), head.start(k + 1), head.start(head.count));
    register.copy_within(next..end, start);
    register[end - head.width()..end - 1].fill(b' ');
    write_count(register, head.count - 1);
}

/// Count in plain Rust.
pub fn count(register: &[u8], low: &[u8], high: &[u8]) -> Counted {
    match head_for(register, low, high) {
        Err(number) => Counted { number, count: 0 },
        Ok(head) => Counted {
            number: DONE,
            count: Bounds::new(low, high).count(register, head),
        },
    }
}

/// The class of a grid, looked for in a register.
struct Sought {
    head: Head,
    /// The line of its representative.
    line: [u8; LONGEST],
    /// The entry that is its representative, or else the entry before which that belongs.
    place: Result<usize, usize>,
}

impl Sought {
    /// `Err` is the number of the first of questions 5, 6, 7 and 15 that gets a no.
    fn new(register: &[u8], client: usize, grid: &[u8]) -> Result<Sought, u32> {
        let head = laid_out(register).ok_or(LAYOUT)?;
        let mut class = [0; 128];
        let class = &mut class[..head.m * head.n];
        match same_search::represent(head.m, head.n, head.top, grid, class).number {
            DONE if !(1..=8).contains(&client) => return Err(CLIENT),
            DONE => {}
            number => return Err(number),
        }
        let line = written(class, client);
        let place = place(register, head, &line[..head.cells()]);
        Ok(Sought { head, line, place })
    }
}

/// The entry with these cells, or else the entry before which they belong.
fn place(register: &[u8], head: Head, cells: &[u8]) -> Result<usize, usize> {
    let (mut from, mut to) = (0, head.count);
    while from < to {
        let middle = (from + to) / 2;
        let start = head.start(middle);
        match compare(&register[start..start + head.cells()], cells) {
            Ordering::Less => from = middle + 1,
            Ordering::Equal => return Ok(middle),
            Ordering::Greater => to = middle,
        }
    }
    Err(from)
}

/// What line 1 states. `Err` is the number of the first of questions 5, 6, 7 and 8 that gets a no.
fn head_for(register: &[u8], low: &[u8], high: &[u8]) -> Result<Head, u32> {
    let head = laid_out(register).ok_or(LAYOUT)?;
    match first_no_of_bounds(head.m, head.n, head.top, low, high) {
        DONE => Ok(head),
        number => Err(number),
    }
}

/// Writes the count on line 1.
fn write_count(register: &mut [u8], count: usize) {
    write_number(&mut register[24..30], count);
}

/// This number with the place of entry `k`.
fn placed(number: u32, k: usize) -> Placed {
    Placed {
        number,
        place: k as u32 + 1,
    }
}

/// This number with no place.
fn placeless(number: u32) -> Placed {
    Placed { number, place: 0 }
}
