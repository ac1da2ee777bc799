//! The calls on a register's bytes: open, enter, strike, count, a terminal's enter.

use crate::bounds::lies_in;
use crate::grid::{compare, least};
use crate::holdings::Holdings;
use crate::layout::{register_length, Contents, Entry};
use crate::questions;

/// What a call returns: the number and the place, for count the count.
#[derive(Clone, Copy, Debug, PartialEq, Eq)]
pub struct Answer {
    pub number: u32,
    pub place: u64,
}

/// The answer of a call, or its refusal: the number of the no, place 0.
pub(crate) fn answered(result: Result<Answer, u32>) -> Answer {
    result.unwrap_or_else(|number| Answer { number, place: 0 })
}

/// Open: writes count 0 and blank lines. It passes 1, 2, 3, 4, 6.
pub fn open(m: u64, n: u64, top: u64, capacity: u64, register: &mut [u8]) -> Answer {
    answered(try_open(m, n, top, capacity, register))
}

/// Enter: this client holds one more of the grid's class. 0 if the class is new, 101 if anyone held
/// it. It passes 5, 6, 7, 15, 9, 16.
pub fn enter(register: &mut [u8], client: u64, grid: &[u8]) -> Answer {
    answered(try_enter(register, client, grid))
}

/// A terminal's enter: as enter. It passes 5, 14, 6, 7, 15, 9, 16.
pub fn terminal_enter(register: &mut [u8], client: u64, grid: &[u8]) -> Answer {
    answered(try_terminal_enter(register, client, grid))
}

/// Strike: this client holds one less of the grid's class, whose entry goes when nobody holds any.
/// It passes 5, 6, 7, 15, 10.
pub fn strike(register: &mut [u8], client: u64, grid: &[u8]) -> Answer {
    answered(try_strike(register, client, grid))
}

/// Count: 0 and the number of entries in the form. It passes 5, 6, 7, 8.
pub fn count(register: &[u8], low: &[u8], high: &[u8]) -> Answer {
    answered(try_count(register, low, high))
}

fn try_open(m: u64, n: u64, top: u64, capacity: u64, register: &mut [u8]) -> Result<Answer, u32> {
    questions::rows(m)?;
    questions::columns(n)?;
    questions::top(top)?;
    questions::capacity(capacity)?;
    questions::lengths(&[register], register_length(m, n, capacity))?;
    let empty = Contents {
        rows: m,
        columns: n,
        top,
        capacity,
        entries: Vec::new(),
    };
    register.copy_from_slice(&empty.bytes());
    Ok(Answer {
        number: 0,
        place: 0,
    })
}

fn try_enter(register: &mut [u8], client: u64, grid: &[u8]) -> Result<Answer, u32> {
    let contents = Contents::asked(register)?;
    enter_into(contents, register, client, grid)
}

fn try_terminal_enter(register: &mut [u8], client: u64, grid: &[u8]) -> Result<Answer, u32> {
    let contents = Contents::asked(register)?;
    questions::terminal_rows(contents.rows)?;
    enter_into(contents, register, client, grid)
}

/// Enters the grid's class into the register with these contents, once the questions from 6 on got
/// a yes.
fn enter_into(
    mut contents: Contents,
    register: &mut [u8],
    client: u64,
    grid: &[u8],
) -> Result<Answer, u32> {
    let class = asked_class(&contents, client, grid)?;
    let line = line_of(&contents, &class);
    questions::held_or_room(line.is_some(), contents.count(), contents.capacity)?;
    let before = entries_before(&contents, &class);
    let number = match line {
        Some(line) => {
            let holdings = contents.entries[line].holdings;
            questions::one_more(holdings.of(client))?;
            contents.entries[line].holdings = holdings.with_one_more(client);
            101
        }
        None => {
            let entry = Entry {
                grid: class,
                holdings: Holdings::one_of(client),
            };
            contents.entries.insert(before, entry);
            0
        }
    };
    register.copy_from_slice(&contents.bytes());
    let place = 1 + before as u64;
    Ok(Answer { number, place })
}

fn try_strike(register: &mut [u8], client: u64, grid: &[u8]) -> Result<Answer, u32> {
    let mut contents = Contents::asked(register)?;
    let class = asked_class(&contents, client, grid)?;
    let line = line_of(&contents, &class).ok_or(10u32)?;
    let holdings = contents.entries[line].holdings;
    questions::held_by_client(holdings.of(client))?;
    contents.entries[line].holdings = holdings.with_one_less(client);
    contents.entries.retain(|entry| !entry.holdings.are_all_0());
    register.copy_from_slice(&contents.bytes());
    Ok(Answer {
        number: 0,
        place: 1 + line as u64,
    })
}

fn try_count(register: &[u8], low: &[u8], high: &[u8]) -> Result<Answer, u32> {
    let contents = Contents::asked(register)?;
    questions::lengths(&[low, high], contents.rows * contents.columns)?;
    questions::cells(&[low, high], contents.top)?;
    questions::bounds(low, high)?;
    let in_form = |entry: &&Entry| lies_in(low, high, &entry.grid);
    Ok(Answer {
        number: 0,
        place: contents.entries.iter().filter(in_form).count() as u64,
    })
}

/// The least grid of the grid's class, once 6, 7 and 15 got a yes.
fn asked_class(contents: &Contents, client: u64, grid: &[u8]) -> Result<Vec<u8>, u32> {
    questions::lengths(&[grid], contents.rows * contents.columns)?;
    questions::cells(&[grid], contents.top)?;
    questions::client(client)?;
    let (m, n) = (contents.rows as usize, contents.columns as usize);
    Ok(least(m, n, grid))
}

/// Where the class's entry stands, the first at 0, if anyone holds the class.
fn line_of(contents: &Contents, class: &[u8]) -> Option<usize> {
    let mut entries = contents.entries.iter();
    entries.position(|entry| entry.grid == class)
}

/// The number of entries that come before the grid.
fn entries_before(contents: &Contents, grid: &[u8]) -> usize {
    let before = |entry: &&Entry| compare(&entry.grid, grid).is_lt();
    contents.entries.iter().filter(before).count()
}
