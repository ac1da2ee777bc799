//! An input beside the output that it must have, for grids whose representatives are known: the
//! reference is slow in finding those of many rows.

use crate::checks::check_prints;
use crate::lines::{count, enter, line_1, strike};
use crate::outputs::printed;
use reference::grid::compare;
use reference::holdings::{Holdings, MOST};
use reference::layout::{Contents, Entry};
use reference::planbook::prune_and_count;

/// The lines so far, what is printed for them, and what the register then holds.
pub struct Book {
    pub input: Vec<u8>,
    pub contents: Contents,
    printed: Vec<u8>,
}

impl Book {
    /// Line 1, and the register without entries. The numbers are within the limits.
    pub fn opened(numbers: [u64; 4]) -> Book {
        let [rows, columns, top, capacity] = numbers;
        Book {
            input: line_1(numbers),
            contents: Contents {
                rows,
                columns,
                top,
                capacity,
                entries: Vec::new(),
            },
            printed: Vec::new(),
        }
    }

    /// A further line that enters the grid for a client of 1 to 8. Returns the number that answers
    /// it.
    pub fn enter(&mut self, client: u64, grid: &[u8], representative: &[u8]) -> u64 {
        let (before, held) = self.looked_up(representative);
        let full = self.contents.count() == self.contents.capacity;
        let entries = &mut self.contents.entries;
        let (number, place) = match held {
            Some(holdings) if holdings.of(client) == MOST => (16, 0),
            Some(holdings) => {
                entries[before].holdings = holdings.with_one_more(client);
                (101, before + 1)
            }
            None if full => (9, 0),
            None => {
                let entry = Entry {
                    grid: representative.to_vec(),
                    holdings: Holdings::one_of(client),
                };
                entries.insert(before, entry);
                (0, before + 1)
            }
        };
        self.add(enter(client, grid), [1, number, place as u64])
    }

    /// A further line that strikes the grid for a client of 1 to 8. Returns the number that answers
    /// it.
    pub fn strike(&mut self, client: u64, grid: &[u8], representative: &[u8]) -> u64 {
        let (before, held) = self.looked_up(representative);
        let (number, place) = match held {
            Some(holdings) if holdings.of(client) > 0 => {
                let entries = &mut self.contents.entries;
                entries[before].holdings = holdings.with_one_less(client);
                entries.retain(|entry| !entry.holdings.are_all_0());
                (0, before + 1)
            }
            _ => (10, 0),
        };
        self.add(strike(client, grid), [2, number, place as u64])
    }

    /// A further line that counts the entries in the bounds. Returns the number that answers it.
    pub fn count(&mut self, low: &[u8], high: &[u8]) -> u64 {
        let contents = &self.contents;
        let shape = [contents.rows, contents.columns, contents.top];
        let answer = prune_and_count(shape, &contents.bytes(), low, high);
        self.add(count(low, high), [3, answer.number.into(), answer.place])
    }

    /// A further line that is not laid as it should be.
    pub fn malformed(&mut self, line: &[u8]) {
        self.add(line.to_vec(), [0, 12, 0]);
    }

    /// Checks that the program prints for the input what it must.
    pub fn check(&self) {
        check_prints(&self.input, &self.output());
    }

    /// The printed lines and the register.
    pub fn output(&self) -> Vec<u8> {
        [&self.printed[..], &self.contents.bytes()].concat()
    }

    fn add(&mut self, line: Vec<u8>, answer: [u64; 3]) -> u64 {
        self.input.extend(line);
        self.printed.extend(printed(answer));
        answer[1]
    }

    /// The number of entries before the representative, and its holdings if it is an entry.
    fn looked_up(&self, representative: &[u8]) -> (usize, Option<Holdings>) {
        let entries = &self.contents.entries;
        let is_before = |entry: &&Entry| compare(&entry.grid, representative).is_lt();
        let before = entries.iter().filter(is_before).count();
        let entry = entries.get(before);
        let entry = entry.filter(|entry| entry.grid == representative);
        (before, entry.map(|entry| entry.holdings))
    }
}
