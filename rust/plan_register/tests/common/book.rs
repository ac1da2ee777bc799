//! A register beside what it is to hold, for shapes of many rows, where the reference is slow: a
//! class's representative is the library's, which other tests compare with the reference's.

use super::calls::{answer, check_answer};
use super::represented;
use reference::calls::Call;
use reference::grid::compare;
use reference::holdings::{Holdings, MOST};
use reference::layout::{Contents, Entry};
use reference::register::Answer;

pub struct Book {
    pub contents: Contents,
    pub bytes: Vec<u8>,
}

impl Book {
    /// The register with these contents, as the reference lays it out.
    pub fn holding(contents: Contents) -> Book {
        Book {
            bytes: contents.bytes(),
            contents,
        }
    }

    /// Enters a grid that passes questions 6 and 7 for a client of 1 to 8. Checks the answer and
    /// all bytes.
    pub fn check_enter(&mut self, client: u64, grid: &[u8]) -> Answer {
        let (representative, before, held) = self.looked_up(grid);
        let place = before as u32 + 1;
        let answer = match held {
            Some(holdings) if holdings.of(client) == MOST => answer(16, 0),
            Some(holdings) => {
                self.contents.entries[before].holdings = holdings.with_one_more(client);
                answer(101, place)
            }
            None if self.contents.count() == self.contents.capacity => answer(9, 0),
            None => {
                let entry = Entry {
                    grid: representative,
                    holdings: Holdings::one_of(client),
                };
                self.contents.entries.insert(before, entry);
                answer(0, place)
            }
        };
        self.check(&Call::Enter(client, grid.to_vec()), answer)
    }

    /// Strikes a grid that passes questions 6 and 7 for a client of 1 to 8. Checks the answer and
    /// all bytes.
    pub fn check_strike(&mut self, client: u64, grid: &[u8]) -> Answer {
        let (_, before, held) = self.looked_up(grid);
        let answer = match held {
            Some(holdings) if holdings.of(client) > 0 => {
                let left = holdings.with_one_less(client);
                match left.are_all_0() {
                    true => _ = self.contents.entries.remove(before),
                    false => self.contents.entries[before].holdings = left,
                }
                answer(0, before as u32 + 1)
            }
            _ => answer(10, 0),
        };
        self.check(&Call::Strike(client, grid.to_vec()), answer)
    }

    /// The grid's representative, the number of entries before it, and its holdings if it is an
    /// entry.
    fn looked_up(&self, grid: &[u8]) -> (Vec<u8>, usize, Option<Holdings>) {
        let contents = &self.contents;
        let (m, n) = (contents.rows as usize, contents.columns as usize);
        let representative = represented(m, n, contents.top as u8, grid);
        let is_before = |entry: &&Entry| compare(&entry.grid, &representative).is_lt();
        let before = contents.entries.iter().filter(is_before).count();
        let entry = contents.entries.get(before);
        let entry = entry.filter(|entry| entry.grid == representative);
        let held = entry.map(|entry| entry.holdings);
        (representative, before, held)
    }

    /// Checks that the call gives this answer and leaves the bytes of the contents.
    fn check(&mut self, call: &Call, answer: Answer) -> Answer {
        let left = self.contents.bytes();
        check_answer(&self.bytes, call, answer, &left);
        self.bytes = left;
        answer
    }
}
