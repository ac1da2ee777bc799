//! The plain machine of demand 3.

use crate::bounds::lies_in;
use crate::grid::{compare, least};
use crate::holdings::{Holdings, MOST};
use crate::layout::{Contents, Entry};
use crate::questions;
use crate::register::{answered, Answer};
use std::collections::BTreeMap;

/// Rows, columns, top and capacity as opened, and a set of classes, each as its least grid, with
/// the eight holdings of each.
#[derive(Clone, Debug, PartialEq, Eq)]
pub struct Machine {
    pub rows: u64,
    pub columns: u64,
    pub top: u64,
    pub capacity: u64,
    pub classes: BTreeMap<Vec<u8>, Holdings>,
}

impl Machine {
    /// The machine after an open that answered 0: the set is empty.
    pub fn opened(rows: u64, columns: u64, top: u64, capacity: u64) -> Machine {
        Machine {
            rows,
            columns,
            top,
            capacity,
            classes: BTreeMap::new(),
        }
    }

    /// Enter: this client holds one more of the class. Class in the set, 101; else capacity classes
    /// in the set, 9; else it is added, 0. With 999 held by this client, 16.
    pub fn enter(&mut self, client: u64, grid: &[u8]) -> Answer {
        answered(self.try_enter(client, grid))
    }

    /// A terminal's enter: enter with 14 asked first.
    pub fn terminal_enter(&mut self, client: u64, grid: &[u8]) -> Answer {
        let asked = questions::terminal_rows(self.rows);
        answered(asked.and_then(|()| self.try_enter(client, grid)))
    }

    /// Strike: this client holds one less of the class, 0; none held by this client, 10. The class
    /// is removed when nobody holds any.
    pub fn strike(&mut self, client: u64, grid: &[u8]) -> Answer {
        answered(self.try_strike(client, grid))
    }

    /// Count: 0 and the number of classes in the set whose least grid lies in the form.
    pub fn count(&self, low: &[u8], high: &[u8]) -> Answer {
        answered(self.try_count(low, high))
    }

    /// The bytes: the four numbers, the size of the set, the least grids ascending, each with its
    /// holdings.
    pub fn bytes(&self) -> Vec<u8> {
        let entry = |(grid, &holdings): (&Vec<u8>, &Holdings)| Entry {
            grid: grid.clone(),
            holdings,
        };
        let mut entries: Vec<Entry> = self.classes.iter().map(entry).collect();
        entries.sort_by(|a, b| compare(&a.grid, &b.grid));
        let contents = Contents {
            rows: self.rows,
            columns: self.columns,
            top: self.top,
            capacity: self.capacity,
            entries,
        };
        contents.bytes()
    }

    /// What each client holds of the class; nothing where it is not in the set.
    fn holdings(&self, class: &[u8]) -> Holdings {
        self.classes.get(class).copied().unwrap_or_default()
    }

    fn try_enter(&mut self, client: u64, grid: &[u8]) -> Result<Answer, u32> {
        let class = self.class(client, grid)?;
        let place = self.place(&class);
        let held = self.holdings(&class);
        let number = match self.classes.contains_key(&class) {
            true => 101,
            false => 0,
        };
        if number == 0 && self.classes.len() as u64 == self.capacity {
            return Err(9);
        }
        if held.of(client) == MOST {
            return Err(16);
        }
        self.classes.insert(class, held.with_one_more(client));
        Ok(Answer { number, place })
    }

    fn try_strike(&mut self, client: u64, grid: &[u8]) -> Result<Answer, u32> {
        let class = self.class(client, grid)?;
        let place = self.place(&class);
        let held = self.holdings(&class);
        if held.of(client) == 0 {
            return Err(10);
        }
        let left = held.with_one_less(client);
        match left.are_all_0() {
            true => self.classes.remove(&class),
            false => self.classes.insert(class, left),
        };
        Ok(Answer { number: 0, place })
    }

    fn try_count(&self, low: &[u8], high: &[u8]) -> Result<Answer, u32> {
        questions::lengths(&[low, high], self.rows * self.columns)?;
        questions::cells(&[low, high], self.top)?;
        questions::bounds(low, high)?;
        let in_form = |class: &&Vec<u8>| lies_in(low, high, class);
        Ok(Answer {
            number: 0,
            place: self.classes.keys().filter(in_form).count() as u64,
        })
    }

    /// The class of the grid as its least grid, once questions 6, 7 and 15 got a yes.
    fn class(&self, client: u64, grid: &[u8]) -> Result<Vec<u8>, u32> {
        questions::lengths(&[grid], self.rows * self.columns)?;
        questions::cells(&[grid], self.top)?;
        questions::client(client)?;
        Ok(least(self.rows as usize, self.columns as usize, grid))
    }

    /// 1 plus the number of classes in the set with a smaller least grid.
    fn place(&self, class: &[u8]) -> u64 {
        let smaller = |other: &&Vec<u8>| compare(other, class).is_lt();
        1 + self.classes.keys().filter(smaller).count() as u64
    }
}
