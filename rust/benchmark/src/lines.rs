//! The lines of all tables, and those chosen.

use crate::bounds::{self, Bounds};
use crate::grids::{self, Grids};
use crate::inputs::Input;
use crate::openings::{self, Opening};
use crate::pairs::{self, Pairs};
use crate::register_calls::{reading, writing, RegisterCall};
use crate::registers;
use crate::terminal_grids;

/// The lines of each table.
pub struct Lines {
    pub represent: Vec<Grids>,
    pub terminal: Vec<Grids>,
    pub same: Vec<Pairs>,
    pub prune: Vec<Bounds>,
    pub open: Vec<Opening>,
    pub reading: Vec<RegisterCall>,
    pub writing: Vec<RegisterCall>,
}

impl Lines {
    /// All lines, the same in every run.
    pub fn all() -> Lines {
        let registers = registers::inputs();
        Lines {
            represent: grids::inputs(),
            terminal: terminal_grids::inputs(),
            same: pairs::inputs(),
            prune: bounds::inputs(),
            open: openings::inputs(),
            reading: registers.iter().flat_map(reading).collect(),
            writing: registers.iter().flat_map(writing).collect(),
        }
    }

    /// The names of the lines, in order.
    pub fn names(&self) -> Vec<&str> {
        let represent = self.represent.iter().chain(&self.terminal);
        let represent = represent.map(Input::name);
        let same = self.same.iter().map(Input::name);
        let prune = self.prune.iter().map(Input::name);
        let open = self.open.iter().map(Input::name);
        let registers = self.reading.iter().chain(&self.writing);
        let registers = registers.map(|call| call.name.as_str());
        let calls = represent.chain(same).chain(prune).chain(open);
        calls.chain(registers).collect()
    }

    /// The lines whose names have one of the parts; all where there is no part. A part that no
    /// name has is an error.
    pub fn chosen(mut self, parts: &[String]) -> Result<Lines, String> {
        let missing = |part: &&String| !self.names().iter().any(|name| name.contains(*part));
        if let Some(part) = parts.iter().find(missing) {
            return Err(format!("no line's name has \"{part}\"; --list lists them"));
        }
        let is_chosen =
            |name: &str| parts.is_empty() || parts.iter().any(|part| name.contains(part));
        self.represent.retain(|line| is_chosen(line.name()));
        self.terminal.retain(|line| is_chosen(line.name()));
        self.same.retain(|line| is_chosen(line.name()));
        self.prune.retain(|line| is_chosen(line.name()));
        self.open.retain(|line| is_chosen(line.name()));
        self.reading.retain(|line| is_chosen(&line.name));
        self.writing.retain(|line| is_chosen(&line.name));
        Ok(self)
    }
}

#[cfg(test)]
mod tests {
    use super::Lines;
    use std::collections::BTreeSet;

    fn chosen(parts: &[&str]) -> Result<Vec<String>, String> {
        let parts: Vec<String> = parts.iter().map(|part| part.to_string()).collect();
        let lines = Lines::all().chosen(&parts)?;
        Ok(lines.names().into_iter().map(str::to_string).collect())
    }

    #[test]
    fn no_two_lines_have_one_name() {
        let names = chosen(&[]).unwrap();
        assert_eq!(names.len(), 66);
        assert_eq!(BTreeSet::from_iter(names).len(), 66);
    }

    #[test]
    fn lines_are_chosen_by_parts_of_their_names() {
        assert_eq!(chosen(&["Fano"]).unwrap(), ["represent: Fano 7x7"]);
        assert_eq!(chosen(&["terminal represent: "]).unwrap().len(), 10);
        assert_eq!(chosen(&["prune: "]).unwrap().len(), 6);
        assert_eq!(chosen(&["enter, held"]).unwrap().len(), 4);
        assert_eq!(chosen(&["strike, held by others"]).unwrap().len(), 4);
        let two = ["represent: EFPA 4x6", "prune: one value 8x16, top 15"];
        assert_eq!(chosen(&["one value", "EFPA"]).unwrap(), two);
    }

    #[test]
    fn a_part_of_no_name_is_an_error() {
        let error = "no line's name has \"nought\"; --list lists them";
        assert_eq!(chosen(&["Fano", "nought"]), Err(error.to_string()));
    }
}
