//! The printed tables, in Markdown.

use crate::digits::two_digits;
use std::time::Duration;

/// The name of the verified library among the implementations.
pub const LIBRARY: &str = "plan_register";

/// Its name where its calls for terminals are beside those of the order system.
pub const TERMINAL: &str = "terminal";

/// A table: the implementations of a call by name, and which times are divided by which.
pub struct Table<Call, const N: usize> {
    pub implementations: [(&'static str, Call); N],
    pub ratios: &'static [(usize, usize)],
}

impl<Call: Copy, const N: usize> Table<Call, N> {
    pub fn calls(&self) -> [Call; N] {
        self.implementations.map(|(_, call)| call)
    }

    /// The call as the library answers it.
    pub fn library(&self) -> Call {
        let mut calls = self.implementations.iter();
        let library = calls.find(|(name, _)| [LIBRARY, TERMINAL].contains(name));
        library.expect("the library is compared").1
    }

    /// The heading and the rule beneath it.
    pub fn heading(&self) -> String {
        let name = |k: usize| self.implementations[k].0;
        let ratios = self.ratios.iter();
        let names = ratios.map(|&(k, other)| format!("{} / {}", name(k), name(other)));
        heading(&names.collect::<Vec<_>>())
    }

    /// The line of an input: the ratios of these times.
    pub fn line(&self, name: &str, times: [Duration; N]) -> String {
        let ratio = |&(k, other): &(usize, usize)| {
            let ratio = times[k].as_secs_f64() / times[other].as_secs_f64();
            two_digits(ratio)
        };
        line(name, &self.ratios.iter().map(ratio).collect::<Vec<_>>())
    }
}

/// The heading of the table of the library's times.
pub fn times_heading() -> String {
    heading(&["microseconds".to_string()])
}

/// A line of the table of the library's times: the time of one call.
pub fn times_line(name: &str, time: Duration) -> String {
    line(name, &[two_digits(time.as_secs_f64() * 1e6)])
}

fn heading(columns: &[String]) -> String {
    let rule = "---:|".repeat(columns.len());
    format!("{}\n|---|{rule}\n", line("input", columns))
}

fn line(name: &str, cells: &[String]) -> String {
    format!("| {name} | {} |", cells.join(" | "))
}

#[cfg(test)]
mod tests {
    use super::{times_heading, times_line, Table};
    use std::time::Duration;

    const TABLE: Table<char, 3> = Table {
        implementations: [("plain", 'p'), ("plan_register", 'l'), ("fast", 'f')],
        ratios: &[(0, 1), (1, 2)],
    };

    #[test]
    fn the_heading_names_what_is_divided() {
        assert_eq!(
            TABLE.heading(),
            "| input | plain / plan_register | plan_register / fast |\n|---|---:|---:|\n"
        );
    }

    #[test]
    fn a_line_has_the_ratios() {
        for (times, line) in [
            ([567_800, 1_000, 800], "| some grid | 570 | 1.2 |"),
            ([98_765, 1_000, 16_000], "| some grid | 99 | 0.062 |"),
            ([2_000, 1_000, 1_000], "| some grid | 2.0 | 1.0 |"),
            ([1_000, 1_000, 250_000], "| some grid | 1.0 | 0.0040 |"),
        ] {
            assert_eq!(
                TABLE.line("some grid", times.map(Duration::from_nanos)),
                line
            );
        }
    }

    #[test]
    fn the_library_is_found_by_its_name() {
        assert_eq!(TABLE.library(), 'l');
        let at_terminal: Table<char, 2> = Table {
            implementations: [("order system", 'o'), ("terminal", 't')],
            ratios: &[(0, 1)],
        };
        assert_eq!(at_terminal.library(), 't');
    }

    #[test]
    fn times_are_printed_in_microseconds() {
        assert_eq!(times_heading(), "| input | microseconds |\n|---|---:|\n");
        for (nanoseconds, line) in [
            (34, "| some grid | 0.034 |"),
            (2_070, "| some grid | 2.1 |"),
            (123_456, "| some grid | 120 |"),
        ] {
            let time = Duration::from_nanos(nanoseconds);
            assert_eq!(times_line("some grid", time), line);
        }
    }
}
