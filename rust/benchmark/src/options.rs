//! What the command line asks for.

/// What is printed of the chosen lines.
#[derive(Clone, Copy, Debug, PartialEq, Eq)]
pub enum Printed {
    Ratios,
    Times,
    Names,
}

#[derive(Debug, PartialEq, Eq)]
pub enum Asked {
    Help,
    /// The lines whose names have one of the parts; all lines where there is no part.
    Lines {
        printed: Printed,
        parts: Vec<String>,
    },
}

/// What the arguments ask for, or what is wrong with them.
pub fn read(arguments: impl IntoIterator<Item = String>) -> Result<Asked, String> {
    let mut printed = Printed::Ratios;
    let mut parts = Vec::new();
    for argument in arguments {
        match argument.as_str() {
            "-h" | "--help" => return Ok(Asked::Help),
            "--list" => printed = Printed::Names,
            "--times" => printed = Printed::Times,
            option if option.starts_with('-') => {
                return Err(format!("{option} is no option; --help lists them"));
            }
            _ => parts.push(argument),
        }
    }
    Ok(Asked::Lines { printed, parts })
}

pub const HELP: &str = "\
Measures how fast the calls are: the verified library beside other implementations in Rust and,
where nauty is installed, beside nauty, and the calls on a register beside a copy of its bytes.

    benchmark [--times | --list] [PART...]

    PART      measure only the lines whose name has one of these parts, such as prune or 'top 15'
    --times   print the library's own time for each line, in microseconds, instead of ratios
    --list    print the names of the lines and measure nothing
    --help    print this, as does -h, and measure nothing

Prints Markdown tables. All ratios take three to four minutes, all times about half a minute; some
of the lines take less.
";

#[cfg(test)]
mod tests {
    use super::{read, Asked, Printed};

    fn asked(arguments: &[&str]) -> Result<Asked, String> {
        read(arguments.iter().map(|argument| argument.to_string()))
    }

    fn lines(printed: Printed, parts: &[&str]) -> Result<Asked, String> {
        let parts = parts.iter().map(|part| part.to_string()).collect();
        Ok(Asked::Lines { printed, parts })
    }

    #[test]
    fn without_arguments_all_ratios_are_printed() {
        assert_eq!(asked(&[]), lines(Printed::Ratios, &[]));
    }

    #[test]
    fn parts_of_names_may_stand_anywhere() {
        let chosen = &["prune", "top 15"];
        assert_eq!(asked(chosen), lines(Printed::Ratios, chosen));
        assert_eq!(
            asked(&["prune", "--times", "top 15"]),
            lines(Printed::Times, chosen)
        );
        assert_eq!(
            asked(&["--list", "count"]),
            lines(Printed::Names, &["count"])
        );
    }

    #[test]
    fn help_is_asked_for_in_two_ways() {
        assert_eq!(asked(&["--help"]), Ok(Asked::Help));
        assert_eq!(asked(&["count", "-h"]), Ok(Asked::Help));
    }

    #[test]
    fn other_options_are_errors() {
        for option in ["--time", "-x", "-", "--"] {
            let error = format!("{option} is no option; --help lists them");
            assert_eq!(asked(&["count", option]), Err(error));
        }
    }
}
