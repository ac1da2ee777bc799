//! Prints how fast the calls are on each input, as Markdown tables.

#[cfg(nauty)]
use benchmark::implementations::NAUTY;
use benchmark::implementations::{OPEN, PRUNE, READING, REPRESENT, SAME, TERMINAL, WRITING};
use benchmark::inputs::Input;
use benchmark::lines::Lines;
#[cfg(nauty)]
use benchmark::nauty::Labelled;
use benchmark::options::{read, Asked, Printed, HELP};
use benchmark::register_calls::{times, Pass, RegisterCall};
use benchmark::table::{times_heading, times_line, Table};
use benchmark::timing::medians;
use std::env;
use std::process::ExitCode;

fn main() -> ExitCode {
    match answered(env::args().skip(1)) {
        Ok(()) => ExitCode::SUCCESS,
        Err(error) => {
            eprintln!("benchmark: {error}");
            ExitCode::from(2)
        }
    }
}

fn answered(arguments: impl Iterator<Item = String>) -> Result<(), String> {
    let Asked::Lines { printed, parts } = read(arguments)? else {
        print!("{HELP}");
        return Ok(());
    };
    let lines = Lines::all().chosen(&parts)?;
    match printed {
        Printed::Names => lines.names().iter().for_each(|name| println!("{name}")),
        Printed::Ratios => print_ratios(&lines),
        Printed::Times => print_times(&lines),
    }
    Ok(())
}

fn print_ratios(lines: &Lines) {
    print_table(&REPRESENT, &lines.represent);
    print_nauty_table(lines);
    print_table(&TERMINAL, &lines.terminal);
    print_table(&SAME, &lines.same);
    print_table(&PRUNE, &lines.prune);
    print_table(&OPEN, &lines.open);
    print_register_table(&READING, &lines.reading);
    print_register_table(&WRITING, &lines.writing);
}

/// The lines of represent once more, beside nauty.
#[cfg(nauty)]
fn print_nauty_table(lines: &Lines) {
    let labelled: Vec<Labelled> = lines.represent.iter().map(Labelled).collect();
    print_table(&NAUTY, &labelled);
}

#[cfg(not(nauty))]
fn print_nauty_table(_: &Lines) {}

/// A table and a blank line, or nothing where it has no lines.
fn print_table<I: Input, const N: usize>(table: &Table<I::Call, N>, inputs: &[I]) {
    if inputs.is_empty() {
        return;
    }
    print!("{}", table.heading());
    for input in inputs {
        input.check_equal_outputs(&table.calls());
        let times = medians(input, table.calls());
        println!("{}", table.line(input.name(), times));
    }
    println!();
}

fn print_register_table<const N: usize>(table: &Table<Pass, N>, calls: &[RegisterCall]) {
    if calls.is_empty() {
        return;
    }
    for call in calls {
        call.check_equal_outputs(&table.calls());
    }
    print!("{}", table.heading());
    for (call, times) in calls.iter().zip(times(calls, table.calls())) {
        println!("{}", table.line(&call.name, times));
    }
    println!();
}

/// One table of the library's times.
fn print_times(lines: &Lines) {
    print!("{}", times_heading());
    print_times_of(&REPRESENT, &lines.represent);
    print_times_of(&TERMINAL, &lines.terminal);
    print_times_of(&SAME, &lines.same);
    print_times_of(&PRUNE, &lines.prune);
    print_times_of(&OPEN, &lines.open);
    print_register_times(&READING, &lines.reading);
    print_register_times(&WRITING, &lines.writing);
}

fn print_times_of<I: Input, const N: usize>(table: &Table<I::Call, N>, inputs: &[I]) {
    for input in inputs {
        let [pass] = medians(input, [table.library()]);
        let time = pass / input.calls();
        println!("{}", times_line(input.name(), time));
    }
}

fn print_register_times<const N: usize>(table: &Table<Pass, N>, calls: &[RegisterCall]) {
    for (call, [time]) in calls.iter().zip(times(calls, [table.library()])) {
        println!("{}", times_line(&call.name, time));
    }
}
