//! Every single byte of a line changed to every other byte.

use planbook::inputs::LIKELY;
use planbook::lines::{count, count_all, enter, line_1, strike};
use planbook::outputs::{Met, Output};
use planbook::{check, check_each};
use reference::examples::cells;

/// The line with one byte changed.
fn changed(line: &[u8], k: usize, byte: u8) -> Vec<u8> {
    let mut line = line.to_vec();
    line[k] = byte;
    line
}

/// Checks all changes of the command line at each place, in one run for each: behind each changed
/// line, the entries are counted. Returns how often each command was answered by each number.
fn check_command(before: &[Vec<u8>], line: &[u8], count_all: &[u8]) -> Met {
    let mut met = Met::new();
    for k in 0..line.len() {
        let mut input = before.concat();
        for byte in 0..=255 {
            input.extend(changed(line, k, byte));
            input.extend(count_all);
        }
        Output::read(&input, &check(&input)).count(&mut met);
    }
    met
}

#[test]
fn changed_enters() {
    let (line, held) = (enter(1, &[1, 0, 12, 10]), enter(1, &cells("01/10")));
    let before = [line_1([2, 2, 12, 60]), held, line.clone()];
    let met = check_command(&before, &line, &count_all(4, 12));
    for answer in [(0, 12), (1, 0), (1, 7), (1, 15), (1, 101), (2, 0), (3, 0)] {
        assert!(met.contains_key(&answer), "{met:?}");
    }
    assert!(met[&(0, 12)] > 24 * 240, "{met:?}");
}

#[test]
fn changed_strikes() {
    let before = [line_1([2, 2, 12, 2]), enter(1, &cells("01/10"))];
    let met = check_command(&before, &strike(1, &[0, 1, 1, 0]), &count_all(4, 12));
    for answer in [(0, 12), (1, 0), (2, 0), (2, 7), (2, 10), (2, 15), (3, 0)] {
        assert!(met.contains_key(&answer), "{met:?}");
    }
    assert!(met[&(0, 12)] > 24 * 240, "{met:?}");
}

#[test]
fn changed_counts() {
    let before = [line_1([2, 2, 12, 3]), enter(1, &cells("01/10"))];
    let line = count(&[0, 0, 0, 0], &[1, 12, 10, 5]);
    let met = check_command(&before, &line, &count_all(4, 12));
    for answer in [(0, 12), (3, 0), (3, 7), (3, 8)] {
        assert!(met.contains_key(&answer), "{met:?}");
    }
    assert!(met[&(0, 12)] > 30 * 240, "{met:?}");
}

#[test]
fn changed_lines_of_one_cell() {
    let before = [line_1([1, 1, 15, 16]), enter(1, &[7])];
    for line in [enter(1, &[13]), strike(1, &[7]), count(&[2], &[11])] {
        let met = check_command(&before, &line, &count_all(1, 15));
        assert!(met[&(0, 12)] > 9 * 240, "{met:?}");
    }
}

/// Checks line 1 changed to each of these bytes at each place, each in a run of its own with these
/// commands behind. Returns how many runs ended without a register.
fn check_line_1(line: &[u8], bytes: &[u8], commands: &[u8]) -> usize {
    let mut inputs = Vec::new();
    for k in 0..line.len() {
        let at_place = |&byte| [&changed(line, k, byte), commands].concat();
        inputs.extend(bytes.iter().map(at_place));
    }
    let outputs = check_each(&inputs);
    outputs.iter().filter(|output| output.len() == 19).count()
}

#[test]
fn changed_lines_1() {
    let every_byte: Vec<u8> = (0..=255).collect();
    let commands = [enter(1, &cells("10/01")), enter(1, &cells("0"))].concat();
    let ended = check_line_1(&line_1([2, 2, 1, 2]), &every_byte, &commands);
    // The other runs have a digit for one of the first spaces or for a number of one digit.
    assert!((25 * 245..25 * 256).contains(&ended), "{ended}");
}

#[test]
fn likely_changes_of_a_line_1_of_long_numbers() {
    let commands = enter(1, &[0; 80]);
    let ended = check_line_1(&line_1([5, 16, 15, 247]), LIKELY, &commands);
    assert!((400..500).contains(&ended), "{ended}");
}
