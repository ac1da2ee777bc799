//! How the numbers of the input are laid.

use planbook::inputs::LIKELY;
use planbook::lines::{command, ended, line_1};
use planbook::malformed::{with_field, NO_NUMBERS};
use planbook::outputs::{refusal, Output};
use planbook::{check, check_each};

/// Every list of so many of the bytes.
fn every_field(bytes: &[u8], width: usize) -> Vec<Vec<u8>> {
    let mut fields = vec![Vec::new()];
    for _ in 0..width {
        let longer = |field: &Vec<u8>| -> Vec<Vec<u8>> {
            let with = |&byte: &u8| [&field[..], &[byte]].concat();
            bytes.iter().map(with).collect()
        };
        fields = fields.iter().flat_map(longer).collect();
    }
    fields
}

/// Every list of three likely bytes, none of them a line feed.
fn every_likely_field() -> Vec<Vec<u8>> {
    let bytes = LIKELY.iter().copied().filter(|&byte| byte != b'\n');
    every_field(&bytes.collect::<Vec<u8>>(), 3)
}

/// Checks the command lines behind line 1 of a register of one cell, top 15, in as many runs as
/// they need. Returns what is printed for each.
fn check_lines(lines: &[Vec<u8>]) -> Vec<[u64; 3]> {
    let mut printed = Vec::new();
    for some in lines.chunks(3000) {
        let input = [line_1([1, 1, 15, 9]), some.concat()].concat();
        printed.extend(Output::read(&input, &check(&input)).printed);
    }
    assert_eq!(printed.len(), lines.len());
    printed
}

/// How many lines are printed with this command.
fn times(printed: &[[u64; 3]], command: u64) -> usize {
    printed.iter().filter(|line| line[0] == command).count()
}

#[test]
fn every_cell_of_likely_bytes() {
    let fields = every_likely_field();
    for head in [b"     1     1", b"     2     8"] {
        let line = |field: &Vec<u8>| ended([&head[..], field].concat());
        let printed = check_lines(&fields.iter().map(line).collect::<Vec<_>>());
        // The cells 0 to 255 alone are laid as they should be.
        assert_eq!(times(&printed, 0), fields.len() - 256);
    }
}

#[test]
fn every_client_that_ends_in_likely_bytes() {
    let fields = every_likely_field();
    for head in [b"     1   ", b"     2   ", b"     1  7", b"     2407"] {
        let line = |field: &Vec<u8>| ended([&head[..], field, b"  0"].concat());
        let printed = check_lines(&fields.iter().map(line).collect::<Vec<_>>());
        // The numbers of three digits, or fewer where spaces are before them.
        assert_eq!(times(&printed, 0), fields.len() - 1000);
    }
}

#[test]
fn every_client_up_to_9999_and_some_above() {
    let numbers: Vec<u64> = (0..=9_999)
        .chain(65_530..65_550)
        .chain(99_990..100_010)
        .chain(999_900..=999_999)
        .collect();
    for name in [1, 2] {
        for (cell, refused) in [(0, 15), (16, 7)] {
            let line = |&number: &u64| command(name, Some(number), &[cell]);
            let lines: Vec<_> = numbers.iter().map(line).collect();
            for (number, line) in numbers.iter().zip(check_lines(&lines)) {
                assert_eq!(line[0], name);
                let passes = (1..=8).contains(number) && cell == 0;
                assert_eq!(line[1..] == [refused, 0], !passes, "{number}: {line:?}");
            }
        }
    }
}

#[test]
fn every_byte_around_the_digit_of_a_client() {
    // The digit at each place of the field, and one byte at the other five.
    let mut lines = Vec::new();
    for byte in (0..=255).filter(|&byte| byte != b'\n') {
        for place in 0..6 {
            for digit in b"189" {
                let field = with_field(&[byte; 6], place, &[*digit]);
                lines.push(ended([b"     1", &field[..], b"  0"].concat()));
            }
        }
    }
    let printed = check_lines(&lines);
    // Spaces before the digit, zeros behind it, or the digits 1 to 9 around it.
    assert_eq!(times(&printed, 1), 3 + 3 + 9 * 6 * 3);
    assert_eq!(times(&printed, 0), lines.len() - times(&printed, 1));
}

#[test]
fn every_bound_of_likely_bytes() {
    let fields = every_field(b" 0159\r\t+x\xff", 3);
    for (before, behind) in [("     3", "255"), ("     3  0", "")] {
        let line = |field: &Vec<u8>| ended([before.as_bytes(), field, behind.as_bytes()].concat());
        let printed = check_lines(&fields.iter().map(line).collect::<Vec<_>>());
        let numbers =
            (0..=255).filter(|number: &u32| number.to_string().chars().all(|c| "0159".contains(c)));
        assert_eq!(times(&printed, 3), numbers.count());
    }
}

/// The cells of a command with a number among them, behind its client if it has one.
type CellsWith = fn(u64) -> (Option<u64>, Vec<u64>);

#[test]
fn every_number_as_a_cell_and_as_a_bound() {
    let sent: [(u64, CellsWith); 4] = [
        (1, |value| (Some(1), vec![value])),
        (2, |value| (Some(1), vec![value])),
        (3, |value| (None, vec![value, 15])),
        (3, |value| (None, vec![0, value])),
    ];
    for (name, cells) in sent {
        let lines: Vec<_> = (0..=999)
            .map(|value| {
                let (client, cells) = cells(value);
                command(name, client, &cells)
            })
            .collect();
        for (value, line) in check_lines(&lines).into_iter().enumerate() {
            match value {
                0..=15 => assert!(line[0] == name && line[1] != 7, "{line:?}"),
                16..=255 => assert_eq!(line, [name, 7, 0]),
                _ => assert_eq!(line, [0, 12, 0]),
            }
        }
    }
}

#[test]
fn every_command_up_to_9999_and_some_above() {
    let numbers: Vec<u64> = (0..=9_999)
        .chain(10_000..10_100)
        .chain(99_990..100_010)
        .chain(999_900..=999_999)
        .collect();
    for (client, cells, right) in [(Some(1), vec![0], [1, 2]), (None, vec![0, 0], [3, 3])] {
        let lines: Vec<_> = numbers
            .iter()
            .map(|&number| command(number, client, &cells))
            .collect();
        let printed = check_lines(&lines);
        for (number, line) in numbers.iter().zip(printed) {
            let is_command = right.contains(number);
            assert_eq!(line[0], if is_command { *number } else { 0 });
            assert_eq!(line[1] == 12, !is_command);
        }
    }
}

#[test]
fn every_byte_around_the_digit_of_a_command() {
    // The digit at each place of the field, and one byte at the other five.
    let mut lines = Vec::new();
    for byte in (0..=255).filter(|&byte| byte != b'\n') {
        for place in 0..6 {
            for digit in b"123" {
                let field = with_field(&[byte; 6], place, &[*digit]);
                lines.push(ended([&field[..], b"     1  0"].concat()));
                lines.push(ended([&field[..], b"  0  0"].concat()));
            }
        }
    }
    let printed = check_lines(&lines);
    assert_eq!(times(&printed, 0), lines.len() - 3);
}

#[test]
fn fields_of_line_1_that_hold_no_number() {
    let line = line_1([2, 2, 1, 2]);
    let at = |k: usize| NO_NUMBERS.map(|field| with_field(&line, 6 * k, field));
    for output in check_each(&[at(0), at(1), at(2), at(3)].concat()) {
        assert_eq!(output, refusal(12));
    }
}

#[test]
fn line_1_with_a_digit_at_each_place() {
    // All other bytes are spaces, or zeros.
    for filler in *b" 0" {
        let digit_at = |k: usize| with_field(&ended(vec![filler; 24]), k, b"1");
        for output in check_each(&(0..24).map(digit_at).collect::<Vec<_>>()) {
            assert_eq!(output, refusal(12));
        }
    }
}

#[test]
fn line_1_of_numbers_of_every_width() {
    let mut inputs = Vec::new();
    for number in [
        0, 1, 8, 10, 16, 99, 100, 500, 1_000, 10_000, 65_536, 100_000, 999_999,
    ] {
        for k in 0..4 {
            let mut numbers = [1, 1, 0, 1];
            numbers[k] = number;
            inputs.push(line_1(numbers));
        }
    }
    let met = check_each(&inputs);
    for number in 1..=4 {
        assert!(met.contains(&refusal(number)));
    }
    assert!(!met.contains(&refusal(12)));
}
