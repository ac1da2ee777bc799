//! The program `planbook`.

use reference::bounds::some_grid;
use reference::forms::drawn;
use reference::machine::Machine;
use reference::planbook::transcript;
use reference::random::Random;
use reference::register::Answer;
use std::io::Write;
use std::process::{Command, Stdio};

/// The input of the printed run, as request 4 makes it.
const INPUT: &str = include_str!("../../../crates/planbook/stdin");

/// And its output.
const OUTPUT: &str = include_str!("../../../crates/planbook/stdout");

/// Line 1 of a register of 2 by 2, top 1, capacity 2.
const LINE_1: &str = "     2     2     1     2\n";

/// That register, empty.
const EMPTY: &str = concat!(
    "     2     2     1     2     0\n",
    "                                    \n",
    "                                    \n"
);

/// What is printed for the input.
fn run(input: impl AsRef<[u8]>) -> String {
    String::from_utf8(transcript(input.as_ref())).unwrap()
}

/// The one line of a run that ends without a register.
fn ended(number: u32) -> String {
    format!("     0{number:>6}     0\n")
}

/// What is printed for these command lines after `LINE_1`, without the register, which
/// is checked to be empty still.
fn commands(lines: &[u8]) -> String {
    let output = run([LINE_1.as_bytes(), lines].concat());
    output.strip_suffix(EMPTY).unwrap().to_string()
}

/// A line 1 of these numbers.
fn line_1(m: u64, n: u64, top: u64, capacity: u64) -> String {
    format!("{m:>6}{n:>6}{top:>6}{capacity:>6}\n")
}

#[test]
fn the_printed_run() {
    assert_eq!(run(INPUT), OUTPUT);
}

#[test]
fn the_program_reads_standard_input_and_writes_standard_output() {
    let mut child = Command::new(env!("CARGO_BIN_EXE_planbook_reference"))
        .stdin(Stdio::piped())
        .stdout(Stdio::piped())
        .spawn()
        .unwrap();
    let mut stdin = child.stdin.take().unwrap();
    stdin.write_all(INPUT.as_bytes()).unwrap();
    drop(stdin);
    let output = child.wait_with_output().unwrap();
    assert!(output.status.success());
    assert_eq!(output.stdout, OUTPUT.as_bytes());
}

#[test]
fn input_of_65536_bytes_passes_and_one_more_is_11() {
    let blank_lines = 65_536 - LINE_1.len();
    let input = LINE_1.to_string() + &"\n".repeat(blank_lines);
    assert_eq!(input.len(), 65_536);
    assert_eq!(run(&input), ended(12).repeat(blank_lines) + EMPTY);
    assert_eq!(run(input + "\n"), ended(11));
}

#[test]
fn number_11_comes_before_12() {
    assert_eq!(run(vec![b'x'; 65_537]), ended(11));
    assert_eq!(run(vec![b'x'; 65_536]), ended(12));
    assert_eq!(run(vec![b'\n'; 65_537]), ended(11));
    assert_eq!(run(vec![b'\n'; 65_536]), ended(12));
}

#[test]
fn a_line_1_that_is_not_laid_so_is_12_and_ends_the_run() {
    let bad = [
        "",
        "\n",
        "     2     2     1     2",
        "     2     2     1\n",
        "     2     2     1     2 \n",
        "    2     2     1     2\n",
        "     2     2     1     2     0\n",
        "     2     2     1      \n",
        "     2     2     1    02\n",
        "     2     2    00     2\n",
        "     2     2     1    2 \n",
        "2     2     1     2     \n",
        "     2     2     1    +2\n",
        "     2     2     1    -2\n",
        "     2     2     1   2.0\n",
        "     2     2\t     1    2\n",
        "     2     2     1     2\r\n",
        "     2     2     1    \r2\n",
        "     2     2     1     \u{b2}\n",
        "     2     2     1     x\n",
        "\n     2     2     1     2\n",
        "     2     2     1     \n2\n",
    ];
    for line in bad {
        assert_eq!(run(line), ended(12), "{line:?}");
        if line.ends_with('\n') {
            let more = line.to_string() + "     1     1  1  0  0  1\n";
            assert_eq!(run(more), ended(12), "{line:?}");
        }
    }
}

#[test]
fn every_changed_byte_of_line_1_is_refused_or_another_number() {
    for k in 0..LINE_1.len() {
        for byte in 0..=255u8 {
            let mut input = LINE_1.as_bytes().to_vec();
            input[k] = byte;
            let fields = |text: &str| -> Option<String> {
                let bytes = text.strip_suffix('\n')?.as_bytes().to_vec();
                let field = |f: &[u8]| std::str::from_utf8(f).ok()?.trim().parse().ok();
                let numbers: Option<Vec<u64>> = bytes.chunks(6).map(field).collect();
                let numbers = numbers.filter(|numbers| numbers.len() == 4)?;
                Some(line_1(numbers[0], numbers[1], numbers[2], numbers[3]))
            };
            let text = String::from_utf8(input.clone()).ok();
            let well_laid = text.is_some_and(|text| fields(&text) == Some(text));
            let output = transcript(&input);
            assert_eq!(output == ended(12).as_bytes(), !well_laid);
        }
    }
}

#[test]
fn any_well_laid_numbers_go_on_to_questions_1_to_4_and_13() {
    let cases = [
        (999_999, 999_999, 999_999, 999_999, 1),
        (0, 0, 16, 0, 1),
        (9, 17, 16, 501, 1),
        (8, 0, 16, 501, 2),
        (8, 17, 16, 501, 2),
        (8, 999_999, 16, 501, 2),
        (8, 16, 16, 501, 3),
        (8, 16, 999_999, 501, 3),
        (8, 16, 15, 0, 4),
        (8, 16, 15, 501, 4),
        (8, 16, 15, 999_999, 4),
        (8, 16, 15, 500, 13),
    ];
    for (m, n, top, capacity, number) in cases {
        let line = line_1(m, n, top, capacity);
        assert_eq!(run(&line), ended(number), "{line:?}");
        assert_eq!(run(line + "     1     1  0\n\n"), ended(number));
    }
}

#[test]
fn numbers_of_command_lines_are_laid_out_as_in_the_register() {
    let bad: [&[u8]; 16] = [
        b"     1     1  1  0  0   \n",
        b"           1  1  0  0  1\n",
        b"     1     1 01  0  0  1\n",
        b"     1     1  1 00  0  1\n",
        b"    01     1  1  0  0  1\n",
        b"     1     1  1  0  0 1 \n",
        b"     1     1 1   0  0  1\n",
        b"    1      1  1  0  0  1\n",
        b"     1     1 +1  0  0  1\n",
        b"     1     1 -1  0  0  1\n",
        b"    +1     1  1  0  0  1\n",
        b"     1     1\t 1  0  0  1\n",
        b"     1     1  1  0  0 \r1\n",
        b"     1     1  1  0  0  \xff\n",
        b"     1     1  1  0  0  \xb9\n",
        b"     1     1  1  0  0  a\n",
    ];
    for line in bad {
        assert_eq!(commands(line), ended(12), "{line:?}");
    }
}

#[test]
fn a_client_that_is_no_well_laid_number_is_12() {
    let bad = [
        "      ",
        "    01",
        "000001",
        "    00",
        "1     ",
        "    1 ",
        "  1  1",
        "    +1",
        "    -1",
        "   1.0",
        "\t    1",
        "    1\r",
        "     x",
        "    \u{b9}",
    ];
    for command in [1, 2] {
        for client in bad {
            let line = format!("{command:>6}{client}  1  0  0  1\n");
            assert_eq!(commands(line.as_bytes()), ended(12), "{line:?}");
        }
    }
}

#[test]
fn a_well_laid_number_that_is_no_client_is_15_under_its_command() {
    for client in [0, 9, 10, 255, 256, 257, 65_537, 999_999] {
        for command in [1, 2] {
            let line = format!("{command:>6}{client:>6}  1  0  0  1\n");
            let printed = format!("{command:>6}    15     0\n");
            assert_eq!(commands(line.as_bytes()), printed);
            // 7 is asked first, and a cell above 255 is no call.
            let line = format!("{command:>6}{client:>6}  1  0  0  2\n");
            let printed = format!("{command:>6}     7     0\n");
            assert_eq!(commands(line.as_bytes()), printed);
            let line = format!("{command:>6}{client:>6}  1  0  0256\n");
            assert_eq!(commands(line.as_bytes()), ended(12));
        }
    }
}

#[test]
fn clients_1_to_8_hold_each_their_own() {
    let mut input = LINE_1.to_string();
    let mut expected = String::new();
    for client in 1..=8 {
        input += &format!("     1{client:>6}  1  0  0  1\n");
        expected += ["     1     0     1\n", "     1   101     1\n"][usize::from(client > 1)];
    }
    for client in [2, 2, 8] {
        input += &format!("     2{client:>6}  0  1  1  0\n");
    }
    expected += "     2     0     1\n     2    10     0\n     2     0     1\n";
    expected += "     2     2     1     2     1\n";
    expected += "  0  1  1  0  1  0  1  1  1  1  1  0\n";
    expected += "                                    \n";
    assert_eq!(run(input), expected);
}

#[test]
fn a_command_line_of_another_length_is_12() {
    let bad: [&[u8]; 20] = [
        b"\n",
        b" \n",
        b"                        \n",
        b"     1\n",
        b"     1     1\n",
        b"     1     1  1  0  0\n",
        b"     1     1  1  0  0  1  0\n",
        b"     1     1  1  0  0  1 \n",
        b"     1     1  1  0  0  1\r\n",
        b"     1     1  1  0  0  1",
        b"     2     1  1  0  0\n",
        b"     2     1  1  0  0  1  0\n",
        b"     2     1  0  0  0  1  0  1  0  1\n",
        b"     3  0  0  0  1\n",
        b"     3  0  0  0  1  0  1  0\n",
        b"     3  0  0  0  1  0  1  0  1  0\n",
        // Command 3 has no client, and commands 1 and 2 have one.
        b"     3     1  0  0  0  1  0  1  0  1\n",
        b"     1  1  0  0  1\n",
        b"     2  1  0  0  1\n",
        b"     1  0  0  0  1  0  1  0  1\n",
    ];
    for line in bad {
        assert_eq!(commands(line), ended(12), "{line:?}");
    }
}

#[test]
fn another_command_or_a_cell_above_255_is_12() {
    for command in [0, 4, 5, 10, 11, 12, 31, 100_001, 999_999] {
        let line = format!("{command:>6}     1  1  0  0  1\n");
        assert_eq!(commands(line.as_bytes()), ended(12));
        let line = format!("{command:>6}  0  0  0  1  0  1  0  1\n");
        assert_eq!(commands(line.as_bytes()), ended(12));
    }
    for value in [256, 257, 300, 999] {
        let line = format!("     1     1  1  0  0{value:>3}\n");
        assert_eq!(commands(line.as_bytes()), ended(12));
        let line = format!("     3  0  0  0  1  0  1  0{value:>3}\n");
        assert_eq!(commands(line.as_bytes()), ended(12));
    }
}

#[test]
fn the_run_goes_on_after_12() {
    let lines = [
        LINE_1,
        "x\n",
        "     1     1  1  0  0  1\n",
        "\n",
        "     2     1  0  0  1  1\n",
        "     1",
    ];
    let expected = ended(12)
        + "     1     0     1\n"
        + &ended(12)
        + "     2    10     0\n"
        + &ended(12)
        + "     2     2     1     2     1\n"
        + "  0  1  1  0  1  0  0  0  0  0  0  0\n"
        + "                                    \n";
    assert_eq!(run(lines.concat()), expected);
}

#[test]
fn a_cell_of_top_plus_1_to_255_answers_7() {
    for value in [2, 9, 10, 99, 100, 255] {
        let enter = format!("     1     1  1  0  0{value:>3}\n");
        assert_eq!(commands(enter.as_bytes()), "     1     7     0\n");
        let strike = format!("     2     1{value:>3}  0  0  0\n");
        assert_eq!(commands(strike.as_bytes()), "     2     7     0\n");
        let count = format!("     3  0  0  0  1  0  1  0{value:>3}\n");
        assert_eq!(commands(count.as_bytes()), "     3     7     0\n");
    }
}

#[test]
fn low_and_high_of_each_cell_in_turn() {
    // Low 1, high 0 in cell 0: 8. With a bound above top elsewhere: 7.
    let line = b"     3  1  0  0  1  0  1  0  1\n";
    assert_eq!(commands(line), "     3     8     0\n");
    let line = b"     3  1  0  0  1  0  1  0  2\n";
    assert_eq!(commands(line), "     3     7     0\n");
    // Row 0 all 1, the other row all 0: no grid has allperm.
    let line = b"     3  1  1  1  1  0  0  0  0\n";
    assert_eq!(commands(line), "     3   102     0\n");
    // Lows 0 0 0 0 and highs 1 1 1 1.
    let line = b"     3  0  1  0  1  0  1  0  1\n";
    assert_eq!(commands(line), "     3     0     0\n");
}

#[test]
fn a_run_that_ends_looks_at_no_command_line() {
    let rest = "     1     1  1  0  0  1\nx\n";
    let too_long = LINE_1.to_string() + rest + &"\n".repeat(65_536);
    assert_eq!(run(too_long), ended(11));
    assert_eq!(run("x\n".to_string() + rest), ended(12));
    assert_eq!(run(line_1(8, 16, 15, 161) + rest), ended(13));
    assert_eq!(run(line_1(9, 2, 1, 2) + rest), ended(1));
    assert_eq!(run(line_1(2, 17, 1, 2) + rest), ended(2));
    assert_eq!(run(line_1(2, 2, 16, 2) + rest), ended(3));
    assert_eq!(run(line_1(2, 2, 1, 501) + rest), ended(4));
}

#[test]
fn registers_over_65536_bytes_are_13() {
    for m in 1..=8 {
        for n in 1..=16 {
            for capacity in [1, 159, 160, 161, 200, 300, 400, 499, 500] {
                let length = 31 + capacity * (3 * m * n + 25);
                let output = transcript(line_1(m, n, 15, capacity).as_bytes());
                if length > 65_536 {
                    assert_eq!(output, ended(13).as_bytes());
                } else {
                    assert_eq!(output.len() as u64, length);
                }
            }
        }
    }
    assert_eq!(run(line_1(8, 16, 15, 160)).len(), 65_471);
    assert_eq!(run(line_1(8, 16, 15, 161)), ended(13));
}

#[test]
fn the_largest_capacities_that_pass() {
    for m in 1..=8 {
        for n in 1..=16 {
            let capacity = (65_505 / (3 * m * n + 25)).min(500);
            let output = transcript(line_1(m, n, 0, capacity).as_bytes());
            assert_eq!(output, Machine::opened(m, n, 0, capacity).bytes());
            if capacity < 500 {
                assert_eq!(run(line_1(m, n, 0, capacity + 1)), ended(13));
            }
        }
    }
}

#[test]
fn the_register_is_printed_without_a_command_too() {
    assert_eq!(run(LINE_1), EMPTY);
    assert_eq!(
        run(line_1(1, 1, 15, 1)),
        "     1     1    15     1     0\n                           \n"
    );
}

/// A well laid command line: the command, the client (0 where there is none), and the cells.
type Laid = (u64, u64, Vec<u8>);

/// The numbers of a well laid command line, decided by laying them out again.
fn well_laid(line: &[u8], cells: usize) -> Option<Laid> {
    let text = std::str::from_utf8(line).ok()?.strip_suffix('\n')?;
    let command: u64 = text.get(..6)?.trim().parse().ok()?;
    let (client, count) = match command {
        1 | 2 => (Some(text.get(6..12)?.trim().parse::<u64>().ok()?), cells),
        3 => (None, 2 * cells),
        _ => return None,
    };
    let head = format!("{command:>6}") + &client.map_or(String::new(), |c| format!("{c:>6}"));
    let field = |f: &[u8]| std::str::from_utf8(f).ok()?.trim().parse::<u8>().ok();
    let bytes = text.as_bytes()[head.len()..]
        .chunks(3)
        .map(field)
        .collect::<Option<Vec<u8>>>()?;
    let again: String = bytes.iter().map(|v| format!("{v:>3}")).collect();
    let laid = (command, client.unwrap_or(0), bytes);
    (head + &again == text && laid.2.len() == count).then_some(laid)
}

/// What the machine prints for a command. For 3 it counts the form as sent; 102 is said if no grid
/// in the form has allperm.
fn by_machine(machine: &mut Machine, (command, client, bytes): &Laid) -> String {
    let (m, n, top) = (
        machine.rows as usize,
        machine.columns as usize,
        machine.top as u8,
    );
    let low: Vec<u8> = bytes.chunks(2).map(|two| two[0]).collect();
    let high: Vec<u8> = bytes.chunks(2).map(|two| *two.last().unwrap()).collect();
    let Answer { number, place } = match command {
        1 => machine.enter(*client, bytes),
        2 => machine.strike(*client, bytes),
        _ => match machine.count(&low, &high) {
            Answer { number: 0, .. } if !some_grid(m, n, top, &low, &high) => Answer {
                number: 102,
                place: 0,
            },
            counted => counted,
        },
    };
    format!("{command:>6}{number:>6}{place:>6}\n")
}

/// What is printed for these command lines, by the machine.
fn expected(mut machine: Machine, lines: &[Vec<u8>]) -> Vec<u8> {
    let cells = (machine.rows * machine.columns) as usize;
    let mut output = Vec::new();
    for line in lines {
        let printed = match well_laid(line, cells) {
            Some(laid) => by_machine(&mut machine, &laid),
            None => ended(12),
        };
        output.extend(printed.into_bytes());
    }
    output.extend(machine.bytes());
    output
}

/// A command line that now and then has a byte changed, left out or added.
fn random_line(random: &mut Random, cells: usize, top: u8) -> Vec<u8> {
    let command = random.between(1, 3);
    let extra = usize::from(random.once_in(12));
    let mut bytes = random.cells(cells + extra, top);
    if command == 3 {
        let (low, high) = drawn(random, cells, top);
        bytes = (0..cells).flat_map(|k| [low[k], high[k]]).collect();
    }
    if random.once_in(10) {
        let k = random.below(bytes.len() as u64) as usize;
        bytes[k] = random.below(256) as u8;
    }
    let client = match command {
        3 => String::new(),
        _ if random.once_in(10) => format!("{:>6}", random.below(12)),
        _ => format!("{:>6}", random.between(1, 8)),
    };
    let fields: String = bytes.iter().map(|v| format!("{v:>3}")).collect();
    let mut line = format!("{command:>6}{client}{fields}").into_bytes();
    if random.once_in(4) {
        let likely = b" 01239\t-x\x80";
        let k = random.below(line.len() as u64) as usize;
        let byte = likely[random.below(likely.len() as u64) as usize];
        match random.below(4) {
            0 => line.insert(k, byte),
            1 => _ = line.remove(k),
            _ => line[k] = byte,
        }
    }
    line.push(b'\n');
    line
}

#[test]
fn random_runs_print_what_the_machine_answers() {
    let mut random = Random::new(18);
    let mut refused = 0;
    for _ in 0..400 {
        let (m, n) = (random.between(1, 4), random.between(1, 4));
        let (top, capacity) = (random.between(0, 3), random.between(1, 6));
        let cells = (m * n) as usize;
        let lines: Vec<Vec<u8>> = (0..random.below(30))
            .map(|_| random_line(&mut random, cells, top as u8))
            .collect();
        let input = [line_1(m, n, top, capacity).into_bytes(), lines.concat()].concat();
        let machine = Machine::opened(m, n, top, capacity);
        assert_eq!(transcript(&input), expected(machine, &lines));
        refused += lines
            .iter()
            .filter(|l| well_laid(l, cells).is_none())
            .count();
    }
    assert!(refused > 200);
}

#[test]
fn arbitrary_bytes_are_answered_by_one_line() {
    let mut random = Random::new(19);
    for _ in 0..2000 {
        let length = random.below(60) as usize;
        let input = random.cells(length, 255);
        assert_eq!(transcript(&input), ended(12).as_bytes());
    }
}
