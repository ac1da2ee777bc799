//! Question 5 on bytes that are nearly a register.

use reference::examples::{held_register, register};
use reference::grid::compare;
use reference::layout::{number, read_number, Contents};
use reference::random::Random;
use reference::register::{count, enter, strike, terminal_enter, Answer};

/// The numbers in the fields of a line, read without strictness.
fn loose_numbers(line: &str, width: usize) -> Option<Vec<u64>> {
    let field = |bytes: &[u8]| std::str::from_utf8(bytes).ok()?.trim().parse().ok();
    line.as_bytes().chunks(width).map(field).collect()
}

/// The numbers laid out again, each with its width.
fn laid(numbers: &[u64], width: usize) -> String {
    numbers.iter().map(|v| format!("{v:>width$}")).collect()
}

/// Question 5 decided in another way: what the bytes read as, laid out again, are these bytes.
fn is_laid_out(bytes: &[u8]) -> bool {
    bytes.is_ascii() && laid_out_again(std::str::from_utf8(bytes).unwrap()).is_some()
}

fn laid_out_again(text: &str) -> Option<()> {
    let lines: Vec<&str> = text.split('\n').collect();
    let head = loose_numbers(lines[0], 6)?;
    let &[m, n, top, capacity, count] = head.as_slice() else {
        return None;
    };
    let limits = (1..=8).contains(&m)
        && (1..=16).contains(&n)
        && top <= 15
        && (1..=500).contains(&capacity)
        && count <= capacity;
    if !limits || lines.len() as u64 != capacity + 2 {
        return None;
    }
    let mut again = laid(&head, 6) + "\n";
    let mut last: Option<Vec<u8>> = None;
    for line in &lines[1..=count as usize] {
        let numbers = loose_numbers(line, 3)?;
        if numbers.len() as u64 != m * n + 8 {
            return None;
        }
        let (entry, holdings) = numbers.split_at((m * n) as usize);
        if entry.iter().any(|&v| v > top) || holdings.iter().sum::<u64>() == 0 {
            return None;
        }
        again += &(laid(&numbers, 3) + "\n");
        let entry: Vec<u8> = entry.iter().map(|&v| v as u8).collect();
        if last.is_some_and(|last| !compare(&last, &entry).is_lt()) {
            return None;
        }
        last = Some(entry);
    }
    for _ in count..capacity {
        again += &(" ".repeat(3 * (m * n) as usize + 24) + "\n");
    }
    (again == text).then_some(())
}

/// The registers that are damaged here.
fn registers() -> Vec<Vec<u8>> {
    vec![
        held_register(
            2,
            2,
            12,
            3,
            &[("00/01", [0, 12, 0]), ("01/10", [999, 1, 7])],
        ),
        held_register(
            1,
            1,
            9,
            2,
            &[("1", [0, 0, 0, 0, 0, 0, 0, 1]), ("8", [100; 8])],
        ),
        register(1, 3, 15, 1, &[]),
        register(2, 1, 3, 2, &["0/1", "2/3"]),
        register(1, 2, 0, 1, &["00"]),
        register(3, 1, 5, 12, &["0/0/1", "0/1/1", "2/3/4"]),
    ]
}

/// Makes each call on the bytes and compares with `valid`.
fn check_calls(bytes: &[u8], valid: bool) {
    let refusal = Answer {
        number: 5,
        place: 0,
    };
    let cells = Contents::read(bytes).map_or(4, |c| (c.rows * c.columns) as usize);
    let grid = vec![0; cells];
    let mut entered = bytes.to_vec();
    let mut entered_at_terminal = bytes.to_vec();
    let mut struck = bytes.to_vec();
    let answers = [
        enter(&mut entered, 1, &grid),
        terminal_enter(&mut entered_at_terminal, 1, &grid),
        strike(&mut struck, 1, &grid),
        count(bytes, &grid, &grid),
    ];
    for answer in answers {
        assert_eq!(answer.number == 5, !valid);
        assert!(valid || answer == refusal);
    }
    assert_eq!(entered_at_terminal, entered);
    assert!(valid || (entered == bytes && struck == bytes));
    assert!(!valid || (is_laid_out(&entered) && is_laid_out(&struck)));
}

fn check(bytes: &[u8]) -> bool {
    let valid = is_laid_out(bytes);
    match Contents::read(bytes) {
        Some(contents) => assert!(valid && contents.bytes() == bytes),
        None => assert!(!valid, "{:?}", String::from_utf8_lossy(bytes)),
    }
    check_calls(bytes, valid);
    valid
}

#[test]
fn undamaged_registers_are_laid_out() {
    for bytes in registers() {
        assert!(check(&bytes));
    }
}

#[test]
fn every_change_of_one_byte() {
    let mut still_valid = 0;
    for whole in registers() {
        for k in 0..whole.len() {
            for byte in 0..=255 {
                let mut bytes = whole.clone();
                bytes[k] = byte;
                if byte != whole[k] && check(&bytes) {
                    still_valid += 1;
                }
            }
        }
    }
    // Another top, a cell that keeps the order, or another holding.
    assert!(still_valid > 100);
}

#[test]
fn every_byte_left_out_or_doubled() {
    for whole in registers() {
        for k in 0..whole.len() {
            let mut shorter = whole.clone();
            shorter.remove(k);
            assert!(!check(&shorter));
            let mut longer = whole.clone();
            longer.insert(k, whole[k]);
            assert!(!check(&longer));
        }
    }
}

#[test]
fn changes_of_two_bytes() {
    let mut random = Random::new(17);
    let likely = b" 0123456789\n";
    let mut met = [0, 0];
    for whole in registers() {
        for _ in 0..4000 {
            let mut bytes = whole.clone();
            for _ in 0..2 {
                let k = random.below(whole.len() as u64) as usize;
                bytes[k] = likely[random.below(likely.len() as u64) as usize];
            }
            met[usize::from(check(&bytes))] += 1;
        }
    }
    assert!(met.iter().all(|&times| times > 100), "{met:?}");
}

#[test]
fn entries_twice_or_descending() {
    assert!(!check(&register(1, 2, 3, 3, &["01", "01"])));
    assert!(!check(&register(1, 2, 3, 3, &["02", "01"])));
    assert!(!check(&register(1, 2, 3, 3, &["00", "02", "01"])));
    assert!(check(&register(1, 2, 3, 3, &["00", "01", "02"])));
    assert!(check(&register(1, 2, 3, 3, &["10", "20", "30"])));
}

/// The register of 1 by 1 with the entry 5 whose line ends in these 24 bytes of holdings.
fn with_holdings(holdings: &str) -> Vec<u8> {
    assert_eq!(holdings.len(), 24);
    format!("     1     1     9     1     1\n  5{holdings}\n").into_bytes()
}

#[test]
fn holdings_wrongly_laid() {
    for holdings in [
        "  1  0  0  0  0  0  0  0",
        "  0  0  0  0  0  0  0  1",
        "999999999999999999999999",
        " 10  0  0100  0  0  0  0",
    ] {
        assert!(check(&with_holdings(holdings)), "{holdings:?}");
    }
    for holdings in [
        // A leading zero, a blank field, a letter, a sign, another space, digits to the left.
        " 01  0  0  0  0  0  0  0",
        "  1 00  0  0  0  0  0  0",
        "  1  0  0  0  0  0  0000",
        "  1     0  0  0  0  0  0",
        "  1  0  0  0  0  0  0   ",
        "                        ",
        "  1  0  0  x  0  0  0  0",
        " +1  0  0  0  0  0  0  0",
        " -1  0  0  0  0  0  0  0",
        "  1\t 0  0  0  0  0  0  0",
        "1    0  0  0  0  0  0  0",
        " 1   0  0  0  0  0  0  0",
        // 1000 has no room: its digits reach into the next field.
        "1000 0  0  0  0  0  0  0",
        "  1  0  0  0  0  1000  0",
    ] {
        assert!(!check(&with_holdings(holdings)), "{holdings:?}");
    }
}

#[test]
fn an_entry_that_nobody_holds() {
    assert!(!check(&with_holdings("  0  0  0  0  0  0  0  0")));
    for (first, second, valid) in [(1, 1, true), (0, 1, false), (1, 0, false), (0, 0, false)] {
        let entries = [("01", [first]), ("02", [second])];
        assert_eq!(check(&held_register(1, 2, 3, 3, &entries)), valid);
    }
    // Also where the entry is no representative.
    assert!(check(&held_register(1, 2, 3, 3, &[("30", [1])])));
    assert!(!check(&held_register(1, 2, 3, 3, &[("30", [0])])));
}

#[test]
fn equal_cells_with_other_holdings() {
    for second in [[0, 1], [1, 0], [2, 0]] {
        let entries = [("01", [1, 0]), ("01", second)];
        assert!(!check(&held_register(1, 2, 3, 3, &entries)), "{second:?}");
    }
    // Holdings have no part in the order.
    assert!(check(&held_register(
        1,
        2,
        3,
        3,
        &[("01", [9]), ("02", [1])]
    )));
    assert!(check(&held_register(
        1,
        2,
        3,
        3,
        &[("01", [1]), ("02", [9])]
    )));
    assert!(!check(&held_register(
        1,
        2,
        3,
        3,
        &[("02", [1]), ("01", [9])]
    )));
}

#[test]
fn lines_without_holdings() {
    assert!(!check(b"     1     2     3     2     1\n  0  3\n      \n"));
    assert!(!check(b"     1     2     3     1     0\n      \n"));
}

#[test]
fn a_cell_above_top_or_a_count_above_capacity() {
    assert!(!check(&register(1, 2, 3, 2, &["04"])));
    assert!(!check(&register(1, 2, 3, 1, &["01", "02"])));
    let mut bytes = register(1, 2, 3, 2, &["01", "02"]);
    bytes[29] = b'3';
    assert!(!check(&bytes));
    bytes[29] = b'1';
    assert!(!check(&bytes));
    bytes[29] = b'2';
    assert!(check(&bytes));
}

#[test]
fn numbers_are_read_as_they_are_laid_out() {
    for value in 0..=999 {
        assert_eq!(read_number(&number(value, 6)), Some(value));
        assert_eq!(read_number(&number(value, 3)), Some(value));
    }
    assert_eq!(number(0, 3), b"  0");
    assert_eq!(number(15, 3), b" 15");
    assert_eq!(read_number(b"999999"), Some(999_999));
    let not_numbers: [&[u8]; 14] = [
        b"      ",
        b"    00",
        b"    01",
        b"000001",
        b"1     ",
        b"    1 ",
        b"  1  1",
        b"    +1",
        b"    -1",
        b"    1.",
        b"   \t 1",
        b"    1\r",
        b"    1\0",
        b"    \xb2",
    ];
    for field in not_numbers {
        assert_eq!(read_number(field), None);
    }
}
