//! Registers with lines exchanged, repeated or cut, and counts that are off.

mod common;

use common::calls::contents_of;
use common::question_5::{check, check_layout};
use plan_register::open;
use reference::examples::{every_grid, shapes_up_to};
use reference::holdings::Holdings;
use reference::layout::{number, Contents, Entry};
use reference::random::Random;

/// A register of 2 by 2, top 12, with the entries on these lines, and 0 for a blank one. Each line
/// has other holdings.
fn of_lines(lines: &[u8], count: usize) -> Vec<u8> {
    let head = [2, 2, 12, lines.len(), count].map(|value| number(value as u64, 6));
    let line = |(k, &first): (usize, &u8)| match first {
        0 => format!("{:36}\n", "").into_bytes(),
        _ => format!("{first:>3}  0 12  0{:>3}  0  0  0  0  0  0 12\n", 9 - k).into_bytes(),
    };
    let lines: Vec<Vec<u8>> = lines.iter().enumerate().map(line).collect();
    [head.concat(), b"\n".to_vec(), lines.concat()].concat()
}

#[test]
fn lines_in_another_order() {
    // Each of three to five lines is any of three entries or blank, and the count is any.
    let mut met = [0, 0];
    for length in 3..=5 {
        for lines in every_grid(length, 3) {
            let ascends = |count: usize| {
                let entries = &lines[..count];
                let is_blank = lines[count..].iter().all(|&line| line == 0);
                is_blank && entries.iter().all(|&e| e > 0) && entries.is_sorted_by(|a, b| a < b)
            };
            for count in 0..=length {
                let is_register = check(&of_lines(&lines, count));
                assert_eq!(is_register, ascends(count), "{lines:?} {count}");
                met[usize::from(is_register)] += 1;
            }
        }
    }
    assert!(met.iter().all(|&times| times > 20), "{met:?}");
}

#[test]
fn a_line_more_or_fewer() {
    let whole = of_lines(&[1, 2, 3, 0, 0], 3);
    for k in 0..5 {
        let line = 31 + 37 * k..31 + 37 * (k + 1);
        let mut fewer = whole.clone();
        fewer.drain(line.clone());
        let again = [&whole[..line.end], &whole[line.start..]].concat();
        for (mut bytes, capacity) in [(fewer, 4), (again, 6)] {
            assert!(!check(&bytes));
            // With the capacity stated right only a blank line may go or come.
            bytes[18..24].copy_from_slice(&number(capacity, 6));
            assert_eq!(check(&bytes), k >= 3);
        }
    }
}

#[test]
fn counts_that_are_off() {
    for capacity in [1, 5, 9, 12] {
        let entries: Vec<Vec<u8>> = (0..capacity as u8).map(|v| vec![v]).collect();
        for held in 0..=capacity {
            let whole = contents_of(1, 1, 15, capacity, &entries[..held]).bytes();
            for count in (0..=capacity + 2).chain([99, 100, 500, 501, 999_999]) {
                let mut bytes = whole.clone();
                bytes[24..30].copy_from_slice(&number(count as u64, 6));
                assert_eq!(check(&bytes), count == held);
            }
        }
    }
}

#[test]
fn lines_without_holdings() {
    let mut random = Random::new(95);
    for (m, n) in shapes_up_to(128) {
        let top = random.between(1, 15) as u8;
        let entry = random.cells(m * n, top);
        let contents = contents_of(m, n, top, 3, &[entry]);
        assert!(check_layout(&contents.bytes()));
        assert!(!check_layout(&without_holdings(&contents)));
        let mut register = without_holdings(&contents);
        let before = register.clone();
        let opened = open(m, n, top.into(), 3, &mut register);
        assert_eq!((opened.number, opened.place), (6, 0));
        assert_eq!(register, before);
    }
}

/// The contents with lines that end after the cells.
fn without_holdings(contents: &Contents) -> Vec<u8> {
    let bytes = contents.bytes();
    let (line_1, lines) = bytes.split_at(31);
    let cells = 3 * (contents.rows * contents.columns) as usize;
    let lines = lines.chunks(cells + 25).map(|line| &line[..cells]);
    let lines = lines.flat_map(|cells| [cells, b"\n"]);
    [line_1]
        .into_iter()
        .chain(lines)
        .collect::<Vec<_>>()
        .concat()
}

#[test]
fn the_first_unequal_cell_decides_in_every_shape() {
    let mut random = Random::new(93);
    for (m, n) in shapes_up_to(128) {
        let top = random.between(1, 15) as u8;
        for k in 0..m * n {
            let mut lesser = random.cells(m * n, top);
            lesser[k] = random.between(0, u64::from(top) - 1) as u8;
            let mut greater = lesser.clone();
            greater[k] = random.between(u64::from(lesser[k]) + 1, top.into()) as u8;
            // After it all is the other way round.
            lesser[k + 1..].fill(top);
            greater[k + 1..].fill(0);
            let mut contents = contents_of(m, n, top, 2, &[lesser.clone(), greater]);
            // Holdings have no part in the order.
            contents.entries[0].holdings = Holdings([999; 8]);
            assert!(check_layout(&contents.bytes()));
            contents.entries.reverse();
            assert!(!check_layout(&contents.bytes()));
            // Equal cells, with equal holdings and with others.
            for holdings in [Holdings::one_of(1), Holdings::one_of(2), Holdings([999; 8])] {
                let [one, other] = [Holdings::one_of(1), holdings].map(|holdings| Entry {
                    grid: lesser.clone(),
                    holdings,
                });
                contents.entries = vec![one, other];
                assert!(!check_layout(&contents.bytes()));
                contents.entries.reverse();
                assert!(!check_layout(&contents.bytes()));
            }
        }
    }
}
