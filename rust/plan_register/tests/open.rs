//! Open against the reference: at and past every limit, and with a slice of any length.

mod common;

use common::calls::{answer, placed};
use common::limits::{every_numbers, lendable, Numbers, BIT_63};
use common::Lent;
use plan_register::open;
use reference::examples::register;
use reference::layout::Contents;
use reference::questions::{self, Asked};
use reference::register::Answer;
use std::collections::BTreeSet;

/// The length of a register, wrapping around as the calls' own numbers would.
fn length([m, n, _, capacity]: Numbers) -> usize {
    let line = m.wrapping_mul(n).wrapping_mul(3).wrapping_add(25);
    capacity.wrapping_mul(line).wrapping_add(31)
}

/// Opens a slice of this length with this byte throughout. Checks the answer and the bytes
/// against the reference, and that no other byte changed.
fn check_open(numbers: Numbers, length: usize, byte: u8) -> Answer {
    let [m, n, top, capacity] = numbers;
    let before = vec![byte; length];
    let mut left = before.clone();
    let [rows, columns, cells, lines] = numbers.map(|number| number as u64);
    let expected = reference::register::open(rows, columns, cells, lines, &mut left);
    let mut lent = Lent::holding(&before);
    let found = open(m, n, top, capacity, lent.slice_mut());
    assert_eq!(placed(found), expected, "{numbers:?}, {length} bytes");
    lent.check(&left);
    expected
}

/// The questions that get a no.
fn nos(numbers: Numbers, slice_length: usize) -> Vec<u32> {
    let [m, n, top, capacity] = numbers.map(|number| number as u64);
    let has_length = slice_length == length(numbers);
    let answers: [Asked; 5] = [
        questions::rows(m),
        questions::columns(n),
        questions::top(top),
        questions::capacity(capacity),
        if has_length { Ok(()) } else { Err(6) },
    ];
    answers.iter().filter_map(|answer| answer.err()).collect()
}

#[test]
fn open_answers_the_first_no() {
    let mut met = BTreeSet::new();
    for numbers in every_numbers() {
        let exact = lendable(length(numbers));
        for length in [0, 31, exact.saturating_sub(1), exact, exact + 1] {
            let nos = nos(numbers, length);
            let number = nos.first().copied().unwrap_or(0);
            assert_eq!(check_open(numbers, length, b'#'), answer(number, 0));
            met.insert(nos);
        }
    }
    assert_eq!(met.len(), 32, "every set of the five questions");
}

#[test]
fn every_shape_and_top_opens() {
    for m in 1..=8 {
        for n in 1..=16 {
            for top in 0..=15 {
                let numbers = [m, n, top, 1 + (m + n + top) % 3];
                let opened = check_open(numbers, length(numbers), 0);
                assert_eq!(opened, answer(0, 0));
            }
        }
    }
}

#[test]
fn every_capacity_opens() {
    for capacity in 1..=500 {
        let numbers = [1, 2, 15, capacity];
        assert_eq!(check_open(numbers, length(numbers), 255), answer(0, 0));
    }
}

#[test]
fn what_the_slice_held_does_not_matter() {
    for byte in [0, b' ', b'0', b'\n', 255] {
        let numbers = [3, 2, 9, 4];
        assert_eq!(check_open(numbers, length(numbers), byte), answer(0, 0));
    }
    // A register in use, and one of other numbers but of the same length.
    let used = register(2, 2, 3, 2, &["00/01", "01/10"]);
    for (m, n) in [(2, 2), (1, 4), (4, 1)] {
        let mut lent = Lent::holding(&used);
        assert_eq!(open(m, n, 1, 2, lent.slice_mut()).number, 0);
        let empty = Contents {
            rows: m as u64,
            columns: n as u64,
            top: 1,
            capacity: 2,
            entries: vec![],
        };
        lent.check(&empty.bytes());
    }
}

#[test]
fn the_edges_of_document_01() {
    let number = |numbers: Numbers, length: usize| check_open(numbers, length, b'#').number;
    assert_eq!(number([0, 0, 16, 0], 31), 1);
    assert_eq!(number([8, 16, 15, 500], 204_531), 0);
    assert_eq!(number([8, 16, 15, 500], 204_530), 6);
    assert_eq!(number([8, 16, 15, 500], 204_532), 6);
    assert_eq!(number([9, 16, 15, 500], length([9, 16, 15, 500])), 1);
    assert_eq!(number([8, 17, 15, 500], length([8, 17, 15, 500])), 2);
    assert_eq!(number([8, 16, 16, 500], 204_531), 3);
    assert_eq!(number([8, 16, 15, 501], 204_531 + 409), 4);
    assert_eq!(number([8, 16, 15, 0], 31), 4);
    assert_eq!(number([1, 1, 0, 1], 31 + 28), 0);
}

#[test]
fn lines_without_room_for_holdings_are_6() {
    for m in 1..=8 {
        for n in 1..=16 {
            let numbers = [m, n, 15, 4];
            let without = 31 + 4 * (3 * m * n + 1);
            assert_eq!(check_open(numbers, without, b'#'), answer(6, 0));
            let for_seven = 31 + 4 * (3 * (m * n + 7) + 1);
            assert_eq!(check_open(numbers, for_seven, b'#'), answer(6, 0));
        }
    }
}

#[test]
fn lengths_that_wrap_around_are_no_lengths() {
    // The length of each is 31 or so, round the machine's words.
    for (numbers, number) in [
        ([BIT_63, 2, 1, 1], 1),
        ([1, BIT_63, 1, 2], 2),
        ([1, 1, 1, BIT_63], 4),
        ([1, 1, 1, BIT_63 / 2], 4),
        ([1, 1, 1, BIT_63 / 2 + 1], 4),
    ] {
        let length = length(numbers);
        assert!(length < 100, "{numbers:?}");
        assert_eq!(check_open(numbers, length, b'#'), answer(number, 0));
    }
}
