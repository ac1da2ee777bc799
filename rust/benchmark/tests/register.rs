//! The implementation of the calls on a register that the library is compared with does what it
//! does.

use benchmark::implementations::{PLAIN, READING, WRITING};
use benchmark::plain_register;
use benchmark::register_calls::{reading, writing};
use benchmark::registers::inputs;
use reference::calls::Call;
use reference::examples::{every_grid, shapes_up_to};
use reference::grid::compare;
use reference::layout::{Contents, Entry};
use reference::lists::{drawn_holdings, Pool};
use reference::random::Random;
use reference::register::Answer;
use std::collections::BTreeSet;

/// Checks the call, its answer and the bytes that it leaves, against the reference.
fn check(register: &mut Vec<u8>, call: &Call) -> u32 {
    let mut left = register.clone();
    let expected = call.on_register(&mut left);
    let (number, place) = match call {
        Call::Enter(client, grid) => {
            let entered = plain_register::enter(register, *client as usize, grid);
            (entered.number, entered.place)
        }
        Call::Strike(client, grid) => {
            let struck = plain_register::strike(register, *client as usize, grid);
            (struck.number, struck.place)
        }
        Call::Count((low, high)) => {
            let counted = plain_register::count(register, low, high);
            (counted.number, counted.count)
        }
        Call::TerminalEnter(..) => unreachable!("plain Rust has no terminal's enter"),
    };
    let found = Answer {
        number,
        place: place.into(),
    };
    assert_eq!(found, expected, "{call:?}");
    assert_eq!(*register, left, "{call:?}");
    number
}

/// Checks question 5 on these bytes. Did it get a yes?
fn check_layout(bytes: &[u8]) -> bool {
    let empty = Call::Count((vec![], vec![]));
    check(&mut bytes.to_vec(), &empty) == 6
}

/// The bytes of a register with these entries, sorted, and with holdings that are drawn.
fn register(m: usize, n: usize, top: u8, capacity: u64, mut grids: Vec<Vec<u8>>) -> Vec<u8> {
    grids.sort_by(|a, b| compare(a, b));
    grids.dedup();
    let mut random = Random::new(capacity);
    let entries = grids.into_iter().map(|grid| Entry {
        grid,
        holdings: drawn_holdings(&mut random),
    });
    let contents = Contents {
        rows: m as u64,
        columns: n as u64,
        top: top.into(),
        capacity,
        entries: entries.collect(),
    };
    contents.bytes()
}

#[test]
fn lists_of_calls() {
    let mut random = Random::new(141);
    let mut met = BTreeSet::new();
    for (m, n) in shapes_up_to(64).into_iter().filter(|&(m, _)| m <= 4) {
        for _ in 0..4 {
            let (top, capacity) = (random.between(0, 15) as u8, random.between(1, 12));
            let pool = Pool::drawn(&mut random, m, n, top, capacity as usize + 3);
            let mut register = register(m, n, top, capacity, vec![]);
            for _ in 0..60 {
                let call = pool.call(&mut random);
                met.insert((call.name(), check(&mut register, &call)));
            }
        }
    }
    assert_eq!(met.len(), 15, "{met:?}");
}

#[test]
fn entries_that_are_not_least() {
    let mut random = Random::new(142);
    let mut met = BTreeSet::new();
    for (m, n) in shapes_up_to(9) {
        let pool = Pool::drawn(&mut random, m, n, 2, 8);
        let mut register = register(m, n, 2, 10, pool.grids.clone());
        for _ in 0..60 {
            let call = pool.call(&mut random);
            met.insert((call.name(), check(&mut register, &call)));
        }
    }
    assert!(met.contains(&("enter", 16)), "{met:?}");
}

#[test]
fn a_holding_goes_to_999_and_back() {
    let mut register = register(1, 1, 1, 2, vec![]);
    let (enter, strike) = (Call::Enter(5, vec![1]), Call::Strike(5, vec![1]));
    for k in 0..1001 {
        let expected = match k {
            0 => 0,
            1..999 => 101,
            _ => 16,
        };
        assert_eq!(check(&mut register, &enter), expected);
    }
    assert_eq!(check(&mut register, &Call::Enter(6, vec![1])), 101);
    for k in 0..1000 {
        let expected = if k < 999 { 0 } else { 10 };
        assert_eq!(check(&mut register, &strike), expected);
    }
    assert_eq!(check(&mut register, &Call::Strike(6, vec![1])), 0);
}

#[test]
fn every_byte_changed_to_every_value() {
    let entries = vec![vec![0, 9, 10], vec![9, 15, 15], vec![10, 0, 11]];
    for (top, capacity) in [(15, 4), (15, 3)] {
        let whole = register(1, 3, top, capacity, entries.clone());
        assert!(check_layout(&whole));
        for k in 0..whole.len() {
            for byte in 0..=255 {
                let mut bytes = whole.clone();
                bytes[k] = byte;
                check_layout(&bytes);
            }
        }
    }
}

#[test]
fn bytes_changed_in_every_shape() {
    let mut random = Random::new(143);
    let likely = b" 0123456789\n";
    let mut met = [0, 0];
    for (m, n) in shapes_up_to(128) {
        let top = random.between(1, 15) as u8;
        let entries = (0..3).map(|_| random.cells(m * n, top)).collect();
        let whole = register(m, n, top, 4, entries);
        assert!(check_layout(&whole));
        for k in 0..whole.len() {
            let mut bytes = whole.clone();
            bytes[k] = likely[random.below(likely.len() as u64) as usize];
            met[usize::from(check_layout(&bytes))] += 1;
        }
        for length in [0, 30, 31, whole.len() - 1, whole.len() + 1] {
            let mut bytes = whole.clone();
            bytes.resize(length, b'\n');
            assert!(!check_layout(&bytes));
        }
    }
    assert!(met.iter().all(|&times| times > 100), "{met:?}");
}

#[test]
fn entries_in_another_order() {
    for (m, n) in shapes_up_to(128) {
        for k in 0..m * n {
            let (mut lesser, mut greater) = (vec![9; m * n], vec![9; m * n]);
            greater[k] = 10;
            lesser[k + 1..].fill(15);
            let mut contents =
                Contents::read(&register(m, n, 15, 2, vec![lesser, greater])).unwrap();
            contents.entries.reverse();
            assert!(!check_layout(&contents.bytes()));
            contents.entries[1].grid = contents.entries[0].grid.clone();
            assert!(!check_layout(&contents.bytes()));
        }
    }
}

#[test]
fn bounds_that_leave_out_one_entry() {
    for (m, n) in [(1, 16), (2, 16), (8, 1), (5, 7), (8, 16)] {
        let with = |k: usize, value: u8| {
            let mut grid = vec![9; m * n];
            grid[k] = value;
            grid
        };
        let entries = (0..m * n).flat_map(|k| [with(k, 8), with(k, 12)]).collect();
        let mut register = register(m, n, 15, 500, entries);
        for k in 0..m * n {
            let (mut low, mut high) = (vec![8; m * n], vec![12; m * n]);
            low[k] = 9;
            check(&mut register, &Call::Count((low.clone(), high.clone())));
            (low[k], high[k]) = (8, 11);
            check(&mut register, &Call::Count((low, high)));
        }
    }
}

#[test]
fn every_count_is_written() {
    let grids = every_grid(3, 15);
    let classes: Vec<Vec<u8>> = grids.into_iter().filter(|g| g.is_sorted()).collect();
    let mut register = register(1, 3, 15, 500, vec![]);
    for grid in &classes[..500] {
        assert_eq!(check(&mut register, &Call::Enter(1, grid.clone())), 0);
    }
    let new = Call::Enter(1, classes[500].clone());
    assert_eq!(check(&mut register, &new), 9);
    for grid in &classes[..500] {
        assert_eq!(check(&mut register, &Call::Strike(1, grid.clone())), 0);
    }
}

#[test]
fn the_calls_have_equal_outputs() {
    let registers = inputs();
    assert_eq!(registers.len(), 4);
    for entries in &registers {
        assert_eq!(entries.count(), 499);
        for call in reading(entries) {
            call.check_equal_outputs(&READING.calls());
        }
        for call in writing(entries) {
            call.check_equal_outputs(&WRITING.calls());
        }
    }
}

#[test]
fn an_enter_and_a_strike_of_a_class_leave_the_bytes() {
    for entries in inputs() {
        let before = entries.without_first();
        let mut register = before.clone();
        for grid in [&entries.first[..], entries.held()] {
            let entered = (PLAIN.enter)(&mut register, 7, grid);
            assert!(register != before);
            let struck = (PLAIN.strike)(&mut register, 7, grid);
            assert_eq!(struck.place, entered.place);
            assert!(register == before);
        }
    }
}
