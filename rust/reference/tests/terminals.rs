//! A terminal's represent, same and enter: its questions in their order, and that for up to 5 rows
//! it answers as the order system's.

mod common;

use common::faults::{client, holding, numbers, possible, refusal, sets_of, slice};
use reference::calls::Call;
use reference::examples::{cells, held_register, register};
use reference::examples::{every_grid, shapes_up_to};
use reference::grid::identity;
use reference::grid_calls::{
    represent, same, terminal_represent, terminal_same, TerminalArranged, TerminalMatched,
};
use reference::layout::Contents;
use reference::lists::Pool;
use reference::machine::Machine;
use reference::random::Random;
use reference::register::{enter, strike, terminal_enter, Answer};
use std::collections::BTreeSet;

#[test]
fn represent_asks_1_14_2_3_6_7_in_order() {
    let sets = possible(sets_of(&[1, 14, 2, 3, 6, 7]));
    assert_eq!(sets.len(), 48);
    for (failed, number) in sets {
        let (m, n, top, _) = numbers(&failed);
        let grid = slice(&failed, m, n, top);
        let mut out = vec![200; (m * n) as usize];
        let orders = terminal_represent(m, n, top, &grid, &mut out);
        assert_eq!(orders.number, number, "{failed:?}");
        if number != 0 {
            assert_eq!(orders, TerminalArranged::starting(number));
            assert!(out.iter().all(|&v| v == 200));
        }
    }
}

#[test]
fn same_asks_1_14_2_3_6_7_in_order() {
    for (failed, number) in possible(sets_of(&[1, 14, 2, 3, 6, 7])) {
        let (m, n, top, _) = numbers(&failed);
        let (good, bad) = (slice(&[], m, n, top), slice(&failed, m, n, top));
        for (a, b) in [(&good, &bad), (&bad, &good)] {
            let orders = terminal_same(m, n, top, a, b);
            assert_eq!(orders.number, number, "{failed:?}");
            assert!(number == 0 || orders == TerminalMatched::starting(number, 0));
        }
    }
}

/// A full register of top 3 with two entries: of 2 by 3, or of 7 by 3 where 14 is to fail; one byte
/// short where 5 is. Client 2's holding of the second is as the set asks.
fn full_register(failed: &[u32], of_client_2: u64) -> Vec<u8> {
    let m = match failed.contains(&14) {
        true => 7,
        false => 2,
    };
    let (zeros, ones) = ("000".repeat(m), "111".repeat(m));
    let entries = [(&zeros[..], [1, 0, 0]), (&ones[..], [0, of_client_2, 3])];
    let mut bytes = held_register(m as u64, 3, 3, 2, &entries);
    if failed.contains(&5) {
        bytes.pop();
    }
    bytes
}

#[test]
fn enter_asks_5_14_6_7_15_9_16_in_order() {
    let sets = possible(sets_of(&[5, 14, 6, 7, 15, 9, 16]));
    assert_eq!(sets.len(), 96);
    for (failed, number) in sets {
        let (m, n, top, _) = numbers(&failed);
        let mut grid = slice(&failed, m, n, top);
        if failed.contains(&9) {
            // Another class than the two that are held.
            grid[0] = 2;
        }
        let held = holding(&failed);
        let mut bytes = full_register(&failed, held);
        let answer = terminal_enter(&mut bytes, client(&failed), &grid);
        if number == 0 {
            let expected = Answer {
                number: 101,
                place: 2,
            };
            assert_eq!(answer, expected);
            assert_eq!(bytes, full_register(&failed, held + 1));
        } else {
            assert_eq!(answer, refusal(number), "{failed:?}");
            assert_eq!(bytes, full_register(&failed, held));
        }
    }
}

#[test]
fn rows_6_to_8_give_14_and_others_1() {
    for m in [0, 9, 10, 14, 256 + 5, (1 << 32) + 5, u64::MAX - 1, u64::MAX] {
        for n in [0, 1, 17, u64::MAX] {
            let orders = terminal_represent(m, n, 16, &[99], &mut []);
            assert_eq!(orders, TerminalArranged::starting(1));
            let orders = terminal_same(m, n, 16, &[99], &[]);
            assert_eq!(orders, TerminalMatched::starting(1, 0));
        }
    }
    for m in 6..=8 {
        for n in [0, 1, 17, u64::MAX] {
            let orders = terminal_represent(m, n, 16, &[99], &mut []);
            assert_eq!(orders, TerminalArranged::starting(14));
            let orders = terminal_same(m, n, 16, &[99], &[]);
            assert_eq!(orders, TerminalMatched::starting(14, 0));
        }
        let mut bytes = register(m, 1, 1, 1, &[]);
        let before = bytes.clone();
        for length in [m as usize, 0] {
            let grid = vec![0; length];
            assert_eq!(terminal_enter(&mut bytes, 1, &grid), refusal(14));
            assert_eq!(bytes, before);
        }
        let mut machine = Machine::opened(m, 1, 1, 1);
        assert_eq!(machine.terminal_enter(1, &[2]), refusal(14));
        assert_eq!(machine.bytes(), before);
    }
    for m in 1..=5 {
        let grid = vec![15; m as usize];
        let mut out = vec![200; m as usize];
        assert_eq!(terminal_represent(m, 1, 15, &grid, &mut out).number, 0);
        assert_eq!(out, grid);
        assert_eq!(terminal_same(m, 1, 15, &grid, &out).number, 0);
        let mut bytes = register(m, 1, 15, 1, &[]);
        assert_eq!(terminal_enter(&mut bytes, 1, &grid).number, 0);
    }
}

#[test]
fn starting_orders_have_5_and_16_positions() {
    let starting = TerminalArranged::starting(14);
    assert_eq!(starting.rows, [0, 1, 2, 3, 4]);
    assert_eq!(starting.columns.to_vec(), identity(16));
    let starting = TerminalMatched::starting(103, 7);
    assert_eq!((starting.number, starting.agreed), (103, 7));
    assert_eq!(starting.rows, [0, 1, 2, 3, 4]);
    assert_eq!(starting.columns.to_vec(), identity(16));
}

#[test]
fn m1_at_a_terminal() {
    let mut out = [200; 6];
    let orders = terminal_represent(2, 3, 3, &cells("223/231"), &mut out);
    assert_eq!(out.to_vec(), cells("123/322"));
    assert_eq!((orders.number, orders.rows), (0, [1, 0, 2, 3, 4]));
    assert_eq!(orders.columns[..4], [2, 0, 1, 3]);
    let orders = terminal_same(2, 3, 3, &cells("223/231"), &out);
    assert_eq!((orders.number, orders.agreed), (0, 6));
    assert_eq!(orders.rows, [1, 0, 2, 3, 4]);
}

/// Checks that both sets answer alike. Their reference takes the same pair of orders.
fn check_alike(m: usize, n: usize, top: u8, a: &[u8], b: &[u8]) {
    let (rows, columns, cell) = (m as u64, n as u64, u64::from(top));
    let (mut out, mut terminal_out) = (vec![200; m * n], vec![201; m * n]);
    let one = represent(rows, columns, cell, a, &mut out);
    let other = terminal_represent(rows, columns, cell, a, &mut terminal_out);
    assert_eq!((one.number, &out), (other.number, &terminal_out));
    assert_eq!(
        (&one.rows[..5], one.columns),
        (&other.rows[..], other.columns)
    );
    let one = same(rows, columns, cell, a, b);
    let other = terminal_same(rows, columns, cell, a, b);
    assert_eq!((one.number, one.agreed), (other.number, other.agreed));
    assert_eq!(
        (&one.rows[..5], one.columns),
        (&other.rows[..], other.columns)
    );
}

#[test]
fn both_sets_answer_alike() {
    for (m, n) in shapes_up_to(6).into_iter().filter(|&(m, _)| m <= 5) {
        let grids = every_grid(m * n, 1);
        for a in &grids {
            for b in &grids {
                check_alike(m, n, 1, a, b);
            }
        }
    }
    let mut random = Random::new(61);
    for (m, n) in shapes_up_to(80).into_iter().filter(|&(m, _)| m <= 5) {
        let top = random.between(0, 15) as u8;
        let (a, b) = (random.cells(m * n, top), random.cells(m * n, top));
        check_alike(m, n, top, &a, &b);
    }
}

#[test]
fn a_register_is_used_through_both_sets() {
    let mut bytes = register(2, 2, 1, 2, &[]);
    let answer = |number: u32, place: u64| Answer { number, place };
    assert_eq!(terminal_enter(&mut bytes, 1, &cells("10/01")), answer(0, 1));
    assert_eq!(enter(&mut bytes, 1, &cells("01/10")), answer(101, 1));
    assert_eq!(enter(&mut bytes, 1, &cells("00/11")), answer(0, 1));
    assert_eq!(
        terminal_enter(&mut bytes, 1, &cells("11/00")),
        answer(101, 1)
    );
    assert_eq!(terminal_enter(&mut bytes, 1, &cells("00/01")), answer(9, 0));
    let entries = [("00/11", [2]), ("01/10", [2])];
    assert_eq!(bytes, held_register(2, 2, 1, 2, &entries));
    assert_eq!(strike(&mut bytes, 1, &cells("10/01")), answer(0, 2));
    assert_eq!(terminal_enter(&mut bytes, 1, &cells("00/01")), answer(9, 0));
    assert_eq!(strike(&mut bytes, 1, &cells("10/01")), answer(0, 2));
    assert_eq!(terminal_enter(&mut bytes, 1, &cells("00/01")), answer(0, 1));
}

#[test]
fn lists_of_both_sets_answer_as_the_machine() {
    let mut random = Random::new(62);
    let mut met = BTreeSet::new();
    for _ in 0..400 {
        let (m, n) = (random.between(1, 6) as usize, random.between(1, 3) as usize);
        let (top, capacity) = (random.between(0, 2) as u8, random.between(1, 5));
        let pool = Pool::drawn(&mut random, m, n, top, capacity as usize + 3);
        let mut machine = Machine::opened(m as u64, n as u64, top.into(), capacity);
        let mut bytes = machine.bytes();
        for _ in 0..40 {
            let call = pool.call_of_either_set(&mut random);
            let answer = call.on_register(&mut bytes);
            assert_eq!(answer, call.on_machine(&mut machine), "{call:?}");
            assert_eq!(bytes, machine.bytes(), "{call:?}");
            assert!(Contents::read(&bytes).is_some());
            if matches!(call, Call::TerminalEnter(..)) {
                assert_eq!(answer.number == 14, m > 5);
                met.insert(answer.number);
            } else {
                assert_ne!(answer.number, 14);
            }
        }
    }
    assert_eq!(met, BTreeSet::from([0, 6, 7, 9, 14, 15, 101]));
}

#[test]
fn at_a_terminal_only_enter_is_another_call() {
    let call = Call::Enter(3, vec![1]).at_terminal();
    assert_eq!(call, Call::TerminalEnter(3, vec![1]));
    assert_eq!(call.name(), "terminal enter");
    let count = Call::Count((vec![0], vec![1]));
    for call in [Call::Strike(3, vec![1]), count, call] {
        assert_eq!(call.clone().at_terminal(), call);
    }
}
