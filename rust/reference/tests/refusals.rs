//! The questions in their order, their edges, and that a refusal changes nothing.

mod common;

use common::faults::{client, holding, numbers, possible, refusal, sets_of, slice};
use common::unopened;
use reference::bounds::{prune, Counted};
use reference::examples::{cells, held_register, register};
use reference::grid_calls::{represent, same, Arranged, Matched};
use reference::layout::{register_length, Contents};
use reference::machine::Machine;
use reference::register::{count, enter, open, strike, terminal_enter, Answer};

#[test]
fn represent_asks_1_2_3_6_7_in_order() {
    for (failed, number) in sets_of(&[1, 2, 3, 6, 7]) {
        let (m, n, top, _) = numbers(&failed);
        let grid = slice(&failed, m, n, top);
        let mut out = vec![200; (m * n) as usize];
        let orders = represent(m, n, top, &grid, &mut out);
        assert_eq!(orders.number, number, "{failed:?}");
        if number != 0 {
            assert_eq!(orders, Arranged::starting(number));
            assert!(out.iter().all(|&v| v == 200));
        }
    }
}

#[test]
fn represent_asks_the_length_of_its_output_slice() {
    for length in [0, 5, 7] {
        let mut out = vec![200; length];
        let orders = represent(2, 3, 3, &[1, 1, 1, 4, 1, 1], &mut out);
        assert_eq!(orders, Arranged::starting(6));
        assert!(out.iter().all(|&v| v == 200));
    }
    let mut out = vec![200; 6];
    assert_eq!(represent(2, 3, 3, &[1; 6], &mut out).number, 0);
    assert_eq!(out, [1; 6]);
}

#[test]
fn same_asks_1_2_3_6_7_in_order() {
    for (failed, number) in sets_of(&[1, 2, 3, 6, 7]) {
        let (m, n, top, _) = numbers(&failed);
        let (good, bad) = (slice(&[], m, n, top), slice(&failed, m, n, top));
        for (a, b) in [(&good, &bad), (&bad, &good)] {
            let orders = same(m, n, top, a, b);
            assert_eq!(orders.number, number, "{failed:?}");
            assert!(number == 0 || orders == Matched::starting(number, 0));
        }
    }
}

#[test]
fn same_asks_all_lengths_before_all_cells() {
    let (short, high) = (vec![1; 5], vec![9; 6]);
    assert_eq!(same(2, 3, 3, &short, &high), Matched::starting(6, 0));
    assert_eq!(same(2, 3, 3, &high, &short), Matched::starting(6, 0));
}

#[test]
fn prune_asks_1_2_3_6_7_8_in_order() {
    for (failed, number) in sets_of(&[1, 2, 3, 6, 7, 8]) {
        let (m, n, top, _) = numbers(&failed);
        let (good, bad) = (slice(&[], m, n, top), slice(&failed, m, n, top));
        // Question 8 fails in cell 0, question 7 in cell 1.
        for (mut low, mut high) in [(good.clone(), bad.clone()), (bad, good)] {
            if failed.contains(&8) {
                low[0] = 2;
            }
            let before = (low.clone(), high.clone());
            let pruned = prune(m, n, top, &mut low, &mut high);
            assert_eq!(pruned, Counted { number, count: 0 }, "{failed:?}");
            assert_eq!((low, high), before);
        }
    }
}

#[test]
fn open_asks_1_2_3_4_6_in_order() {
    for (failed, number) in sets_of(&[1, 2, 3, 4, 6]) {
        let (m, n, top, capacity) = numbers(&failed);
        let mut slice = unopened(m, n, capacity);
        if failed.contains(&6) {
            slice.push(b'#');
        }
        let answer = open(m, n, top, capacity, &mut slice);
        assert_eq!(answer, refusal(number), "{failed:?}");
        if number != 0 {
            assert!(slice.iter().all(|&byte| byte == b'#'));
        } else {
            assert_eq!(slice, register(m, n, top, capacity, &[]));
        }
    }
}

/// A register of 2 by 3, top 3, that is full with two entries, the first held by clients 2 and 3
/// and the second by client 1; one byte short where 5 is to fail.
fn full_register(failed: &[u32]) -> Vec<u8> {
    let entries = [("000/111", [0, holding(failed), 1]), ("001/121", [1, 0, 0])];
    let mut bytes = held_register(2, 3, 3, 2, &entries);
    if failed.contains(&5) {
        bytes.pop();
    }
    bytes
}

/// An arrangement of the first entry, spoiled where 6 or 7 is to fail.
fn first_entry(failed: &[u32]) -> Vec<u8> {
    let mut grid = slice(failed, 2, 3, 3);
    grid[..6].copy_from_slice(&cells("111/000"));
    if failed.contains(&7) {
        grid[1] = 4;
    }
    grid
}

#[test]
fn enter_asks_5_6_7_15_9_16_in_order() {
    let sets = possible(sets_of(&[5, 6, 7, 15, 9, 16]));
    assert_eq!(sets.len(), 48);
    for (failed, number) in sets {
        let before = full_register(&failed);
        let grid = match failed.contains(&9) {
            // A class that nobody holds.
            true => slice(&failed, 2, 3, 3),
            false => first_entry(&failed),
        };
        let mut bytes = before.clone();
        let answer = enter(&mut bytes, client(&failed), &grid);
        if number == 0 {
            let expected = Answer {
                number: 101,
                place: 1,
            };
            assert_eq!(answer, expected);
            let entries = [("000/111", [0, 6, 1]), ("001/121", [1, 0, 0])];
            assert_eq!(bytes, held_register(2, 3, 3, 2, &entries));
        } else {
            assert_eq!(answer, refusal(number), "{failed:?}");
            assert_eq!(bytes, before);
        }
    }
}

#[test]
fn strike_asks_5_6_7_15_10_in_order() {
    for (failed, number) in sets_of(&[5, 6, 7, 15, 10]) {
        let before = full_register(&failed);
        let mut bytes = before.clone();
        let answer = strike(&mut bytes, client(&failed), &first_entry(&failed));
        if number == 0 {
            let expected = Answer {
                number: 0,
                place: 1,
            };
            assert_eq!(answer, expected);
            let entries = [("000/111", [0, 4, 1]), ("001/121", [1, 0, 0])];
            assert_eq!(bytes, held_register(2, 3, 3, 2, &entries));
        } else {
            assert_eq!(answer, refusal(number), "{failed:?}");
            assert_eq!(bytes, before);
        }
    }
}

#[test]
fn clients_1_to_8_pass_and_others_give_15() {
    let before = held_register(1, 2, 3, 1, &[("03", [1; 8])]);
    for client in 1..=8 {
        let mut bytes = before.clone();
        assert_eq!(enter(&mut bytes, client, &[3, 0]).number, 101);
        assert_eq!(terminal_enter(&mut bytes, client, &[3, 0]).number, 101);
        assert_eq!(strike(&mut bytes, client, &[3, 0]).number, 0);
        assert_eq!(strike(&mut bytes, client, &[3, 0]).number, 0);
        assert_eq!(bytes, before);
    }
    let mut machine = Machine::opened(1, 2, 3, 1);
    let empty = machine.bytes();
    // Next to the limits, and numbers whose low 8, 16 or 32 bits alone would pass.
    let large = [(1 << 8) + 1, (1 << 16) + 8, (1 << 32) + 1, u64::MAX];
    for client in [0, 9, 10, 15, 255, 256].into_iter().chain(large) {
        let mut bytes = before.clone();
        // A class that is held, and one that is not: the register is full.
        for grid in [[3, 0], [0, 0]] {
            assert_eq!(enter(&mut bytes, client, &grid), refusal(15));
            assert_eq!(terminal_enter(&mut bytes, client, &grid), refusal(15));
            assert_eq!(strike(&mut bytes, client, &grid), refusal(15));
            assert_eq!(machine.enter(client, &grid), refusal(15));
            assert_eq!(machine.terminal_enter(client, &grid), refusal(15));
            assert_eq!(machine.strike(client, &grid), refusal(15));
        }
        assert_eq!(bytes, before);
        assert_eq!(machine.bytes(), empty);
    }
}

#[test]
fn count_asks_5_6_7_8_in_order() {
    for (failed, number) in sets_of(&[5, 6, 7, 8]) {
        let bytes = full_register(&failed);
        let (good, bad) = (slice(&[], 2, 3, 3), slice(&failed, 2, 3, 3));
        for (mut low, high) in [(good.clone(), bad.clone()), (bad, good)] {
            if failed.contains(&8) {
                low[0] = 2;
            }
            assert_eq!(count(&bytes, &low, &high), refusal(number), "{failed:?}");
        }
    }
}

#[test]
fn count_and_prune_ask_both_lengths() {
    let bytes = full_register(&[]);
    for (a, b) in [(5, 6), (6, 5), (7, 6), (6, 7), (5, 5), (7, 7), (0, 0)] {
        let (mut low, mut high) = (vec![1; a], vec![9; b]);
        assert_eq!(count(&bytes, &low, &high), refusal(6));
        assert_eq!(prune(2, 3, 3, &mut low, &mut high).number, 6);
        assert_eq!((low, high), (vec![1; a], vec![9; b]));
    }
}

#[test]
fn rows_0_and_columns_0_give_1() {
    for (m, n) in [(0, 0), (0, 5), (9, 0), (9, 17), (u64::MAX, u64::MAX)] {
        assert_eq!(represent(m, n, 16, &[], &mut []), Arranged::starting(1));
        assert_eq!(same(m, n, 16, &[], &[]), Matched::starting(1, 0));
        assert_eq!(prune(m, n, 16, &mut [], &mut []).number, 1);
        assert_eq!(open(m, n, 16, 0, &mut []), refusal(1));
    }
    for n in [0, 17, u64::MAX] {
        assert_eq!(represent(8, n, 16, &[], &mut []), Arranged::starting(2));
        assert_eq!(same(8, n, 16, &[], &[]), Matched::starting(2, 0));
        assert_eq!(prune(8, n, 16, &mut [], &mut []).number, 2);
        assert_eq!(open(8, n, 16, 0, &mut []), refusal(2));
    }
}

#[test]
fn numbers_of_any_size_are_refused_by_their_question() {
    for large in [1 << 32, 1 << 61, 1 << 63, u64::MAX - 1, u64::MAX] {
        for n in [0, 1, 1 << 32, u64::MAX] {
            assert_eq!(represent(large, n, 0, &[0], &mut [0]).number, 1);
            assert_eq!(open(large, n, 0, large, &mut [0]).number, 1);
        }
        assert_eq!(represent(1, large, large, &[0], &mut [0]).number, 2);
        assert_eq!(represent(1, 1, large, &[0], &mut [0]).number, 3);
        assert_eq!(same(1, 1, large, &[0], &[0]).number, 3);
        assert_eq!(prune(1, 1, large, &mut [0], &mut [0]).number, 3);
        assert_eq!(open(1, 1, large, large, &mut [0]).number, 3);
        assert_eq!(open(1, 1, 0, large, &mut [0]).number, 4);
    }
    // Numbers whose low 8, 16 or 32 bits alone would pass.
    for large in [(1 << 8) + 2, (1 << 16) + 2, (1 << 32) + 2] {
        assert_eq!(represent(large, 3, 3, &[1; 6], &mut [0; 6]).number, 1);
        assert_eq!(represent(2, large, 3, &[1; 4], &mut [0; 4]).number, 2);
        assert_eq!(represent(2, 3, large, &[1; 6], &mut [0; 6]).number, 3);
    }
    for large in [(1 << 16) + 2, (1 << 32) + 2] {
        assert_eq!(open(2, 3, 3, large, &mut unopened(2, 3, 2)).number, 4);
    }
}

#[test]
fn the_limits_pass_and_one_more_does_not() {
    let mut out = vec![200; 8];
    assert_eq!(represent(8, 1, 15, &[15; 8], &mut out).number, 0);
    let mut out = vec![200; 9];
    assert_eq!(represent(9, 1, 15, &[15; 9], &mut out).number, 1);
    let mut out = vec![200; 16];
    assert_eq!(represent(1, 16, 15, &[15; 16], &mut out).number, 0);
    let mut out = vec![200; 17];
    assert_eq!(represent(1, 17, 15, &[15; 17], &mut out).number, 2);
    assert_eq!(represent(1, 1, 16, &[0], &mut [0]).number, 3);
    assert_eq!(same(8, 1, 15, &[15; 8], &[15; 8]).number, 0);
    assert_eq!(same(9, 1, 15, &[15; 9], &[15; 9]).number, 1);
    assert_eq!(same(1, 17, 15, &[15; 17], &[15; 17]).number, 2);
    assert_eq!(same(1, 1, 16, &[0], &[0]).number, 3);
    assert_eq!(prune(8, 16, 15, &mut [0; 128], &mut [15; 128]).number, 0);
    assert_eq!(prune(9, 16, 15, &mut [0; 144], &mut [15; 144]).number, 1);
    assert_eq!(prune(8, 17, 15, &mut [0; 136], &mut [15; 136]).number, 2);
    assert_eq!(prune(8, 16, 16, &mut [0; 128], &mut [15; 128]).number, 3);
}

#[test]
fn the_largest_register_opens_and_serves() {
    let mut bytes = unopened(8, 16, 500);
    assert_eq!(bytes.len(), 204_531);
    assert_eq!(open(8, 16, 15, 500, &mut bytes), refusal(0));
    let first = enter(&mut bytes, 1, &[15; 128]);
    assert_eq!((first.number, first.place), (0, 1));
    assert_eq!(count(&bytes, &[0; 128], &[15; 128]).place, 1);
    let struck = strike(&mut bytes, 1, &[15; 128]);
    assert_eq!((struck.number, struck.place), (0, 1));
    assert_eq!(bytes, register(8, 16, 15, 500, &[]));
    for (m, n, top, capacity, number) in [
        (9, 16, 15, 500, 1),
        (8, 17, 15, 500, 2),
        (8, 16, 16, 500, 3),
        (8, 16, 15, 501, 4),
    ] {
        let mut bytes = unopened(m, n, capacity);
        assert_eq!(open(m, n, top, capacity, &mut bytes), refusal(number));
        assert_eq!(bytes, unopened(m, n, capacity));
    }
}

#[test]
fn capacity_0_gives_4() {
    let mut bytes = unopened(2, 2, 0);
    assert_eq!(open(2, 2, 1, 0, &mut bytes), refusal(4));
    assert_eq!(bytes, unopened(2, 2, 0));
}

#[test]
fn a_register_of_another_length_gives_5_and_to_open_6() {
    let whole = register(2, 2, 3, 3, &["00/01", "01/10"]);
    for length in 0..whole.len() + 3 {
        if length == whole.len() {
            continue;
        }
        let mut bytes = whole.clone();
        bytes.resize(length, b'\n');
        let before = bytes.clone();
        assert_eq!(enter(&mut bytes, 1, &[0; 4]), refusal(5));
        assert_eq!(strike(&mut bytes, 1, &[0; 4]), refusal(5));
        assert_eq!(count(&bytes, &[0; 4], &[1; 4]), refusal(5));
        assert_eq!(open(2, 2, 3, 3, &mut bytes), refusal(6));
        assert_eq!(bytes, before);
    }
}

#[test]
fn a_grid_of_another_length_gives_6() {
    let mut bytes = register(2, 2, 3, 3, &["00/01"]);
    let before = bytes.clone();
    for length in [0, 1, 3, 5, 8] {
        let grid = vec![0; length];
        let mut out = vec![200; 4];
        assert_eq!(represent(2, 2, 3, &grid, &mut out), Arranged::starting(6));
        assert_eq!(out, [200; 4]);
        assert_eq!(same(2, 2, 3, &grid, &[0; 4]), Matched::starting(6, 0));
        assert_eq!(same(2, 2, 3, &[0; 4], &grid), Matched::starting(6, 0));
        assert_eq!(enter(&mut bytes, 1, &grid), refusal(6));
        assert_eq!(strike(&mut bytes, 1, &grid), refusal(6));
        assert_eq!(bytes, before);
    }
}

#[test]
fn a_cell_equal_to_top_passes_and_one_more_gives_7() {
    for top in 0..=15u8 {
        let long = u64::from(top);
        let (at, above) = ([0, top], [0, top + 1]);
        let mut out = [200; 2];
        assert_eq!(
            represent(1, 2, long, &above, &mut out),
            Arranged::starting(7)
        );
        assert_eq!(out, [200; 2]);
        assert_eq!(represent(1, 2, long, &at, &mut out).number, 0);
        assert_eq!(same(1, 2, long, &at, &at).number, 0);
        assert_eq!(same(1, 2, long, &at, &above).number, 7);
        assert_eq!(same(1, 2, long, &above, &at).number, 7);
        assert_eq!(prune(1, 2, long, &mut [0; 2], &mut at.clone()).number, 0);
        assert_eq!(prune(1, 2, long, &mut [0; 2], &mut above.clone()).number, 7);
        assert_eq!(
            prune(1, 2, long, &mut above.clone(), &mut at.clone()).number,
            7
        );
        let mut bytes = register(1, 2, long, 2, &[]);
        assert_eq!(enter(&mut bytes, 1, &above), refusal(7));
        assert_eq!(enter(&mut bytes, 1, &at).number, 0);
        assert_eq!(strike(&mut bytes, 1, &above), refusal(7));
        assert_eq!(count(&bytes, &at, &above), refusal(7));
        assert_eq!(count(&bytes, &above, &at), refusal(7));
        assert_eq!(count(&bytes, &at, &at).place, 1);
        assert_eq!(strike(&mut bytes, 1, &at).number, 0);
    }
}

#[test]
fn a_register_s_own_limits_are_part_of_question_5() {
    let good = [(8, 1, 15, 500), (1, 16, 0, 1)];
    let bad = [
        (0, 1, 1, 1),
        (9, 1, 1, 1),
        (1, 0, 1, 1),
        (1, 17, 1, 1),
        (1, 1, 16, 1),
        (1, 1, 1, 0),
        (1, 1, 1, 501),
    ];
    for (rows, columns, top, capacity) in good {
        let mut bytes = register(rows, columns, top, capacity, &[]);
        let grid = vec![0; (rows * columns) as usize];
        assert_eq!(enter(&mut bytes, 1, &grid).number, 0);
    }
    for (rows, columns, top, capacity) in bad {
        let bytes = register(rows, columns, top, capacity, &[]);
        assert_eq!(bytes.len() as u64, register_length(rows, columns, capacity));
        assert_eq!(Contents::read(&bytes), None);
        let grid = vec![0; (rows * columns) as usize];
        let mut lent = bytes.clone();
        assert_eq!(enter(&mut lent, 1, &grid), refusal(5));
        assert_eq!(strike(&mut lent, 1, &grid), refusal(5));
        assert_eq!(count(&lent, &grid, &grid), refusal(5));
        assert_eq!(lent, bytes);
    }
}
