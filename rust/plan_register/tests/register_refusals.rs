//! The questions of enter, strike and count: every set of failures at once, the first decides; and
//! a refusal changes no byte.

mod common;

use common::calls::{answer, check_answer, contents_of};
use common::faults::{check, clients, holdings, registers, sets_of, sets_of_enter, slices};
use reference::calls::Call;
use reference::examples::cells;
use reference::holdings::Holdings;
use reference::layout::Contents;

/// A register of 2 by 3, top 3, full with two entries, the second held as the questions ask that
/// are to fail.
fn full(failed: &[u32]) -> Contents {
    let mut contents = contents_of(2, 3, 3, 2, &[cells("000/111"), cells("001/121")]);
    contents.entries[1].holdings = holdings(failed);
    contents
}

#[test]
fn enter_answers_the_first_no_of_5_6_7_15_9_16() {
    let sets = sets_of_enter([5, 6, 7, 15, 9, 16]);
    assert_eq!(sets.len(), 48);
    for (failed, number) in sets {
        let class = if failed.contains(&9) {
            "010/222"
        } else {
            "121/100"
        };
        for register in registers(&failed, &full(&failed)) {
            for grid in slices(&failed, &cells(class)) {
                for client in clients(&failed) {
                    check(&register, &Call::Enter(client, grid.clone()), number);
                }
            }
        }
    }
}

#[test]
fn strike_answers_the_first_no_of_5_6_7_15_10() {
    for (failed, number) in sets_of([5, 6, 7, 15, 10], 0) {
        // Where 10 is to fail: a class that nobody holds, and one that another client holds.
        let classes: &[&str] = match failed.contains(&10) {
            true => &["010/222", "121/100"],
            false => &["121/100"],
        };
        for register in registers(&failed, &full(&failed)) {
            for class in classes {
                for grid in slices(&failed, &cells(class)) {
                    for client in clients(&failed) {
                        check(&register, &Call::Strike(client, grid.clone()), number);
                    }
                }
            }
        }
    }
}

#[test]
fn clients_1_to_8_pass_and_others_are_15() {
    let mut contents = contents_of(1, 2, 3, 1, &[vec![0, 3]]);
    contents.entries[0].holdings = Holdings([7; 8]);
    let register = contents.bytes();
    let far = [65_537, (1 << 32) + 1, (1 << 63) + 8, u64::MAX - 7, u64::MAX];
    for client in (0..600).chain(far) {
        let is_client = (1..=8).contains(&client);
        let number = |passed: u32| if is_client { passed } else { 15 };
        let held = vec![3, 0];
        check(&register, &Call::Enter(client, held.clone()), number(101));
        check(
            &register,
            &Call::TerminalEnter(client, held.clone()),
            number(101),
        );
        check(&register, &Call::Strike(client, held), number(0));
        // A class that nobody holds: the register is full.
        let other = vec![3, 3];
        check(&register, &Call::Enter(client, other.clone()), number(9));
        check(
            &register,
            &Call::TerminalEnter(client, other.clone()),
            number(9),
        );
        check(&register, &Call::Strike(client, other), number(10));
        // 6 and 7 are asked before.
        check(&register, &Call::Enter(client, vec![0]), 6);
        check(&register, &Call::Enter(client, vec![0, 4]), 7);
        check(&register, &Call::Strike(client, vec![0]), 6);
        check(&register, &Call::Strike(client, vec![0, 4]), 7);
    }
}

#[test]
fn count_answers_the_first_no_of_5_6_7_8() {
    for (failed, number) in sets_of([5, 6, 7, 8], 0) {
        let low = if failed.contains(&8) {
            "002/000"
        } else {
            "001/000"
        };
        let high = cells("111/333");
        for register in registers(&failed, &full(&failed)) {
            for spoilt in slices(&failed, &high) {
                let call = Call::Count((cells(low), spoilt));
                check(&register, &call, number);
            }
            for spoilt in slices(&failed, &cells(low)) {
                // A low above top is above its high, too, but 7 is asked first.
                let call = Call::Count((spoilt, high.clone()));
                check(&register, &call, number);
            }
        }
    }
}

/// A register of 8 by 16 with one entry, of zeros, and room for another.
fn large(top: u8) -> Vec<u8> {
    contents_of(8, 16, top, 2, &[vec![0; 128]]).bytes()
}

#[test]
fn every_length_is_asked() {
    let register = large(15);
    for length in (0..260).filter(|&length| length != 128) {
        let (slice, exact) = (vec![0; length], vec![0; 128]);
        check(&register, &Call::Enter(1, slice.clone()), 6);
        check(&register, &Call::Strike(1, slice.clone()), 6);
        check(&register, &Call::Count((slice.clone(), exact.clone())), 6);
        check(&register, &Call::Count((exact, slice.clone())), 6);
        check(&register, &Call::Count((slice.clone(), slice)), 6);
    }
}

#[test]
fn every_cell_is_asked() {
    for top in 0..=14 {
        let register = large(top);
        for k in 0..128 {
            let mut above = vec![0; 128];
            above[k] = top + 1;
            let tops = vec![top; 128];
            check(&register, &Call::Enter(1, above.clone()), 7);
            check(&register, &Call::Strike(1, above.clone()), 7);
            check(&register, &Call::Count((above.clone(), tops)), 7);
            check(&register, &Call::Count((vec![0; 128], above)), 7);
        }
    }
}

#[test]
fn every_bound_is_asked() {
    for top in 1..=15 {
        let register = large(top);
        for k in 0..128 {
            let tops = vec![top; 128];
            let mut below = tops.clone();
            below[k] -= 1;
            check(&register, &Call::Count((tops.clone(), below.clone())), 8);
            let passes = Call::Count((below, tops));
            check_answer(&register, &passes, answer(0, 0), &register);
        }
    }
}

#[test]
fn the_edges_of_document_01() {
    for top in 0..=15 {
        let empty = contents_of(1, 2, top, 1, &[]).bytes();
        let held = contents_of(1, 2, top, 1, &[vec![0, top]]).bytes();
        let (at, above) = (vec![top, 0], vec![top + 1, 0]);
        check(&empty, &Call::Enter(1, above.clone()), 7);
        check(&empty, &Call::Enter(1, at.clone()), 0);
        check(&held, &Call::Enter(1, at.clone()), 101);
        check(&held, &Call::Strike(1, above), 7);
        check(&held, &Call::Strike(1, at.clone()), 0);
        check(&empty, &Call::Strike(1, at.clone()), 10);
        let long = [&at[..], &[0]].concat();
        check(&held, &Call::Enter(1, long.clone()), 6);
        check(&held, &Call::Strike(1, long), 6);
        let short = &held[..held.len() - 1];
        check(short, &Call::Enter(1, at.clone()), 5);
        check(short, &Call::Strike(1, at.clone()), 5);
        check(short, &Call::Count((at.clone(), at)), 5);
    }
}
