//! Lists that mix the calls of the order system and a terminal's enter on one register, against the
//! reference and the plain machine: the answer and all bytes after every call.

mod common;

use common::calls::{check_call, contents_of, made, opened};
use common::lists::{
    check_6_to_8_rows, check_full_registers, check_small_shapes, check_up_to_5_rows,
};
use common::met::{Answered, ANSWERS, TERMINAL_ANSWERS};
use common::shapes_of;
use plan_register::{enter, strike, terminal_enter};
use reference::calls::Call;
use reference::examples::every_grid;
use reference::grid::compare;
use reference::holdings::Holdings;
use reference::lists::Pool;
use reference::random::Random;

/// Every number of both sets on registers of up to 5 rows: not 14.
fn answers_up_to_5_rows() -> Vec<Answered> {
    [&ANSWERS[..], &TERMINAL_ANSWERS].concat()
}

#[test]
fn lists_on_small_shapes() {
    let met = check_small_shapes(221, Pool::call_of_either_set);
    met.check(&answers_up_to_5_rows(), 100);
}

#[test]
fn lists_on_every_shape_of_up_to_5_rows() {
    let met = check_up_to_5_rows(222, Pool::call_of_either_set);
    met.check(&answers_up_to_5_rows(), 20);
}

#[test]
fn lists_on_shapes_of_6_to_8_rows() {
    let met = check_6_to_8_rows(223, Pool::call_of_either_set, 1);
    met.check(&[&ANSWERS[..], &[("terminal enter", 14)]].concat(), 1);
    assert!(met.times(("terminal enter", 14)) > 50, "{met:?}");
}

#[test]
fn lists_on_full_registers_of_every_capacity() {
    let met = check_full_registers(224, Pool::call_of_either_set);
    let with_16 = [("enter", 16), ("terminal enter", 16)];
    met.check(&[&answers_up_to_5_rows()[..], &with_16].concat(), 10);
}

#[test]
fn from_empty_to_full_through_both_sets() {
    let grids = every_grid(3, 15).into_iter();
    let mut classes: Vec<Vec<u8>> = grids.filter(|grid| grid.is_sorted()).collect();
    classes.sort_by(|a, b| compare(a, b));
    let mut register = opened(1, 3, 15, 500);
    let mut full = contents_of(1, 3, 15, 500, &classes[..500]);
    for (k, grid) in classes[..500].iter().enumerate() {
        let client = k % 8 + 1;
        let placed = match k % 2 {
            0 => terminal_enter(&mut register, client, grid),
            _ => enter(&mut register, client, grid),
        };
        assert_eq!(placed.number, 0);
        full.entries[k].holdings = Holdings::one_of(client as u64);
    }
    assert_eq!(register, full.bytes());
    let entered = terminal_enter(&mut register, 1, &classes[500]);
    assert_eq!((entered.number, entered.place), (9, 0));
    for (k, grid) in classes[..500].iter().enumerate() {
        assert_eq!(terminal_enter(&mut register, 3, grid).number, 101);
        full.entries[k].holdings = full.entries[k].holdings.with_one_more(3);
    }
    assert_eq!(register, full.bytes());
    for (k, grid) in classes[..500].iter().enumerate() {
        assert_eq!(strike(&mut register, 3, grid).number, 0);
        assert_eq!(strike(&mut register, k % 8 + 1, grid).number, 0);
    }
    assert_eq!(register, opened(1, 3, 15, 500));
}

/// Checks a list of so many calls on two registers, on the other one with every enter made at a
/// terminal: equal answers, and equal bytes after each call. Returns how many enters changed it.
fn check_alike(random: &mut Random, pool: &Pool, capacity: usize, calls: usize) -> usize {
    let mut one = opened(pool.m, pool.n, pool.top, capacity);
    let mut other = one.clone();
    let mut entered = 0;
    for _ in 0..calls {
        let call = pool.call(random);
        let before = one.clone();
        let answer = made(&mut one, &call);
        let at_terminal = call.clone().at_terminal();
        assert_eq!(made(&mut other, &at_terminal), answer, "{call:?}");
        assert_eq!(other, one, "{call:?}");
        entered += usize::from(at_terminal != call && before != one);
    }
    entered
}

#[test]
fn a_list_with_every_enter_at_a_terminal_leaves_the_same() {
    let mut random = Random::new(225);
    let mut entered = 0;
    for (m, n) in shapes_of(5, 80) {
        for _ in 0..20 {
            let (top, capacity) = (random.between(0, 15) as u8, random.between(1, 20) as usize);
            let pool = Pool::drawn(&mut random, m, n, top, capacity + 4);
            entered += check_alike(&mut random, &pool, capacity, 100);
        }
    }
    assert!(entered > 10_000, "{entered}");
}

#[test]
fn the_largest_register_of_a_terminal() {
    let mut random = Random::new(226);
    for top in [1, 15] {
        let pool = Pool::drawn(&mut random, 5, 16, top, 600);
        assert!(check_alike(&mut random, &pool, 500, 3000) > 300);
    }
}

#[test]
fn the_bytes_do_not_depend_on_the_order_of_the_calls_or_their_set() {
    let mut random = Random::new(227);
    let pool = Pool::drawn(&mut random, 4, 4, 2, 12);
    let enters = pool.grids.iter().zip((1..=8).cycle());
    let enters = enters.map(|(grid, client)| Call::Enter(client, grid.clone()));
    let enters: Vec<Call> = enters.collect();
    let left = |calls: &[Call]| {
        let mut register = opened(4, 4, 2, 12);
        for call in calls {
            check_call(&mut register, call);
        }
        register
    };
    let first = left(&enters);
    for _ in 0..20 {
        let order = random.permutation(12).into_iter();
        let calls = order.map(|k| match (&enters[usize::from(k)], random.once_in(2)) {
            (enter, true) => enter.clone().at_terminal(),
            (enter, false) => enter.clone(),
        });
        assert_eq!(left(&calls.collect::<Vec<_>>()), first);
    }
}
