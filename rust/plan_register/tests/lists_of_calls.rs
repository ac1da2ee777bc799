//! Long lists of enter, strike and count by all eight clients, against the reference and the plain
//! machine: the answer and all bytes after every call.

mod common;

use common::book::Book;
use common::calls::{check_call, contents_of, opened};
use common::lists::{
    check_6_to_8_rows, check_full_registers, check_small_shapes, check_up_to_5_rows,
};
use common::met::ANSWERS;
use reference::calls::Call;
use reference::examples::shapes_up_to;
use reference::lists::Pool;
use reference::random::Random;

#[test]
fn lists_on_small_shapes() {
    check_small_shapes(81, Pool::call).check(&ANSWERS, 200);
}

#[test]
fn lists_on_every_shape_of_up_to_5_rows() {
    check_up_to_5_rows(82, Pool::call).check(&ANSWERS, 20);
}

#[test]
fn lists_on_shapes_of_6_to_8_rows() {
    check_6_to_8_rows(83, Pool::call, 15).check(&ANSWERS, 1);
}

#[test]
fn enters_and_strikes_on_every_shape() {
    let mut random = Random::new(84);
    let mut met = [0; 102];
    for (m, n) in shapes_up_to(128) {
        let (top, capacity) = (random.between(0, 15) as u8, random.between(1, 7) as usize);
        let pool = Pool::drawn(&mut random, m, n, top, capacity + 2);
        let mut book = Book::holding(contents_of(m, n, top, capacity, &[]));
        for _ in 0..60 {
            let (client, grid) = (random.between(1, 8), pool.grid(&mut random));
            let answer = match random.once_in(3) {
                true => book.check_strike(client, &grid),
                false => book.check_enter(client, &grid),
            };
            met[answer.number as usize] += 1;
        }
    }
    for number in [0, 9, 10, 101] {
        assert!(met[number] > 100, "{met:?}");
    }
}

#[test]
fn lists_on_full_registers_of_every_capacity() {
    let with_16 = [&ANSWERS[..], &[("enter", 16)]].concat();
    check_full_registers(85, Pool::call).check(&with_16, 20);
}

#[test]
fn the_bytes_do_not_depend_on_the_order_of_the_calls() {
    let mut random = Random::new(87);
    let pool = Pool::drawn(&mut random, 3, 4, 2, 12);
    let enters = |order: Vec<u8>| {
        let mut register = opened(3, 4, 2, 12);
        for k in order {
            let call = Call::Enter(u64::from(k % 8) + 1, pool.grids[usize::from(k)].clone());
            check_call(&mut register, &call);
        }
        register
    };
    let first = enters((0..12).collect());
    for _ in 0..20 {
        assert_eq!(enters(random.permutation(12)), first);
    }
}
