//! Count against the reference: all bounds of tiny shapes, bounds of every shape that hold all,
//! some or none of the entries, and the edges of each bound.

mod common;

use common::calls::{answer, check_answer, check_count, contents_of, with_drawn_holdings};
use common::forms::form_for;
use common::met::{found, Met};
use common::represented;
use plan_register::prune;
use reference::bounds::number_of_grids;
use reference::calls::Call;
use reference::examples::{every_grid, shapes_up_to};
use reference::forms::{close, every_form, wide, without_allperm, Form};
use reference::random::Random;

/// What a count may find in a register with entries.
const FOUND: [&str; 3] = ["no entry", "some entries", "all entries"];

/// Checks a count on the register, which has so many entries, one at least.
fn check(register: &[u8], entries: usize, form: &Form, met: &mut Met<&str>) {
    let answer = check_count(register, form);
    assert_eq!(answer.number, 0);
    met.note(found(answer.place, entries));
}

/// Shapes, each with a top, of which all bounds are tried. None has more than 500 grids.
const TINY: [(usize, usize, u8); 8] = [
    (1, 1, 15),
    (2, 1, 5),
    (3, 1, 2),
    (1, 3, 2),
    (2, 2, 2),
    (3, 2, 1),
    (2, 3, 1),
    (7, 1, 1),
];

#[test]
fn all_bounds_of_tiny_shapes() {
    let mut met = Met::default();
    for (m, n, top) in TINY {
        let every = every_grid(m * n, top);
        let classes: Vec<Vec<u8>> = every.iter().map(|g| represented(m, n, top, g)).collect();
        let contents = contents_of(m, n, top, 500, &classes);
        let register = contents.bytes();
        for form in every_form(m * n, top) {
            check(&register, contents.entries.len(), &form, &mut met);
        }
    }
    met.check(&FOUND, 8);
}

#[test]
fn of_all_grids_those_in_the_bounds_are_counted() {
    for (m, n, top) in TINY {
        let register = contents_of(m, n, top, 500, &every_grid(m * n, top)).bytes();
        for form in every_form(m * n, top) {
            let grids = number_of_grids(top, &form.0, &form.1);
            assert_eq!(check_count(&register, &form), answer(0, grids as u32));
        }
    }
}

#[test]
fn bounds_of_every_shape() {
    let mut random = Random::new(121);
    let mut met = Met::default();
    for (m, n) in shapes_up_to(128) {
        let top = random.between(0, 15) as u8;
        let class = |random: &mut Random| represented(m, n, top, &random.cells(m * n, top));
        let classes: Vec<Vec<u8>> = (0..12).map(|_| class(&mut random)).collect();
        let contents = contents_of(m, n, top, 20, &classes);
        let contents = with_drawn_holdings(&mut random, contents);
        let register = contents.bytes();
        for _ in 0..14 {
            let form = form_for(&mut random, m, n, top, &contents.grids());
            check(&register, contents.entries.len(), &form, &mut met);
        }
    }
    met.check(&FOUND, 50);
}

/// Checks each bound of each cell, with entries that differ in one cell each, by one, from a grid
/// that has this value in all cells.
fn check_each_bound(m: usize, n: usize, value: u8) {
    let first = vec![value; m * n];
    let others = (0..m * n).flat_map(|k| {
        [value - 1, value + 1].map(|other| {
            let mut grid = first.clone();
            grid[k] = other;
            grid
        })
    });
    let entries: Vec<Vec<u8>> = others.chain([first.clone()]).collect();
    let register = contents_of(m, n, 15, 500, &entries).bytes();
    let all = entries.len() as u32;
    for k in 0..m * n {
        let check_bounds = |low_k: u8, high_k: u8, count: u32| {
            let (mut low, mut high) = (vec![value - 1; m * n], vec![value + 1; m * n]);
            (low[k], high[k]) = (low_k, high_k);
            let call = Call::Count((low, high));
            check_answer(&register, &call, answer(0, count), &register);
        };
        check_bounds(value - 1, value + 1, all);
        check_bounds(value, value + 1, all - 1);
        check_bounds(value - 1, value, all - 1);
        check_bounds(value, value, all - 2);
        check_bounds(value - 1, value - 1, 1);
        check_bounds(value + 1, value + 1, 1);
        check_bounds(value + 2, value + 2, 0);
        check_bounds(value - 2, value - 2, 0);
    }
}

#[test]
fn the_edges_of_each_bound_of_each_cell() {
    for (m, n) in [(1, 16), (8, 1), (3, 5), (5, 7), (8, 16)] {
        check_each_bound(m, n, 7);
        check_each_bound(m, n, 10);
    }
}

#[test]
fn an_empty_register_counts_0_whatever_prune_says() {
    let mut random = Random::new(122);
    let mut met = Met::default();
    for (m, n) in shapes_up_to(128) {
        let top = random.between(1, 15) as u8;
        let register = contents_of(m, n, top, 2, &[]).bytes();
        let mut forms = vec![wide(&mut random, m * n, top), close(&mut random, m, n, top)];
        if m > 1 {
            forms.push(without_allperm(&mut random, m, n, top));
        }
        for form in forms {
            assert_eq!(check_count(&register, &form), answer(0, 0));
            let (mut low, mut high) = form;
            let number = prune(m, n, top.into(), &mut low, &mut high).number;
            met.note(number);
        }
    }
    met.check(&[0, 102], 101);
}
