//! The forms for tests and benchmarks are what they are said to be.

use reference::bounds::{allperm, lies_in, some_grid, values};
use reference::examples::shapes_up_to;
use reference::forms::{
    around, close, drawn, every_form, grid_with_allperm, wide, without_allperm,
};
use reference::forms::{written, Form};
use reference::questions;
use reference::random::Random;
use std::collections::HashSet;

/// Checks that this form of so many cells passes questions 6, 7 and 8.
fn check_passes(count: usize, top: u8, (low, high): &Form) {
    assert_eq!(questions::lengths(&[low, high], count as u64), Ok(()));
    assert_eq!(questions::cells(&[low, high], top.into()), Ok(()));
    assert_eq!(questions::bounds(low, high), Ok(()));
}

#[test]
fn a_written_form() {
    let (m, n, form) = written("13 03 22/01 02 99");
    assert_eq!((m, n), (2, 3));
    assert_eq!(form, (vec![1, 0, 2, 0, 0, 9], vec![3, 3, 2, 1, 2, 9]));
}

#[test]
fn every_form_is_listed_once() {
    for (count, top, number) in [(1, 15, 136), (2, 3, 100), (4, 1, 81)] {
        let forms: HashSet<Form> = every_form(count, top).into_iter().collect();
        assert_eq!(forms.len(), number);
        forms.iter().for_each(|form| check_passes(count, top, form));
    }
}

#[test]
fn random_forms_pass_the_questions() {
    let mut random = Random::new(14);
    for (m, n) in shapes_up_to(128) {
        for top in 1..=15 {
            check_passes(m * n, top, &drawn(&mut random, m * n, top));
            check_passes(m * n, top, &wide(&mut random, m * n, top));
            check_passes(m * n, top, &close(&mut random, m, n, top));
        }
    }
}

#[test]
fn a_grid_with_allperm_and_one_or_two_values_around_it() {
    let mut random = Random::new(15);
    for (m, n) in shapes_up_to(128) {
        for top in 0..=15 {
            let grid = grid_with_allperm(&mut random, m, n, top);
            assert!(allperm(m, n, &grid));
            let form = around(&mut random, top, &grid);
            check_passes(m * n, top, &form);
            let (low, high) = form;
            assert!(lies_in(&low, &high, &grid));
            assert!((0..m * n).all(|k| values(top, low[k], high[k]).len() <= 2));
        }
    }
}

#[test]
fn no_grid_has_allperm() {
    let mut random = Random::new(16);
    for (m, n) in shapes_up_to(128).into_iter().filter(|&(m, _)| m > 1) {
        for top in 1..=15 {
            let form = without_allperm(&mut random, m, n, top);
            check_passes(m * n, top, &form);
            assert!(!some_grid(m, n, top, &form.0, &form.1));
        }
    }
}
