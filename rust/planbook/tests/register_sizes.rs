//! Registers just within 65,536 bytes, and one line longer.

use planbook::book::Book;
use planbook::lines::{enter, line_1, strike, LIMIT};
use planbook::outputs::{refusal, Output};
use planbook::{check, check_both};
use reference::examples::shapes_up_to;
use reference::layout::Contents;
use reference::random::Random;

/// The length of a register.
fn length(m: u64, n: u64, capacity: u64) -> u64 {
    31 + capacity * (3 * m * n + 25)
}

/// The largest capacity up to 500 of a register within 65,536 bytes.
fn largest_capacity(m: u64, n: u64) -> u64 {
    let fits = |&capacity: &u64| length(m, n, capacity) <= LIMIT as u64;
    (1..=500).rev().find(fits).expect("one line fits")
}

/// A grid that has this one cell, and zeros. Its least arrangement has the cell at the end.
fn with_cell(cells: usize, k: usize, value: u8) -> Vec<u8> {
    let mut grid = vec![0; cells];
    grid[k] = value;
    grid
}

#[test]
fn the_largest_registers_of_every_shape() {
    let mut random = Random::new(251);
    for (m, n) in shapes_up_to(128) {
        let cells = m * n;
        let capacity = largest_capacity(m as u64, n as u64);
        let mut book = Book::opened([m as u64, n as u64, 15, capacity]);
        for value in [15, 0, 9, 10, 1, 9] {
            let (k, other) = (random.below(cells as u64), random.below(cells as u64));
            let least = with_cell(cells, cells - 1, value);
            book.enter(1, &with_cell(cells, k as usize, value), &least);
            book.enter(8, &with_cell(cells, other as usize, value), &least);
        }
        assert_eq!(book.contents.entries.len(), 5);
        let least = with_cell(cells, cells - 1, 10);
        assert_eq!(book.strike(8, &with_cell(cells, 0, 10), &least), 0);
        assert_eq!(book.strike(8, &with_cell(cells, 0, 10), &least), 10);
        assert_eq!(book.contents.entries.len(), 5);
        assert_eq!(book.strike(1, &with_cell(cells, 0, 10), &least), 0);
        assert_eq!(book.contents.entries.len(), 4);
        assert_eq!(book.count(&vec![0; cells], &vec![15; cells]), 0);
        book.check();
        if m <= 5 {
            check_both(&book.input, &book.output());
        }
    }
}

#[test]
fn one_line_more_is_13() {
    let mut refused = 0;
    for (m, n) in shapes_up_to(128) {
        let (m, n) = (m as u64, n as u64);
        let capacity = largest_capacity(m, n);
        if capacity < 500 {
            assert!(length(m, n, capacity + 1) > LIMIT as u64);
            let head = line_1([m, n, 15, capacity + 1]);
            let commands = enter(1, &vec![0; (m * n) as usize]);
            check_both(&[head, commands].concat(), &refusal(13));
            refused += 1;
        }
    }
    assert_eq!(refused, 56);
}

#[test]
fn capacities_far_above_are_13_up_to_500_and_4_from_there() {
    for (capacity, number) in [
        (161, 13),
        (162, 13),
        (499, 13),
        (500, 13),
        (501, 4),
        (999_999, 4),
    ] {
        check_both(&line_1([8, 16, 15, capacity]), &refusal(number));
    }
    assert_eq!(check(&line_1([8, 16, 15, 160])).len(), 65_471);
}

#[test]
fn a_register_of_500_entries_of_35_cells() {
    let mut random = Random::new(252);
    let mut book = Book::opened([5, 7, 15, 500]);
    let mut grids = Vec::new();
    while grids.len() < 505 {
        let grid = random.cells(35, 15);
        let least = reference::grid::least(5, 7, &grid);
        if grids.iter().all(|(_, other)| *other != least) {
            grids.push((grid, least));
        }
    }
    for (grid, least) in &grids[..500] {
        assert_eq!(book.enter(1, grid, least), 0);
    }
    for (grid, least) in &grids[500..] {
        assert_eq!(book.enter(1, grid, least), 9);
        assert_eq!(book.strike(1, grid, least), 10);
    }
    let (grid, least) = &grids[250];
    let arranged = random.shuffled(5, 7, grid);
    assert_eq!(book.enter(2, &arranged, least), 101);
    assert_eq!(book.strike(1, grid, least), 0);
    assert_eq!(book.enter(1, &grids[500].0, &grids[500].1), 9);
    assert_eq!(book.strike(2, grid, least), 0);
    assert_eq!(book.enter(1, &grids[500].0, &grids[500].1), 0);
    assert!(book.input.len() <= LIMIT);
    book.check();
    assert_eq!(book.contents.entries.len(), 500);
}

#[test]
fn small_registers_are_filled_and_emptied() {
    // 1 row, 1 column: 16 classes.
    let all: Vec<u8> = (0..=15).collect();
    let line = |value: &u8| enter(1, &[*value]);
    let gone = |value: &u8| strike(1, &[*value]);
    let fill: Vec<u8> = all.iter().rev().flat_map(line).collect();
    let clear: Vec<u8> = all.iter().flat_map(gone).collect();
    for capacity in [1, 15, 16, 17, 500] {
        let head = line_1([1, 1, 15, capacity]);
        let input = [head.clone(), fill.clone()].concat();
        let output = Output::read(&input, &check(&input));
        let contents = Contents::read(&output.register).expect("the register is laid out");
        assert_eq!(contents.count(), capacity.min(16));
        let emptied = [input, clear.clone()].concat();
        let register = Output::read(&emptied, &check(&emptied)).register;
        assert!(register == check(&head));
    }
}
