//! Grids of 8 rows and 16 columns. The reference is slow on these, so most representatives are
//! taken from a register that the program printed, once that is checked.

use planbook::book::Book;
use planbook::classes::{class_key, drawn_grids, is_least_of_some};
use planbook::lines::{ended, enter, line_1, LIMIT};
use planbook::outputs::Output;
use planbook::run;
use reference::designs::all;
use reference::forms::{around, close, ordered};
use reference::grid::least;
use reference::layout::Contents;
use reference::random::Random;
use std::collections::BTreeSet;
use std::time::Instant;

const M: usize = 8;
const N: usize = 16;

/// The most lines of a register of this shape.
const CAPACITY: u64 = 160;

/// The most enters of an input.
const ENTERS: usize = 165;

/// The representatives of the grids, which are of as many classes, by a run that enters them all.
/// Checks that the register is laid out and holds each class once.
fn representatives(top: u8, grids: &[Vec<u8>]) -> Vec<Vec<u8>> {
    let mut input = line_1([M as u64, N as u64, top.into(), CAPACITY]);
    input.extend(grids.iter().flat_map(|grid| enter(1, grid)));
    let output = Output::read(&input, &run(&input));
    assert!(output.printed.iter().all(|line| line[..2] == [1, 0]));
    let contents = Contents::read(&output.register).expect("the register is laid out");
    assert_eq!(contents.entries.len(), grids.len());
    let entries = contents.grids();
    let keys: Vec<_> = entries.iter().map(|grid| class_key(M, N, grid)).collect();
    let held = |grid: &Vec<u8>| {
        let key = class_key(M, N, grid);
        let at = keys.iter().position(|other| *other == key);
        entries[at.expect("the class is held")].clone()
    };
    grids.iter().map(held).collect()
}

/// A book of this shape.
fn book(top: u8, capacity: u64) -> Book {
    Book::opened([M as u64, N as u64, top.into(), capacity])
}

#[test]
fn entries_are_the_least_of_their_classes() {
    let mut random = Random::new(211);
    for top in [9, 10, 15] {
        let grids = drawn_grids(&mut random, M, N, top, 20);
        let entries = representatives(top, &grids);
        for (grid, entry) in grids.iter().zip(&entries).take(3) {
            assert_eq!(*entry, least(M, N, grid));
        }
        for entry in &entries {
            assert!(is_least_of_some(&mut random, M, N, entry, 500));
        }
    }
}

/// A further line on one of the classes, in any arrangement. Returns the number that answers it.
fn add(
    random: &mut Random,
    book: &mut Book,
    grids: &[Vec<u8>],
    representatives: &[Vec<u8>],
) -> u64 {
    let k = random.below(grids.len() as u64) as usize;
    let (grid, representative) = (random.shuffled(M, N, &grids[k]), &representatives[k]);
    let (top, client) = (book.contents.top as u8, random.between(1, 3));
    let (low, high) = match random.below(8) {
        0..=3 => return book.enter(client, &grid, representative),
        4..=5 => return book.strike(client, &grid, representative),
        6 => around(random, top, representative),
        _ if random.once_in(3) => close(random, M, N, top),
        _ => ordered(vec![0; M * N], vec![top; M * N]),
    };
    book.count(&low, &high)
}

#[test]
fn lists_of_commands() {
    let mut random = Random::new(212);
    let mut met = BTreeSet::new();
    for top in [9, 10, 15] {
        let grids = drawn_grids(&mut random, M, N, top, 12);
        let entries = representatives(top, &grids);
        for capacity in [1, 6, 11] {
            let mut book = book(top, capacity);
            for _ in 0..80 {
                met.insert(add(&mut random, &mut book, &grids, &entries));
            }
            book.check();
        }
    }
    assert_eq!(met, BTreeSet::from([0, 9, 10, 101, 102]));
}

#[test]
fn symmetric_grids_of_7_and_8_rows() {
    let mut random = Random::new(213);
    let designs: Vec<_> = all().into_iter().filter(|design| design.m > 6).collect();
    assert!(designs.len() > 20);
    for design in designs {
        let (m, n, top) = (design.m, design.n, design.top);
        let representative = least(m, n, &design.cells);
        let mut book = Book::opened([m as u64, n as u64, top.into(), 2]);
        let mut copy = || random.shuffled(m, n, &design.cells);
        assert_eq!(book.strike(1, &copy(), &representative), 10);
        assert_eq!(book.enter(1, &design.cells, &representative), 0);
        for client in 4..=8 {
            assert_eq!(book.enter(client, &copy(), &representative), 101);
        }
        assert_eq!(book.count(&representative, &representative), 0);
        for client in 4..=8 {
            assert_eq!(book.strike(client, &copy(), &representative), 0);
        }
        assert_eq!(book.strike(4, &copy(), &representative), 10);
        assert_eq!(book.strike(1, &copy(), &representative), 0);
        assert_eq!(book.enter(4, &copy(), &representative), 0);
        book.check();
    }
}

#[test]
fn one_cell_makes_another_class() {
    let mut random = Random::new(214);
    let first = drawn_grids(&mut random, M, N, 15, 1).remove(0);
    let mut grids = vec![first];
    while grids.len() < 30 {
        let mut grid = random.shuffled(M, N, &grids[0]);
        let k = random.below(128) as usize;
        grid[k] = (grid[k] + random.between(1, 15) as u8) % 16;
        let key = class_key(M, N, &grid);
        if key.is_some() && grids.iter().all(|other| class_key(M, N, other) != key) {
            grids.push(grid);
        }
    }
    let entries = representatives(15, &grids);
    let mut book = book(15, 30);
    for (grid, entry) in grids.iter().zip(&entries) {
        assert_eq!(book.enter(1, grid, entry), 0);
    }
    for (grid, entry) in grids.iter().zip(&entries) {
        let grid = random.shuffled(M, N, grid);
        assert_eq!(book.enter(2, &grid, entry), 101);
    }
    book.check();
}

/// Checks an input of 65,536 bytes that enters these grids in turn. Returns how long the run took.
fn check_whole_input(random: &mut Random, grids: &[Vec<u8>], entries: &[Vec<u8>]) -> String {
    let mut book = book(15, CAPACITY);
    for k in 0..ENTERS {
        let k = k % grids.len();
        book.enter(1, &random.shuffled(M, N, &grids[k]), &entries[k]);
    }
    assert_eq!(book.contents.entries.len(), grids.len());
    book.malformed(&ended(vec![b'x'; LIMIT - 1 - book.input.len()]));
    assert_eq!(book.input.len(), LIMIT);
    let output = book.output();
    let start = Instant::now();
    let printed = run(&book.input);
    let time = start.elapsed();
    assert!(printed == output);
    format!("{time:?}")
}

#[test]
fn whole_inputs_of_enters() {
    let mut random = Random::new(215);
    let grids = drawn_grids(&mut random, M, N, 15, CAPACITY as usize);
    let entries = representatives(15, &grids);
    for classes in [CAPACITY as usize, 84] {
        let (grids, entries) = (&grids[..classes], &entries[..classes]);
        let time = check_whole_input(&mut random, grids, entries);
        println!("{ENTERS} enters of 8 x 16, of {classes} classes, in 65,536 bytes: {time}");
    }
}
