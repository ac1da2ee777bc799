//! Registers of 8 by 16 with 500 lines.

mod common;

use common::book::Book;
use common::calls::{answer, check_count, contents_of, opened};
use common::represented;
use reference::grid::compare;
use reference::random::Random;

const M: usize = 8;
const N: usize = 16;
const CAPACITY: usize = 500;
const TOPS: [u8; 4] = [1, 9, 10, 15];

/// The register with these representatives.
fn book(top: u8, entries: &[Vec<u8>]) -> Book {
    let contents = contents_of(M, N, top, CAPACITY, entries);
    assert_eq!(contents.entries.len(), entries.len());
    Book::holding(contents)
}

/// So many representatives, ascending.
fn representatives(random: &mut Random, top: u8, count: usize) -> Vec<Vec<u8>> {
    let mut found: Vec<Vec<u8>> = Vec::new();
    while found.len() < count {
        found.push(represented(M, N, top, &random.cells(M * N, top)));
        found.sort_by(|a, b| compare(a, b));
        found.dedup();
    }
    found
}

#[test]
fn full_registers() {
    let mut random = Random::new(111);
    for top in TOPS {
        let mut classes = representatives(&mut random, top, CAPACITY + 1);
        let new = classes.remove(random.below(CAPACITY as u64 + 1) as usize);
        let mut book = book(top, &classes);
        assert_eq!(book.check_enter(8, &new), answer(9, 0));
        assert_eq!(book.check_strike(8, &new), answer(10, 0));
        for k in [0, 1, 249, 498, 499] {
            let grid = random.shuffled(M, N, &classes[k]);
            let place = k as u32 + 1;
            // Client 1 holds one; client 8 takes one and gives it back.
            assert_eq!(book.check_enter(8, &grid), answer(101, place));
            assert_eq!(book.check_strike(8, &grid), answer(0, place));
            assert_eq!(book.check_strike(8, &grid), answer(10, 0));
            assert_eq!(book.check_enter(8, &new), answer(9, 0));
            assert_eq!(book.check_strike(1, &grid), answer(0, place));
            assert_eq!(book.check_strike(1, &grid), answer(10, 0));
            assert_eq!(book.check_enter(8, &new).number, 0);
            assert_eq!(book.check_enter(1, &grid), answer(9, 0));
            assert_eq!(book.check_strike(8, &new).number, 0);
            assert_eq!(book.check_enter(1, &grid), answer(0, place));
        }
    }
}

#[test]
fn top_0_has_one_class() {
    let mut book = book(0, &[]);
    assert_eq!(book.bytes, opened(M, N, 0, CAPACITY));
    let zeros = vec![0; M * N];
    assert_eq!(book.check_strike(4, &zeros), answer(10, 0));
    assert_eq!(book.check_enter(4, &zeros), answer(0, 1));
    assert_eq!(book.check_enter(4, &zeros), answer(101, 1));
    let form = (zeros.clone(), zeros.clone());
    assert_eq!(check_count(&book.bytes, &form), answer(0, 1));
    assert_eq!(book.check_strike(4, &zeros), answer(0, 1));
    assert_eq!(book.check_strike(4, &zeros), answer(0, 1));
    assert_eq!(book.bytes, opened(M, N, 0, CAPACITY));
}

#[test]
fn from_empty_to_full_and_back() {
    let mut random = Random::new(113);
    for top in [1, 15] {
        let classes = representatives(&mut random, top, CAPACITY);
        let bytes = book(top, &classes).bytes;
        let empty = opened(M, N, top, CAPACITY);
        let mut register = empty.clone();
        for grid in in_any_order(&mut random, &classes) {
            assert_eq!(plan_register::enter(&mut register, 1, &grid).number, 0);
        }
        assert!(register == bytes);
        for grid in in_any_order(&mut random, &classes) {
            assert_eq!(plan_register::strike(&mut register, 1, &grid).number, 0);
        }
        assert!(register == empty);
    }
}

/// The grids in any order, each in any arrangement.
fn in_any_order(random: &mut Random, grids: &[Vec<u8>]) -> Vec<Vec<u8>> {
    let mut grids = grids.to_vec();
    for k in (0..grids.len()).rev() {
        grids.swap(k, random.below(k as u64 + 1) as usize);
        grids[k] = random.shuffled(M, N, &grids[k]);
    }
    grids
}

#[test]
fn long_lists() {
    let mut random = Random::new(114);
    for top in TOPS {
        let classes = representatives(&mut random, top, CAPACITY + 6);
        let mut book = book(top, &classes[4..503]);
        let mut met = [0; 102];
        for _ in 0..60 {
            let from = [0, 250, CAPACITY][random.below(3) as usize];
            let class = &classes[from + random.below(6) as usize];
            let grid = random.shuffled(M, N, class);
            let client = random.between(1, 2);
            let answer = match random.once_in(4) {
                true => book.check_strike(client, &grid),
                false => book.check_enter(client, &grid),
            };
            met[answer.number as usize] += 1;
        }
        let numbers = [0, 9, 10, 101];
        assert!(numbers.iter().all(|&number| met[number] > 0), "{met:?}");
    }
}

#[test]
fn counts_on_full_registers() {
    let mut random = Random::new(115);
    for top in TOPS {
        let classes = representatives(&mut random, top, CAPACITY);
        let bytes = book(top, &classes).bytes;
        let check = |low: &[u8], high: &[u8]| check_count(&bytes, &(low.to_vec(), high.to_vec()));
        let (zeros, tops) = ([0; M * N], [top; M * N]);
        assert_eq!(check(&zeros, &tops), answer(0, 500));
        assert_eq!(check(&tops, &tops), answer(0, 0));
        for k in [0, 250, 499] {
            assert_eq!(check(&classes[k], &classes[k]), answer(0, 1));
        }
        let mut half = tops;
        half[M * N / 2..].fill(top / 2);
        let lower = check(&zeros, &half).place;
        assert!(lower < 500);
    }
}
