//! Orders: the starting one, following, reverse.

use reference::grid::{arrangement, identity, is_permutation, permutations};
use reference::permutation::{
    ColumnPermutation, Permutation, RowPermutation, TerminalRowPermutation,
};
use reference::random::Random;
use std::collections::BTreeSet;

#[test]
fn permutations_lists_each_once() {
    let factorials = [1, 1, 2, 6, 24, 120, 720, 5040, 40320];
    for (n, &factorial) in factorials.iter().enumerate() {
        let listed = permutations(n);
        let different: BTreeSet<&Vec<u8>> = listed.iter().collect();
        assert_eq!(listed.len(), factorial);
        assert_eq!(different.len(), factorial);
        assert!(listed.iter().all(|p| p.len() == n && is_permutation(p)));
        assert!(listed.windows(2).all(|two| two[0] < two[1]));
    }
}

#[test]
fn is_permutation_refuses_repeated_and_large_numbers() {
    assert!(is_permutation(&[2, 0, 1]));
    assert!(!is_permutation(&[2, 0, 2]));
    assert!(!is_permutation(&[0, 1, 3]));
    assert!(!is_permutation(&[1]));
    assert!(!is_permutation(&[255, 0]));
}

#[test]
fn the_identity_holds_each_position_s_own_number() {
    for size in [0, 1, 5, 8, 9, usize::MAX] {
        assert_eq!(RowPermutation::identity(size).at, [0, 1, 2, 3, 4, 5, 6, 7]);
        assert_eq!(TerminalRowPermutation::identity(size).at, [0, 1, 2, 3, 4]);
    }
    assert_eq!(ColumnPermutation::identity(3).at.to_vec(), identity(16));
}

#[test]
fn composition_sends_i_to_p_of_r_of_i() {
    let p = RowPermutation::listed(&[1, 2, 0, 3]);
    let r = RowPermutation::listed(&[3, 0, 1, 2]);
    assert_eq!(p.composed(r).at, [3, 1, 2, 0, 4, 5, 6, 7]);
    assert_eq!(r.composed(p).at, [0, 1, 3, 2, 4, 5, 6, 7]);
    assert_eq!(p.inverse().at, [2, 0, 1, 3, 4, 5, 6, 7]);
    let p = TerminalRowPermutation::listed(&[1, 2, 0, 3]);
    let r = TerminalRowPermutation::listed(&[3, 0, 1, 2]);
    assert_eq!(p.composed(r).at, [3, 1, 2, 0, 4]);
    assert_eq!(r.composed(p).at, [0, 1, 3, 2, 4]);
    assert_eq!(p.inverse().at, [2, 0, 1, 3, 4]);
}

fn check_laws<const LIMIT: usize>(
    p: Permutation<LIMIT>,
    q: Permutation<LIMIT>,
    r: Permutation<LIMIT>,
) {
    let one = Permutation::identity(p.size);
    assert_eq!(p.composed(one), p);
    assert_eq!(one.composed(p), p);
    assert_eq!(p.composed(p.inverse()), one);
    assert_eq!(p.inverse().composed(p), one);
    assert_eq!(p.inverse().inverse(), p);
    assert_eq!(p.composed(q).composed(r), p.composed(q.composed(r)));
    assert_eq!(p.composed(q).inverse(), q.inverse().composed(p.inverse()));
}

#[test]
fn laws_for_all_permutations_of_three() {
    for p in permutations(3) {
        for q in permutations(3) {
            for r in permutations(3) {
                let listed = RowPermutation::listed;
                check_laws(listed(&p), listed(&q), listed(&r));
                let listed = TerminalRowPermutation::listed;
                check_laws(listed(&p), listed(&q), listed(&r));
            }
        }
    }
}

#[test]
fn laws_for_random_permutations_of_every_size() {
    let mut random = Random::new(1);
    for _ in 0..200 {
        for size in 1..=8 {
            let mut next = || RowPermutation::listed(&random.permutation(size));
            check_laws(next(), next(), next());
        }
        for size in 1..=5 {
            let mut next = || TerminalRowPermutation::listed(&random.permutation(size));
            check_laws(next(), next(), next());
        }
        for size in 1..=16 {
            let mut next = || ColumnPermutation::listed(&random.permutation(size));
            check_laws(next(), next(), next());
        }
    }
}

#[test]
fn two_arrangements_one_after_the_other_are_one() {
    let mut random = Random::new(2);
    for _ in 0..300 {
        let (m, n) = (
            random.between(1, 8) as usize,
            random.between(1, 16) as usize,
        );
        let grid = random.cells(m * n, 15);
        let (p, r) = (random.permutation(m), random.permutation(m));
        let (q, s) = (random.permutation(n), random.permutation(n));
        let twice = arrangement(m, n, &r, &s, &arrangement(m, n, &p, &q, &grid));
        let rows = RowPermutation::listed(&p).composed(RowPermutation::listed(&r));
        let columns = ColumnPermutation::listed(&q).composed(ColumnPermutation::listed(&s));
        assert_eq!(twice, arrangement(m, n, &rows.at, &columns.at, &grid));
    }
}

fn no_permutations() -> Vec<RowPermutation> {
    let with = |size: usize, at: [u8; 8]| RowPermutation { size, at };
    vec![
        with(3, [1, 1, 0, 3, 4, 5, 6, 7]),
        with(3, [1, 2, 3, 0, 4, 5, 6, 7]),
        with(3, [2, 1, 255, 3, 4, 5, 6, 7]),
        with(8, [7, 6, 5, 4, 3, 2, 1, 8]),
        with(0, [1, 0, 2, 3, 4, 5, 6, 7]),
        with(9, [1, 0, 2, 3, 4, 5, 6, 7]),
        with(usize::MAX, [1, 0, 2, 3, 4, 5, 6, 7]),
    ]
}

#[test]
fn what_is_no_permutation_gives_the_identity() {
    for bad in no_permutations() {
        assert!(!bad.is_permutation());
        assert_eq!(bad.inverse().at, [0, 1, 2, 3, 4, 5, 6, 7]);
        assert_eq!(bad.composed(bad).at, [0, 1, 2, 3, 4, 5, 6, 7]);
        for size in 1..=8 {
            let good = RowPermutation::listed(&Random::new(size as u64).permutation(size));
            assert_eq!(bad.composed(good).at, [0, 1, 2, 3, 4, 5, 6, 7]);
            assert_eq!(good.composed(bad).at, [0, 1, 2, 3, 4, 5, 6, 7]);
        }
    }
}

#[test]
fn a_terminal_s_row_order_has_at_most_5_positions() {
    let with = |size: usize, at: [u8; 5]| TerminalRowPermutation { size, at };
    assert!(with(5, [4, 3, 2, 1, 0]).is_permutation());
    for bad in [
        with(5, [4, 3, 2, 1, 1]),
        with(5, [4, 3, 2, 1, 5]),
        with(0, [1, 0, 2, 3, 4]),
        with(6, [1, 0, 2, 3, 4]),
        with(8, [1, 0, 2, 3, 4]),
        with(usize::MAX, [1, 0, 2, 3, 4]),
    ] {
        assert!(!bad.is_permutation());
        assert_eq!(bad.inverse().at, [0, 1, 2, 3, 4]);
        assert_eq!(bad.composed(bad).at, [0, 1, 2, 3, 4]);
        for size in 1..=5 {
            let good = TerminalRowPermutation::listed(&Random::new(size as u64).permutation(size));
            assert_eq!(bad.composed(good).at, [0, 1, 2, 3, 4]);
            assert_eq!(good.composed(bad).at, [0, 1, 2, 3, 4]);
        }
    }
}

#[test]
fn different_sizes_give_the_identity() {
    let three = ColumnPermutation::listed(&[2, 0, 1]);
    let four = ColumnPermutation::listed(&[2, 0, 1, 3]);
    assert_eq!(three.composed(four).at.to_vec(), identity(16));
    assert_eq!(four.composed(three).at.to_vec(), identity(16));
    let three = TerminalRowPermutation::listed(&[2, 0, 1]);
    let four = TerminalRowPermutation::listed(&[2, 0, 1, 3]);
    assert_eq!(three.composed(four).at, [0, 1, 2, 3, 4]);
    assert_eq!(four.composed(three).at, [0, 1, 2, 3, 4]);
}

#[test]
fn positions_past_the_size_are_not_looked_at_and_hold_their_own_number() {
    let odd = RowPermutation {
        size: 2,
        at: [1, 0, 0, 9, 255, 1, 1, 1],
    };
    assert!(odd.is_permutation());
    assert_eq!(odd.inverse(), RowPermutation::listed(&[1, 0]));
    assert_eq!(odd.composed(odd), RowPermutation::identity(2));
    let one = RowPermutation::identity(2);
    assert_eq!(odd.composed(one), RowPermutation::listed(&[1, 0]));
    let odd = TerminalRowPermutation {
        size: 2,
        at: [1, 0, 0, 9, 255],
    };
    assert!(odd.is_permutation());
    assert_eq!(odd.inverse(), TerminalRowPermutation::listed(&[1, 0]));
    assert_eq!(odd.composed(odd), TerminalRowPermutation::identity(2));
}
