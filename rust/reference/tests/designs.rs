//! The designs are what their names say.

use reference::designs::{
    affine_planes, all, cyclic, cyclic_latin, efpa, every_column, fano, hadamard, half_hadamard,
    identity, identity_rows, klein_latin, pairs, product_latin, two_rows, Design,
};
use std::collections::BTreeSet;

fn rows(design: &Design) -> Vec<&[u8]> {
    design.cells.chunks(design.n).collect()
}

fn columns(design: &Design) -> Vec<Vec<u8>> {
    let column = |j: usize| design.cells.iter().skip(j).step_by(design.n).copied();
    (0..design.n).map(|j| column(j).collect()).collect()
}

/// How many places of two rows satisfy this.
fn places(a: &[u8], b: &[u8], holds: fn(u8, u8) -> bool) -> usize {
    a.iter().zip(b).filter(|(&x, &y)| holds(x, y)).count()
}

/// Checks that any two distinct rows have so many places that satisfy this.
fn check_every_two_rows(design: &Design, expected: usize, holds: fn(u8, u8) -> bool) {
    for (k, a) in rows(design).iter().enumerate() {
        for b in &rows(design)[..k] {
            assert_eq!(places(a, b, holds), expected, "{}", design.name);
        }
    }
}

#[test]
fn shapes_and_tops() {
    for design in all() {
        assert!((1..=8).contains(&design.m) && (1..=16).contains(&design.n));
        assert_eq!(design.cells.len(), design.m * design.n, "{}", design.name);
        assert!(design.top <= 15);
        assert!(design.cells.iter().all(|&cell| cell <= design.top));
    }
}

#[test]
fn latin_squares_have_every_value_in_each_row_and_column() {
    for square in [
        cyclic_latin(7),
        cyclic_latin(8),
        klein_latin(4),
        klein_latin(8),
        product_latin(),
    ] {
        let distinct = |cells: &[u8]| cells.iter().collect::<BTreeSet<_>>().len();
        for row in rows(&square) {
            assert_eq!(distinct(row), square.n, "{}", square.name);
        }
        for column in columns(&square) {
            assert_eq!(distinct(&column), square.m, "{}", square.name);
        }
    }
}

#[test]
fn rows_of_squares() {
    for (m, n) in [(3, 5), (5, 16), (8, 16)] {
        let (square, some) = (cyclic_latin(n), cyclic(m, n));
        assert_eq!(rows(&some), rows(&square)[..m], "{}", some.name);
        let (square, some) = (identity(n), identity_rows(m, n));
        assert_eq!(rows(&some), rows(&square)[..m], "{}", some.name);
    }
    assert_eq!(cyclic(2, 3).cells, [0, 1, 2, 1, 2, 0]);
    assert_eq!(identity_rows(2, 3).cells, [1, 0, 0, 0, 1, 0]);
    assert_eq!(identity_rows(3, 2).cells, [1, 0, 0, 1, 0, 0]);
    assert_eq!(cyclic(5, 16).name, "cyclic 5x16");
    assert_eq!(cyclic_latin(5).name, "cyclic Latin square 5x5");
    assert_eq!(identity_rows(5, 16).name, "identity 5x16");
}

#[test]
fn block_designs_have_every_two_points_on_equally_many_blocks() {
    let both = |x: u8, y: u8| x == 1 && y == 1;
    check_every_two_rows(&fano(), 1, both);
    check_every_two_rows(&affine_planes(), 3, both);
    check_every_two_rows(&pairs(6), 1, both);
    for (design, size) in [(fano(), 3), (affine_planes(), 4), (pairs(6), 2)] {
        for column in columns(&design) {
            assert_eq!(column.iter().filter(|&&cell| cell == 1).count(), size);
        }
    }
}

#[test]
fn rows_differ_in_equally_many_places() {
    check_every_two_rows(&hadamard(), 4, |x, y| x != y);
    check_every_two_rows(&half_hadamard(), 8, |x, y| x != y);
    check_every_two_rows(&efpa(), 4, |x, y| x != y);
}

#[test]
fn distinct_rows_and_columns() {
    let distinct: BTreeSet<Vec<u8>> = columns(&every_column(4)).into_iter().collect();
    assert_eq!(distinct.len(), 16);
    let two = two_rows(8, 16);
    let distinct: BTreeSet<&[u8]> = rows(&two).into_iter().collect();
    assert_eq!(distinct.len(), 2);
}
