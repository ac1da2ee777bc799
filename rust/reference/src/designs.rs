//! Grids with much symmetry, on which a search for the least arrangement has many ties.

use crate::examples::plan;

/// A named grid.
#[derive(Clone, Debug)]
pub struct Design {
    pub name: String,
    pub m: usize,
    pub n: usize,
    pub top: u8,
    pub cells: Vec<u8>,
}

/// The design of this shape with the cell `cell(i, j)` in row i, column j.
fn design(name: &str, m: usize, n: usize, cell: impl Fn(usize, usize) -> usize) -> Design {
    let cells: Vec<u8> = (0..m * n).map(|k| cell(k / n, k % n) as u8).collect();
    Design {
        name: format!("{name} {m}x{n}"),
        m,
        n,
        top: cells.iter().copied().max().unwrap_or(0),
        cells,
    }
}

/// All cells 0.
pub fn zero(m: usize, n: usize) -> Design {
    design("all zero", m, n, |_, _| 0)
}

/// Every row 0, 1, 2 and so on.
pub fn equal_rows(m: usize, n: usize) -> Design {
    design("equal rows", m, n, |_, j| j)
}

/// Every column 0, 1, 2 and so on.
pub fn equal_columns(m: usize, n: usize) -> Design {
    design("equal columns", m, n, |i, _| i)
}

/// Two distinct rows by turns.
pub fn two_rows(m: usize, n: usize) -> Design {
    design("two distinct rows", m, n, |i, j| (j >> (i % 2)) % 4)
}

/// The identity matrix.
pub fn identity(size: usize) -> Design {
    identity_rows(size, size)
}

/// A 1 where row and column have one number, and 0 elsewhere: rows of an identity matrix.
pub fn identity_rows(m: usize, n: usize) -> Design {
    design("identity", m, n, |i, j| usize::from(i == j))
}

/// Two identity matrices side by side.
pub fn double_identity(size: usize) -> Design {
    design("double identity", size, 2 * size, |i, j| {
        usize::from(i == j % size)
    })
}

/// The identity matrix but for its last row, which has its first two cells 1.
pub fn near_identity(size: usize) -> Design {
    design("identity rows and one other", size, size, |i, j| {
        usize::from(if i + 1 < size { i == j } else { j < 2 })
    })
}

/// Row 0 is 0, 1, 2 and so on, and each row is the row above moved on by one.
pub fn cyclic(m: usize, n: usize) -> Design {
    design("cyclic", m, n, |i, j| (i + j) % n)
}

/// The Latin square of the cyclic group.
pub fn cyclic_latin(size: usize) -> Design {
    Design {
        name: format!("cyclic Latin square {size}x{size}"),
        ..cyclic(size, size)
    }
}

/// The Latin square of the elementary abelian group of this order, 2, 4 or 8: for 4 the Klein group.
pub fn klein_latin(size: usize) -> Design {
    design("Klein Latin square", size, size, |i, j| i ^ j)
}

/// The Latin square of the product of the cyclic groups of order 2 and 4.
pub fn product_latin() -> Design {
    design("product Latin square", 8, 8, |i, j| {
        (i + j) % 4 + ((i ^ j) & 4)
    })
}

/// Each row is the row above moved on by one; row 0 has the cells `ones` 1 and the others 0.
pub fn circulant(size: usize, ones: &[usize]) -> Design {
    design("circulant", size, size, |i, j| {
        usize::from(ones.contains(&((j + size - i) % size)))
    })
}

/// Points and lines of the Fano plane.
pub fn fano() -> Design {
    Design {
        name: "Fano 7x7".to_string(),
        ..circulant(7, &[0, 1, 3])
    }
}

/// Points and pairs of points.
pub fn pairs(points: usize) -> Design {
    let mut listed = Vec::new();
    for a in 0..points {
        listed.extend((a + 1..points).map(|b| (a, b)));
    }
    design("points and pairs", points, listed.len(), |i, j| {
        usize::from(i == listed[j].0 || i == listed[j].1)
    })
}

/// Points and planes of the affine space of dimension 3 over two elements, a 2-(8, 4, 3) design.
pub fn affine_planes() -> Design {
    design("affine planes", 8, 14, |i, j| {
        (parity(i & (j / 2 + 1)) + j) % 2
    })
}

/// Sylvester's Hadamard matrix of order 8, with 0 and 1.
pub fn hadamard() -> Design {
    design("Hadamard", 8, 8, |i, j| parity(i & j))
}

/// The lower half of Sylvester's Hadamard matrix of order 16, with 0 and 1.
pub fn half_hadamard() -> Design {
    design("Hadamard", 8, 16, |i, j| parity((i + 8) & j))
}

/// Every column of 0 and 1, once.
pub fn every_column(m: usize) -> Design {
    design("every column", m, 1 << m, |i, j| j >> i & 1)
}

/// Matrix (a) of document 002, an equidistant frequency permutation array.
pub fn efpa() -> Design {
    let (m, n, cells) = plan("021201/022110/010212/001122");
    design("EFPA", m, n, |i, j| cells[i * n + j].into())
}

fn parity(bits: usize) -> usize {
    bits.count_ones() as usize % 2
}

/// All of these in several sizes.
pub fn all() -> Vec<Design> {
    let mut designs = vec![
        product_latin(),
        circulant(8, &[0, 1, 3]),
        circulant(8, &[0, 1]),
        circulant(8, &[0, 2]),
        circulant(8, &[0, 4]),
        circulant(5, &[1, 4]),
        fano(),
        affine_planes(),
        hadamard(),
        half_hadamard(),
        efpa(),
    ];
    for (m, n) in [(1, 1), (1, 16), (8, 1), (5, 7), (8, 16)] {
        designs.extend([zero(m, n), equal_rows(m, n), equal_columns(m, n)]);
        designs.push(two_rows(m, n));
    }
    for (m, n) in [(3, 2), (5, 7), (5, 16)] {
        designs.extend([identity_rows(m, n), cyclic(m, n)]);
    }
    for size in [2, 3, 5, 6, 7, 8] {
        designs.extend([identity(size), double_identity(size), near_identity(size)]);
        designs.push(cyclic_latin(size));
    }
    designs.extend([2, 4, 8].map(klein_latin));
    designs.extend([2, 3, 4, 5, 6].map(pairs));
    designs.extend([1, 2, 3, 4].map(every_column));
    designs
}
