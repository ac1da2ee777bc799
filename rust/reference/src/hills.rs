//! Grids of 0 and 1 on which the general search takes long. They were found by climbing: cells of a
//! random grid were changed or exchanged, and columns copied, wherever the search became no faster.

use crate::designs::Design;
use crate::examples::plan;

/// From seven rows of the identity matrix and a random one.
const SQUARE: [&str; 2] = [
    "00000100/01000000/00100000/00000010/10010101/00010000/00001000/00000001",
    "00001101/00000010/00000001/01000000/00010000/00100000/10000000/00001000",
];

/// From these with eight columns of ones besides.
const WIDE: [&str; 2] = [
    "0000001001011111/0000100001011111/0001001011011010/0000010001011111/\
     0010000001011111/1000000001011111/0000000101011111/0001000001011111",
    "0100000011011111/1000000011011111/0000000111011111/0000001011011111/\
     0000100011011111/0000011111111101/0001000011011111/0010000011011111",
];

/// From these with eight columns besides, all random or some of them copies.
const WITH_RANDOM_COLUMNS: [&str; 4] = [
    "0110001000000000/1000010010000000/0100000100010000/1000000001100000/\
     0101011000111011/0101100101111111/1001000000001000/1100100000000000",
    "0000000010101100/1000010000101000/0001110111111101/0000000001101010/\
     0001100100010000/0001101110111100/0110000000101000/0001100101110001",
    "0111111100110100/0000000000011000/0101000000000000/0010000001000000/\
     0000000000000101/0000001000000010/1100010011111100/0000100100000000",
    "1000010001010111/1000000000100010/0101000110010010/0000000000010011/\
     0001000100000010/1000000100000001/1011111101111101/0110110001000110",
];

/// Those of 8 columns.
pub fn square() -> Vec<Design> {
    climbed("hill-climbed 8x8", &SQUARE)
}

/// Those of 16 columns.
pub fn wide() -> Vec<Design> {
    climbed("hill-climbed 8x16", &WIDE)
}

/// Those of 16 columns that began with random ones.
pub fn with_random_columns() -> Vec<Design> {
    climbed(
        "hill-climbed with random columns 8x16",
        &WITH_RANDOM_COLUMNS,
    )
}

/// All of these.
pub fn all() -> Vec<Design> {
    [square(), wide(), with_random_columns()].concat()
}

/// The grids that are written so, by one name.
fn climbed(name: &str, texts: &[&str]) -> Vec<Design> {
    let design = |text: &&str| {
        let (m, n, cells) = plan(text);
        Design {
            name: name.to_string(),
            m,
            n,
            top: 1,
            cells,
        }
    };
    texts.iter().map(design).collect()
}
