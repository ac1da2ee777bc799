//! A slice to lend, between margins that no call may touch.

use std::hint::black_box;

/// No cell has this value.
const SENTINEL: u8 = 0xA5;

/// The length of each margin, odd so that the slice begins at an odd address.
const MARGIN: usize = 17;

pub struct Lent {
    bytes: Vec<u8>,
}

impl Lent {
    /// A slice that holds these bytes.
    pub fn holding(bytes: &[u8]) -> Lent {
        let margin = [SENTINEL; MARGIN];
        Lent {
            bytes: [&margin, bytes, &margin].concat(),
        }
    }

    /// A slice of this length that holds sentinels.
    pub fn sentinels(length: usize) -> Lent {
        Lent::holding(&vec![SENTINEL; length])
    }

    pub fn slice(&self) -> &[u8] {
        &self.bytes[MARGIN..self.bytes.len() - MARGIN]
    }

    pub fn slice_mut(&mut self) -> &mut [u8] {
        let end = self.bytes.len() - MARGIN;
        &mut self.bytes[MARGIN..end]
    }

    /// Checks that the slice holds these bytes and the margins their sentinels.
    pub fn check(&self, bytes: &[u8]) {
        // The compiler may take a byte that is only lent to be read as unchanged;
        // black_box makes it look.
        let found = black_box(&self.bytes);
        assert_eq!(*found, Lent::holding(bytes).bytes);
    }

    /// Checks that the slice and the margins hold sentinels.
    pub fn check_sentinels(&self) {
        self.check(&vec![SENTINEL; self.slice().len()]);
    }
}
