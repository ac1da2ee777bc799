//! Question 5 in plain Rust: is the register laid out?
//!
//! The cells of an entry's line are looked at byte by byte, without reading them, so that the loop
//! takes a vector at a time. A byte fits if it is above what a blank field or the digit 0 has there
//! by no more than `span`, or by `teen` exactly, a ten's 1; and after a 1 by no more than top - 10.
//! The holdings are looked at field by field, without a branch.

use crate::head::Head;
use crate::line::{compare, HOLDINGS};

/// What line 1 states. `None` where question 5 gets a no.
pub fn laid_out(register: &[u8]) -> Option<Head> {
    let head = Head::read(register)?;
    if register.len() != head.start(head.capacity) {
        return None;
    }
    let (entries, blanks) = register.split_at(head.start(head.count));
    let fits = entries_fit(entries, head) && blanks_fit(blanks, head.width());
    fits.then_some(head)
}

/// Is each line of an entry laid out, and does each come before the next?
fn entries_fit(entries: &[u8], head: Head) -> bool {
    let fields = Fields::new(head.top as u8);
    let length = head.cells();
    let mut last: Option<&[u8]> = None;
    for k in 0..head.count {
        let start = head.start(k);
        let (cells, behind) = entries[start..head.start(k + 1)].split_at(length);
        let before = &entries[start - 1..start - 1 + length];
        if !fields.fit(cells, before) || !holdings_fit(behind) {
            return false;
        }
        if last.is_some_and(|last| compare(last, cells).is_ge()) {
            return false;
        }
        last = Some(cells);
    }
    true
}

/// Are these the eight holdings, laid out and not all 0, and a line feed?
fn holdings_fit(behind: &[u8]) -> bool {
    let (holdings, line_feed) = behind.split_at(HOLDINGS);
    let (mut fit, mut held) = (line_feed == b"\n", false);
    for &[hundreds, tens, ones] in holdings.as_chunks().0 {
        let has_tens = tens.is_ascii_digit();
        let has_hundreds = hundreds.is_ascii_digit() & (hundreds != b'0') & has_tens;
        let is_below_100 = (hundreds == b' ') & (tens != b'0') & (has_tens | (tens == b' '));
        fit &= ones.is_ascii_digit() & (has_hundreds | is_below_100);
        held |= (ones != b'0') | has_tens;
    }
    fit & held
}

fn blanks_fit(blanks: &[u8], width: usize) -> bool {
    let is_blank = |line: &[u8]| {
        let fields = line[..width - 1].iter();
        line[width - 1] == b'\n' && fields.fold(0, |bad, byte| bad | (byte ^ b' ')) == 0
    };
    blanks.chunks_exact(width).all(is_blank)
}

/// For each byte of the most cells how it fits.
struct Fields {
    base: [u8; 384],
    teen: [u8; 384],
    span: [u8; 384],
    /// 39 + top: less a 1 it is top - 10, less a space or a line feed no bound.
    cap: u8,
}

impl Fields {
    fn new(top: u8) -> Fields {
        let teen = if top < 10 { 0 } else { b'1' - b' ' };
        let repeated = |field: [u8; 3]| std::array::from_fn(|k| field[k % 3]);
        Fields {
            base: repeated([b' ', b' ', b'0']),
            teen: repeated([0, teen, 0]),
            span: repeated([0, 0, top.min(9)]),
            cap: 39 + top,
        }
    }

    /// Do the bytes of the cells fit? `before` is the line from a byte earlier on.
    fn fit(&self, line: &[u8], before: &[u8]) -> bool {
        let width = line.len();
        let before = &before[..width];
        let (base, teen, span) = (
            &self.base[..width],
            &self.teen[..width],
            &self.span[..width],
        );
        let mut bad = 0;
        for k in 0..width {
            let above = line[k].wrapping_sub(base[k]);
            let above = if above == teen[k] { 0 } else { above };
            let limit = span[k].min(self.cap.wrapping_sub(before[k]));
            bad |= above.saturating_sub(limit);
        }
        bad == 0
    }
}
