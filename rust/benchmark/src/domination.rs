//! Rows of a grid with two values that need not be placed next, since another row can be that gives
//! no later arrangement.
//!
//! Let two rows differ in two columns alone, c and d, where one has the higher value in d and the
//! other in c. No row placed tells c from d. If no other row has the higher value in d and the lower
//! one in c, then the other row dominates the one: with the two rows exchanged, and the two columns,
//! each arrangement becomes one that is no later. Equal rows dominate each other. Where two rows
//! differ in four columns, these may be two such pairs.

/// The cells of the grid as bits, 1 for the higher value.
pub struct Domination {
    m: usize,
    /// For each row one bit for each column.
    rows: [u16; 8],
    /// For each column one bit for each row.
    columns: [u8; 16],
}

/// Which of two rows dominates the other.
#[derive(Clone, Copy)]
enum Over {
    First,
    Second,
}

impl Domination {
    /// For m rows, from the bits of each column.
    pub fn new(m: usize, cells: &[[u16; 8]; 16]) -> Domination {
        let mut rows = [0; 8];
        let mut columns = [0; 16];
        for (c, column) in cells.iter().enumerate() {
            for (r, &bit) in column.iter().enumerate() {
                rows[r] |= bit << c;
                columns[c] |= (bit as u8) << r;
            }
        }
        Domination { m, rows, columns }
    }

    /// The marked positions, one bit each, without those whose rows are dominated. The first k rows
    /// are placed. Where the first marked row neither dominates nor is dominated, no other is tried.
    pub fn left(&self, k: usize, order: &[u8; 8], marks: u8) -> u8 {
        let placed = order[..k].iter().fold(0, |placed, row| placed | 1 << row);
        let first = marks.trailing_zeros() as usize;
        let mut left = self.against(placed, order, marks, first);
        if left != marks {
            for s in first + 1..self.m {
                left = self.against(placed, order, left, s);
            }
        }
        left
    }

    /// The marks after the row at s, if it is marked, is held against each marked one that comes
    /// later.
    fn against(&self, placed: u8, order: &[u8; 8], marks: u8, s: usize) -> u8 {
        let mut left = marks;
        for t in s + 1..self.m {
            if left >> s & 1 == 0 {
                break;
            }
            if left >> t & 1 == 0 {
                continue;
            }
            match self.dominating(placed, order[s], order[t]) {
                Some(Over::First) => left &= !(1 << t),
                Some(Over::Second) => left &= !(1 << s),
                None => {}
            }
        }
        left
    }

    /// Does one of two rows dominate the other?
    fn dominating(&self, placed: u8, a: u8, b: u8) -> Option<Over> {
        let (row_a, row_b) = (self.rows[usize::from(a)], self.rows[usize::from(b)]);
        let (of_a, of_b) = (row_a & !row_b, row_b & !row_a);
        if of_a | of_b == 0 {
            return Some(Over::First);
        }
        if of_a == 0 || of_b == 0 {
            return None;
        }
        let others = !(placed | 1 << a | 1 << b);
        let (c, d) = (of_a.trailing_zeros(), of_b.trailing_zeros());
        match (without_lowest(of_a), without_lowest(of_b)) {
            (0, 0) => self.by_pairs(placed, others, [(c, d)]),
            (rest_a, rest_b) if rest_a.is_power_of_two() && rest_b.is_power_of_two() => {
                let (e, f) = (rest_a.trailing_zeros(), rest_b.trailing_zeros());
                let joined = self.by_pairs(placed, others, [(c, d), (e, f)]);
                joined.or_else(|| self.by_pairs(placed, others, [(c, f), (e, d)]))
            }
            _ => None,
        }
    }

    /// The same for rows that differ in these pairs of columns alone: the first row has the higher
    /// value in the first column of each.
    fn by_pairs<const N: usize>(
        &self,
        placed: u8,
        others: u8,
        pairs: [(u32, u32); N],
    ) -> Option<Over> {
        let (mut told, mut rise, mut fall) = (0, 0, 0);
        for (c, d) in pairs {
            let (c, d) = (self.columns[c as usize], self.columns[d as usize]);
            told |= c ^ d;
            rise |= d & !c;
            fall |= c & !d;
        }
        if told & placed != 0 {
            None
        } else if rise & others == 0 {
            Some(Over::First)
        } else if fall & others == 0 {
            Some(Over::Second)
        } else {
            None
        }
    }
}

/// The bits but for the lowest that is set.
fn without_lowest(bits: u16) -> u16 {
    bits & bits.wrapping_sub(1)
}
