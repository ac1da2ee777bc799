//! The questions of document 01, one function each but for question 5, which is `layout`'s, and
//! questions 14 to 16 of document 02. A yes is `Ok`; a no is `Err` with the question's number.

use crate::grid::rank;
use crate::holdings::{CLIENTS, MOST};

/// The answer to a question: a yes, or the number of a no.
pub type Asked = Result<(), u32>;

fn ask(yes: bool, number: u32) -> Asked {
    if yes {
        Ok(())
    } else {
        Err(number)
    }
}

/// 1. Are the rows 1 to 8?
pub fn rows(m: u64) -> Asked {
    ask((1..=8).contains(&m), 1)
}

/// 2. Are the columns 1 to 16?
pub fn columns(n: u64) -> Asked {
    ask((1..=16).contains(&n), 2)
}

/// 3. Is top 0 to 15?
pub fn top(top: u64) -> Asked {
    ask(top <= 15, 3)
}

/// 4. Is the capacity 1 to 500?
pub fn capacity(capacity: u64) -> Asked {
    ask((1..=500).contains(&capacity), 4)
}

/// 6. Has every slice its exact length?
pub fn lengths(slices: &[&[u8]], length: u64) -> Asked {
    ask(slices.iter().all(|slice| slice.len() as u64 == length), 6)
}

/// 7. Is every cell or bound at most top? By number, as top is the greatest number of a value.
pub fn cells(slices: &[&[u8]], top: u64) -> Asked {
    let at_most_top = |slice: &&[u8]| slice.iter().all(|&value| u64::from(value) <= top);
    ask(slices.iter().all(at_most_top), 7)
}

/// 8. Is every low at most its high?
pub fn bounds(low: &[u8], high: &[u8]) -> Asked {
    ask(low.iter().zip(high).all(|(&l, &h)| rank(l) <= rank(h)), 8)
}

/// 9. Is the class held, by any client, or the count below capacity?
pub fn held_or_room(held: bool, count: u64, capacity: u64) -> Asked {
    ask(held || count < capacity, 9)
}

/// 10. Is the class held by this client, whose holding this is?
pub fn held_by_client(holding: u64) -> Asked {
    ask(holding > 0, 10)
}

/// 14. Are a terminal's rows not 6 to 8? Asked directly after 1, or 5 where a register states them.
pub fn terminal_rows(m: u64) -> Asked {
    ask(!(6..=8).contains(&m), 14)
}

/// 15. Is the client 1 to 8? Asked after 7.
pub fn client(client: u64) -> Asked {
    ask((1..=CLIENTS).contains(&client), 15)
}

/// 16. Is this client's holding below 999? Asked after 9.
pub fn one_more(holding: u64) -> Asked {
    ask(holding < MOST, 16)
}
