//! Calls on a register, each compared with the reference.

use super::Lent;
use plan_register::{count, enter, open, strike, terminal_enter, Counted, Placed};
use reference::calls::Call;
use reference::forms::Form;
use reference::grid::compare;
use reference::holdings::Holdings;
use reference::layout::{Contents, Entry};
use reference::lists::drawn_holdings;
use reference::random::Random;
use reference::register::Answer;
use std::collections::BTreeSet;

/// The bytes of a register that the library opened.
pub fn opened(m: usize, n: usize, top: u8, capacity: usize) -> Vec<u8> {
    let mut lent = Lent::sentinels(31 + capacity * (3 * m * n + 25));
    let answer = placed(open(m, n, top.into(), capacity, lent.slice_mut()));
    assert_eq!(answer, self::answer(0, 0));
    let register = lent.slice().to_vec();
    lent.check(&contents_of(m, n, top, capacity, &[]).bytes());
    register
}

/// Makes the call. Checks that it answers as the reference does and leaves the same bytes, and
/// that no other byte changed. Returns the answer.
pub fn check_call(register: &mut Vec<u8>, call: &Call) -> Answer {
    let mut left = register.clone();
    let answer = call.on_register(&mut left);
    check_answer(register, call, answer, &left);
    *register = left;
    answer
}

/// Counts the entries in the form. Checks that it answers as the reference does, and that no byte
/// of the register or of the form changed. Returns the answer.
pub fn check_count(register: &[u8], form: &Form) -> Answer {
    check_call(&mut register.to_vec(), &Call::Count(form.clone()))
}

/// Makes the call by the library alone.
pub fn made(register: &mut [u8], call: &Call) -> Answer {
    match call {
        Call::Enter(client, grid) => placed(enter(register, *client as usize, grid)),
        Call::Strike(client, grid) => placed(strike(register, *client as usize, grid)),
        Call::Count((low, high)) => counted(count(register, low, high)),
        Call::TerminalEnter(client, grid) => {
            placed(terminal_enter(register, *client as usize, grid))
        }
    }
}

/// Makes the call. Checks that it gives this answer and leaves these bytes, and that no other
/// byte changed.
pub fn check_answer(register: &[u8], call: &Call, answer: Answer, left: &[u8]) {
    let mut lent = Lent::holding(register);
    let found = match call {
        Call::Enter(client, grid) => placed(lending(grid, |grid| {
            enter(lent.slice_mut(), *client as usize, grid)
        })),
        Call::Strike(client, grid) => placed(lending(grid, |grid| {
            strike(lent.slice_mut(), *client as usize, grid)
        })),
        Call::Count((low, high)) => counted(lending(low, |low| {
            lending(high, |high| count(lent.slice(), low, high))
        })),
        Call::TerminalEnter(client, grid) => placed(lending(grid, |grid| {
            terminal_enter(lent.slice_mut(), *client as usize, grid)
        })),
    };
    assert_eq!(found, answer, "{call:?} on\n{}", beginning(register));
    lent.check(left);
}

/// What the call returns that is lent these bytes. Checks that none of them changed.
fn lending<Returned>(bytes: &[u8], call: impl FnOnce(&[u8]) -> Returned) -> Returned {
    let lent = Lent::holding(bytes);
    let returned = call(lent.slice());
    lent.check(bytes);
    returned
}

/// This answer, as the reference has it.
pub fn placed(placed: Placed) -> Answer {
    answer(placed.number, placed.place)
}

/// This answer, as the reference has it.
fn counted(counted: Counted) -> Answer {
    answer(counted.number, counted.count)
}

/// A number, and a place or count.
pub fn answer(number: u32, place: u32) -> Answer {
    Answer {
        number,
        place: place.into(),
    }
}

/// The first lines of the register, to be printed.
fn beginning(register: &[u8]) -> String {
    String::from_utf8_lossy(&register[..register.len().min(500)]).into_owned()
}

/// What a register holds with these grids, which are sorted, and each kept once. Client 1 holds one
/// of each.
pub fn contents_of(m: usize, n: usize, top: u8, capacity: usize, grids: &[Vec<u8>]) -> Contents {
    let mut grids: Vec<Vec<u8>> = grids.to_vec();
    grids.sort_by(|a, b| compare(a, b));
    grids.dedup();
    let holdings = Holdings::one_of(1);
    let entries = grids.into_iter().map(|grid| Entry { grid, holdings });
    Contents {
        rows: m as u64,
        columns: n as u64,
        top: top.into(),
        capacity: capacity as u64,
        entries: entries.collect(),
    }
}

/// The same entries with holdings that are drawn.
pub fn with_drawn_holdings(random: &mut Random, mut contents: Contents) -> Contents {
    for entry in &mut contents.entries {
        entry.holdings = drawn_holdings(random);
    }
    contents
}

/// So many distinct grids, ascending: no more than there are.
pub fn distinct_grids(random: &mut Random, cells: usize, top: u8, count: usize) -> Vec<Vec<u8>> {
    let mut grids = BTreeSet::new();
    while grids.len() < count {
        grids.insert(random.cells(cells, top));
    }
    let mut grids: Vec<Vec<u8>> = grids.into_iter().collect();
    grids.sort_by(|a, b| compare(a, b));
    grids
}
