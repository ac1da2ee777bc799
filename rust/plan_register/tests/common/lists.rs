//! Lists of calls on a register, against the reference and, where they begin after an open, against
//! the plain machine: the answer and all bytes after every call.

use super::calls::{check_call, contents_of, opened, with_drawn_holdings};
use super::met::{answered, Answered, Met};
use super::shapes_of;
use reference::calls::Call;
use reference::grid::least;
use reference::lists::Pool;
use reference::machine::Machine;
use reference::random::Random;

/// How a pool makes a call of a list.
pub type Draw = fn(&Pool, &mut Random) -> Call;

/// Checks a list of so many calls on a register that is opened with this capacity.
fn check_list(
    random: &mut Random,
    pool: &Pool,
    draw: Draw,
    capacity: usize,
    calls: usize,
    met: &mut Met<Answered>,
) {
    let (m, n, top) = (pool.m, pool.n, pool.top);
    let mut register = opened(m, n, top, capacity);
    let mut machine = Machine::opened(m as u64, n as u64, top.into(), capacity as u64);
    assert_eq!(register, machine.bytes());
    for _ in 0..calls {
        let call = draw(pool, random);
        let answer = check_call(&mut register, &call);
        assert_eq!(answer, call.on_machine(&mut machine), "{call:?}");
        assert_eq!(register, machine.bytes(), "{call:?}");
        met.note(answered(&call, answer));
    }
}

/// Checks lists on small shapes. Returns what was answered.
pub fn check_small_shapes(seed: u64, draw: Draw) -> Met<Answered> {
    let mut random = Random::new(seed);
    let mut met = Met::default();
    for _ in 0..600 {
        let (m, n) = (random.between(1, 3) as usize, random.between(1, 3) as usize);
        let (top, capacity) = (random.between(0, 2) as u8, random.between(1, 5) as usize);
        let pool = Pool::drawn(&mut random, m, n, top, capacity + 3);
        check_list(&mut random, &pool, draw, capacity, 60, &mut met);
    }
    met
}

/// Checks a list on every shape of up to 5 rows. Returns what was answered.
pub fn check_up_to_5_rows(seed: u64, draw: Draw) -> Met<Answered> {
    let mut random = Random::new(seed);
    let mut met = Met::default();
    for (m, n) in shapes_of(5, 80) {
        let (top, capacity) = (random.between(0, 15) as u8, random.between(1, 9) as usize);
        let pool = Pool::drawn(&mut random, m, n, top, capacity + 4);
        check_list(&mut random, &pool, draw, capacity, 80, &mut met);
    }
    met
}

/// Checks a list on several shapes of 6 to 8 rows with this top. Returns what was answered. There
/// are few calls on 7 and 8 rows, since the reference lists every row permutation.
pub fn check_6_to_8_rows(seed: u64, draw: Draw, top: u8) -> Met<Answered> {
    let mut random = Random::new(seed);
    let mut met = Met::default();
    for (m, n, calls) in [
        (6, 1, 200),
        (6, 4, 200),
        (6, 9, 150),
        (6, 16, 150),
        (7, 1, 30),
        (7, 5, 30),
        (7, 16, 20),
        (8, 1, 12),
        (8, 3, 12),
        (8, 16, 8),
    ] {
        let pool = Pool::drawn(&mut random, m, n, top, 4);
        check_list(&mut random, &pool, draw, 2, calls, &mut met);
    }
    met
}

/// Checks a list on full registers of every capacity up to 40 and of some above, the holdings of
/// which are drawn. Returns what was answered.
pub fn check_full_registers(seed: u64, draw: Draw) -> Met<Answered> {
    let mut random = Random::new(seed);
    let mut met = Met::default();
    for capacity in (1..=40).chain([99, 100, 101, 499, 500]) {
        let pool = Pool::drawn(&mut random, 2, 2, 15, 2 * capacity);
        let classes: Vec<Vec<u8>> = pool.grids.iter().map(|grid| least(2, 2, grid)).collect();
        let mut contents = contents_of(2, 2, 15, capacity, &classes);
        contents.entries.truncate(capacity);
        let mut register = with_drawn_holdings(&mut random, contents).bytes();
        for _ in 0..60 {
            let call = draw(&pool, &mut random);
            met.note(answered(&call, check_call(&mut register, &call)));
        }
    }
    met
}
