//! Question 5 on bytes that may be no register, by enter, strike, count and a terminal's enter.

use super::calls::check_call;
use plan_register::{Refusal, Register};
use reference::calls::Call;
use reference::layout::Contents;
use reference::random::Random;

/// Checks the calls with grids and bounds of zeros. Returns the reference's answer to question 5.
pub fn check(bytes: &[u8]) -> bool {
    let contents = Contents::read(bytes);
    let cells = contents.map_or(4, |contents| contents.rows * contents.columns);
    check_with(bytes, &vec![0; cells as usize])
}

/// Checks the calls with empty grids and bounds, which are refused by 6 where question 5 gets a
/// yes: the reference is slow in entering a grid of many rows.
pub fn check_layout(bytes: &[u8]) -> bool {
    check_with(bytes, &[])
}

/// Checks all calls on the bytes, with this as grid or bounds, against the reference,
/// and that `Register` takes the bytes or refuses them by number 5.
fn check_with(bytes: &[u8], grid: &[u8]) -> bool {
    let is_register = Contents::read(bytes).is_some();
    let grid = || grid.to_vec();
    for call in [
        Call::Enter(1, grid()),
        Call::Strike(1, grid()),
        Call::Count((grid(), grid())),
        Call::TerminalEnter(1, grid()),
    ] {
        let number = check_call(&mut bytes.to_vec(), &call).number;
        assert_eq!(number == 5, !is_register);
    }
    let taken = Register::from_bytes(bytes.to_vec());
    match is_register {
        true => assert_eq!(taken.map(Register::into_bytes).as_deref(), Ok(bytes)),
        false => assert_eq!(taken, Err(Refusal::Layout)),
    }
    is_register
}

/// A byte that a register may have somewhere.
pub fn likely_byte(random: &mut Random) -> u8 {
    let likely = b" 0123456789\n";
    likely[random.below(likely.len() as u64) as usize]
}
