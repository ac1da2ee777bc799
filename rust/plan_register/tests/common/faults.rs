//! Registers and slices that fail any set of questions.

use super::calls::{answer, check_answer, check_call};
use reference::calls::Call;
use reference::holdings::Holdings;
use reference::layout::Contents;

/// Every set of the questions, with the number that a call answers which fails these: the
/// first of them, or this one.
pub fn sets_of<const N: usize>(questions: [u32; N], passed: u32) -> Vec<(Vec<u32>, u32)> {
    let set = |bits: u32| -> Vec<u32> {
        let chosen = questions.iter().enumerate();
        let chosen = chosen.filter(|(k, _)| bits >> k & 1 == 1);
        chosen.map(|(_, &question)| question).collect()
    };
    let with_first = |failed: Vec<u32>| {
        let number = failed.first().copied().unwrap_or(passed);
        (failed, number)
    };
    (0..1 << questions.len()).map(set).map(with_first).collect()
}

/// Those of the sets that an enter can fail: a class that fails 9 is held by nobody, so that it
/// cannot fail 16.
pub fn sets_of_enter<const N: usize>(questions: [u32; N]) -> Vec<(Vec<u32>, u32)> {
    let both = |failed: &[u32]| failed.contains(&9) && failed.contains(&16);
    let sets = sets_of(questions, 101).into_iter();
    sets.filter(|(failed, _)| !both(failed)).collect()
}

/// Client 2, or numbers that are no client's where 15 is to fail: next to the limits, and those
/// whose low 8, 16 or 32 bits alone would pass.
pub fn clients(failed: &[u32]) -> Vec<u64> {
    match failed.contains(&15) {
        true => vec![0, 9, 257, (1 << 16) + 2, (1 << 32) + 2, u64::MAX],
        false => vec![2],
    }
}

/// Client 2's holding: 999 where 16 is to fail, none where 10 is. Client 3 holds one in any case.
pub fn holdings(failed: &[u32]) -> Holdings {
    let of_client_2 = match (failed.contains(&16), failed.contains(&10)) {
        (true, _) => 999,
        (_, true) => 0,
        _ => 5,
    };
    Holdings([0, of_client_2, 1, 0, 0, 0, 0, 0])
}

/// The register with these contents, two entries at least with top below 10 and a cell above 1;
/// damaged in several ways where 5 is to fail.
pub fn registers(failed: &[u32], contents: &Contents) -> Vec<Vec<u8>> {
    let bytes = contents.bytes();
    if !failed.contains(&5) {
        return vec![bytes];
    }
    let mut descending = contents.clone();
    descending.entries.reverse();
    let mut held_by_nobody = contents.clone();
    held_by_nobody.entries[1].holdings = Holdings::default();
    let mut without_holdings = bytes.clone();
    let start = 31 + 3 * (contents.rows * contents.columns) as usize;
    without_holdings[start..start + 24].fill(b' ');
    let with = |place: usize, digit: u8| {
        let mut bytes = bytes.clone();
        bytes[place] = digit;
        bytes
    };
    let (top_1, no_top) = (with(17, b'1'), with(17, b' '));
    let another = b'1' + (contents.rows % 8) as u8;
    let (other_rows, no_rows) = (with(5, another), with(5, b'0'));
    let longer = [&bytes[..], b"\n"].concat();
    let shorter = bytes[..bytes.len() - 1].to_vec();
    vec![
        shorter,
        longer,
        descending.bytes(),
        held_by_nobody.bytes(),
        without_holdings,
        top_1,
        no_top,
        other_rows,
        no_rows,
        bytes[..31].to_vec(),
        vec![],
    ]
}

/// Slices made of a grid with top 3: those of other lengths where 6 is to fail, those with a cell
/// above top where 7 is.
pub fn slices(failed: &[u32], grid: &[u8]) -> Vec<Vec<u8>> {
    let above = [4, 16, 255];
    let mut slices = vec![grid.to_vec()];
    if failed.contains(&7) {
        let spoilt = |k: usize| {
            above.map(|cell| {
                let mut grid = grid.to_vec();
                grid[k] = cell;
                grid
            })
        };
        slices = (0..grid.len()).flat_map(spoilt).collect();
    }
    if failed.contains(&6) {
        let length = grid.len();
        let lengths = |slice: &Vec<u8>| {
            let longer = [slice, &vec![0; length][..]].concat();
            let (one_longer, one_shorter) = (&longer[..length + 1], &slice[..length - 1]);
            [one_longer.to_vec(), one_shorter.to_vec(), longer]
        };
        slices = slices.iter().flat_map(lengths).collect();
        slices.push(vec![]);
    }
    slices
}

/// Checks that the call answers this number on the register and, where that is a refusal, changes
/// nothing.
pub fn check(register: &[u8], call: &Call, number: u32) {
    if number == 0 || number == 101 {
        let found = check_call(&mut register.to_vec(), call);
        assert_eq!(found.number, number, "{call:?}");
    } else {
        check_answer(register, call, answer(number, 0), register);
    }
}
