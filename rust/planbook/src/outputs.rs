//! Outputs: the printed lines and the register.

use reference::layout::{number, read_numbers};
use std::collections::BTreeMap;

/// The bytes of a printed line.
const PRINTED: usize = 19;

/// Every number that answers a command that is laid as it should be, but for 16, which takes 999
/// enters.
pub const ANSWERS: [(u64, u64); 13] = [
    (1, 0),
    (1, 7),
    (1, 9),
    (1, 15),
    (1, 101),
    (2, 0),
    (2, 7),
    (2, 10),
    (2, 15),
    (3, 0),
    (3, 7),
    (3, 8),
    (3, 102),
];

/// How often each command was answered by each number.
pub type Met = BTreeMap<(u64, u64), usize>;

/// An output: the command, the number, and the place or count of each printed line, and the
/// register, which is empty where the run ended without one.
#[derive(Clone, Debug, PartialEq, Eq)]
pub struct Output {
    pub printed: Vec<[u64; 3]>,
    pub register: Vec<u8>,
}

impl Output {
    /// What the output for this input has. An output of one printed line has no register, since a
    /// register is longer.
    pub fn read(input: &[u8], output: &[u8]) -> Output {
        let lines = input.split_inclusive(|&byte| byte == b'\n').count();
        let printed = match output.len() {
            PRINTED => 1,
            _ => lines - 1,
        };
        let (printed, register) = output.split_at(PRINTED * printed);
        Output {
            printed: printed.chunks(PRINTED).map(read_printed).collect(),
            register: register.to_vec(),
        }
    }

    /// Counts each command with the number that answered it.
    pub fn count(&self, met: &mut Met) {
        for &[command, number, _] in &self.printed {
            *met.entry((command, number)).or_default() += 1;
        }
    }
}

fn read_printed(line: &[u8]) -> [u64; 3] {
    let fields = line
        .strip_suffix(b"\n")
        .and_then(|line| read_numbers(line, 6));
    let numbers = fields.and_then(|numbers| numbers.try_into().ok());
    numbers.unwrap_or_else(|| panic!("no printed line: \"{}\"", line.escape_ascii()))
}

/// A printed line: the command, the number, and the place or count.
pub fn printed(numbers: [u64; 3]) -> Vec<u8> {
    let fields = numbers.iter().flat_map(|&value| number(value, 6));
    fields.chain([b'\n']).collect()
}

/// The line that is printed for a refusal by this number before any call.
pub fn refusal(number: u64) -> Vec<u8> {
    printed([0, number, 0])
}

/// Checks that these commands were answered by these numbers, so often each at least, and that
/// no others were.
pub fn check_met(met: &Met, answers: &[(u64, u64)], times: usize) {
    let found: Vec<(u64, u64)> = met.keys().copied().collect();
    assert_eq!(found, answers, "{met:?}");
    assert!(met.values().all(|&met| met >= times), "{met:?}");
}
