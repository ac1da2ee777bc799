//! What came up, and how often: the answers of calls, what counts found.

use reference::calls::Call;
use reference::register::Answer;
use std::collections::{BTreeMap, BTreeSet};
use std::fmt::Debug;

/// Every number that a call of the order system can answer on a register that was opened, but for
/// 16, which takes 999 enters.
pub const ANSWERS: [Answered; 15] = [
    ("count", 0),
    ("count", 6),
    ("count", 7),
    ("count", 8),
    ("enter", 0),
    ("enter", 6),
    ("enter", 7),
    ("enter", 9),
    ("enter", 15),
    ("enter", 101),
    ("strike", 0),
    ("strike", 6),
    ("strike", 7),
    ("strike", 10),
    ("strike", 15),
];

/// Every number that a terminal's enter can answer on a register of up to 5 rows, but for 16.
pub const TERMINAL_ANSWERS: [Answered; 6] = [
    ("terminal enter", 0),
    ("terminal enter", 6),
    ("terminal enter", 7),
    ("terminal enter", 9),
    ("terminal enter", 15),
    ("terminal enter", 101),
];

/// A call by its name, and the number that it answered.
pub type Answered = (&'static str, u32);

/// The call with its answer.
pub fn answered(call: &Call, answer: Answer) -> Answered {
    (call.name(), answer.number)
}

/// What a count found in a register with so many entries.
pub fn found(count: u64, entries: usize) -> &'static str {
    match count as usize {
        0 => "no entry",
        count if count < entries => "some entries",
        _ => "all entries",
    }
}

/// How often each kind came up.
#[derive(Debug, Default)]
pub struct Met<Kind> {
    times: BTreeMap<Kind, usize>,
}

impl<Kind: Copy + Debug + Ord> Met<Kind> {
    /// Notes that this kind came up.
    pub fn note(&mut self, kind: Kind) {
        *self.times.entry(kind).or_default() += 1;
    }

    /// How often this kind came up.
    pub fn times(&self, kind: Kind) -> usize {
        self.times.get(&kind).copied().unwrap_or(0)
    }

    /// Checks that each of these kinds came up so often at least, and no other did.
    pub fn check(&self, kinds: &[Kind], times: usize) {
        let met: BTreeSet<Kind> = self.times.keys().copied().collect();
        assert_eq!(met, kinds.iter().copied().collect(), "{self:?}");
        assert!(self.times.values().all(|&met| met >= times), "{self:?}");
    }
}
