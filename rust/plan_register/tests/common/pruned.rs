//! Bounds that are pruned once, and registers to count them in that only calls wrote.

use super::calls::{check_count, made, opened};
use super::met::{found, Met};
use plan_register::prune;
use reference::calls::Call;
use reference::forms::Form;
use reference::layout::Contents;
use reference::lists::Pool;
use reference::random::Random;

/// Bounds as they are sent, and what the library's prune makes of them: `None` where it says 102.
pub struct Pruned {
    pub sent: Form,
    pub pruned: Option<Form>,
}

impl Pruned {
    /// Prunes bounds of so many rows and columns and this top that pass.
    pub fn once(m: usize, n: usize, top: u8, sent: Form) -> Pruned {
        let (mut low, mut high) = sent.clone();
        let number = prune(m, n, top.into(), &mut low, &mut high).number;
        assert!([0, 102].contains(&number), "{number}");
        Pruned {
            sent,
            pruned: (number == 0).then_some((low, high)),
        }
    }

    /// The counts of the bounds as sent and pruned, on a register where they pass. Checks each
    /// against the reference.
    pub fn counts(&self, register: &[u8]) -> (u64, Option<u64>) {
        let counted = |form: &Form| {
            let answer = check_count(register, form);
            assert_eq!(answer.number, 0);
            answer.place
        };
        (counted(&self.sent), self.pruned.as_ref().map(counted))
    }

    /// Checks both counts on a register that only calls wrote: they are one number, and 0 where
    /// prune says 102. Notes what was found, and returns the number.
    pub fn check_reached(&self, register: &[u8], met: &mut Met<Outcome>) -> u64 {
        let (sent, pruned) = self.counts(register);
        assert_eq!(pruned.unwrap_or(0), sent, "{:?}", self.sent);
        met.note((self.removed(), found(sent, entries(register).len())));
        sent
    }

    /// What prune removed.
    pub fn removed(&self) -> &'static str {
        match &self.pruned {
            None => "no grid",
            Some(pruned) if *pruned == self.sent => "nothing",
            Some(_) => "values",
        }
    }
}

/// What prune removed, and what was then counted.
pub type Outcome = (&'static str, &'static str);

/// What may come up on registers that only calls wrote.
pub const REACHED: [Outcome; 7] = [
    ("no grid", "no entry"),
    ("nothing", "all entries"),
    ("nothing", "no entry"),
    ("nothing", "some entries"),
    ("values", "all entries"),
    ("values", "no entry"),
    ("values", "some entries"),
];

/// The register that an open with this capacity and then so many enters, enters at a terminal and
/// strikes of two clients leave.
pub fn reached(random: &mut Random, pool: &Pool, capacity: usize, calls: usize) -> Vec<u8> {
    let mut register = opened(pool.m, pool.n, pool.top, capacity);
    for _ in 0..calls {
        let (client, grid) = (random.between(1, 2), pool.grid(random));
        let call = match random.below(4) {
            0 => Call::Strike(client, grid),
            1 => Call::TerminalEnter(client, grid),
            _ => Call::Enter(client, grid),
        };
        made(&mut register, &call);
    }
    register
}

/// The grids of the register's entries.
pub fn entries(register: &[u8]) -> Vec<Vec<u8>> {
    Contents::read(register).expect("it is a register").grids()
}
