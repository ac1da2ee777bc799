//! The calls on registers that are timed.

use crate::implementations::RegisterCalls;
use crate::inputs::check_equal;
use crate::low_times::low_times;
use crate::registers::{Entries, CLIENT, M, N};
use plan_register::numbers::{DONE, HELD, LENGTH};
use reference::calls::Call;
use reference::forms::drawn;
use reference::random::Random;
use std::hint::black_box;
use std::time::{Duration, Instant};

/// What is timed.
#[derive(Clone, Copy)]
pub enum Pass {
    /// A copy of the register's bytes.
    Copy,
    /// The call by this implementation.
    Call(RegisterCalls),
    /// The call by this implementation, less the time of its represent.
    Besides(RegisterCalls),
}

/// A call on a register: a line of a table.
pub struct RegisterCall {
    pub name: String,
    register: Vec<u8>,
    top: u8,
    call: Call,
    /// The number, and the place or count.
    answer: (u32, u32),
}

/// Question 5 and count. Question 5 is asked by a count with empty bounds, which then answers 6.
pub fn reading(entries: &Entries) -> Vec<RegisterCall> {
    let top = entries.top;
    let all = (vec![0; M * N], vec![top; M * N]);
    let random = drawn(&mut Random::new(1), M * N, top);
    let calls = [
        ("question 5", (vec![], vec![]), (LENGTH, 0)),
        ("count, all entries", all, (DONE, entries.count())),
        ("count, random bounds", random, (DONE, 0)),
    ];
    let call = |(name, form, answer)| RegisterCall {
        name: format!("{}: {name}", entries.name),
        register: entries.without_first(),
        top,
        call: Call::Count(form),
        answer,
    };
    calls.map(call).into()
}

/// Enter and strike. Where the class is held before and after, three bytes are written and no line
/// moves.
pub fn writing(entries: &Entries) -> Vec<RegisterCall> {
    let (without, with) = (entries.without_first(), entries.with_first());
    let (first, held) = (shuffled(&entries.first), shuffled(entries.held()));
    let enter = |grid: &Vec<u8>| Call::Enter(CLIENT, grid.clone());
    let strike = |grid: &Vec<u8>| Call::Strike(CLIENT, grid.clone());
    let (at_1, at_place) = ((DONE, 1), (DONE, entries.place));
    let again = (HELD, entries.place);
    let calls = [
        ("enter, new at place 1", &without, enter(&first), at_1),
        ("enter, held", &without, enter(&held), again),
        ("strike at place 1", &with, strike(&first), at_1),
        ("strike, held by others", &without, strike(&held), at_place),
    ];
    let call = |(name, register, call, answer): (_, &Vec<u8>, _, _)| RegisterCall {
        name: format!("{}: {name}", entries.name),
        register: register.clone(),
        top: entries.top,
        call,
        answer,
    };
    calls.map(call).into()
}

/// The grid with its rows and its columns shuffled.
fn shuffled(grid: &[u8]) -> Vec<u8> {
    Random::new(1).shuffled(M, N, grid)
}

/// The times of each pass on each call.
pub fn times<const PASSES: usize>(
    calls: &[RegisterCall],
    passes: [Pass; PASSES],
) -> Vec<[Duration; PASSES]> {
    let Some(first) = calls.first() else {
        return Vec::new();
    };
    let mut lent = first.register.clone();
    let times = low_times(calls.len() * PASSES, |k| {
        calls[k / PASSES].time(&passes[k % PASSES], &mut lent)
    });
    let lines = times.chunks_exact(PASSES);
    lines.map(|line| std::array::from_fn(|k| line[k])).collect()
}

impl RegisterCall {
    /// Panics unless all implementations give this call's answer and leave the same bytes.
    pub fn check_equal_outputs(&self, passes: &[Pass]) {
        let implementations = passes.iter().filter_map(|pass| match pass {
            Pass::Copy => None,
            Pass::Call(calls) | Pass::Besides(calls) => Some(calls),
        });
        let outputs = implementations.map(|calls| {
            let mut lent = self.register.clone();
            let answer = self.made(calls, &mut lent);
            assert_eq!(answer, self.answer, "{}", self.name);
            lent
        });
        check_equal(&self.name, outputs);
    }

    /// The time of the pass, and that of the part of it that is to be taken off. The slice has
    /// the register's length.
    fn time(&self, pass: &Pass, lent: &mut [u8]) -> (Duration, Duration) {
        match pass {
            Pass::Copy => (self.copy_time(lent), Duration::ZERO),
            Pass::Call(calls) => (self.call_time(calls, lent), Duration::ZERO),
            Pass::Besides(calls) => (self.call_time(calls, lent), self.represent_time(calls)),
        }
    }

    /// Makes the call on the lent register.
    fn made(&self, calls: &RegisterCalls, lent: &mut [u8]) -> (u32, u32) {
        match &self.call {
            Call::Enter(client, grid) => {
                let entered = (calls.enter)(lent, *client as usize, black_box(grid));
                (entered.number, entered.place)
            }
            Call::Strike(client, grid) => {
                let struck = (calls.strike)(lent, *client as usize, black_box(grid));
                (struck.number, struck.place)
            }
            Call::Count((low, high)) => {
                let counted = (calls.count)(lent, black_box(low), black_box(high));
                (counted.number, counted.count)
            }
            Call::TerminalEnter(..) => unreachable!("a terminal's enter is not timed"),
        }
    }

    fn copy_time(&self, lent: &mut [u8]) -> Duration {
        second(|| timed(|| black_box(&mut *lent).copy_from_slice(black_box(&self.register))))
    }

    /// Each call finds the register as it is here; restoring it is not timed.
    fn call_time(&self, calls: &RegisterCalls, lent: &mut [u8]) -> Duration {
        second(|| {
            lent.copy_from_slice(&self.register);
            timed(|| self.made(calls, black_box(&mut *lent)))
        })
    }

    /// The time of represent on the call's grid; zero where it has none.
    fn represent_time(&self, calls: &RegisterCalls) -> Duration {
        let (Call::Enter(_, grid) | Call::Strike(_, grid)) = &self.call else {
            return Duration::ZERO;
        };
        let (top, mut out) = (self.top.into(), [0; M * N]);
        second(|| timed(|| (calls.represent)(M, N, top, black_box(grid), black_box(&mut out))))
    }
}

/// The second of two passes: the first one warms the caches for it.
fn second(mut pass: impl FnMut() -> Duration) -> Duration {
    pass();
    pass()
}

fn timed<Output>(call: impl FnOnce() -> Output) -> Duration {
    let start = Instant::now();
    black_box(call());
    start.elapsed()
}
