//! Registers with entries that are no representatives, which question 5 lets pass: a class is held
//! only where its representative stands there, and a count may fall when the bounds are pruned.

mod common;

use common::calls::{
    answer, check_call, check_count, contents_of, distinct_grids, with_drawn_holdings,
};
use common::pruned::Pruned;
use plan_register::{prune, Client, Entered, Refusal, Register};
use reference::calls::Call;
use reference::examples::cells;
use reference::grid::{arrangements, least};
use reference::layout::Contents;
use reference::lists::Pool;
use reference::random::Random;
use reference::register::Answer;

#[test]
fn a_class_is_held_by_its_representative_alone() {
    // 10/01 is not least in its class, that is 01/10.
    let before = contents_of(2, 2, 1, 3, &[cells("00/01"), cells("10/01")]).bytes();
    let mut register = before.clone();
    let mut check = |call: Call, number: u32, place: u32| {
        assert_eq!(check_call(&mut register, &call), answer(number, place));
        register.clone()
    };
    assert_eq!(check(Call::Strike(1, cells("10/01")), 10, 0), before);
    let three = [cells("00/01"), cells("01/10"), cells("10/01")];
    let entered = check(Call::Enter(1, cells("10/01")), 0, 2);
    assert_eq!(entered, contents_of(2, 2, 1, 3, &three).bytes());
    check(Call::Enter(2, cells("10/01")), 101, 2);
    check(Call::TerminalEnter(3, cells("10/01")), 101, 2);
    check(Call::Enter(1, cells("11/11")), 9, 0);
    check(Call::Strike(3, cells("10/01")), 0, 2);
    check(Call::Strike(1, cells("10/01")), 0, 2);
    check(Call::Strike(1, cells("10/01")), 10, 0);
    assert_eq!(check(Call::Strike(2, cells("10/01")), 0, 2), before);
    let entered = check(Call::TerminalEnter(1, cells("10/01")), 0, 2);
    assert_eq!(entered, contents_of(2, 2, 1, 3, &three).bytes());
}

#[test]
fn count_is_of_the_bounds_as_sent() {
    // Both entries lie in the bounds as sent; pruned, row 0 begins with 0 only.
    let register = contents_of(2, 2, 1, 3, &[cells("00/01"), cells("10/01")]).bytes();
    let (mut low, mut high) = (cells("00/01"), cells("10/01"));
    let sent = (low.clone(), high.clone());
    assert_eq!(check_count(&register, &sent), answer(0, 2));
    assert_eq!(prune(2, 2, 1, &mut low, &mut high).number, 0);
    assert_eq!(check_count(&register, &(low, high)), answer(0, 1));
}

#[test]
fn an_entry_may_lie_in_bounds_of_which_prune_says_102() {
    let register = contents_of(2, 2, 1, 3, &[cells("00/01"), cells("10/01")]).bytes();
    let (mut low, mut high) = (cells("10/01"), cells("10/01"));
    assert_eq!(prune(2, 2, 1, &mut low, &mut high).number, 102);
    assert_eq!(check_count(&register, &(low, high)), answer(0, 1));
}

#[test]
fn register_takes_such_bytes() {
    let bytes = contents_of(2, 2, 1, 3, &[cells("10/01")]).bytes();
    let mut register = Register::from_bytes(bytes).unwrap();
    let [client, ..] = Client::ALL;
    let struck = register.strike(client, &cells("10/01"));
    assert_eq!(struck, Err(Refusal::NotHeld));
    let entered = register.enter(client, &cells("10/01"));
    assert_eq!(entered, Ok(Entered::New { place: 1 }));
    let grids = register.entries().map(|entry| entry.grid);
    assert!(grids.eq([cells("01/10"), cells("10/01")]));
}

/// How often that came up which only such entries bring up.
#[derive(Debug, Default)]
struct Met {
    /// A class entered as new, with another grid of it standing there.
    entered: usize,
    /// A class not held, with another grid of it standing there.
    not_held: usize,
    /// A count that falls when the bounds are pruned.
    falls: usize,
    /// A count above 0 in bounds of which prune says 102.
    no_grid: usize,
}

impl Met {
    /// Notes what the answer to the call on this register brought up.
    fn note(&mut self, before: &Contents, call: &Call, answer: Answer) {
        match call {
            Call::Enter(_, grid) | Call::TerminalEnter(_, grid) if answer.number == 0 => {
                self.entered += usize::from(another_stands_in(before, grid));
            }
            Call::Strike(_, grid) if answer.number == 10 => {
                self.not_held += usize::from(another_stands_in(before, grid));
            }
            Call::Count(form) if answer.number == 0 => {
                let (m, n) = (before.rows as usize, before.columns as usize);
                let form = Pruned::once(m, n, before.top as u8, form.clone());
                match form.counts(&before.bytes()) {
                    (sent, Some(pruned)) => self.falls += usize::from(pruned < sent),
                    (sent, None) => self.no_grid += usize::from(sent > 0),
                }
            }
            _ => {}
        }
    }
}

/// Is some entry in the grid's class, but not its representative?
fn another_stands_in(contents: &Contents, grid: &[u8]) -> bool {
    let (m, n) = (contents.rows as usize, contents.columns as usize);
    let least = least(m, n, grid);
    let in_class = arrangements(m, n, grid);
    let mut grids = contents.grids().into_iter();
    grids.any(|entry| entry != least && in_class.contains(&entry))
}

/// Checks lists of calls, which the pool makes so, on registers with random entries.
fn check_lists(seed: u64, call: fn(&Pool, &mut Random) -> Call) {
    let mut random = Random::new(seed);
    let mut met = Met::default();
    for _ in 0..400 {
        let (m, n) = (random.between(2, 3) as usize, random.between(1, 3) as usize);
        let (top, capacity) = (random.between(1, 2) as u8, random.between(4, 8) as usize);
        let entries = distinct_grids(&mut random, m * n, top, 4);
        let contents = contents_of(m, n, top, capacity, &entries);
        let mut register = with_drawn_holdings(&mut random, contents).bytes();
        let mut pool = Pool::drawn(&mut random, m, n, top, 3);
        pool.grids.extend(entries);
        for _ in 0..30 {
            let before = Contents::read(&register).expect("it is a register");
            let call = call(&pool, &mut random);
            let answer = check_call(&mut register, &call);
            met.note(&before, &call, answer);
        }
    }
    let least = met.entered.min(met.not_held).min(met.falls);
    assert!(least.min(met.no_grid) > 50, "{met:?}");
}

#[test]
fn lists_on_random_entries() {
    check_lists(101, Pool::call);
}

#[test]
fn lists_of_both_sets_on_random_entries() {
    check_lists(102, Pool::call_of_either_set);
}
