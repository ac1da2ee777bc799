//! What the eight clients hold of each class: driven to 999 and back, kept apart from each other,
//! and told by the bytes.

mod common;

use common::calls::{
    answer, check_answer, check_call, contents_of, made, opened, with_drawn_holdings,
};
use common::met::{answered, Met};
use reference::calls::Call;
use reference::examples::every_grid;
use reference::grid::least;
use reference::holdings::{Holdings, CLIENTS, MOST};
use reference::layout::Contents;
use reference::lists::Pool;
use reference::random::Random;
use std::collections::BTreeMap;

/// The holdings of each class of the register, by its grid.
type Held = BTreeMap<Vec<u8>, Holdings>;

fn held(register: &[u8]) -> Held {
    let contents = Contents::read(register).expect("it is a register");
    let entries = contents.entries.into_iter();
    entries.map(|entry| (entry.grid, entry.holdings)).collect()
}

/// What this client holds of the class.
fn held_of(held: &Held, class: &[u8], client: u64) -> u64 {
    held.get(class).map_or(0, |holdings| holdings.of(client))
}

/// A register of 2 by 2, top 3, full with three classes, the second with these holdings.
fn full(holdings: Holdings) -> Vec<u8> {
    let grids = [vec![0, 0, 0, 1], vec![0, 1, 1, 0], vec![1, 1, 2, 3]];
    let mut contents = contents_of(2, 2, 3, 3, &grids);
    contents.entries[1].holdings = holdings;
    contents.bytes()
}

/// An arrangement of the second class.
const SECOND: [u8; 4] = [1, 0, 0, 1];

/// An enter of the second class by either set of calls.
fn enters(client: u64) -> [Call; 2] {
    let call = Call::Enter(client, SECOND.to_vec());
    [call.clone(), call.at_terminal()]
}

#[test]
fn every_client_s_holding_goes_to_999_and_back() {
    for client in 1..=CLIENTS {
        let mut register = opened(2, 2, 3, 3);
        let mut of_client = Holdings::default();
        for k in 0..MOST {
            let number = if k == 0 { 0 } else { 101 };
            let call = &enters(client)[(k % 2) as usize];
            assert_eq!(check_call(&mut register, call), answer(number, 1));
            of_client = of_client.with_one_more(client);
            assert_eq!(held(&register)[&vec![0, 1, 1, 0]], of_client);
        }
        for call in enters(client) {
            check_answer(&register, &call, answer(16, 0), &register);
        }
        let strike = Call::Strike(client, SECOND.to_vec());
        for _ in 0..MOST {
            // The line is there until the last strike.
            assert_eq!(held(&register)[&vec![0, 1, 1, 0]], of_client);
            assert_eq!(check_call(&mut register, &strike), answer(0, 1));
            of_client = of_client.with_one_less(client);
        }
        assert_eq!(register, opened(2, 2, 3, 3));
        check_answer(&register, &strike, answer(10, 0), &register);
    }
}

#[test]
fn the_line_goes_with_the_last_holding_of_all_clients() {
    let mut random = Random::new(251);
    for _ in 0..50 {
        let mut holdings = Holdings(std::array::from_fn(|_| random.below(4)));
        holdings.0[random.below(CLIENTS) as usize] += 1;
        let mut register = full(holdings);
        while !holdings.are_all_0() {
            let client = random.between(1, CLIENTS);
            let call = Call::Strike(client, SECOND.to_vec());
            if holdings.of(client) == 0 {
                check_answer(&register, &call, answer(10, 0), &register);
                continue;
            }
            holdings = holdings.with_one_less(client);
            let left = match holdings.are_all_0() {
                true => contents_of(2, 2, 3, 3, &[vec![0, 0, 0, 1], vec![1, 1, 2, 3]]).bytes(),
                false => full(holdings),
            };
            check_answer(&register, &call, answer(0, 2), &left);
            register = left;
        }
    }
}

#[test]
fn a_full_register_takes_a_class_that_another_client_holds() {
    for holder in 1..=CLIENTS {
        for client in (1..=CLIENTS).filter(|&client| client != holder) {
            let register = full(Holdings::one_of(holder));
            let left = full(Holdings::one_of(holder).with_one_more(client));
            for call in enters(client) {
                check_answer(&register, &call, answer(101, 2), &left);
            }
            let new = Call::Enter(client, vec![3, 3, 3, 3]);
            check_answer(&register, &new, answer(9, 0), &register);
            check_answer(&register, &new.at_terminal(), answer(9, 0), &register);
            // This client holds none of it.
            let strike = Call::Strike(client, SECOND.to_vec());
            check_answer(&register, &strike, answer(10, 0), &register);
        }
    }
}

#[test]
fn a_holding_of_999_is_no_hindrance_to_others() {
    for holder in 1..=CLIENTS {
        let mut holdings = Holdings::default();
        holdings.0[holder as usize - 1] = MOST;
        let register = full(holdings);
        for client in 1..=CLIENTS {
            for call in enters(client) {
                if client == holder {
                    check_answer(&register, &call, answer(16, 0), &register);
                } else {
                    let left = full(holdings.with_one_more(client));
                    check_answer(&register, &call, answer(101, 2), &left);
                }
            }
        }
    }
}

#[test]
fn holdings_of_every_width_rise_and_fall_by_one() {
    for client in 1..=CLIENTS {
        for value in 1..MOST {
            let mut holdings = Holdings([999, 0, 99, 1, 9, 10, 100, 998]);
            holdings.0[client as usize - 1] = value;
            let register = full(holdings);
            let more = full(holdings.with_one_more(client));
            let [enter, at_terminal] = enters(client);
            check_answer(&register, &enter, answer(101, 2), &more);
            check_answer(&register, &at_terminal, answer(101, 2), &more);
            let strike = Call::Strike(client, SECOND.to_vec());
            check_answer(&more, &strike, answer(0, 2), &register);
        }
    }
}

/// Checks that the call changed this client's holding of the class by one, or nothing at all, as the
/// answer's number says.
fn check_change(before: &Held, after: &Held, call: &Call, class: &[u8], number: u32) {
    let step = match (call, number) {
        (Call::Enter(..) | Call::TerminalEnter(..), 0 | 101) => 1,
        (Call::Strike(..), 0) => -1,
        _ => 0,
    };
    for other in before.keys().chain(after.keys()) {
        for client in 1..=CLIENTS {
            let [was, is] = [before, after].map(|held| held_of(held, other, client) as i64);
            let by_call = call.client() == Some(client) && other == class;
            assert_eq!(is - was, if by_call { step } else { 0 }, "{call:?}");
        }
    }
}

#[test]
fn a_call_changes_no_other_holding() {
    let mut random = Random::new(252);
    let mut met = Met::default();
    for _ in 0..400 {
        let (m, n) = (random.between(1, 3) as usize, random.between(1, 3) as usize);
        let (top, capacity) = (random.between(0, 2) as u8, random.between(1, 6) as usize);
        let pool = Pool::drawn(&mut random, m, n, top, capacity + 2);
        let classes: Vec<Vec<u8>> = pool.grids.iter().map(|grid| least(m, n, grid)).collect();
        let mut contents = contents_of(m, n, top, capacity, &classes);
        contents.entries.truncate(capacity / 2);
        let mut register = with_drawn_holdings(&mut random, contents).bytes();
        for _ in 0..40 {
            let call = pool.call_of_either_set(&mut random);
            let before = held(&register);
            let answer = check_call(&mut register, &call);
            let class = match &call {
                Call::Enter(_, grid) | Call::Strike(_, grid) | Call::TerminalEnter(_, grid)
                    if [0, 101].contains(&answer.number) =>
                {
                    least(m, n, grid)
                }
                _ => vec![],
            };
            check_change(&before, &held(&register), &call, &class, answer.number);
            met.note(answered(&call, answer));
        }
    }
    for kind in [
        ("enter", 0),
        ("enter", 16),
        ("enter", 101),
        ("strike", 0),
        ("strike", 10),
        ("terminal enter", 0),
        ("terminal enter", 16),
        ("terminal enter", 101),
    ] {
        assert!(met.times(kind) > 50, "{met:?}");
    }
}

/// What each client holds of each class after a list of accepted enters and strikes.
type Tally = BTreeMap<(u64, Vec<u8>), i64>;

/// The register and the tally that a list of calls leaves, of a few clients and classes.
fn left_by_list(random: &mut Random, clients: u64, grids: &[Vec<u8>]) -> (Vec<u8>, Tally) {
    let mut register = opened(1, 2, 2, grids.len());
    let mut tally = Tally::new();
    for _ in 0..random.between(0, 8) {
        let client = random.between(1, clients);
        let grid = grids[random.below(grids.len() as u64) as usize].clone();
        let class = least(1, 2, &grid);
        let call = match random.below(4) {
            0 => Call::TerminalEnter(client, grid),
            1 => Call::Enter(client, grid),
            _ => Call::Strike(client, grid),
        };
        let is_strike = matches!(call, Call::Strike(..));
        if [0, 101].contains(&made(&mut register, &call).number) {
            let holding = tally.entry((client, class)).or_default();
            *holding += if is_strike { -1 } else { 1 };
        }
    }
    tally.retain(|_, holding| *holding != 0);
    (register, tally)
}

#[test]
fn two_lists_leave_equal_bytes_exactly_when_all_holdings_are_equal() {
    let mut random = Random::new(253);
    let grids = every_grid(2, 2);
    let mut met = [0, 0];
    for (clients, classes) in [(1, 2), (2, 1), (2, 2), (3, 3), (8, 4)] {
        let lists: Vec<(Vec<u8>, Tally)> = (0..150)
            .map(|_| left_by_list(&mut random, clients, &grids[..classes]))
            .collect();
        for (register, tally) in &lists {
            // A class is live while some client's enters of it outnumber its strikes.
            assert!(tally.values().all(|&holding| holding > 0));
            for (other, other_tally) in &lists {
                assert_eq!(register == other, tally == other_tally);
                met[usize::from(register == other)] += 1;
            }
        }
    }
    assert!(met.iter().all(|&times| times > 1000), "{met:?}");
}
