//! `Register`, a register that owns its bytes.

mod common;

use common::calls::{contents_of, distinct_grids, with_drawn_holdings};
use common::limits::{every_numbers, Numbers};
use plan_register::{Client, Entered, Entry, Refusal, Register};
use reference::calls::Call;
use reference::examples::{cells, shapes_up_to};
use reference::layout::Contents;
use reference::lists::Pool;
use reference::machine::Machine;
use reference::questions::{self, Asked};
use reference::random::Random;

/// The number of the first of questions 1 to 4 that gets a no.
fn first_no([m, n, top, capacity]: Numbers) -> Asked {
    questions::rows(m as u64)?;
    questions::columns(n as u64)?;
    questions::top(top as u64)?;
    questions::capacity(capacity as u64)
}

#[test]
fn open_asks_the_limits_in_order() {
    // Numbers of any size: nothing overflows, and nothing is allocated for what is refused.
    for numbers in every_numbers() {
        let [m, n, top, capacity] = numbers;
        match Register::open(m, n, top, capacity) {
            Err(refusal) => assert_eq!(Err(refusal.number()), first_no(numbers)),
            Ok(register) => {
                assert_eq!(first_no(numbers), Ok(()));
                let empty = contents_of(m, n, top as u8, capacity, &[]);
                assert!(register.bytes() == empty.bytes());
            }
        }
    }
}

#[test]
fn what_a_register_states() {
    let mut random = Random::new(131);
    for (m, n) in shapes_up_to(128) {
        let (top, capacity) = (random.between(1, 15), random.between(2, 40));
        let grids = distinct_grids(&mut random, m * n, top as u8, 2);
        let contents = contents_of(m, n, top as u8, capacity as usize, &grids);
        let contents = with_drawn_holdings(&mut random, contents);
        let register = Register::from_bytes(contents.bytes()).unwrap();
        assert_eq!((register.rows(), register.columns()), (m, n));
        assert_eq!(register.top() as u64, top);
        assert_eq!(register.capacity() as u64, capacity);
        assert_eq!(register.count(), 2);
        assert!(register.entries().eq(entries(&contents)));
        assert!(register.bytes() == contents.bytes());
        assert!(register.into_bytes() == contents.bytes());
    }
}

/// The entries of the contents, as the wrapper has them.
fn entries(contents: &Contents) -> Vec<Entry> {
    let entries = contents.entries.iter().map(|entry| Entry {
        grid: entry.grid.clone(),
        holdings: entry.holdings.0.map(|holding| holding as u16),
    });
    entries.collect()
}

#[test]
fn entries_by_place_and_from_both_ends() {
    let mut random = Random::new(136);
    let grids: Vec<Vec<u8>> = (0..16).map(|v| vec![v, 15 - v]).collect();
    for count in 0..=16 {
        let contents = contents_of(1, 2, 15, 16, &grids[..count]);
        let contents = with_drawn_holdings(&mut random, contents);
        let entries = entries(&contents);
        let register = Register::from_bytes(contents.bytes()).unwrap();
        assert_eq!(register.count(), count);
        assert_eq!(register.entries().len(), count);
        let backwards = entries.iter().rev().cloned();
        assert!(register.entries().rev().eq(backwards));
        assert_eq!(register.entry(0), None);
        assert_eq!(register.entry(count + 1), None);
        assert_eq!(register.entry(usize::MAX), None);
        for place in 1..=count {
            let entry = register.entry(place).unwrap();
            assert_eq!(entry, entries[place - 1]);
            let held = Client::ALL.map(|client| entry.held_by(client));
            assert_eq!(held, entry.holdings);
        }
    }
}

#[test]
fn other_bytes_are_refused() {
    let bytes = contents_of(2, 2, 3, 2, &[cells("00/01")]).bytes();
    let shorter = bytes[1..].to_vec();
    for other in [vec![], vec![0], vec![b' '; bytes.len()], shorter] {
        assert_eq!(Register::from_bytes(other), Err(Refusal::Layout));
    }
    assert!(Register::from_bytes(bytes).is_ok());
}

#[test]
fn clients_are_1_to_8() {
    assert_eq!(Client::ALL.map(Client::number), [1, 2, 3, 4, 5, 6, 7, 8]);
    for number in (0..600).chain([65_537, (1 << 32) + 1, usize::MAX - 7, usize::MAX]) {
        let client = Client::numbered(number);
        match (1..=8).contains(&number) {
            true => assert_eq!(client.map(Client::number), Ok(number)),
            false => assert_eq!(client, Err(Refusal::Client)),
        }
    }
}

/// What the register answers: the number, and the place or count. The call's client is 1 to 8.
fn answered(register: &mut Register, call: &Call) -> (u32, u64) {
    let entered = |entered: Result<Entered, Refusal>| match entered {
        Ok(entered @ Entered::New { .. }) => (0, entered.place()),
        Ok(entered @ Entered::Held { .. }) => (101, entered.place()),
        Err(refusal) => (refusal.number(), 0),
    };
    let done = |done: Result<usize, Refusal>| match done {
        Ok(place) => (0, place),
        Err(refusal) => (refusal.number(), 0),
    };
    let client = |number: u64| Client::numbered(number as usize).expect("a client");
    let (number, place) = match call {
        Call::Enter(number, grid) => entered(register.enter(client(*number), grid)),
        Call::TerminalEnter(number, grid) => {
            entered(register.terminal_enter(client(*number), grid))
        }
        Call::Strike(number, grid) => done(register.strike(client(*number), grid)),
        Call::Count((low, high)) => done(register.count_within(low, high)),
    };
    (number, place as u64)
}

/// Checks lists of calls, which the pool makes so, on registers of at most so many rows. A call
/// whose client is none of 1 to 8 cannot be made there. Returns how often each number was answered.
fn check_lists(seed: u64, rows: u64, call: fn(&Pool, &mut Random) -> Call) -> [usize; 102] {
    let mut random = Random::new(seed);
    let mut met = [0; 102];
    for _ in 0..200 {
        let (m, n) = (
            random.between(1, rows) as usize,
            random.between(1, 3) as usize,
        );
        let (top, capacity) = (random.between(0, 2) as u8, random.between(1, 5) as usize);
        let pool = Pool::drawn(&mut random, m, n, top, capacity + 3);
        let mut register = Register::open(m, n, top.into(), capacity).unwrap();
        let mut machine = Machine::opened(m as u64, n as u64, top.into(), capacity as u64);
        for _ in 0..40 {
            let call = call(&pool, &mut random);
            if call
                .client()
                .is_some_and(|number| !(1..=8).contains(&number))
            {
                continue;
            }
            let expected = call.on_machine(&mut machine);
            let before = register.clone();
            let (number, place) = answered(&mut register, &call);
            assert_eq!(
                (number, place),
                (expected.number, expected.place),
                "{call:?}"
            );
            assert_eq!(register.bytes(), machine.bytes());
            assert_eq!(register.count(), machine.classes.len());
            assert!(number == 0 || number == 101 || register == before);
            let live = register.entries().flat_map(|entry| entry.holdings);
            let expected = machine.classes.values().flat_map(|held| held.0);
            assert!(live.map(u64::from).eq(expected));
            met[number as usize] += 1;
        }
    }
    for number in [0, 6, 7, 8, 9, 10, 101] {
        assert!(met[number] > 20, "{number}");
    }
    met
}

#[test]
fn lists_of_calls_answer_as_the_machine() {
    assert_eq!(check_lists(132, 3, Pool::call)[14], 0);
}

#[test]
fn lists_of_both_sets_answer_as_the_machine() {
    assert_eq!(check_lists(134, 5, Pool::call_of_either_set)[14], 0);
    assert!(check_lists(135, 6, Pool::call_of_either_set)[14] > 50);
}

#[test]
fn an_entry_stands_at_the_place_answered() {
    let mut random = Random::new(133);
    let mut register = Register::open(2, 3, 4, 30).unwrap();
    for _ in 0..60 {
        let grid = random.cells(6, 4);
        let client = Client::ALL[random.below(8) as usize];
        if let Ok(entered) = register.enter(client, &grid) {
            let entry = register.entry(entered.place()).unwrap();
            assert_eq!(plan_register::same(2, 3, 4, &grid, &entry.grid).number, 0);
            assert!(entry.held_by(client) > 0);
        }
    }
    assert_eq!(register.count(), 30);
}

#[test]
fn registers_are_compared_by_their_bytes() {
    let open = || Register::open(1, 2, 3, 4).unwrap();
    let (mut one, mut other) = (open(), open());
    let [anna, ben, ..] = Client::ALL;
    assert_eq!(one, other);
    assert_eq!(one.enter(anna, &[3, 0]), Ok(Entered::New { place: 1 }));
    assert_ne!(one, other);
    assert_eq!(other.enter(ben, &[0, 3]), Ok(Entered::New { place: 1 }));
    assert_ne!(one, other);
    assert_eq!(other.enter(anna, &[0, 3]), Ok(Entered::Held { place: 1 }));
    assert_eq!(other.strike(ben, &[0, 3]), Ok(1));
    assert_eq!(one, other);
    assert_ne!(open(), Register::open(2, 1, 3, 4).unwrap());
}

#[test]
fn what_is_printed_of_a_register() {
    let mut register = Register::open(1, 2, 15, 4).unwrap();
    let [client, ..] = Client::ALL;
    let entered = register.enter(client, &[12, 0]);
    assert_eq!(entered, Ok(Entered::New { place: 1 }));
    let entry = "Entry { grid: [0, 12], holdings: [1, 0, 0, 0, 0, 0, 0, 0] }";
    let expected =
        format!("Register {{ rows: 1, columns: 2, top: 15, capacity: 4, entries: [{entry}] }}");
    assert_eq!(format!("{register:?}"), expected);
}

#[test]
fn registers_may_be_sent_to_other_threads() {
    let mut register = Register::open(1, 2, 15, 4).unwrap();
    let filled = std::thread::spawn(move || {
        let entered = register.enter(Client::ALL[0], &[12, 0]);
        assert_eq!(entered, Ok(Entered::New { place: 1 }));
        register
    });
    let contents = Contents::read(filled.join().unwrap().bytes());
    assert_eq!(contents.unwrap().grids(), [[0, 12]]);
}
