//! Open, enter, strike and count, alone and against the plain machine.

mod common;

use common::unopened;
use reference::bounds::prune;
use reference::examples::{cells, every_grid, held_register, register};
use reference::forms::drawn;
use reference::grid::least;
use reference::layout::Contents;
use reference::lists::client;
use reference::machine::Machine;
use reference::planbook::prune_and_count;
use reference::random::Random;
use reference::register::{count, enter, open, strike, Answer};

fn answer(number: u32, place: u64) -> Answer {
    Answer { number, place }
}

fn opened(m: u64, n: u64, top: u64, capacity: u64) -> Vec<u8> {
    let mut bytes = unopened(m, n, capacity);
    assert_eq!(open(m, n, top, capacity, &mut bytes), answer(0, 0));
    bytes
}

#[test]
fn open_writes_count_0_and_blank_lines() {
    let blank = " ".repeat(36) + "\n";
    let expected = "     2     2    15     3     0\n".to_string() + &blank.repeat(3);
    assert_eq!(opened(2, 2, 15, 3), expected.as_bytes());
    let bytes = opened(1, 1, 0, 500);
    let line_1 = "     1     1     0   500     0\n".to_string();
    assert!(bytes.starts_with((line_1 + &" ".repeat(27) + "\n").as_bytes()));
    assert_eq!(bytes.len(), 31 + 500 * 28);
}

#[test]
fn open_empties_a_register_in_use() {
    let mut bytes = register(2, 2, 1, 2, &["00/01", "01/10"]);
    assert_eq!(open(2, 2, 1, 2, &mut bytes), answer(0, 0));
    assert_eq!(bytes, register(2, 2, 1, 2, &[]));
}

#[test]
fn enter_keeps_the_entries_ascending() {
    let mut bytes = opened(2, 2, 12, 3);
    assert_eq!(enter(&mut bytes, 1, &[12, 0, 0, 3]), answer(0, 1));
    assert_eq!(enter(&mut bytes, 1, &[11, 11, 1, 1]), answer(0, 2));
    assert_eq!(enter(&mut bytes, 1, &[2, 0, 0, 12]), answer(0, 1));
    let lines = [
        "     2     2    12     3     3\n",
        "  0  2 12  0  1  0  0  0  0  0  0  0\n",
        "  0  3 12  0  1  0  0  0  0  0  0  0\n",
        "  1  1 11 11  1  0  0  0  0  0  0  0\n",
    ];
    assert_eq!(bytes, lines.concat().as_bytes());
}

#[test]
fn a_held_class_gives_101_with_its_place_and_the_holding_written() {
    let mut bytes = register(2, 2, 2, 2, &["00/01", "01/10"]);
    for text in ["01/10", "10/01"] {
        assert_eq!(enter(&mut bytes, 1, &cells(text)), answer(101, 2));
    }
    for text in ["00/01", "00/10", "01/00", "10/00"] {
        assert_eq!(enter(&mut bytes, 8, &cells(text)), answer(101, 1));
    }
    let entries = [
        ("00/01", [1, 0, 0, 0, 0, 0, 0, 4]),
        ("01/10", [3, 0, 0, 0, 0, 0, 0, 0]),
    ];
    assert_eq!(bytes, held_register(2, 2, 2, 2, &entries));
    assert_eq!(enter(&mut bytes, 1, &cells("02/00")), answer(9, 0));
    assert_eq!(bytes, held_register(2, 2, 2, 2, &entries));
}

#[test]
fn capacity_counts_lines_and_a_full_register_takes_a_class_that_another_client_holds() {
    let mut bytes = opened(1, 2, 3, 1);
    assert_eq!(enter(&mut bytes, 3, &cells("30")), answer(0, 1));
    assert_eq!(enter(&mut bytes, 5, &cells("31")), answer(9, 0));
    assert_eq!(enter(&mut bytes, 5, &cells("03")), answer(101, 1));
    let entries = [("03", [0, 0, 1, 0, 1])];
    assert_eq!(bytes, held_register(1, 2, 3, 1, &entries));
    // The line has its place until the last holding is gone.
    assert_eq!(strike(&mut bytes, 3, &cells("03")), answer(0, 1));
    assert_eq!(enter(&mut bytes, 3, &cells("31")), answer(9, 0));
    assert_eq!(strike(&mut bytes, 5, &cells("03")), answer(0, 1));
    assert_eq!(enter(&mut bytes, 3, &cells("31")), answer(0, 1));
    assert_eq!(bytes, held_register(1, 2, 3, 1, &[("13", [0, 0, 1])]));
}

#[test]
fn a_strike_that_leaves_holdings_answers_the_line_s_place() {
    let held = |of_client_2: u64, of_client_3: u64| {
        let entries = [
            ("00", [1, 0, 0]),
            ("01", [0, of_client_2, of_client_3]),
            ("02", [1, 0, 0]),
        ];
        held_register(1, 2, 3, 4, &entries)
    };
    let mut bytes = held(2, 1);
    assert_eq!(strike(&mut bytes, 2, &cells("10")), answer(0, 2));
    assert_eq!(bytes, held(1, 1));
    assert_eq!(strike(&mut bytes, 3, &cells("10")), answer(0, 2));
    assert_eq!(bytes, held(1, 0));
    // Client 3 holds none now, and client 1 never did; client 2 does.
    for client in [1, 3, 4, 8] {
        assert_eq!(strike(&mut bytes, client, &cells("10")), answer(10, 0));
        assert_eq!(bytes, held(1, 0));
    }
    assert_eq!(strike(&mut bytes, 2, &cells("10")), answer(0, 2));
    assert_eq!(bytes, register(1, 2, 3, 4, &["00", "02"]));
}

#[test]
fn a_holding_goes_to_999_and_back() {
    let mut pair = Pair::opened(1, 1, 1, 1);
    for k in 1..=999 {
        let expected = if k == 1 { 0 } else { 101 };
        assert_eq!(pair.enter(4, &[1]), expected);
    }
    let full = held_register(1, 1, 1, 1, &[("1", [0, 0, 0, 999])]);
    assert_eq!(pair.bytes, full);
    assert_eq!(pair.enter(4, &[1]), 16);
    assert_eq!(pair.bytes, full);
    // 9 is asked before 16, and 16 is not asked of another client.
    assert_eq!(pair.enter(4, &[0]), 9);
    assert_eq!(pair.enter(3, &[1]), 101);
    assert_eq!(pair.strike(3, &[1]), 0);
    assert_eq!(pair.bytes, full);
    for _ in 0..999 {
        assert_eq!(pair.machine.classes.len(), 1);
        assert_eq!(pair.strike(4, &[1]), 0);
    }
    assert_eq!(pair.bytes, opened(1, 1, 1, 1));
    assert_eq!(pair.strike(4, &[1]), 10);
}

#[test]
fn equal_bytes_mean_equal_holdings() {
    // Every list of three enters by two clients of two classes.
    let enters: Vec<(u64, [u8; 1])> = vec![(1, [0]), (1, [1]), (2, [0]), (2, [1])];
    let mut met: Vec<(Vec<u8>, [[u64; 2]; 2])> = Vec::new();
    for list in every_grid(3, 3) {
        let mut bytes = opened(1, 1, 1, 2);
        let mut held = [[0; 2]; 2];
        for k in list {
            let (client, grid) = enters[usize::from(k)];
            assert!([0, 101].contains(&enter(&mut bytes, client, &grid).number));
            held[client as usize - 1][usize::from(grid[0])] += 1;
        }
        met.push((bytes, held));
    }
    for (bytes, held) in &met {
        for (other, held_there) in &met {
            assert_eq!(bytes == other, held == held_there);
        }
    }
}

#[test]
fn strike_moves_the_later_entries_up_and_blanks_the_last_line() {
    let mut bytes = register(2, 2, 2, 4, &["00/01", "00/02", "01/10"]);
    assert_eq!(strike(&mut bytes, 1, &cells("20/00")), answer(0, 2));
    assert_eq!(bytes, register(2, 2, 2, 4, &["00/01", "01/10"]));
    assert_eq!(strike(&mut bytes, 1, &cells("20/00")), answer(10, 0));
    assert_eq!(strike(&mut bytes, 1, &cells("10/01")), answer(0, 2));
    assert_eq!(strike(&mut bytes, 1, &cells("00/10")), answer(0, 1));
    assert_eq!(bytes, opened(2, 2, 2, 4));
    assert_eq!(strike(&mut bytes, 1, &cells("00/10")), answer(10, 0));
}

#[test]
fn the_bytes_do_not_depend_on_the_order_of_the_calls() {
    let plans = ["00/01", "00/11", "01/01", "01/10", "11/11"].map(cells);
    let mut first = opened(2, 2, 1, 6);
    for plan in &plans {
        assert_eq!(enter(&mut first, 1, plan).number, 0);
    }
    let mut random = Random::new(12);
    for _ in 0..20 {
        let mut other = opened(2, 2, 1, 6);
        assert_eq!(enter(&mut other, 1, &[0; 4]).number, 0);
        for k in random.permutation(plans.len()) {
            assert_eq!(enter(&mut other, 1, &plans[usize::from(k)]).number, 0);
        }
        assert_ne!(other, first);
        assert_eq!(strike(&mut other, 1, &[0; 4]).number, 0);
        assert_eq!(other, first);
    }
}

#[test]
fn count_on_an_empty_register_is_0_also_where_prune_says_102() {
    let bytes = opened(2, 1, 3, 1);
    assert_eq!(count(&bytes, &[2, 0], &[3, 1]), answer(0, 0));
    assert_eq!(count(&bytes, &[0, 0], &[3, 1]), answer(0, 0));
    let by_command_3 = |low, high| prune_and_count([2, 1, 3], &bytes, low, high);
    assert_eq!(by_command_3(&[2, 0], &[3, 1]), answer(102, 0));
    assert_eq!(by_command_3(&[0, 0], &[3, 1]), answer(0, 0));
}

#[test]
fn count_counts_the_entries_in_the_form() {
    let bytes = register(2, 2, 2, 4, &["00/01", "00/02", "01/10"]);
    assert_eq!(count(&bytes, &[0; 4], &[2; 4]), answer(0, 3));
    assert_eq!(count(&bytes, &[0; 4], &[1; 4]), answer(0, 2));
    assert_eq!(count(&bytes, &[0, 0, 0, 1], &[0, 0, 0, 2]), answer(0, 2));
    assert_eq!(count(&bytes, &[1; 4], &[2; 4]), answer(0, 0));
}

#[test]
fn on_entries_that_are_not_least_a_class_is_held_by_its_representative_only() {
    // 10/01 is not least in its class, that is 01/10.
    let bytes = register(2, 2, 1, 3, &["00/01", "10/01"]);
    let mut lent = bytes.clone();
    assert_eq!(strike(&mut lent, 1, &cells("10/01")), answer(10, 0));
    assert_eq!(lent, bytes);
    assert_eq!(enter(&mut lent, 1, &cells("10/01")), answer(0, 2));
    assert_eq!(lent, register(2, 2, 1, 3, &["00/01", "01/10", "10/01"]));
    assert_eq!(enter(&mut lent, 2, &cells("10/01")), answer(101, 2));
    assert_eq!(enter(&mut lent, 1, &cells("11/11")), answer(9, 0));
    assert_eq!(strike(&mut lent, 1, &cells("10/01")), answer(0, 2));
    assert_eq!(strike(&mut lent, 2, &cells("10/01")), answer(0, 2));
    assert_eq!(lent, bytes);
}

#[test]
fn on_entries_that_are_not_least_count_is_of_the_form_as_sent() {
    // The form as sent has both entries; pruned, row 0 begins with 0 only.
    let bytes = register(2, 2, 1, 3, &["00/01", "10/01"]);
    let (low, high) = (cells("00/01"), cells("10/01"));
    assert_eq!(count(&bytes, &low, &high), answer(0, 2));
    let by_command_3 = |low, high| prune_and_count([2, 2, 1], &bytes, low, high);
    assert_eq!(by_command_3(&low, &high), answer(0, 1));
    let (mut new_low, mut new_high) = (low.clone(), high.clone());
    assert_eq!(prune(2, 2, 1, &mut new_low, &mut new_high).count, 1);
    assert_eq!([&new_low, &new_high], [&cells("00/01"); 2]);
    assert_eq!(count(&bytes, &new_low, &new_high), answer(0, 1));
    // The form of 10/01 alone: it has no allperm.
    let alone = cells("10/01");
    assert_eq!(by_command_3(&alone, &alone), answer(102, 0));
    assert_eq!(count(&bytes, &alone, &alone), answer(0, 1));
}

/// The machine beside the register, and the checks after every call.
struct Pair {
    bytes: Vec<u8>,
    machine: Machine,
}

impl Pair {
    fn opened(m: u64, n: u64, top: u64, capacity: u64) -> Pair {
        let pair = Pair {
            bytes: opened(m, n, top, capacity),
            machine: Machine::opened(m, n, top, capacity),
        };
        pair.check();
        pair
    }

    fn check(&self) {
        assert_eq!(self.bytes, self.machine.bytes());
        let contents = Contents::read(&self.bytes).expect("question 5 gets a yes");
        assert_eq!(contents.bytes(), self.bytes);
        assert!(contents
            .entries
            .iter()
            .all(|e| self.machine.classes.get(&e.grid) == Some(&e.holdings)));
        assert_eq!(contents.entries.len(), self.machine.classes.len());
    }

    /// Makes the call on both and returns the answer's number.
    fn enter(&mut self, client: u64, grid: &[u8]) -> u32 {
        let answer = enter(&mut self.bytes, client, grid);
        assert_eq!(answer, self.machine.enter(client, grid));
        self.check();
        answer.number
    }

    fn strike(&mut self, client: u64, grid: &[u8]) -> u32 {
        let answer = strike(&mut self.bytes, client, grid);
        assert_eq!(answer, self.machine.strike(client, grid));
        self.check();
        answer.number
    }

    /// Counts the form as sent and, if it passes, pruned: one number, and 0 where prune says 102.
    fn count(&mut self, low: &[u8], high: &[u8]) -> u32 {
        let before = self.bytes.clone();
        let answer = count(&self.bytes, low, high);
        assert_eq!(answer, self.machine.count(low, high));
        let Machine {
            rows, columns, top, ..
        } = self.machine;
        let by_command_3 = prune_and_count([rows, columns, top], &self.bytes, low, high);
        match by_command_3.number {
            102 => assert_eq!(answer, self::answer(0, 0)),
            _ => assert_eq!(by_command_3, answer),
        }
        assert_eq!(self.bytes, before);
        self.check();
        answer.number
    }
}

/// A grid that now and then has a wrong length or a cell above top.
fn random_grid(random: &mut Random, cells: usize, top: u8) -> Vec<u8> {
    let mut grid = random.cells(cells, top);
    spoil(random, &mut grid, top);
    grid
}

fn spoil(random: &mut Random, slice: &mut Vec<u8>, top: u8) {
    if random.once_in(20) {
        slice.pop();
    }
    if random.once_in(20) {
        slice.push(0);
    }
    if random.once_in(15) && !slice.is_empty() {
        let k = random.below(slice.len() as u64) as usize;
        slice[k] = random.between(u64::from(top) + 1, 255) as u8;
    }
}

/// A form that now and then is wrong.
fn random_form(random: &mut Random, cells: usize, top: u8) -> (Vec<u8>, Vec<u8>) {
    let (mut low, mut high) = drawn(random, cells, top);
    if random.once_in(2) {
        low = vec![0; cells];
    }
    if random.once_in(10) {
        std::mem::swap(&mut low, &mut high);
    }
    spoil(random, &mut low, top);
    spoil(random, &mut high, top);
    (low, high)
}

/// A list of random calls. Adds to `met` how often each number was answered.
fn random_list(random: &mut Random, shape: [u64; 4], calls: usize, met: &mut [u64; 104]) {
    let [m, n, top, capacity] = shape;
    let mut pair = Pair::opened(m, n, top, capacity);
    let (cells, top) = ((m * n) as usize, top as u8);
    for _ in 0..calls {
        let number = match random.below(7) {
            0..=2 => pair.enter(client(random), &random_grid(random, cells, top)),
            3 => pair.strike(client(random), &random_grid(random, cells, top)),
            4 => pair.strike(client(random), &held_grid(random, &pair, cells)),
            _ => {
                let (low, high) = random_form(random, cells, top);
                pair.count(&low, &high)
            }
        };
        met[number as usize] += 1;
    }
}

/// An arrangement of a held class, or a grid of zeros where none is held.
fn held_grid(random: &mut Random, pair: &Pair, cells: usize) -> Vec<u8> {
    let held = &pair.machine.classes;
    if held.is_empty() {
        return vec![0; cells];
    }
    let class = held.keys().nth(random.below(held.len() as u64) as usize);
    let (m, n) = (pair.machine.rows as usize, pair.machine.columns as usize);
    let grid = random.shuffled(m, n, class.unwrap());
    assert_eq!(&least(m, n, &grid), class.unwrap());
    grid
}

#[test]
fn random_lists_of_calls_answer_as_the_machine() {
    let mut random = Random::new(13);
    let mut met = [0; 104];
    for _ in 0..400 {
        let shape = [
            random.between(1, 3),
            random.between(1, 3),
            random.between(0, 2),
            random.between(1, 5),
        ];
        random_list(&mut random, shape, 40, &mut met);
    }
    for number in [0, 6, 7, 8, 9, 10, 15, 101] {
        assert!(met[number] > 50, "{number}");
    }
    assert_eq!((met[5], met[102]), (0, 0));
}

#[test]
fn random_lists_on_larger_shapes_answer_as_the_machine() {
    let mut random = Random::new(14);
    let mut met = [0; 104];
    for _ in 0..30 {
        let shape = [
            random.between(1, 5),
            random.between(1, 16),
            random.between(0, 15),
            random.between(1, 20),
        ];
        random_list(&mut random, shape, 40, &mut met);
    }
    assert_eq!(met[5], 0);
    assert!(met[0] > 100);
}

#[test]
fn a_list_on_the_largest_shape_answers_as_the_machine() {
    let mut random = Random::new(15);
    let mut pair = Pair::opened(8, 16, 15, 500);
    let (one, two) = (random.cells(128, 15), random.cells(128, 1));
    assert_eq!(pair.enter(1, &one), 0);
    assert_eq!(pair.enter(1, &two), 0);
    assert_eq!(pair.count(&[0; 128], &[15; 128]), 0);
    let turned = random.shuffled(8, 16, &one);
    assert_eq!(pair.enter(2, &turned), 101);
    assert_eq!(pair.strike(2, &turned), 0);
    assert_eq!(pair.strike(2, &one), 10);
    assert_eq!(pair.strike(1, &turned), 0);
    assert_eq!(pair.strike(1, &one), 10);
}

#[test]
fn all_500_lines_are_used() {
    let mut pair = Pair::opened(1, 3, 15, 500);
    let mut grids = every_grid(3, 15);
    grids.retain(|g| &least(1, 3, g) == g);
    assert!(grids.len() > 500);
    for k in Random::new(16).permutation(250) {
        assert_eq!(pair.enter(1, &grids[usize::from(k)]), 0);
    }
    for grid in &grids[250..500] {
        assert_eq!(pair.enter(1, grid), 0);
    }
    assert_eq!(pair.enter(1, &grids[500]), 9);
    assert_eq!(pair.enter(2, &grids[499]), 101);
    assert_eq!(pair.machine.classes.len(), 500);
    assert_eq!(pair.strike(1, &grids[0]), 0);
    assert_eq!(pair.enter(1, &grids[500]), 0);
}
