//! Long lists of commands that are laid as they should be.

use planbook::check_each;
use planbook::inputs::drawn;
use planbook::lines::{count, count_all, enter, line_1, strike};
use planbook::outputs::{check_met, Met, Output, ANSWERS};
use reference::designs::{all, Design};
use reference::examples::shapes_up_to;
use reference::lists::Pool;
use reference::random::Random;

/// Checks the inputs. Returns how often each command was answered by each number.
fn check_lists(inputs: &[Vec<u8>]) -> Met {
    let mut met = Met::new();
    for (input, output) in inputs.iter().zip(check_each(inputs)) {
        Output::read(input, &output).count(&mut met);
    }
    met
}

/// A shape, and so many commands on a pool of more grids than the register takes.
fn list(
    random: &mut Random,
    (m, n): (usize, usize),
    top: u8,
    capacity: u64,
    count: usize,
) -> Vec<u8> {
    let pool = Pool::drawn(random, m, n, top, 2 * capacity as usize + 3);
    drawn(random, &pool, capacity, count).concat()
}

#[test]
fn lists_on_small_shapes() {
    let mut random = Random::new(201);
    let small_list = |_| {
        let shape = (random.between(1, 3) as usize, random.between(1, 4) as usize);
        let (top, capacity) = (random.between(0, 3) as u8, random.between(1, 5));
        list(&mut random, shape, top, capacity, 80)
    };
    let inputs: Vec<Vec<u8>> = (0..500).map(small_list).collect();
    check_met(&check_lists(&inputs), &ANSWERS, 300);
}

#[test]
fn lists_on_every_shape_of_up_to_5_rows() {
    let mut random = Random::new(202);
    let shapes = shapes_up_to(80).into_iter().filter(|&(m, _)| m <= 5);
    let any_list = |shape| {
        let (top, capacity) = (random.between(0, 15) as u8, random.between(1, 6));
        list(&mut random, shape, top, capacity, 40)
    };
    let inputs: Vec<Vec<u8>> = shapes.map(any_list).collect();
    check_met(&check_lists(&inputs), &ANSWERS, 15);
}

#[test]
fn lists_on_shapes_of_6_to_8_rows() {
    // Few commands: the reference lists every row permutation.
    let mut random = Random::new(203);
    let shapes = [
        (6, 4, 60),
        (6, 16, 60),
        (7, 3, 30),
        (7, 16, 20),
        (8, 1, 12),
        (8, 5, 8),
        (8, 16, 8),
    ];
    let few = |(m, n, count)| list(&mut random, (m, n), 15, 2, count);
    let met = check_lists(&shapes.map(few));
    for answer in [(1, 0), (1, 9), (1, 101), (2, 0), (2, 10), (3, 0)] {
        assert!(met.contains_key(&answer), "{met:?}");
    }
}

#[test]
fn lists_of_thousands_of_commands() {
    let mut random = Random::new(204);
    let shapes = [
        ((1, 1), 15, 8),
        ((1, 3), 2, 9),
        ((2, 2), 3, 40),
        ((3, 3), 1, 20),
        ((2, 4), 2, 100),
    ];
    let long = |(shape, top, capacity): ((usize, usize), u8, u64)| {
        let cells = shape.0 * shape.1;
        let longest = (13 + 3 * cells).max(7 + 6 * cells);
        list(&mut random, shape, top, capacity, 65_511 / longest)
    };
    check_met(&check_lists(&shapes.map(long)), &ANSWERS, 40);
}

#[test]
fn registers_of_every_capacity_are_filled() {
    let mut random = Random::new(205);
    let filled = |capacity: u64| {
        let pool = Pool::drawn(&mut random, 2, 3, 15, capacity as usize + 3);
        let mut input = line_1([2, 3, 15, capacity]);
        for grid in &pool.grids {
            let client = random.between(1, 2);
            input.extend(enter(client, &random.shuffled(2, 3, grid)));
        }
        input.extend(count_all(6, 15));
        for _ in 0..20 {
            input.extend(strike(random.between(1, 2), &pool.grid(&mut random)));
            input.extend(enter(random.between(1, 8), &pool.grid(&mut random)));
        }
        input
    };
    let capacities = (1..=40).chain([99, 100, 101, 255, 256, 257, 499, 500]);
    let inputs: Vec<Vec<u8>> = capacities.map(filled).collect();
    let answers = [(1, 0), (1, 9), (1, 101), (2, 0), (2, 10), (3, 0)];
    check_met(&check_lists(&inputs), &answers, 20);
}

/// Commands on a design, shuffled anew in each: it is held by one line until nobody holds any.
fn on_design(random: &mut Random, design: &Design) -> Vec<u8> {
    let (m, n) = (design.m, design.n);
    let mut copy = || random.shuffled(m, n, &design.cells);
    [
        line_1([m as u64, n as u64, design.top.into(), 2]),
        strike(1, &copy()),
        enter(1, &copy()),
        enter(2, &copy()),
        count(&design.cells, &design.cells),
        count_all(m * n, design.top),
        strike(1, &copy()),
        strike(1, &copy()),
        strike(2, &copy()),
        strike(2, &copy()),
        enter(8, &design.cells),
        enter(8, &copy()),
    ]
    .concat()
}

#[test]
fn grids_with_much_symmetry() {
    let mut random = Random::new(206);
    let designs = all().into_iter().filter(|design| design.m <= 6);
    let inputs: Vec<Vec<u8>> = designs
        .map(|design| on_design(&mut random, &design))
        .collect();
    assert!(inputs.len() > 30);
    for (input, output) in inputs.iter().zip(check_each(&inputs)) {
        let printed = Output::read(input, &output).printed;
        let numbers: Vec<u64> = printed.iter().map(|line| line[1]).collect();
        assert_eq!(numbers[..3], [10, 0, 101]);
        assert_eq!(numbers[4..], [0, 0, 10, 0, 10, 0, 101]);
    }
}

#[test]
fn the_order_of_enters_leaves_no_trace() {
    let mut random = Random::new(207);
    let pool = Pool::drawn(&mut random, 3, 4, 2, 12);
    let mut in_any_order = |_| {
        let mut input = line_1([3, 4, 2, 12]);
        for k in random.permutation(12) {
            let grid = &pool.grids[usize::from(k)];
            let client = u64::from(k % 8) + 1;
            input.extend(enter(client, &random.shuffled(3, 4, grid)));
        }
        input
    };
    let inputs: Vec<Vec<u8>> = (0..20).map(&mut in_any_order).collect();
    let outputs = check_each(&inputs);
    let registers = inputs
        .iter()
        .zip(&outputs)
        .map(|(i, o)| Output::read(i, o).register);
    let mut registers: Vec<Vec<u8>> = registers.collect();
    registers.dedup();
    assert_eq!(registers.len(), 1);
}
