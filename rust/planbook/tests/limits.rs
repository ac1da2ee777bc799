//! Numbers at their limits and past them.

use planbook::lines::{command, count_all, enter, line_1, strike};
use planbook::outputs::{refusal, Output};
use planbook::{check, check_both, check_each};

/// Each number at its limits and past them.
const ROWS: [u64; 5] = [0, 1, 8, 9, 999_999];
const COLUMNS: [u64; 5] = [0, 1, 16, 17, 999_999];
const TOPS: [u64; 4] = [0, 15, 16, 999_999];
const CAPACITIES: [u64; 5] = [0, 1, 500, 501, 999_999];

/// Every line 1 of these numbers.
fn combinations() -> Vec<[u64; 4]> {
    let mut combinations = Vec::new();
    for m in ROWS {
        for n in COLUMNS {
            for top in TOPS {
                combinations.extend(CAPACITIES.map(|capacity| [m, n, top, capacity]));
            }
        }
    }
    combinations
}

/// The number that ends a run with this line 1, or 0.
fn first_no([m, n, top, capacity]: [u64; 4]) -> u64 {
    match () {
        _ if m == 0 || m > 8 => 1,
        _ if n == 0 || n > 16 => 2,
        _ if top > 15 => 3,
        _ if capacity == 0 || capacity > 500 => 4,
        _ if 31 + capacity * (3 * m * n + 25) > 65_536 => 13,
        _ => 0,
    }
}

/// Line 1 with a few commands behind that are laid as they should be, if it passes.
fn with_commands(numbers: [u64; 4]) -> Vec<u8> {
    let (cells, top) = match first_no(numbers) {
        0 => (numbers[0] * numbers[1], numbers[2]),
        _ => (1, 0),
    };
    let (zeros, tops) = (vec![0; cells as usize], vec![top as u8; cells as usize]);
    let above = vec![top as u8 + 1; cells as usize];
    [
        line_1(numbers),
        enter(1, &tops),
        enter(1, &zeros),
        enter(1, &above),
        strike(1, &above),
        b"\n".to_vec(),
        count_all(zeros.len(), top as u8),
        count_all(zeros.len(), top as u8 + 1),
        strike(1, &tops),
    ]
    .concat()
}

#[test]
fn every_combination_of_limits() {
    let combinations = combinations();
    let inputs: Vec<Vec<u8>> = combinations
        .iter()
        .map(|&numbers| with_commands(numbers))
        .collect();
    let mut met = [0; 14];
    for ((numbers, input), output) in combinations.iter().zip(&inputs).zip(check_each(&inputs)) {
        let number = first_no(*numbers);
        met[number as usize] += 1;
        if number != 0 {
            assert_eq!(output, refusal(number), "{numbers:?}");
            continue;
        }
        let printed = Output::read(input, &output).printed;
        let [top, capacity] = [numbers[2], numbers[3]];
        let second = match (top, capacity) {
            (0, _) => [1, 101, 1],
            (_, 1) => [1, 9, 0],
            _ => [1, 0, 1],
        };
        let held = if second[1] == 0 { 2 } else { 1 };
        let expected = [
            [1, 0, 1],
            second,
            [1, 7, 0],
            [2, 7, 0],
            [0, 12, 0],
            [3, 0, held],
            [3, 7, 0],
            [2, 0, held],
        ];
        assert_eq!(printed, expected, "{numbers:?}");
    }
    assert_eq!(met, [14, 300, 120, 40, 24, 0, 0, 0, 0, 0, 0, 0, 0, 2]);
}

#[test]
fn the_same_limits_without_commands() {
    let combinations = combinations();
    let inputs: Vec<Vec<u8>> = combinations
        .iter()
        .map(|&numbers| line_1(numbers))
        .collect();
    for (numbers, output) in combinations.iter().zip(check_each(&inputs)) {
        let [m, n, _, capacity] = *numbers;
        match first_no(*numbers) {
            0 => assert_eq!(output.len() as u64, 31 + capacity * (3 * m * n + 25)),
            number => assert_eq!(output, refusal(number), "{numbers:?}"),
        }
    }
}

/// What is printed for commands 1, 2 and 3 with this value as one of the cells or bounds.
fn with_value(top: u64, value: u64, k: usize) -> Vec<[u64; 3]> {
    let mut grid = vec![0; 6];
    grid[k] = value;
    let bounds = |low, high| {
        let mut cells = [0, top].repeat(6);
        cells[2 * k] = low;
        cells[2 * k + 1] = high;
        cells
    };
    let input = [
        line_1([2, 3, top, 2]),
        command(1, Some(1), &grid),
        command(2, Some(1), &grid),
        command(3, None, &bounds(0, value)),
        command(3, None, &bounds(value, top)),
        command(3, None, &bounds(value, value)),
    ];
    let input = input.concat();
    Output::read(&input, &check(&input)).printed
}

#[test]
fn cells_at_top_and_above() {
    for top in 0..=15 {
        for k in [0, 2, 5] {
            let passed = with_value(top, top, k);
            assert_eq!(passed[..2], [[1, 0, 1], [2, 0, 1]]);
            assert!(passed.iter().all(|line| [0, 102].contains(&line[1])));
            for value in [top + 1, 254, 255] {
                let refused = [1, 2, 3, 3, 3].map(|name| [name, 7, 0]);
                assert_eq!(with_value(top, value, k), refused);
            }
            for value in [256, 257, 999] {
                assert_eq!(with_value(top, value, k), [[0, 12, 0]; 5]);
            }
        }
    }
}

#[test]
fn a_bound_above_top_is_asked_before_a_low_above_its_high() {
    let input = |cells: &[u64]| [line_1([2, 1, 3, 1]), command(3, None, cells)].concat();
    let empty = check(&line_1([2, 1, 3, 1]));
    for (cells, printed) in [
        ([3, 2, 0, 4], "     3     7     0\n"),
        ([4, 2, 0, 3], "     3     7     0\n"),
        ([0, 3, 2, 1], "     3     8     0\n"),
        ([3, 2, 0, 3], "     3     8     0\n"),
        ([3, 2, 0, 255], "     3     7     0\n"),
        ([3, 2, 0, 256], "     0    12     0\n"),
        ([2, 3, 0, 1], "     3   102     0\n"),
        ([2, 3, 0, 2], "     3     0     0\n"),
    ] {
        check_both(&input(&cells), &[printed.as_bytes(), &empty].concat());
    }
}

#[test]
fn clients_past_their_limits_are_15_behind_7_and_before_9_and_10() {
    for client in [0, 9, 10, 256, 257, 65_537, 999_999] {
        let input = [
            line_1([1, 2, 3, 1]),
            enter(client, &[0, 0]),
            enter(8, &[0, 0]),
            enter(client, &[0, 0]),
            enter(client, &[0, 1]),
            enter(client, &[0, 4]),
            strike(client, &[0, 0]),
            strike(client, &[0, 1]),
            strike(client, &[0, 4]),
            strike(8, &[0, 0]),
        ];
        let input = input.concat();
        let output = Output::read(&input, &check(&input));
        let expected = [
            [1, 15, 0],
            [1, 0, 1],
            [1, 15, 0],
            [1, 15, 0],
            [1, 7, 0],
            [2, 15, 0],
            [2, 15, 0],
            [2, 7, 0],
            [2, 0, 1],
        ];
        assert_eq!(output.printed, expected, "{client}");
        assert_eq!(output.register, check(&line_1([1, 2, 3, 1])));
    }
}
