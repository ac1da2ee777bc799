//! Checks: 11, 12, then 1 to 4, 13. Inputs with several faults are answered by the first of these.

use planbook::lines::{enter, line_1, LIMIT};
use planbook::outputs::refusal;
use planbook::{check, check_both};

/// The numbers of the faults, in the order in which they are asked.
const ORDER: [u64; 7] = [11, 12, 1, 2, 3, 4, 13];

/// Numbers with those of the faults 1, 2, 3, 4 and 13 that are listed: past a limit by so much, or
/// within it but for too long a register.
fn numbers(faults: &[u64], more: u64) -> [u64; 4] {
    let is = |number| faults.contains(&number);
    let [m, n, top, capacity] = match is(13) {
        true => [8, 16, 15, 500],
        false => [2, 3, 15, 4],
    };
    let past = |fault, limit: u64, within| if is(fault) { limit + more } else { within };
    [
        past(1, 8, m),
        past(2, 16, n),
        past(3, 15, top),
        past(4, 500, capacity),
    ]
}

/// Makes line 1 one that is not laid as it should be.
fn spoil(line: &mut Vec<u8>, way: usize) {
    match way {
        0 => line.insert(24, b' '),
        1 => line.insert(24, b'\r'),
        2 => line[0] = b'0',
        3 => line[18] = b'-',
        4 => _ = line.remove(0),
        _ => line.splice(24..24, *b"     0").for_each(drop),
    }
}

/// An input with these faults.
fn with_faults(faults: &[u64], more: u64, way: usize) -> Vec<u8> {
    let mut input = line_1(numbers(faults, more));
    if faults.contains(&12) {
        spoil(&mut input, way);
    }
    input.extend(enter(1, &[0; 6]));
    input.extend(b"x\n\n     1");
    if faults.contains(&11) {
        input.resize(LIMIT + 1, b'\n');
    }
    input
}

/// Every set of faults, each in the order in which they are asked.
fn sets() -> Vec<Vec<u64>> {
    let set = |bits: usize| -> Vec<u64> {
        let of_set = (0..ORDER.len()).filter(|k| bits >> k & 1 == 1);
        of_set.map(|k| ORDER[k]).collect()
    };
    (0..1 << ORDER.len()).map(set).collect()
}

#[test]
fn the_first_fault_of_every_set_decides() {
    for faults in sets() {
        for (way, more) in [(0, 1), (1, 2), (2, 999_499), (3, 9), (4, 84), (5, 1)] {
            let input = with_faults(&faults, more, way);
            match faults.first() {
                Some(&number) => check_both(&input, &refusal(number)),
                None => assert_eq!(check(&input).len(), 4 * 19 + 31 + 4 * 43),
            }
        }
    }
}

#[test]
fn numbers_of_zero() {
    // 0 passes for top, and fails for the others, in their order.
    for (numbers, number) in [
        ([0, 0, 16, 0], 1),
        ([0, 0, 0, 0], 1),
        ([1, 0, 16, 0], 2),
        ([1, 0, 0, 0], 2),
        ([1, 1, 16, 0], 3),
        ([1, 1, 0, 0], 4),
        ([0, 17, 16, 501], 1),
        ([8, 17, 16, 0], 2),
        ([8, 0, 15, 500], 2),
        ([0, 16, 15, 500], 1),
    ] {
        check_both(&line_1(numbers), &refusal(number));
    }
    assert_eq!(check(&line_1([1, 1, 0, 1])).len(), 31 + 28);
}

#[test]
fn commands_are_not_looked_at_before_the_checks() {
    let good = enter(1, &[0; 6]).repeat(10);
    for (numbers, number) in [
        ([9, 3, 1, 4], 1),
        ([2, 17, 1, 4], 2),
        ([2, 3, 16, 4], 3),
        ([2, 3, 1, 0], 4),
    ] {
        let input = [line_1(numbers), good.clone()].concat();
        check_both(&input, &refusal(number));
        let long = [line_1(numbers), good.repeat(300)].concat();
        assert!(long.len() > LIMIT);
        check_both(&long, &refusal(11));
    }
}
