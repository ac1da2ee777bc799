//! Runs whose output is written out: the printed run, the examples, the README's, marked plans.

use planbook::check;
use planbook::lines::{count, enter, line_1, strike};
use reference::examples::{held_register, plan};
use reference::forms::written;

/// The input of the printed run, as request 4 makes it.
const INPUT: &str = include_str!("../../../crates/planbook/stdin");

/// And its output.
const OUTPUT: &str = include_str!("../../../crates/planbook/stdout");

/// What is printed for the input, as the reference prints it too.
fn printed(input: &[u8]) -> String {
    String::from_utf8(check(input)).expect("the output is text")
}

/// What is printed where these clients enter these grids of one shape in turn.
fn entered(top: u64, capacity: u64, enters: &[(u64, &str)]) -> String {
    let (m, n, _) = plan(enters[0].1);
    let mut input = line_1([m as u64, n as u64, top, capacity]);
    for (client, grid) in enters {
        input.extend(enter(*client, &plan(grid).2));
    }
    printed(&input)
}

/// The register with this one entry, of which client 1 holds so many, as text.
fn register_with(top: u64, capacity: u64, entry: &str, held: u64) -> String {
    let (m, n, _) = plan(entry);
    let bytes = held_register(m as u64, n as u64, top, capacity, &[(entry, [held])]);
    String::from_utf8(bytes).expect("a register is text")
}

/// Checks that all of these grids, entered in turn, leave this one entry, at place 1.
fn check_one_class(top: u64, entry: &str, grids: &[&str]) {
    let again = "     1   101     1\n".repeat(grids.len() - 1);
    let register = register_with(top, 3, entry, grids.len() as u64);
    let expected = "     1     0     1\n".to_string() + &again + &register;
    let enters: Vec<(u64, &str)> = grids.iter().map(|&grid| (1, grid)).collect();
    assert_eq!(entered(top, 3, &enters), expected);
}

/// What is printed for these bounds after this grid is entered, without the register.
fn counted(grid: &str, bounds: &str) -> String {
    let (m, n, grid) = plan(grid);
    let (low, high) = written(bounds).2;
    let head = line_1([m as u64, n as u64, 3, 1]);
    let output = printed(&[head, enter(1, &grid), count(&low, &high)].concat());
    output[19..38].to_string()
}

#[test]
fn the_printed_run() {
    assert_eq!(printed(INPUT.as_bytes()), OUTPUT);
}

#[test]
fn two_arrangements_of_marked_plan_1_are_held_on_one_line() {
    let expected = "     1     0     1
     1   101     1
     2     3     3     2     1
  1  2  3  3  2  2  1  1  0  0  0  0  0  0
                                          \n";
    let example = include_bytes!("../../../examples/two_by_three.txt");
    assert_eq!(printed(example), expected);
    let other_way_round = [(2, "123/322"), (1, "223/231")];
    assert_eq!(entered(3, 2, &other_way_round), expected);
}

#[test]
fn the_readme_shows_the_first_example() {
    let example = include_str!("../../../examples/two_by_three.txt");
    let shown = format!("{example}prints:\n{}", printed(example.as_bytes()));
    let lines: Vec<&str> = shown.lines().map(str::trim_end).collect();
    let lines = lines.join("\n");
    let block = format!("```text\nexamples/two_by_three.txt:\n{lines}\n```\n");
    assert!(include_str!("../../../README.md").contains(&block));
}

#[test]
fn two_arrangements_of_marked_plan_2_are_held_on_one_line() {
    let expected = "     1     0     1
     1   101     1
     2     2     1     2     1
  0  1  1  0  2  0  0  0  0  0  0  0
                                    \n";
    let example = include_bytes!("../../../examples/two_by_two.txt");
    assert_eq!(printed(example), expected);
    assert_eq!(entered(1, 2, &[(1, "01/10"), (1, "10/01")]), expected);
}

#[test]
fn a_strike_by_one_client_takes_nothing_from_another() {
    let grid = [1, 0, 0, 1];
    let lines = [
        line_1([2, 2, 1, 1]),
        enter(1, &grid),
        enter(8, &grid),
        strike(1, &grid),
        strike(1, &grid),
        strike(9, &grid),
    ];
    let expected = "     1     0     1
     1   101     1
     2     0     1
     2    10     0
     2    15     0
     2     2     1     1     1
  0  1  1  0  0  0  0  0  0  0  0  1
";
    assert_eq!(printed(&lines.concat()), expected);
}

#[test]
fn a_holding_of_999_is_the_most() {
    let grid = [0];
    let lines = [line_1([1, 1, 1, 1]), enter(7, &grid).repeat(1001)];
    let lines = [lines.concat(), enter(6, &grid), strike(7, &grid)];
    let again = "     1   101     1\n";
    let expected = [
        "     1     0     1\n",
        &again.repeat(998),
        "     1    16     0\n",
        "     1    16     0\n",
        again,
        "     2     0     1\n",
        "     1     1     1     1     1\n",
        "  0  0  0  0  0  0  1998  0\n",
    ];
    assert_eq!(printed(&lines.concat()), expected.concat());
}

#[test]
fn marked_plans_are_entered_as_their_representatives() {
    check_one_class(3, "123/322", &["223/231", "123/322"]);
    check_one_class(3, "01/10", &["10/01", "01/10"]);
    check_one_class(3, "001/121", &["112/010", "001/121"]);
    check_one_class(3, "12/12", &["12/12", "21/21"]);
    check_one_class(3, "023", &["302", "023", "230"]);
}

#[test]
fn the_two_plans_of_marked_plan_6_are_in_two_classes() {
    let expected = "     1     0     1
     1     0     2
     1   101     1
     2     2     1     2     2
  0  0  1  1  1  0  1  0  0  0  0  0
  0  1  0  1  0  1  0  0  0  0  0  0
";
    let enters = [(1, "00/11"), (2, "01/01"), (3, "11/00")];
    assert_eq!(entered(1, 2, &enters), expected);
}

#[test]
fn the_matrices_of_document_002_are_in_one_class() {
    let matrices = [
        "021201/022110/010212/001122",
        "001122/010212/021201/022110",
        "001122/010212/012021/022110",
    ];
    check_one_class(2, "001122/010212/012021/021201", &matrices);
}

#[test]
fn counts_of_marked_plans_7_to_10() {
    let (none, one, no_grid) = (
        "     3     0     0\n",
        "     3     0     1\n",
        "     3   102     0\n",
    );
    assert_eq!(counted("223/231", "22 22 33/22 33 11"), no_grid);
    assert_eq!(counted("223/231", "11 22 33/33 22 22"), one);
    assert_eq!(counted("10/01", "13 03/01 02"), none);
    assert_eq!(counted("11/12", "13 03/01 02"), one);
    assert_eq!(counted("1/1", "23/01"), no_grid);
}
