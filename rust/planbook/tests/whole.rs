//! Which outputs are whole: those of the program, and no beginning of one.

use planbook::inputs::drawn;
use planbook::lines::{line_1, LIMIT};
use planbook::malformed::NO_NUMBERS;
use planbook::outputs::refusal;
use planbook::whole::is_whole;
use reference::lists::Pool;
use reference::planbook::transcript;
use reference::random::Random;

/// Checks that what is printed for the input is whole, and that no beginning of it is.
fn check_cuts(input: &[u8]) {
    let output = transcript(input);
    let shown = input.escape_ascii();
    assert!(is_whole(input, &output), "{shown}");
    for cut in 0..output.len() {
        assert!(!is_whole(input, &output[..cut]), "cut at {cut}: {shown}");
    }
    assert!(!is_whole(input, &[&output[..], b"\n"].concat()), "{shown}");
}

#[test]
fn outputs_of_random_inputs() {
    let mut random = Random::new(32);
    for _ in 0..60 {
        let (m, n) = (random.between(1, 3) as usize, random.between(1, 4) as usize);
        let pool = Pool::drawn(&mut random, m, n, 3, 4);
        let mut input = drawn(&mut random, &pool, 3, 12).concat();
        check_cuts(&input);
        // A byte changed, a line parted, the last line without its line feed.
        let at = random.below(input.len() as u64) as usize;
        input[at] = b" 19\nx"[random.below(5) as usize];
        check_cuts(&input);
        input.pop();
        check_cuts(&input);
    }
}

#[test]
fn a_first_command_that_is_no_command() {
    // Its answer, alone, is what a line 1 that is not laid out as it should be is answered by.
    let input = [&line_1([2, 2, 1, 2])[..], b"x\n     1     1  1  0  0  1\n"].concat();
    check_cuts(&input);
    assert!(!is_whole(&input, &refusal(12)));
}

#[test]
fn runs_that_end_at_line_1() {
    check_cuts(b"");
    check_cuts(b"\n");
    for field in NO_NUMBERS {
        let rest = [b"     2     1     2\n", &line_1([2, 2, 1, 2])[..]].concat();
        check_cuts(&[&field[..], &rest].concat());
    }
    for numbers in [
        [0, 2, 1, 2],
        [2, 17, 1, 2],
        [2, 2, 16, 2],
        [2, 2, 1, 501],
        [8, 16, 15, 161],
        [999_999; 4],
    ] {
        check_cuts(&line_1(numbers));
        check_cuts(&[line_1(numbers), line_1(numbers)].concat());
    }
    check_cuts(&[line_1([2, 2, 1, 2]), vec![b'\n'; LIMIT]].concat());
    check_cuts(&vec![b' '; LIMIT + 1]);
}

#[test]
fn registers_without_commands() {
    check_cuts(&line_1([1, 1, 0, 1]));
    check_cuts(&line_1([3, 5, 15, 20]));
}
