//! A line that is not laid as it should be prints 12, and the rest is as if it were not there.

use planbook::inputs::drawn;
use planbook::lines::{enter, line_1};
use planbook::outputs::refusal;
use planbook::{check, check_both, malformed};
use reference::lists::Pool;
use reference::random::Random;

#[test]
fn every_kind_of_malformed_line_is_12() {
    for (m, n) in [(1, 1), (1, 2), (2, 1), (2, 2), (3, 4), (5, 16), (8, 16)] {
        let (head, lines) = (line_1([m, n, 15, 3]), malformed::lines((m * n) as usize));
        let longest = lines.iter().map(Vec::len).max().expect("there are lines");
        for some in lines.chunks(60_000 / longest) {
            let expected = [refusal(12).repeat(some.len()), check(&head)].concat();
            check_both(&[head.clone(), some.concat()].concat(), &expected);
        }
    }
}

/// Good lines with a malformed one behind each, and what is printed where each of those prints 12.
fn mixed(good: &[Vec<u8>], malformed: &[Vec<u8>], output: &[u8]) -> (Vec<u8>, Vec<u8>) {
    let (mut input, mut expected) = (Vec::new(), Vec::new());
    for (k, line) in good.iter().enumerate() {
        input.extend(line);
        input.extend(&malformed[k % malformed.len()]);
        if k > 0 {
            expected.extend(&output[19 * (k - 1)..19 * k]);
        }
        expected.extend(refusal(12));
    }
    expected.extend(&output[19 * (good.len() - 1)..]);
    (input, expected)
}

#[test]
fn malformed_lines_between_good_ones_leave_no_trace() {
    let mut random = Random::new(221);
    for (m, n) in [(1, 1), (2, 2), (2, 3), (3, 3)] {
        let mut malformed = malformed::lines(m * n);
        while !malformed.is_empty() {
            let pool = Pool::drawn(&mut random, m, n, 2, 9);
            let good = drawn(&mut random, &pool, 4, 30);
            let output = check(&good.concat());
            let (input, expected) = mixed(&good, &malformed, &output);
            check_both(&input, &expected);
            malformed
                .drain(..malformed.len().min(good.len()))
                .for_each(drop);
        }
    }
}

#[test]
fn one_malformed_line_at_each_place() {
    let mut random = Random::new(222);
    let pool = Pool::drawn(&mut random, 2, 2, 1, 5);
    let good = drawn(&mut random, &pool, 2, 12);
    let output = check(&good.concat());
    let kinds = malformed::lines(4);
    for k in 1..=good.len() {
        for _ in 0..8 {
            let malformed = &kinds[random.below(kinds.len() as u64) as usize];
            let input = [good[..k].concat(), malformed.clone(), good[k..].concat()].concat();
            let (before, behind) = output.split_at(19 * (k - 1));
            check_both(&input, &[before, &refusal(12), behind].concat());
        }
    }
}

#[test]
fn an_unended_line_at_the_end_leaves_no_trace() {
    let mut random = Random::new(223);
    let pool = Pool::drawn(&mut random, 2, 2, 1, 5);
    let good = drawn(&mut random, &pool, 2, 12).concat();
    let output = check(&good);
    let register = output.len() - 31 - 2 * 37;
    let enter = enter(1, &pool.grids[0]);
    for k in 1..enter.len() {
        let expected = [&output[..register], &refusal(12), &output[register..]].concat();
        check_both(&[&good[..], &enter[..k]].concat(), &expected);
    }
}
