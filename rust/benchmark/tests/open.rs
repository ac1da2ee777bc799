//! The implementation of open that the library is compared with does what it does.

use benchmark::implementations::OPEN;
use benchmark::inputs::Input;
use benchmark::openings::inputs;
use benchmark::plain_register::open;
use reference::examples::shapes_up_to;
use reference::layout::register_length;
use reference::register;

/// Checks open on a slice of this length, against the reference. Returns the number.
fn check(m: usize, n: usize, top: usize, capacity: usize, length: usize) -> u32 {
    let (mut found, mut expected) = (vec![b'#'; length], vec![b'#'; length]);
    let placed = open(m, n, top, capacity, &mut found);
    let [rows, columns, cells, lines] = [m, n, top, capacity].map(|number| number as u64);
    let answer = register::open(rows, columns, cells, lines, &mut expected);
    assert_eq!(
        (placed.number, u64::from(placed.place)),
        (answer.number, answer.place)
    );
    assert_eq!(found, expected, "{m}x{n}, top {top}, capacity {capacity}");
    placed.number
}

#[test]
fn every_shape_opens() {
    for (m, n) in shapes_up_to(128) {
        for (top, capacity) in [(0, 1), (9, 99), (15, 500)] {
            let length = register_length(m as u64, n as u64, capacity as u64) as usize;
            assert_eq!(check(m, n, top, capacity, length), 0);
            assert_eq!(check(m, n, top, capacity, length - 1), 6);
        }
    }
}

#[test]
fn refusals() {
    assert_eq!(check(0, 0, 16, 0, 0), 1);
    assert_eq!(check(9, 17, 16, 501, 0), 1);
    assert_eq!(check(8, 17, 16, 501, 0), 2);
    assert_eq!(check(8, 16, 16, 501, 0), 3);
    assert_eq!(check(8, 16, 15, 501, 0), 4);
    assert_eq!(check(8, 16, 15, 0, 31), 4);
    assert_eq!(check(8, 16, 15, 500, 31), 6);
}

#[test]
fn all_implementations_agree_on_the_inputs() {
    for input in inputs() {
        input.check_equal_outputs(&OPEN.calls());
    }
}
