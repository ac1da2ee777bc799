//! The worked cases of the definitions, answered by the library.

mod common;

use common::calls::{answer, check_answer, check_count, placed};
use common::Lent;
use plan_register::{open, prune, same, terminal_same, Register};
use reference::worked_cases::{books, count_cases, openings, pairs, registers, terminal_pairs};

#[test]
fn same_answers_as_the_table_says() {
    for pair in pairs() {
        let [m, n, top] = pair.shape.map(|number| number as usize);
        let found = same(m, n, top, &pair.a, &pair.b);
        let expected = (pair.number, pair.agreed);
        assert_eq!((found.number, found.agreed), expected, "{pair:?}");
    }
}

#[test]
fn a_terminal_s_same_answers_as_both_tables_say() {
    for pair in pairs().into_iter().chain(terminal_pairs()) {
        let [m, n, top] = pair.shape.map(|number| number as usize);
        let found = terminal_same(m, n, top, &pair.a, &pair.b);
        let expected = (pair.number, pair.agreed);
        assert_eq!((found.number, found.agreed), expected, "{pair:?}");
    }
}

#[test]
fn question_5_answers_as_the_table_says() {
    for case in registers() {
        let taken = Register::from_bytes(case.bytes.clone());
        assert_eq!(taken.is_ok(), case.answer, "{case:?}");
    }
}

#[test]
fn opens_answer_as_the_table_says() {
    for opening in openings() {
        let [m, n, top, capacity] = opening.shape.map(|number| number as usize);
        let mut lent = Lent::holding(&opening.slice);
        let opened = open(m, n, top, capacity, lent.slice_mut());
        assert_eq!(placed(opened), answer(opening.number, 0), "{opening:?}");
        lent.check(&opening.leaves);
    }
}

#[test]
fn books_are_kept_as_the_table_says() {
    for book in books() {
        let mut register = book.before.clone();
        for (call, answer) in &book.calls {
            // The table has the bytes after the last call; the reference those after each.
            let mut left = register.clone();
            assert_eq!(call.on_register(&mut left), *answer, "{call:?}");
            check_answer(&register, call, *answer, &left);
            register = left;
        }
        assert_eq!(register, book.leaves, "{book:?}");
    }
}

#[test]
fn bounds_are_pruned_and_counted_as_the_table_says() {
    for case in count_cases() {
        let register = Register::from_bytes(case.register.clone()).expect("it is a register");
        let (m, n, top) = (register.rows(), register.columns(), register.top());
        let (mut low, mut high) = case.sent.clone();
        let pruned = prune(m, n, top, &mut low, &mut high);
        assert_eq!(pruned.number, case.number, "{case:?}");
        assert_eq!((low, high), case.left, "{case:?}");
        for (form, count) in [&case.sent, &case.left].into_iter().zip(case.counts) {
            let expected = answer(0, count as u32);
            assert_eq!(check_count(&case.register, form), expected, "{case:?}");
        }
    }
}
