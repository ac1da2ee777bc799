//! The worked cases of the definitions, answered by the reference.

use reference::bounds::prune;
use reference::calls::Call;
use reference::grid::agreed;
use reference::grid_calls::{same, terminal_same};
use reference::layout::Contents;
use reference::planbook::transcript;
use reference::register::{count, open, Answer};
use reference::worked_cases::{
    books, count_cases, openings, pairs, prefixes, registers, terminal_pairs, transcripts,
};

#[test]
fn lists_agree_as_far_as_the_table_says() {
    for (a, b, expected) in prefixes() {
        assert_eq!(agreed(&a, &b), expected, "{a:?} {b:?}");
    }
}

#[test]
fn same_answers_as_the_table_says() {
    for pair in pairs() {
        let [m, n, top] = pair.shape;
        let found = same(m, n, top, &pair.a, &pair.b);
        let expected = (pair.number, pair.agreed);
        assert_eq!((found.number, found.agreed), expected, "{pair:?}");
    }
}

#[test]
fn a_terminal_s_same_answers_as_both_tables_say() {
    for pair in pairs().into_iter().chain(terminal_pairs()) {
        let [m, n, top] = pair.shape;
        let found = terminal_same(m, n, top, &pair.a, &pair.b);
        let expected = (pair.number, pair.agreed);
        assert_eq!((found.number, found.agreed), expected, "{pair:?}");
    }
    assert!(pairs().iter().all(|pair| pair.shape[0] <= 5));
    assert!(terminal_pairs().iter().any(|pair| pair.number == 14));
}

#[test]
fn question_5_answers_as_the_table_says() {
    for case in registers() {
        let is_register = Contents::read(&case.bytes).is_some();
        assert_eq!(is_register, case.answer, "{case:?}");
    }
}

#[test]
fn opens_answer_as_the_table_says() {
    for opening in openings() {
        let [m, n, top, capacity] = opening.shape;
        let mut slice = opening.slice.clone();
        let answer = open(m, n, top, capacity, &mut slice);
        let number = opening.number;
        assert_eq!(answer, Answer { number, place: 0 }, "{opening:?}");
        assert_eq!(slice, opening.leaves, "{opening:?}");
    }
}

#[test]
fn books_are_kept_as_the_table_says() {
    for book in books() {
        let mut register = book.before.clone();
        for (call, answer) in &book.calls {
            assert_eq!(call.on_register(&mut register), *answer, "{call:?}");
        }
        assert_eq!(register, book.leaves, "{book:?}");
    }
}

#[test]
fn some_books_have_calls_of_both_sets() {
    let of_both = |calls: &[(Call, Answer)]| {
        ["enter", "terminal enter"].map(|name| calls.iter().any(|(call, _)| call.name() == name))
    };
    let mixed = books()
        .iter()
        .filter(|book| of_both(&book.calls) == [true, true])
        .count();
    assert_eq!(mixed, 2);
}

#[test]
fn bounds_are_pruned_and_counted_as_the_table_says() {
    for case in count_cases() {
        let contents = Contents::read(&case.register).expect("it is a register");
        let (m, n, top) = (contents.rows, contents.columns, contents.top);
        let (mut low, mut high) = case.sent.clone();
        let pruned = prune(m, n, top, &mut low, &mut high);
        assert_eq!(pruned.number, case.number, "{case:?}");
        assert_eq!((low, high), case.left, "{case:?}");
        for ((low, high), place) in [&case.sent, &case.left].into_iter().zip(case.counts) {
            let expected = Answer { number: 0, place };
            assert_eq!(count(&case.register, low, high), expected, "{case:?}");
        }
    }
}

#[test]
fn planbook_prints_what_the_table_says() {
    for run in transcripts() {
        assert_eq!(transcript(&run.input), run.output, "{run:?}");
    }
}
