//! The example's orders, run twice on one file: all that is printed, and the file's bytes; and the
//! guide, which quotes the programs and what they print.

mod common;

use common::{check, folder, names, run, text, ORDERS};
use std::path::Path;
use std::process::Command;

const FIRST: &str = "\
0 plans are held
line 1: [2, 2, 3, 2, 3, 1] charged to client 1, at place 1
line 2: [2, 1, 3, 2, 3, 2] not charged to client 2, held at place 1
line 3: [1, 1, 2, 0, 1, 0] charged to client 1, at place 1
line 4: [0, 0, 0, 1, 1, 1] charged to client 8, at place 1
line 5: [0, 1, 2, 3, 3, 3] refused: nobody holds the class, and the register is full (number 9)
line 6: [2, 2, 3, 2, 3, 4] refused: a cell or a bound is above top (number 7)
line 7: [2, 2, 3, 2, 3, 1] refused: the client is not 1 to 8 (number 15)
line 8: [0, 1, 0, 1, 1, 2] not withdrawn by client 2: this client holds none of the class (number 10)
line 9: [0, 1, 0, 1, 1, 2] withdrawn by client 1 from place 2
[0, 0, 0, 1, 1, 1] held by clients 1 to 8: [0, 0, 0, 0, 0, 0, 0, 1]
[1, 2, 3, 3, 2, 2] held by clients 1 to 8: [1, 1, 0, 0, 0, 0, 0, 0]
";

const SECOND: &str = "\
2 plans are held
line 1: [2, 2, 3, 2, 3, 1] not charged to client 1, held at place 2
line 2: [2, 1, 3, 2, 3, 2] not charged to client 2, held at place 2
line 3: [1, 1, 2, 0, 1, 0] charged to client 1, at place 2
line 4: [0, 0, 0, 1, 1, 1] not charged to client 8, held at place 1
line 5: [0, 1, 2, 3, 3, 3] refused: nobody holds the class, and the register is full (number 9)
line 6: [2, 2, 3, 2, 3, 4] refused: a cell or a bound is above top (number 7)
line 7: [2, 2, 3, 2, 3, 1] refused: the client is not 1 to 8 (number 15)
line 8: [0, 1, 0, 1, 1, 2] not withdrawn by client 2: this client holds none of the class (number 10)
line 9: [0, 1, 0, 1, 1, 2] withdrawn by client 1 from place 2
[0, 0, 0, 1, 1, 1] held by clients 1 to 8: [0, 0, 0, 0, 0, 0, 0, 2]
[1, 2, 3, 3, 2, 2] held by clients 1 to 8: [2, 2, 0, 0, 0, 0, 0, 0]
";

const FORMS: &str = "\
1 of 2 entries are in bounds
pruned of 3 values: [1, 0, 0, 1, 1, 1] to [3, 3, 3, 3, 3, 3]
least [1, 2, 3, 3, 2, 2]; one plan, by rows [1, 0] and columns [0, 2, 1]
least [0, 0, 1, 1, 2, 1]; two plans, which agree in 2 cells of the first row
";

const LEFT_BY_FIRST: &str = "     2     3     3     3     2
  0  0  0  1  1  1  0  0  0  0  0  0  0  1
  1  2  3  3  2  2  1  1  0  0  0  0  0  0
                                          \n";

const LEFT_BY_SECOND: &str = "     2     3     3     3     2
  0  0  0  1  1  1  0  0  0  0  0  0  0  2
  1  2  3  3  2  2  2  2  0  0  0  0  0  0
                                          \n";

fn check_forms(file: &Path) {
    let mut forms = Command::new(env!("CARGO_BIN_EXE_forms_and_classes"));
    let output = forms.arg(file).output().expect("the program starts");
    check(&output, FORMS, "", 0);
}

#[test]
fn a_plan_is_charged_once_over_two_runs() {
    let folder = folder("two_runs");
    let file = folder.join("register.txt");
    for (expected, left) in [(FIRST, LEFT_BY_FIRST), (SECOND, LEFT_BY_SECOND)] {
        check(&run(&file, ORDERS), expected, "", 0);
        assert_eq!(text(&file), left);
        check_forms(&file);
        assert_eq!(text(&file), left);
        assert_eq!(names(&folder), ["register.txt"]);
    }
}

#[test]
fn without_orders_the_book_stays_as_it_is() {
    let file = folder("no_orders").join("register.txt");
    check(&run(&file, ""), "0 plans are held\n", "", 0);
    assert_eq!(text(&file).len(), LEFT_BY_FIRST.len());
    run(&file, ORDERS);
    let held = FIRST.lines().skip(10).map(|line| format!("{line}\n"));
    let expected: String = ["2 plans are held\n".into()]
        .into_iter()
        .chain(held)
        .collect();
    check(&run(&file, "\n# nothing\n"), &expected, "", 0);
    assert_eq!(text(&file), LEFT_BY_FIRST);
}

#[test]
fn the_guide_quotes_the_example_to_the_letter() {
    let guide = include_str!("../../../docs/GUIDE.md");
    let sources = [
        include_str!("../src/bin/order_system/main.rs"),
        include_str!("../src/bin/order_system/order.rs"),
        include_str!("../src/bin/forms_and_classes.rs"),
        include_str!("../src/locked.rs"),
        include_str!("../src/temporary.rs"),
        transaction(),
    ];
    for source in sources {
        let quoted = format!("```rust,ignore\n{source}```\n");
        assert!(guide.contains(&quoted), "{source}");
    }
    for text in [ORDERS, FIRST, FORMS] {
        assert!(guide.contains(&format!("```text\n{text}```\n")), "{text}");
    }
}

/// The method of this name.
fn transaction() -> &'static str {
    let book = include_str!("../src/book.rs");
    let start = book.find("    /// One transaction").expect("it is there");
    let end = start + book[start..].find("\n\n").expect("it ends");
    &book[start..=end]
}
