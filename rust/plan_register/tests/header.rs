//! The C header, the wrapper and the library's source: the same numbers, the same calls.

use plan_register::numbers;

const HEADER: &str = include_str!("../../../include/plan_register.h");
const NUMBERS: &str = include_str!("../src/numbers.rs");
const DECLARATIONS: &str = include_str!("../src/sys.rs");
const SOURCE: &str = include_str!("../../../crates/plan_register/src/lib.rt");

/// The names and values of the lines that begin so and have this between name and value.
fn constants<'a>(text: &'a str, begin: &str, between: &str) -> Vec<(&'a str, u32)> {
    let lines = text.lines().filter_map(|line| {
        let (name, value) = line.trim().strip_prefix(begin)?.split_once(between)?;
        let digits = value.split(|c: char| !c.is_ascii_digit()).next()?;
        Some((name, digits.parse().ok()?))
    });
    lines.collect()
}

#[test]
fn the_header_has_the_numbers_of_the_wrapper() {
    let expected = [
        ("DONE", numbers::DONE),
        ("ROWS", numbers::ROWS),
        ("COLUMNS", numbers::COLUMNS),
        ("TOP", numbers::TOP),
        ("CAPACITY", numbers::CAPACITY),
        ("LAYOUT", numbers::LAYOUT),
        ("LENGTH", numbers::LENGTH),
        ("CELL", numbers::CELL),
        ("BOUNDS", numbers::BOUNDS),
        ("FULL", numbers::FULL),
        ("NOT_HELD", numbers::NOT_HELD),
        ("TERMINAL_ROWS", numbers::TERMINAL_ROWS),
        ("CLIENT", numbers::CLIENT),
        ("HOLDING", numbers::HOLDING),
        ("HELD", numbers::HELD),
        ("NO_GRID", numbers::NO_GRID),
        ("TWO_CLASSES", numbers::TWO_CLASSES),
    ];
    assert_eq!(constants(NUMBERS, "pub const ", ": u32 = "), expected);
    assert_eq!(constants(HEADER, "PLAN_REGISTER_", " = "), expected);
}

#[test]
fn the_numbers_are_those_of_documents_01_and_02() {
    let values = constants(HEADER, "PLAN_REGISTER_", " = ").into_iter();
    let values: Vec<u32> = values.map(|(_, value)| value).collect();
    let refusals = [1, 2, 3, 4, 5, 6, 7, 8, 9, 10, 14, 15, 16];
    assert_eq!(values, [&[0], &refusals[..], &[101, 102, 103]].concat());
}

/// A call: its name, the types of its arguments and of its answer, in C's words.
type Call = (String, Vec<&'static str>, String);

/// The call that a text begins with, once each argument's type is turned into C's words.
fn call(text: &str, types: impl Fn(&str) -> Vec<&'static str>) -> Call {
    let (name, rest) = text.split_once('(').expect("a call has arguments");
    let (arguments, rest) = rest.split_once(')').expect("the arguments end");
    let arguments = arguments.split(',').map(str::trim);
    let arguments = arguments.filter(|argument| !argument.is_empty());
    let answer = rest.trim_start_matches(" -> ");
    let answer = answer.split(|c: char| !c.is_alphanumeric()).next();
    (
        name.to_string(),
        arguments.flat_map(types).collect(),
        in_c(answer.expect("a call has an answer")),
    )
}

/// The name that a struct of Rust's has in C, in lower case, with an underscore between its words.
fn in_c(name: &str) -> String {
    let mut in_c = String::new();
    for letter in name.chars() {
        if letter.is_uppercase() && !in_c.is_empty() {
            in_c.push('_');
        }
        in_c.extend(letter.to_lowercase());
    }
    in_c
}

/// The calls that the library's source exports.
fn exported() -> Vec<Call> {
    let types = |argument: &str| match argument.split_once(": ").expect("a type").1 {
        "usize" => vec!["size_t"],
        "&[u8]" => vec!["const uint8_t *", "size_t"],
        "&mut [u8]" => vec!["uint8_t *", "size_t"],
        other => panic!("{other}"),
    };
    let texts = SOURCE.split("pub extern \"C\" fn ").skip(1);
    texts.map(|text| call(text, types)).collect()
}

/// The calls that the wrapper declares.
fn declared_in_rust() -> Vec<Call> {
    let types = |argument: &str| match argument.split_once(": ").expect("a type").1 {
        "usize" => vec!["size_t"],
        "*const u8" => vec!["const uint8_t *"],
        "*mut u8" => vec!["uint8_t *"],
        other => panic!("{other}"),
    };
    let texts = DECLARATIONS.split("pub fn ").skip(1);
    texts.map(|text| call(text, types)).collect()
}

/// The calls that the header declares. There the answer stands before the name.
fn declared_in_c() -> Vec<Call> {
    let is_name = |c: char| c.is_alphanumeric() || c == '_';
    let types = |argument: &str| match argument.trim_end_matches(is_name).trim_end() {
        "size_t" => vec!["size_t"],
        "const uint8_t *" => vec!["const uint8_t *"],
        "uint8_t *" => vec!["uint8_t *"],
        other => panic!("{other}"),
    };
    let texts = HEADER.split("\nplan_register_").skip(1);
    let calls = texts.map(|text| {
        let (answer, rest) = text.split_once(' ').expect("an answer and a name");
        let (name, types, _) = call(rest, types);
        (name, types, answer.to_string())
    });
    calls.collect()
}

#[test]
fn the_declarations_are_the_calls_of_the_library() {
    let exported = exported();
    assert_eq!(exported.len(), 10);
    assert_eq!(declared_in_c(), exported);
    assert_eq!(declared_in_rust(), exported);
}
