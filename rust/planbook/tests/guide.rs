//! The runs of the guide: each block that is marked as an input is answered by the output behind it.

use planbook::check_both;

const GUIDE: &str = include_str!("../../../docs/GUIDE.md");

/// The blocks of text in the guide, in order.
fn blocks() -> Vec<&'static str> {
    let parts = GUIDE.split("```text\n").skip(1);
    let blocks = parts.map(|part| part.split_once("```\n").expect("a block ends").0);
    blocks.collect()
}

/// The input that a block shows, if it is marked as one.
fn input(block: &str) -> Option<String> {
    let marks = [("<tab>", "\t"), ("<return>", "\r"), ("<space>", " ")];
    let typed = |text: &str| {
        let typed = marks.iter();
        typed.fold(text.to_string(), |text, (mark, key)| {
            text.replace(mark, key)
        })
    };
    if let Some(unended) = block.strip_prefix("input, without its last line feed:\n") {
        return Some(typed(unended.strip_suffix('\n').expect("a line feed")));
    }
    block.strip_prefix("input:\n").map(typed)
}

/// The inputs of the guide, each with its output.
fn runs() -> Vec<(String, &'static str)> {
    let blocks = blocks();
    let behind = blocks[1..].iter().chain([&""]);
    let runs = blocks.iter().zip(behind).filter_map(|(block, behind)| {
        let output = behind.strip_prefix("output:\n");
        Some((input(block)?, output.expect("an output behind each input")))
    });
    runs.collect()
}

#[test]
fn the_program_prints_what_the_guide_says() {
    let runs = runs();
    assert_eq!(runs.len(), GUIDE.matches("```text\noutput:\n").count());
    assert_eq!(runs.len(), 14);
    for (input, output) in runs {
        check_both(input.as_bytes(), output.as_bytes());
    }
}

#[test]
fn the_guide_explains_the_printed_run() {
    // As request 4 makes it.
    let input = include_str!("../../../crates/planbook/stdin");
    let output = include_str!("../../../crates/planbook/stdout");
    assert_eq!(runs()[0], (input.to_string(), output));
}

#[test]
fn the_guide_quotes_the_caller_to_the_letter() {
    let caller = include_str!("../src/bin/orders.rs");
    let whole = include_str!("../src/whole.rs");
    for quoted in [caller, whole] {
        assert!(GUIDE.contains(&format!("```rust,ignore\n{quoted}```\n")));
    }
}

#[test]
fn the_guide_says_what_the_program_says() {
    let source = include_str!("../../../crates/planbook/src/main.rt");
    let said: Vec<&str> = source.split("\"planbook: ").skip(1).collect();
    assert_eq!(said.len(), 2);
    for said in said {
        let said = said.split('"').next().expect("it ends");
        assert!(GUIDE.contains(&format!("`planbook: {said}: ..`")), "{said}");
    }
}

#[test]
fn the_inputs_hold_the_keys_that_are_marked() {
    let inputs: Vec<String> = runs().into_iter().map(|(input, _)| input).collect();
    for key in ['\t', '\r'] {
        assert!(inputs.iter().any(|input| input.contains(key)));
    }
    assert!(inputs.iter().any(|input| !input.ends_with('\n')));
    assert!(inputs.iter().any(|input| input.contains(" \n")));
    assert!(!inputs.iter().any(|input| input.contains('<')));
}
