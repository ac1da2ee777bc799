//! The worked cases of the definitions, read from the tables that are proved of them.

use crate::antt_records::{field, numbers, records, text_bytes, without_comments};
use crate::calls::Call;
use crate::forms::Form;
use crate::register::Answer;

/// Bytes, and what question 5 answers to them.
#[derive(Clone, Debug)]
pub struct Bytes {
    pub bytes: Vec<u8>,
    pub answer: bool,
}

/// Two grids with their rows, columns and top, same's number, and how many cells agree.
#[derive(Clone, Debug)]
pub struct Pair {
    pub shape: [u64; 3],
    pub a: Vec<u8>,
    pub b: Vec<u8>,
    pub number: u32,
    pub agreed: u32,
}

/// An open: its four numbers, the slice lent to it, its number, and the bytes that it leaves.
#[derive(Clone, Debug)]
pub struct Opening {
    pub shape: [u64; 4],
    pub slice: Vec<u8>,
    pub number: u32,
    pub leaves: Vec<u8>,
}

/// A register's bytes, calls on it with their answers, and the bytes that they leave.
#[derive(Clone, Debug)]
pub struct Book {
    pub before: Vec<u8>,
    pub calls: Vec<(Call, Answer)>,
    pub leaves: Vec<u8>,
}

/// A register's bytes and bounds, prune's number, the bounds that it leaves, and the counts of the
/// bounds as sent and of those left.
#[derive(Clone, Debug)]
pub struct CountCase {
    pub register: Vec<u8>,
    pub sent: Form,
    pub number: u32,
    pub left: Form,
    pub counts: [u64; 2],
}

/// A run of `planbook`: its input and its output.
#[derive(Clone, Debug)]
pub struct Run {
    pub input: Vec<u8>,
    pub output: Vec<u8>,
}

/// Pairs of lists, each with how many leading values agree.
pub fn prefixes() -> Vec<(Vec<u8>, Vec<u8>, usize)> {
    let cases = table("Pairs", "prefixes", "{ a = ");
    let read = |case: &String| {
        let agreed = numbers(field(case, "agreed"))[0] as usize;
        (cells(field(case, "a")), cells(field(case, "b")), agreed)
    };
    cases.iter().map(read).collect()
}

/// The pairs of grids that same is asked of.
pub fn pairs() -> Vec<Pair> {
    let [of_same, _] = tables("Pairs", ["pairs", "terminal_pairs"], " number = ");
    of_same.iter().map(|case| pair(case)).collect()
}

/// Those that a terminal's same is asked of.
pub fn terminal_pairs() -> Vec<Pair> {
    let [_, of_terminal] = tables("Pairs", ["pairs", "terminal_pairs"], " number = ");
    of_terminal.iter().map(|case| pair(case)).collect()
}

fn pair(case: &str) -> Pair {
    Pair {
        shape: ["m", "n", "top"].map(|name| numbers(field(case, name))[0]),
        a: cells(field(case, "a")),
        b: cells(field(case, "b")),
        number: numbers(field(case, "number"))[0] as u32,
        agreed: numbers(field(case, "agreed"))[0] as u32,
    }
}

/// The byte strings of question 5.
pub fn registers() -> Vec<Bytes> {
    let cases = table("Registers", "registers", "answer = ");
    let read = |case: &String| Bytes {
        bytes: text_bytes(field(case, "lines")),
        answer: field(case, "answer") == "true",
    };
    cases.iter().map(read).collect()
}

/// The opens.
pub fn openings() -> Vec<Opening> {
    let cases = table("Books", "openings", " slice = ");
    let read = |case: &String| Opening {
        shape: numbers(field(case, "shape"))
            .try_into()
            .expect("four numbers"),
        slice: text_bytes(field(case, "slice")),
        number: numbers(field(case, "number"))[0] as u32,
        leaves: text_bytes(field(case, "leaves")),
    };
    cases.iter().map(read).collect()
}

/// The lists of calls.
pub fn books() -> Vec<Book> {
    let cases = table("Books", "books", " before = ");
    let read = |case: &String| Book {
        before: text_bytes(field(case, "before")),
        calls: calls(case),
        leaves: text_bytes(field(case, "leaves")),
    };
    cases.iter().map(read).collect()
}

/// The bounds that are counted as sent and pruned.
pub fn count_cases() -> Vec<CountCase> {
    let cases = table("Counts", "count_cases", " pruned_low = ");
    let form = |case: &str, names: [&str; 2]| names.map(|name| cells(field(case, name))).into();
    let read = |case: &String| CountCase {
        register: text_bytes(field(case, "lines")),
        sent: form(case, ["low", "high"]),
        number: numbers(field(case, "number"))[0] as u32,
        left: form(case, ["pruned_low", "pruned_high"]),
        counts: ["sent", "left"].map(|name| numbers(field(case, name))[0]),
    };
    cases.iter().map(read).collect()
}

/// The runs of `planbook`.
pub fn transcripts() -> Vec<Run> {
    let cases = table("Transcripts", "runs", " input = ");
    let read = |case: &String| Run {
        input: text_bytes(field(case, "input")),
        output: text_bytes(field(case, "output")),
    };
    cases.iter().map(read).collect()
}

/// The records of the list in the file. Each of them has the mark once.
fn table(file: &str, list: &str, mark: &str) -> Vec<String> {
    let [records] = tables(file, [list], mark);
    records
}

/// The records of each list in the file. Each of them has the mark once, and nothing else has it.
fn tables<const N: usize>(file: &str, lists: [&str; N], mark: &str) -> [Vec<String>; N] {
    let path = format!(
        "{}/../../crates/worked_cases/specs/{file}.antt",
        env!("CARGO_MANIFEST_DIR")
    );
    let text = std::fs::read_to_string(&path).unwrap_or_else(|error| panic!("{path}: {error}"));
    let text = without_comments(&text);
    let tables = lists.map(|list| records(&text, list));
    let read: usize = tables.iter().map(Vec::len).sum();
    assert_eq!(read, text.matches(mark).count(), "{path}: {lists:?}");
    tables
}

/// The calls of a book, each with its answer.
fn calls(book: &str) -> Vec<(Call, Answer)> {
    let calls = call_texts(field(book, "calls"));
    let numbers_of = |name: &str| numbers(field(book, name));
    let (numbers, places) = (numbers_of("numbers"), numbers_of("places"));
    assert_eq!((numbers.len(), places.len()), (calls.len(), calls.len()));
    let answers = numbers.iter().zip(places).map(|(&number, place)| Answer {
        number: number as u32,
        place,
    });
    calls.into_iter().map(call).zip(answers).collect()
}

/// The calls of a list, each from its name to the next one's.
fn call_texts(value: &str) -> Vec<&str> {
    let names = ["enter", "strike", "count_in", "terminal_enter"];
    let is_whole = |&i: &usize| !value[..i].ends_with('_');
    let mut starts: Vec<usize> = names
        .iter()
        .flat_map(|name| value.match_indices(name).map(|(i, _)| i))
        .filter(is_whole)
        .collect();
    starts.sort_unstable();
    let ends = starts[1..].iter().copied().chain([value.len()]);
    starts
        .iter()
        .zip(ends)
        .map(|(&i, j)| &value[i..j])
        .collect()
}

fn call(text: &str) -> Call {
    let mut grids = grids(text).into_iter();
    let mut next = || grids.next().expect("a grid");
    match text.split_whitespace().next() {
        Some("enter") => Call::Enter(client(text), next()),
        Some("strike") => Call::Strike(client(text), next()),
        Some("count_in") => Call::Count((next(), next())),
        Some("terminal_enter") => Call::TerminalEnter(client(text), next()),
        _ => panic!("a call: {text}"),
    }
}

/// The client of a call: the number after its name.
fn client(text: &str) -> u64 {
    let (before, _) = text.split_once('(').expect("a grid");
    let client = before.split_whitespace().nth(1).expect("a client");
    client.parse().expect("a client's number")
}

/// The grids or bounds in a text, each in parentheses.
fn grids(value: &str) -> Vec<Vec<u8>> {
    value.split('(').skip(1).map(cells).collect()
}

/// The cells in a text.
fn cells(value: &str) -> Vec<u8> {
    numbers(value).iter().map(|&v| v as u8).collect()
}

#[cfg(test)]
mod tests {
    use super::{call, call_texts};
    use crate::calls::Call;

    #[test]
    fn calls_are_read_by_their_names() {
        let text = "enter 1 (1 ∷ 0 ∷ [])
          ∷ terminal_enter 8 (0 ∷ 15 ∷ [])
          ∷ terminal_enter 257 ([])
          ∷ strike 0 (2 ∷ [])
          ∷ count_in (0 ∷ []) (1 ∷ [])
          ∷ []";
        let calls: Vec<Call> = call_texts(text).into_iter().map(call).collect();
        let expected = [
            Call::Enter(1, vec![1, 0]),
            Call::TerminalEnter(8, vec![0, 15]),
            Call::TerminalEnter(257, vec![]),
            Call::Strike(0, vec![2]),
            Call::Count((vec![0], vec![1])),
        ];
        assert_eq!(calls, expected);
    }
}
