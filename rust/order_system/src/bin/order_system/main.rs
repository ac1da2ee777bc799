//! A small order system: it charges a plan once, however its rows and columns are arranged, and
//! keeps what each client holds.

mod order;

use order::{Call, Order};
use order_system::{Book, Error, Fault};
use plan_register::{Client, Entered};
use std::ffi::OsString;
use std::io::{self, BufRead, Write};
use std::path::Path;
use std::process::ExitCode;

const ROWS: usize = 2;
const COLUMNS: usize = 3;
const TOP: usize = 3;
const CAPACITY: usize = 3;

const USAGE: &str = "\
usage: order_system FILE
Takes orders from standard input, a line each, and keeps its register in the file, which is made
where there is none: `enter CLIENT CELLS..` or `strike CLIENT CELLS..`, the cells row after row.
Empty lines and lines that begin with # are skipped.
";

fn main() -> ExitCode {
    let arguments: Vec<OsString> = std::env::args_os().skip(1).collect();
    let ended = match &arguments[..] {
        [help] if help == "--help" || help == "-h" => say(USAGE).map(|()| true),
        [file] => run(Path::new(file)),
        _ => {
            complain(USAGE);
            return ExitCode::from(2);
        }
    };
    match ended {
        Ok(true) => ExitCode::SUCCESS,
        Ok(false) => ExitCode::FAILURE,
        Err(message) => {
            complain(&format!("order_system: {message}\n"));
            ExitCode::FAILURE
        }
    }
}

/// Takes the orders, then prints what is held. Was every line an order?
fn run(file: &Path) -> Result<bool, String> {
    let book = Book::open_or_create(file, ROWS, COLUMNS, TOP, CAPACITY);
    let book = book.map_err(|error| error.to_string())?;
    say(&held(&book)?)?;
    let all_orders = take_orders(&book)?;
    say(&entries(&book)?)?;
    Ok(all_orders)
}

fn take_orders(book: &Book) -> Result<bool, String> {
    let mut input = io::stdin().lock();
    let mut all_orders = true;
    for number in 1.. {
        let place = format!("standard input, line {number}");
        let mut line = Vec::new();
        let read = input.read_until(b'\n', &mut line);
        if read.map_err(|error| format!("{place}: {error}"))? == 0 {
            break;
        }
        match order(&line) {
            Ok(None) => {}
            Ok(Some(order)) => take(book, number, &order)?,
            Err(reason) => {
                complain(&format!("{place}: {reason}\n"));
                all_orders = false;
            }
        }
    }
    Ok(all_orders)
}

/// The order in a line. One without a line feed may be cut off in the middle of a number.
fn order(line: &[u8]) -> Result<Option<Order>, String> {
    let line = line.strip_suffix(b"\n");
    let line = line.ok_or("the last line does not end with a line feed")?;
    Order::read(&String::from_utf8_lossy(line))
}

/// Settles an order, then prints the answer.
fn take(book: &Book, number: usize, order: &Order) -> Result<(), String> {
    let answer = settle(book, order).map_err(|error| match error.fault {
        Fault::Unsure(_) => format!("line {number} may be settled or not: {error}"),
        _ => format!("line {number} is not settled: {error}"),
    })?;
    let said = say(&format!("line {number}: {:?} {answer}\n", order.plan));
    said.map_err(|error| format!("line {number} is settled, its answer not printed: {error}"))
}

/// What comes of an order. A refusal is an answer; any other error ends the run.
fn settle(book: &Book, order: &Order) -> Result<String, Error> {
    match (Client::numbered(order.client), &order.call) {
        (Ok(client), Call::Enter) => enter(book, client, &order.plan),
        (Ok(client), Call::Strike) => strike(book, client, &order.plan),
        (Err(refusal), _) => Ok(format!("refused: {refusal}")),
    }
}

/// A new plan is charged, and by then it is held in the file.
fn enter(book: &Book, client: Client, plan: &[u8]) -> Result<String, Error> {
    let charged = format!("charged to client {}", client.number());
    match book.enter(client, plan) {
        Ok(Entered::New { place }) => Ok(format!("{charged}, at place {place}")),
        Ok(Entered::Held { place }) => Ok(format!("not {charged}, held at place {place}")),
        Err(error) => refused("refused", error),
    }
}

/// Withdraws a plan for a client who holds it. What others hold of it stays.
fn strike(book: &Book, client: Client, plan: &[u8]) -> Result<String, Error> {
    let withdrawn = format!("withdrawn by client {}", client.number());
    match book.strike(client, plan) {
        Ok(place) => Ok(format!("{withdrawn} from place {place}")),
        Err(error) => refused(&format!("not {withdrawn}"), error),
    }
}

/// The answer where the register refuses the call.
fn refused(what: &str, error: Error) -> Result<String, Error> {
    match error.fault {
        Fault::Refused(refusal) => Ok(format!("{what}: {refusal}")),
        _ => Err(error),
    }
}

fn held(book: &Book) -> Result<String, String> {
    let register = book.register().map_err(|error| error.to_string())?;
    Ok(format!("{} plans are held\n", register.count()))
}

fn entries(book: &Book) -> Result<String, String> {
    let register = book.register().map_err(|error| error.to_string())?;
    let lines = register.entries().map(|entry| {
        let (grid, holdings) = (entry.grid, entry.holdings);
        format!("{grid:?} held by clients 1 to 8: {holdings:?}\n")
    });
    Ok(lines.collect())
}

/// Prints on standard output, at once.
fn say(text: &str) -> Result<(), String> {
    let mut output = io::stdout().lock();
    let said = output.write_all(text.as_bytes());
    let said = said.and_then(|()| output.flush());
    said.map_err(|error| format!("standard output: {error}"))
}

/// Prints on standard error. Where that fails, there is nobody left to tell.
fn complain(text: &str) {
    let _ = io::stderr().write_all(text.as_bytes());
}
