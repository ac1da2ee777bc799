//! What else a register can be asked: how many entries lie within a form, and how far two plans
//! agree. `forms_and_classes FILE` reads a book of plans of 2 by 3, and changes nothing.

use order_system::Book;
use plan_register::numbers::{NO_GRID, TWO_CLASSES};
use plan_register::{prune, represent, same, Refusal, Register};
use std::error::Error;
use std::io::{self, Write};
use std::process::ExitCode;

const ROWS: usize = 2;
const COLUMNS: usize = 3;
const TOP: usize = 3;
const CELLS: usize = ROWS * COLUMNS;

fn main() -> ExitCode {
    match run() {
        Ok(()) => ExitCode::SUCCESS,
        Err(error) => {
            let _ = writeln!(io::stderr(), "forms_and_classes: {error}");
            ExitCode::FAILURE
        }
    }
}

fn run() -> Result<(), Box<dyn Error>> {
    let file = std::env::args_os().nth(1).ok_or("name a file")?;
    let register = Book::open(file)?.register()?;
    let lines = [
        count(&register)?,
        compare(&[2, 2, 3, 2, 3, 1], &[2, 1, 3, 2, 3, 2])?,
        compare(&[1, 1, 2, 0, 1, 0], &[0, 0, 0, 1, 1, 1])?,
    ];
    Ok(writeln!(io::stdout(), "{}", lines.join("\n"))?)
}

/// Prunes the bounds of plans whose first cell is 1 or more, and counts the entries within them.
fn count(register: &Register) -> Result<String, Refusal> {
    let (mut low, mut high) = ([1, 0, 0, 0, 0, 0], [3; CELLS]);
    let pruned = prune(ROWS, COLUMNS, TOP, &mut low, &mut high);
    passed(pruned.number)?;
    if pruned.number == NO_GRID {
        return Ok("no entry can be in bounds".into());
    }
    let (count, all) = (register.count_within(&low, &high)?, register.count());
    let values = pruned.count;
    Ok(format!(
        "{count} of {all} entries are in bounds\npruned of {values} values: {low:?} to {high:?}"
    ))
}

/// A plan's least arrangement, and whether another plan is the same: then by which orders, else how
/// far their least arrangements agree.
fn compare(plan: &[u8], other: &[u8]) -> Result<String, Refusal> {
    let mut least = [0; CELLS];
    passed(represent(ROWS, COLUMNS, TOP, plan, &mut least).number)?;
    let found = same(ROWS, COLUMNS, TOP, plan, other);
    passed(found.number)?;
    if found.number == TWO_CLASSES {
        let agreement = found.agreement(COLUMNS);
        return Ok(format!(
            "least {least:?}; two plans, which agree in {agreement}"
        ));
    }
    let (rows, columns) = (&found.rows[..ROWS], &found.columns[..COLUMNS]);
    Ok(format!(
        "least {least:?}; one plan, by rows {rows:?} and columns {columns:?}"
    ))
}

/// A refusal's number as an error; any other number is none.
fn passed(number: u32) -> Result<(), Refusal> {
    Refusal::numbered(number).map_or(Ok(()), Err)
}
