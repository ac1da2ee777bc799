//! Runs planbook on a file of orders: `orders PLANBOOK FILE`. Prints what planbook prints and ends
//! with status 0 where that is whole. Otherwise it prints nothing, says why, and ends with status 1.

use planbook::whole::is_whole;
use std::error::Error;
use std::ffi::OsStr;
use std::io::{self, ErrorKind::BrokenPipe, Write};
use std::path::Path;
use std::process::{Command, ExitCode, Stdio};
use std::{env, fs};

fn main() -> ExitCode {
    let arguments: Vec<_> = env::args_os().skip(1).collect();
    let [planbook, file] = &arguments[..] else {
        eprintln!("usage: orders PLANBOOK FILE");
        return ExitCode::from(2);
    };
    match run(planbook, Path::new(file)) {
        Ok(()) => ExitCode::SUCCESS,
        Err(error) => {
            eprintln!("orders: {}: {error}", file.display());
            ExitCode::FAILURE
        }
    }
}

fn run(planbook: &OsStr, file: &Path) -> Result<(), Box<dyn Error>> {
    let input = fs::read(file)?;
    let output = printed(planbook, &input)?;
    if !is_whole(&input, &output) {
        return Err("what planbook printed is not whole; charge nothing by it".into());
    }
    let mut out = io::stdout();
    out.write_all(&output)?;
    out.flush()?;
    Ok(())
}

/// What planbook prints for the input. What it says goes to standard error.
fn printed(planbook: &OsStr, input: &[u8]) -> Result<Vec<u8>, Box<dyn Error>> {
    let mut command = Command::new(planbook);
    let mut child = command
        .stdin(Stdio::piped())
        .stdout(Stdio::piped())
        .spawn()?;
    let written = child.stdin.take().ok_or("no pipe")?.write_all(input);
    let output = child.wait_with_output()?;
    match written {
        // it stops reading at a byte over the limit of an input
        Err(error) if error.kind() != BrokenPipe => Err(error.into()),
        _ if !output.status.success() => Err(format!("planbook: {}", output.status).into()),
        _ => Ok(output.stdout),
    }
}
