//! `reference script` runs a script of the line protocol; `reference list` lists a rule file's table.

use std::io::{self, BufWriter, Read, Write};
use std::process::ExitCode;

fn main() -> ExitCode {
    let mode = std::env::args_os().nth(1);
    let outcome = match mode.as_ref().and_then(|mode| mode.to_str()) {
        Some("script") => run_script(),
        Some("list") => list(),
        _ => return usage(),
    };
    match outcome {
        Ok(()) => ExitCode::SUCCESS,
        Err(_) => ExitCode::FAILURE,
    }
}

fn run_script() -> io::Result<()> {
    reference::script::run_script(io::stdin().lock(), BufWriter::new(io::stdout().lock()))
}

/// Lists the table of the rule file on standard input, of which at most 49,152 bytes are read.
fn list() -> io::Result<()> {
    let mut file = Vec::new();
    io::stdin().lock().take(reference::LISTING_BYTES as u64).read_to_end(&mut file)?;
    let mut output = io::stdout().lock();
    output.write_all(&reference::list_table(&file))?;
    output.flush()
}

fn usage() -> ExitCode {
    let _ = writeln!(io::stderr(), "usage: reference script | reference list");
    ExitCode::FAILURE
}
