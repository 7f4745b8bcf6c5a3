//! Reads rows from standard input and writes the open interest of all series after each of them to standard output.

use std::io::{self, ErrorKind, Read, Write};
use std::process::ExitCode;

use second::interest_lines::{lines, MOST_BYTES};

fn main() -> ExitCode {
    match run() {
        Ok(()) => ExitCode::SUCCESS,
        // Whoever read the output has enough of it.
        Err(error) if error.kind() == ErrorKind::BrokenPipe => ExitCode::SUCCESS,
        Err(error) => {
            eprintln!("interest: {error}");
            ExitCode::FAILURE
        }
    }
}

fn run() -> io::Result<()> {
    let mut input = Vec::new();
    io::stdin().take(MOST_BYTES as u64).read_to_end(&mut input)?;
    let mut output = io::stdout();
    output.write_all(&lines(&input))?;
    output.flush()
}
