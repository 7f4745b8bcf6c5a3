//! Reads rows from standard input and writes the lines of their answers to standard output. The trading calendar is that
//! of the present folder.

use std::io::{self, ErrorKind};
use std::process::ExitCode;

use second::calendar::File;

fn main() -> ExitCode {
    match second::replay(&File::here(), io::stdin().lock(), io::stdout().lock()) {
        Ok(()) => ExitCode::SUCCESS,
        // Whoever read the output has enough of it.
        Err(error) if error.kind() == ErrorKind::BrokenPipe => ExitCode::SUCCESS,
        Err(error) => {
            eprintln!("second: {error}");
            ExitCode::FAILURE
        }
    }
}
