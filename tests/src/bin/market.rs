//! Prints the market of a seed, `market SEED`, which names sections from seed 1000000 on and is of periods from seed 2000000
//! on, or the market of the full size, `market full`.

use std::io::{self, BufWriter, Write};
use std::process::ExitCode;

use second::{load, market};

fn main() -> ExitCode {
    let words: Vec<String> = std::env::args().skip(1).collect();
    let mut output = BufWriter::new(io::stdout().lock());
    let written = match words.as_slice() {
        [word] if word == "full" => load::write(output),
        [word] => match word.parse() {
            Ok(seed) => output.write_all(&market::market(seed)).and_then(|()| output.flush()),
            Err(_) => return usage(),
        },
        _ => return usage(),
    };
    match written {
        Ok(()) => ExitCode::SUCCESS,
        Err(_) => ExitCode::FAILURE,
    }
}

fn usage() -> ExitCode {
    eprintln!("usage: market SEED, or market full");
    ExitCode::from(2)
}
