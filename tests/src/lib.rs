//! The clearing book for futures-style options once more, in plain Rust.
//!
//! Written from the rules and never from the proved sources, so that these have a second hand to be compared with,
//! and a speed to be measured against. Comments name the section of docs/RULES.md that a piece of code follows.

pub mod book;
pub mod calendar;
pub mod code_lines;
pub mod codes;
pub mod interest_lines;
pub mod load;
pub mod market;
pub mod output;
pub mod program;
pub mod random;
pub mod refusal;
pub mod rows;
pub mod value;

use std::io::{self, Read, Write};
use std::ops::Range;

use book::Book;
use calendar::Calendar;
use market::{FIRST_OF_PERIODS, FIRST_WITH_SECTIONS};
use refusal::Refusal;
use rows::Rows;

/// Output is handed on in pieces of about this size.
const PIECE: usize = 1 << 16;

/// Runs the rows of `input` through an empty book and writes the lines of their answers to `output`. A calendar that is
/// refused has its line in place of theirs, and no row is read.
pub fn replay(file: &calendar::File, input: impl Read, output: impl Write) -> io::Result<()> {
    match file.calendar() {
        Ok(calendar) => replay_rows(&calendar, input, output),
        Err(refusal) => refuse_calendar(refusal, output),
    }
}

/// A read error ends the run after the rows that were read.
fn replay_rows(calendar: &Calendar, input: impl Read, mut output: impl Write) -> io::Result<()> {
    let mut rows = Rows::new(input);
    let mut book = Book::new();
    let mut lines = Vec::with_capacity(2 * PIECE);
    lines.extend_from_slice(output::HEADER);
    let mut number = 0;
    let end = loop {
        match rows.next_row() {
            Ok(Some(row)) => {
                number += 1;
                let answer = rows::read(row, calendar).and_then(|event| book.apply(event));
                output::write_lines(&mut lines, number, &answer);
            }
            Ok(None) => break Ok(()),
            Err(error) => break Err(error),
        }
        if lines.len() >= PIECE {
            output.write_all(&lines)?;
            lines.clear();
        }
    };
    output.write_all(&lines)?;
    output.flush()?;
    end
}

fn refuse_calendar(refusal: Refusal, mut output: impl Write) -> io::Result<()> {
    let mut lines = output::HEADER.to_vec();
    output::write_lines(&mut lines, 0, &Err(refusal));
    output.write_all(&lines)?;
    output.flush()
}

/// The markets that the gate compares: those that name no sections,
pub const GATE_SEEDS: Range<u64> = 0..1000;

/// those that do,
pub const GATE_SECTION_SEEDS: Range<u64> = FIRST_WITH_SECTIONS..FIRST_WITH_SECTIONS + 300;

/// and those of periods.
pub const GATE_PERIOD_SEEDS: Range<u64> = FIRST_OF_PERIODS..FIRST_OF_PERIODS + 100;

pub fn gate_seeds() -> impl Iterator<Item = u64> {
    GATE_SEEDS.chain(GATE_SECTION_SEEDS).chain(GATE_PERIOD_SEEDS)
}

/// The markets on which it compares the open interest, some of each.
pub const GATE_INTEREST: [Range<u64>; 3] =
    [0..100, FIRST_WITH_SECTIONS..FIRST_WITH_SECTIONS + 60, FIRST_OF_PERIODS..FIRST_OF_PERIODS + 40];

/// The seeds of the contract codes that it compares beside them.
pub const GATE_CODES: Range<u64> = 0..200;

/// And of the calendars, each with a few rows.
pub const GATE_CALENDARS: Range<u64> = 0..250;
