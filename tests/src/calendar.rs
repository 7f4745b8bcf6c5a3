//! RULES, "Trading calendar".

use std::fs;
use std::io::{ErrorKind, Read};
use std::path::Path;

use crate::codes::Date;
use crate::refusal::Refusal;

pub const MOST_DATES: usize = 1_000;

/// The bytes of a line: DDMMYY and CRLF.
const LINE: usize = 8;

pub const MOST_BYTES: usize = MOST_DATES * LINE;

pub const FILE_NAME: &str = "calendar.txt";

/// Trading dates, strictly rising. The first is day 0.
#[derive(Clone, Debug, Default, PartialEq, Eq)]
pub struct Calendar {
    dates: Vec<Date>,
}

impl Calendar {
    fn of_dates(dates: Vec<Date>) -> Result<Self, Refusal> {
        let is_sound = dates.len() <= MOST_DATES
            && dates.iter().all(|date| date.exists())
            && dates.windows(2).all(|pair| pair[0] < pair[1]);
        if is_sound {
            Ok(Calendar { dates })
        } else {
            Err(Refusal::Calendar)
        }
    }

    /// Reads lines of DDMMYY and CRLF; the last may lack its CRLF.
    pub fn read(bytes: &[u8]) -> Result<Self, Refusal> {
        // All dates are equally long: behind a line of another length nothing is in its place.
        let dates: Option<Vec<Date>> = bytes.chunks(LINE).map(date_of_line).collect();
        Calendar::of_dates(dates.ok_or(Refusal::Calendar)?)
    }

    pub fn dates(&self) -> &[Date] {
        &self.dates
    }

    /// The day of a trading date; other dates have none.
    pub fn day(&self, date: Date) -> Option<u64> {
        self.dates.binary_search(&date).ok().map(|place| place as u64)
    }

    /// The trading date of a day.
    pub fn date(&self, day: u64) -> Option<Date> {
        self.dates.get(usize::try_from(day).ok()?).copied()
    }
}

fn date_of_line(line: &[u8]) -> Option<Date> {
    let digits = line.strip_suffix(b"\r\n").unwrap_or(line);
    Date::read(digits.try_into().ok()?)
}

/// What a folder has under the calendar's name.
#[derive(Clone, Debug, PartialEq, Eq)]
pub enum File {
    Missing,
    Bytes(Vec<u8>),
    /// A folder, a file that one has no right to read, or a link that leads nowhere.
    Unreadable,
}

impl File {
    /// That of the present folder.
    pub fn here() -> Self {
        File::at(Path::new(FILE_NAME))
    }

    pub fn at(path: &Path) -> Self {
        match fs::File::open(path) {
            Ok(file) => File::first_bytes(file),
            Err(_) if is_free(path) => File::Missing,
            Err(_) => File::Unreadable,
        }
    }

    /// Of a file that is too long for a calendar one byte more than a calendar can have.
    fn first_bytes(file: impl Read) -> Self {
        let mut bytes = Vec::new();
        match file.take(MOST_BYTES as u64 + 1).read_to_end(&mut bytes) {
            Ok(_) => File::Bytes(bytes),
            Err(_) => File::Unreadable,
        }
    }

    pub fn calendar(&self) -> Result<Calendar, Refusal> {
        match self {
            File::Missing => Ok(Calendar::default()),
            File::Bytes(bytes) => Calendar::read(bytes),
            File::Unreadable => Err(Refusal::Calendar),
        }
    }
}

/// Whether nothing has the name. To open a link that leads nowhere fails as if nothing had.
fn is_free(path: &Path) -> bool {
    fs::symlink_metadata(path).is_err_and(|error| error.kind() == ErrorKind::NotFound)
}

#[cfg(test)]
mod tests;
