//! What the calendars of the markets look like, and what becomes of listings by date.

use second::book::{Book, Done, Event, LAST_DAY, SERIES, TICK};
use second::calendar::{Calendar, File, MOST_BYTES, MOST_DATES};
use second::codes::{self, Date};
use second::refusal::Refusal;
use second::rows::{self, Rows};

use super::{with_or_without_the_blank, Census};

impl Census {
    pub fn take_calendar(&mut self, file: &File) {
        match file {
            File::Missing => self.count("calendar missing"),
            File::Unreadable => self.count("calendar that is a folder"),
            File::Bytes(bytes) if bytes.is_empty() => self.count("calendar empty"),
            File::Bytes(bytes) => match Calendar::read(bytes) {
                Ok(calendar) => self.take_sound_calendar(bytes, &calendar),
                Err(_) => self.take_broken_calendar(bytes),
            },
        }
    }

    fn take_sound_calendar(&mut self, bytes: &[u8], calendar: &Calendar) {
        let end = if bytes.ends_with(b"\r\n") { "with" } else { "without" };
        self.count(format!("calendar {end} its last CRLF"));
        for (count, dates) in [(1, "one date"), (MOST_DATES, "1000 dates")] {
            self.count_if(calendar.dates().len() == count, &format!("calendar of {dates} {end} its last CRLF"));
        }
        for text in ["010100", "311299"] {
            self.count_if(calendar.day(date(text)).is_some(), &format!("calendar with {text}"));
        }
        let has_leap_day = calendar.dates().iter().any(|date| date.day == 29 && date.month == 2);
        self.count_if(has_leap_day, "calendar with 29 February of a leap year");
    }

    fn take_broken_calendar(&mut self, bytes: &[u8]) {
        self.count_if(bytes.len() == MOST_BYTES + 1, "calendar of 8001 bytes");
        self.count_if(bytes.len() > 100_000, "calendar of more than 100000 bytes");
        self.count_if(bytes.starts_with(b"\xef\xbb\xbf"), "calendar broken: byte order mark");
        self.count_if(bytes.windows(3).any(|bytes| bytes == b"\r\r\n"), "calendar broken: CR CR LF");
        self.count_if(bytes.ends_with(b"\r"), "calendar broken: lone CR at the end");
        let lines = lines(bytes);
        for (place, line) in lines.iter().enumerate() {
            if date_of(line).is_none() {
                let which = match place {
                    0 => "first",
                    _ if place + 1 == lines.len() => "last",
                    _ => "inner",
                };
                let fault = if line.is_empty() { format!("empty {which} line") } else { fault(line).into() };
                self.count(format!("calendar broken: {fault}"));
            }
        }
        let dates: Option<Vec<Date>> = lines.iter().map(|line| date_of(line)).collect();
        self.take_dates(&dates.unwrap_or_default());
    }

    fn take_dates(&mut self, dates: &[Date]) {
        self.count_if(dates.len() == MOST_DATES + 1, "calendar of 1001 dates");
        for pair in dates.windows(2) {
            let (before, after) = (pair[0], pair[1]);
            self.count_if(before == after, "calendar broken: equal dates");
            let part = match before {
                _ if before.year != after.year => "year",
                _ if before.month != after.month => "month",
                _ => "day",
            };
            self.count_if(before > after, &format!("calendar broken: dates that fall by the {part}"));
        }
    }

    /// A row that might be a listing by date, with its answer.
    pub fn take_listing(
        &mut self,
        file: &File,
        calendar: &Calendar,
        book: &Book,
        row: &[u8],
        answer: &Result<Done, Refusal>,
    ) {
        let Some(fields) = row.strip_prefix(b"L,") else { return };
        let fields: Vec<&[u8]> = fields.split(|&byte| byte == b',').collect();
        let is_20 = *answer == Err(Refusal::Row);
        match fields[..] {
            [code] => self.count_if(is_20 && codes::read(code).is_ok(), "20 for a row that ends after its code"),
            [_, _, b""] => {
                let without = rows::read(&row[..row.len() - 1], calendar);
                self.count_if(is_20 && without.is_ok(), "20 for a comma behind R");
                self.count_if(
                    is_20 && without == Err(Refusal::NoTradingDate),
                    "20 for a comma behind R and a date without a day",
                );
            }
            [code, _] if is_20 => self.count_if(codes::read(code).is_ok(), "20 for a row by date with another fault"),
            [code, tick] => {
                let tick: u64 = String::from_utf8_lossy(tick).parse().expect("it has been read");
                self.take_listing_by_date(file, calendar, book, (code, tick), answer);
            }
            [code, _, _] if matches!(answer, Ok(Done::Listed(_))) => self.take_listing_for_a_day(calendar, book, code),
            _ => {}
        }
    }

    fn take_listing_by_date(
        &mut self,
        file: &File,
        calendar: &Calendar,
        book: &Book,
        (code, tick): (&[u8], u64),
        answer: &Result<Done, Refusal>,
    ) {
        let number = answer.as_ref().map_or_else(|refusal| refusal.number(), |_| 0);
        self.count(format!("by date: {number} {}", with_or_without_the_blank(code)));
        let without_a_day = date_in(code).is_some_and(|date| date.exists() && calendar.day(date).is_none());
        self.count_if(without_a_day, &format!("by date: {number}, and the date has no day"));
        let states = [
            (book.day > LAST_DAY, "in a finished book"),
            (book.series.len() == SERIES && book.day <= LAST_DAY, "in a full book"),
            (!TICK.contains(&tick), "with R out of bounds"),
            (*file == File::Missing, "without a calendar"),
            (*file == File::Bytes(Vec::new()), "with an empty calendar"),
        ];
        for (holds, state) in states {
            self.count_if(holds, &format!("by date: {number} {state}"));
        }
        let Ok(terms) = codes::read(code) else { return };
        match calendar.day(terms.date) {
            Some(day) => self.take_trading_date(calendar, book, (day, tick), answer),
            None if *answer == Err(Refusal::NoTradingDate) => self.take_other_date(calendar, terms.date),
            None => {}
        }
    }

    fn take_trading_date(
        &mut self,
        calendar: &Calendar,
        book: &Book,
        (day, tick): (u64, u64),
        answer: &Result<Done, Refusal>,
    ) {
        let is_past = *answer == Err(Refusal::Terms) && TICK.contains(&tick) && day < book.day;
        self.count_if(is_past, "by date: 10, for the date has passed");
        self.count_if(is_past && day + 1 == book.day, "by date: 10, for the date is yesterday's");
        let Ok(Done::Listed(number)) = answer else { return };
        self.by_date.push(*number);
        let count = calendar.dates().len() as u64;
        let date = calendar.dates()[day as usize];
        self.count_if(day == 0, "listed by the first date");
        self.count_if(day == book.day, "listed by the date of the present day");
        self.count_if(day + 1 == count, "listed by the last date");
        self.count_if(day == LAST_DAY, "listed by the date of day 999");
        for part in alike(calendar, date) {
            self.count(format!("listed by a date, with another that differs in the {part} alone"));
        }
    }

    fn take_other_date(&mut self, calendar: &Calendar, date: Date) {
        for part in alike(calendar, date) {
            self.count(format!("22 for a date that differs in the {part} alone"));
        }
        let (Some(&first), Some(&last)) = (calendar.dates().first(), calendar.dates().last()) else { return };
        let place = if date < first {
            "before the first"
        } else if date > last {
            "behind the last"
        } else {
            "between two"
        };
        self.count(format!("22 for a date {place}"));
    }

    fn take_listing_for_a_day(&mut self, calendar: &Calendar, book: &Book, code: &[u8]) {
        let listed = book.series.last().expect("it has just been listed").last_day;
        let Ok(terms) = codes::read(code) else { return };
        match calendar.day(terms.date) {
            Some(day) => self.count_if(day != listed, "listed for another day than the date has"),
            None => self.count_if(!calendar.dates().is_empty(), "listed for a day, and the date has none"),
        }
    }

    /// What becomes of the series that were listed by date.
    pub fn take_event_by_date(&mut self, book: &Book, event: Option<Event>, answer: &Result<Done, Refusal>) {
        let (Some(event), Ok(_)) = (event, answer) else { return };
        match event {
            Event::Trade { series, .. } => self.count_if(self.by_date.contains(&series), "trade in a series by date"),
            Event::Evening => {
                let expired = |&&number: &&u8| book.series[usize::from(number)].last_day + 1 == book.day;
                for _ in 0..self.by_date.iter().filter(expired).count() {
                    self.count("expiry of a series by date");
                }
            }
            _ => {}
        }
    }
}

fn date(text: &str) -> Date {
    Date::read(text.as_bytes().try_into().expect("six digits")).expect("six digits")
}

fn date_of(line: &[u8]) -> Option<Date> {
    Date::read(line.try_into().ok()?).filter(|date| date.exists())
}

/// The date of a code that may be broken elsewhere.
fn date_in(code: &[u8]) -> Option<Date> {
    code.windows(7).find_map(|bytes| Date::read(bytes.strip_prefix(b"M")?.try_into().ok()?))
}

/// The parts in which a date differs from one of the calendar that has its other two parts.
fn alike(calendar: &Calendar, date: Date) -> Vec<&'static str> {
    let others = || calendar.dates().iter().filter(|&&other| other != date);
    let mut parts = Vec::new();
    if others().any(|other| (other.month, other.year) == (date.month, date.year)) {
        parts.push("day");
    }
    if others().any(|other| (other.day, other.year) == (date.day, date.year)) {
        parts.push("month");
    }
    if others().any(|other| (other.day, other.month) == (date.day, date.month)) {
        parts.push("year");
    }
    parts
}

fn lines(bytes: &[u8]) -> Vec<Vec<u8>> {
    let mut rows = Rows::new(bytes);
    let mut lines = Vec::new();
    while let Some(line) = rows.next_row().unwrap() {
        lines.push(line.to_vec());
    }
    lines
}

/// Why a line, which isn't empty, is no date.
fn fault(line: &[u8]) -> &'static str {
    let has = |is: fn(&u8) -> bool| line.iter().any(is);
    match line.len() {
        _ if has(|&byte| byte == b'\n') => "lone LF",
        _ if line.ends_with(b"\r") => "CR behind a line",
        _ if has(|&byte| byte == b'\r') => "lone CR",
        _ if has(|&byte| byte == 0) => "NUL",
        1 if line == b" " => "line of a blank",
        _ if has(|&byte| byte == b' ') => "blank",
        _ if has(u8::is_ascii_alphabetic) => "letter",
        _ if !has(|byte| !byte.is_ascii_digit()) => fault_of_digits(line),
        _ => "another byte",
    }
}

fn fault_of_digits(line: &[u8]) -> &'static str {
    let Ok(digits) = line.try_into() else {
        return match line.len() {
            5 => "five digits",
            7 => "seven digits",
            12 => "two dates in a line",
            _ => "another number of digits",
        };
    };
    match Date::read(digits).expect("six digits") {
        Date { month: 0, .. } => "month 0",
        Date { month: 13.., .. } => "month above 12",
        Date { day: 0, .. } => "day 0",
        Date { day: 32.., .. } => "day above 31",
        Date { day: 29, month: 2, .. } => "29 February of a common year",
        Date { month: 2, .. } => "30 or 31 February",
        _ => "31 of a month of 30 days",
    }
}

/// Each stands behind "calendar broken: ".
const FAULTS: [&str; 29] = [
    "equal dates",
    "dates that fall by the year",
    "dates that fall by the month",
    "dates that fall by the day",
    "month 0",
    "month above 12",
    "day 0",
    "day above 31",
    "29 February of a common year",
    "30 or 31 February",
    "31 of a month of 30 days",
    "empty first line",
    "empty inner line",
    "empty last line",
    "lone LF",
    "lone CR",
    "CR CR LF",
    "lone CR at the end",
    "CR behind a line",
    "five digits",
    "seven digits",
    "two dates in a line",
    "another number of digits",
    "letter",
    "blank",
    "line of a blank",
    "NUL",
    "byte order mark",
    "another byte",
];

pub fn wanted_of_broken_calendars() -> Vec<String> {
    let mut wanted: Vec<String> = FAULTS.map(|fault| format!("calendar broken: {fault}")).to_vec();
    let others = [
        "calendar that is a folder",
        "calendar of 1001 dates",
        "calendar of 8001 bytes",
        "calendar of more than 100000 bytes",
    ];
    wanted.extend(others.map(String::from));
    wanted
}

pub fn wanted_of_listings_by_date() -> Vec<String> {
    let wanted = [
        "calendar missing",
        "calendar empty",
        "calendar with its last CRLF",
        "calendar without its last CRLF",
        "calendar of one date with its last CRLF",
        "calendar of one date without its last CRLF",
        "calendar of 1000 dates with its last CRLF",
        "calendar of 1000 dates without its last CRLF",
        "calendar with 010100",
        "calendar with 311299",
        "calendar with 29 February of a leap year",
        "by date: 0 with the blank",
        "by date: 0 without the blank",
        "by date: 22 with the blank",
        "by date: 22 without the blank",
        // What comes before 22,
        "20 for a row that ends after its code",
        "20 for a comma behind R",
        "20 for a comma behind R and a date without a day",
        "20 for a row by date with another fault",
        "by date: 17, and the date has no day",
        "by date: 18 with the blank",
        "by date: 18 without the blank",
        "by date: 19, and the date has no day",
        // and what comes behind it.
        "by date: 22 in a finished book",
        "by date: 22 in a full book",
        "by date: 22 with R out of bounds",
        "by date: 1 in a finished book",
        "by date: 10 with R out of bounds",
        "by date: 10 in a full book",
        "by date: 11 in a full book",
        "by date: 10, for the date has passed",
        "by date: 10, for the date is yesterday's",
        "by date: 22 without a calendar",
        "by date: 22 with an empty calendar",
        "22 for a date that differs in the day alone",
        "22 for a date that differs in the month alone",
        "22 for a date that differs in the year alone",
        "22 for a date before the first",
        "22 for a date between two",
        "22 for a date behind the last",
        "listed by a date, with another that differs in the day alone",
        "listed by a date, with another that differs in the month alone",
        "listed by a date, with another that differs in the year alone",
        "listed by the first date",
        "listed by the date of the present day",
        "listed by the last date",
        "listed by the date of day 999",
        "listed for another day than the date has",
        "listed for a day, and the date has none",
        "trade in a series by date",
        "expiry of a series by date",
    ];
    wanted.map(String::from).to_vec()
}
