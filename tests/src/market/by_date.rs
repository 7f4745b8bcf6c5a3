//! Listings by date: rows that end after R.

use std::fmt::Display;

use super::{calendar, text, with_ends, Market};
use crate::book::SERIES;
use crate::calendar::Calendar;
use crate::codes::{self, Date, Terms};
use crate::rows::LONGEST_ROW;

const STRIKES: [&str; 4] = ["17000", "0.01", "72.5", "100000"];
const STRIKES_OUT_OF_BOUNDS: [&str; 4] = ["0", "100000.01", "100001", "18446744073709551617"];
const BROKEN_STRIKES: [&str; 6] = ["", "01", "0.50", "1.", "  17000", "17000 "];
const NO_DATES: [&str; 6] = ["000123", "320123", "290223", "310423", "150023", "011323"];
const TICKS: [u64; 4] = [1, 100, 250, 10_000];
const TICKS_OUT_OF_BOUNDS: [u64; 3] = [0, 10_001, 999_999_999_999_999_999];

impl Market {
    /// The row of a listing: it gives the last day, or the code has the date of that day. The book answers both alike.
    pub(super) fn for_a_day_or_by_date(&mut self, code: &[u8], [tick, last_day]: [u64; 2]) -> Vec<u8> {
        let by_date = self.dates.one_in(2);
        let other_date = if self.dates.one_in(4) { self.some_trading_date() } else { None };
        match (codes::read(code), self.calendar.date(last_day), other_date) {
            (Err(_), _, _) if by_date => row(code, &[tick]),
            (Ok(terms), Some(date), _) if by_date => row(&dated(terms, date), &[tick]),
            // Where the day is given, the date may have another one.
            (Ok(terms), _, Some(date)) => row(&dated(terms, date), &[tick, last_day]),
            _ => row(code, &[tick, last_day]),
        }
    }

    pub(super) fn perhaps_odd_listing(&mut self) {
        if self.dates.one_in(3) {
            let row = self.odd_listing();
            self.push(&row);
        }
    }

    /// A listing by date, or nearly one, that is refused.
    fn odd_listing(&mut self) -> Vec<u8> {
        let (tick, wrong_tick) = (self.dates.pick(&TICKS), self.dates.pick(&TICKS_OUT_OF_BOUNDS));
        let strike = self.dates.pick(&STRIKES);
        let none = self.date_without_a_day();
        let trading = self.some_trading_date().unwrap_or(none);
        match self.dates.below(14) {
            // 22, also where R is out of bounds.
            0..=2 => row(&self.code(none, strike), &[tick]),
            3 => row(&self.code(none, strike), &[wrong_tick]),
            // 10, or what else the book refuses a series for.
            4 => row(&self.code(trading, strike), &[wrong_tick]),
            5..=7 => {
                let date = self.date_that_the_book_refuses().unwrap_or(none);
                row(&self.code(date, strike), &[tick])
            }
            // 19, 18 and 17.
            8 => {
                let strike = self.dates.pick(&STRIKES_OUT_OF_BOUNDS);
                row(&self.code(none, strike), &[tick])
            }
            9 => {
                let (date, strike) = (self.dates.pick(&NO_DATES), self.dates.pick(&["17000", "0", "100001"]));
                row(&self.code(date, strike), &[tick])
            }
            10 => {
                let strike = self.dates.pick(&BROKEN_STRIKES);
                row(&self.code(none, strike), &[tick])
            }
            // 20.
            11 => row(&self.code(trading, strike), &[]),
            12 => [row(&self.code(trading, strike), &[tick]).as_slice(), b","].concat(),
            _ => self.long_listing(none),
        }
    }

    fn code(&mut self, date: impl Display, strike: &str) -> Vec<u8> {
        let kind = self.dates.pick(&["CA", "CE", "PA", "PE"]);
        let blank = self.dates.pick(&["", " "]);
        format!("SBRF-6.23M{date}{kind}{blank}{strike}").into_bytes()
    }

    /// As long as a row may be, which is 19 for its strike, or one byte longer.
    fn long_listing(&mut self, date: Date) -> Vec<u8> {
        let (front, back) = (format!("L,SBRF-6.23M{date}CA"), ",100");
        let length = LONGEST_ROW + self.dates.below(2) as usize;
        let strike = "9".repeat(length - front.len() - back.len());
        format!("{front}{strike}{back}").into_bytes()
    }

    fn some_trading_date(&mut self) -> Option<Date> {
        let dates = self.calendar.dates();
        (!dates.is_empty()).then(|| self.dates.pick(dates))
    }

    /// A date that isn't in the calendar, though often all but one of day, month and year are those of one that is.
    fn date_without_a_day(&mut self) -> Date {
        loop {
            let any = calendar::any_date(&mut self.dates);
            let date = match (self.some_trading_date(), self.dates.below(5)) {
                (Some(near), 0) => Date { day: any.day, ..near },
                (Some(near), 1) => Date { month: any.month, ..near },
                (Some(near), 2 | 3) => Date { year: any.year, ..near },
                _ => any,
            };
            if date.exists() && self.calendar.day(date).is_none() {
                return date;
            }
        }
    }

    /// A trading date that has passed, or any if the book takes no series.
    fn date_that_the_book_refuses(&mut self) -> Option<Date> {
        let takes_none = self.is_finished() || self.book.series.len() == SERIES;
        let count = self.calendar.dates().len() as u64;
        let refused = if takes_none { count } else { count.min(self.book.day) };
        if refused == 0 {
            return None;
        }
        self.calendar.date(self.dates.below(refused))
    }
}

fn row(code: &[u8], fields: &[u64]) -> Vec<u8> {
    [b"L,", code, text("", fields).as_bytes()].concat()
}

fn dated(terms: Terms, date: Date) -> Vec<u8> {
    codes::write(&Terms { date, ..terms }).expect("these terms have a code").into_bytes()
}

/// The same rows, except that each listing by date gives the day that its date has, if it has one.
pub fn with_days(input: &[u8], calendar: &Calendar) -> Vec<u8> {
    with_ends(input, |row| day_of_listing(row, calendar).map_or(String::new(), |day| format!(",{day}")))
}

fn day_of_listing(row: &[u8], calendar: &Calendar) -> Option<usize> {
    let fields: Vec<&[u8]> = row.strip_prefix(b"L,")?.split(|&byte| byte == b',').collect();
    let [code, _] = fields[..] else { return None };
    let terms = codes::read(code).ok()?;
    calendar.dates().iter().position(|&date| date == terms.date)
}
