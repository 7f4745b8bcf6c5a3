//! What came before a trade on its day, and on the day before, by the answers of the sessions.

use second::book::{Book, Done, Event};
use second::refusal::Refusal;

use super::Census;

/// The sessions of a day until now.
#[derive(Default)]
pub struct Day {
    /// An intraday session was refused for a mark that a series lacks.
    unmarked: bool,
    /// An intraday session was carried out,
    intraday: bool,
    /// and no series was live;
    without_series: bool,
    /// so many had been listed.
    listed: u8,
    /// Behind it a second one was refused, and an evening.
    second: bool,
    no_evening: bool,
    /// An intraday session was carried out on the day before.
    intraday_before: bool,
}

/// What may refuse a trade in a book that isn't finished.
const REFUSALS: [u64; 9] = [2, 3, 4, 23, 5, 6, 7, 8, 9];

impl Census {
    /// An event with its answer, and the book after it.
    pub fn take_periods(&mut self, book: &Book, event: Option<Event>, answer: &Result<Done, Refusal>) {
        let day = &mut self.day;
        match (event, answer) {
            (Some(Event::Intraday), Ok(_)) => {
                day.intraday = true;
                day.without_series = book.series.iter().all(|series| series.last_day < book.day);
                day.listed = book.series.len() as u8;
            }
            (Some(Event::Intraday), Err(Refusal::NoMark(_))) => day.unmarked = true,
            (Some(Event::Intraday), Err(Refusal::SecondIntraday)) => day.second = true,
            (Some(Event::Evening), Ok(_)) => *day = Day { intraday_before: day.intraday, ..Day::default() },
            (Some(Event::Evening), Err(Refusal::NoMark(_))) => day.no_evening = day.intraday,
            (Some(Event::Trade { series, .. }), Ok(Done::Traded(period))) => self.take_trade(series, *period),
            (Some(Event::Trade { .. }), Err(refusal)) => {
                let period = if day.intraday { 2 } else { 1 };
                self.count(format!("trade refused in period {period}"));
                self.count(format!("trade refused {} in period {period}", refusal.number()));
            }
            _ => {}
        }
    }

    fn take_trade(&mut self, series: u8, period: u8) {
        let Day { unmarked, intraday, without_series, listed, second, no_evening, intraday_before } = self.day;
        self.count(format!("trade in period {period}"));
        let cases = [
            (intraday_before && !intraday, "on the day after one with an intraday session"),
            (unmarked && !intraday, "after an intraday session that was refused"),
            (unmarked && intraday, "after an intraday session that was refused, and one carried out"),
            (second, "after a second intraday session that was refused"),
            (no_evening, "after an evening that was refused"),
            (without_series, "after an intraday session without live series"),
            (intraday && listed == 0, "after an intraday session before the book's first listing"),
            (intraday && series >= listed, "in a series listed after the intraday session"),
        ];
        for (holds, case) in cases {
            self.count_if(holds, &format!("trade in period {period} {case}"));
        }
    }
}

pub fn wanted_of_periods() -> Vec<String> {
    let mut wanted = [
        "trade in period 1",
        "trade in period 2",
        "trade in period 1 on the day after one with an intraday session",
        "trade in period 1 after an intraday session that was refused",
        "trade in period 2 after an intraday session that was refused, and one carried out",
        "trade in period 2 after a second intraday session that was refused",
        "trade in period 2 after an evening that was refused",
        "trade in period 2 after an intraday session without live series",
        "trade in period 2 after an intraday session before the book's first listing",
        "trade in period 2 in a series listed after the intraday session",
        "trade refused in period 1",
        "trade refused in period 2",
    ]
    .map(String::from)
    .to_vec();
    for period in [1, 2] {
        wanted.extend(REFUSALS.map(|number| format!("trade refused {number} in period {period}")));
    }
    wanted
}
