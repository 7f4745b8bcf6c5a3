//! RULES, "Events": a trade's period is 2 in just the case that an intraday session of that day came before it. Here it is
//! worked out from the rows and their answers, and from nothing that the book stores.

use second::book::{Book, Done, Event, Trade};
use second::calendar::Calendar;
use second::market::{calendar, market};
use second::refusal::Refusal;
use second::rows::{self, Rows};
use second::{gate_seeds, replay};

/// What a row says, and its A line.
struct Answered {
    event: Result<Event, Refusal>,
    line: String,
}

impl Answered {
    fn column(&self, name: &str) -> &str {
        let place = HEADER.split(',').position(|column| column == name).expect("a column of the header");
        self.line.split(',').nth(place).expect("all columns are there")
    }

    fn is_carried_out(&self) -> bool {
        self.column("amount") == "0"
    }

    fn is_trade_carried_out(&self) -> bool {
        matches!(self.event, Ok(Event::Trade { .. })) && self.is_carried_out()
    }
}

const HEADER: &str = "row,kind,series,account,amount";

/// The rows of a seed's market with their answers; a refused calendar leaves none.
fn answers(seed: u64) -> Vec<Answered> {
    let file = calendar(seed);
    match file.calendar() {
        Ok(calendar) => {
            let input = market(seed);
            let mut output = Vec::new();
            replay(&file, input.as_slice(), &mut output).unwrap();
            with_lines(&calendar, &input, &String::from_utf8(output).unwrap())
        }
        Err(_) => Vec::new(),
    }
}

fn with_lines(calendar: &Calendar, input: &[u8], output: &str) -> Vec<Answered> {
    let mut rows = Rows::new(input);
    let mut lines = output.lines().filter(|line| line.split(',').nth(1) == Some("A"));
    let mut answers = Vec::new();
    while let Some(row) = rows.next_row().unwrap() {
        let line = lines.next().expect("each row has an A line");
        answers.push(Answered { event: rows::read(row, calendar), line: line.into() });
    }
    assert_eq!(lines.next(), None);
    answers
}

/// The period of a trade behind these rows: 2 if an Intraday was carried out, and no Evening behind it; which is to say that
/// of the sessions carried out the last is an Intraday.
fn period_behind(rows: &[Answered]) -> u8 {
    let carried_out = rows.iter().rev().filter(|row| row.is_carried_out());
    let mut sessions = carried_out.filter(|row| matches!(row.event, Ok(Event::Intraday | Event::Evening)));
    match sessions.next() {
        Some(last) if last.event == Ok(Event::Intraday) => 2,
        _ => 1,
    }
}

#[test]
fn the_answers_tell_the_period_of_each_trade() {
    let mut trades = [0, 0];
    for seed in gate_seeds() {
        let rows = answers(seed);
        let mut book = Book::new();
        let mut of_the_day = Vec::new();
        for (place, row) in rows.iter().enumerate() {
            let Ok(event) = row.event else { continue };
            let answer = book.apply(event);
            if event == Event::Evening && row.is_carried_out() {
                of_the_day.clear();
            }
            if row.is_trade_carried_out() {
                let period = period_behind(&rows[..place]);
                assert_eq!(row.column("account"), period.to_string(), "market {seed}: {}", row.line);
                assert_eq!(answer, Ok(Done::Traded(period)), "market {seed}: {}", row.line);
                of_the_day.push(period);
                trades[usize::from(period) - 1] += 1;
            }
            let kept = book.blotter.iter().map(|trade| trade.period);
            assert!(kept.eq(of_the_day.iter().copied()), "blotter of market {seed}: {}", row.line);
        }
    }
    println!("{trades:?} trades");
    assert!(trades.iter().all(|&trades| trades > 10_000), "few trades of a period: {trades:?}");
}

#[test]
fn without_the_period_of_trades_the_answers_are_as_they_were() {
    let mut trades = 0;
    for seed in gate_seeds() {
        let mut book = Book::new();
        for (number, row) in (1..).zip(answers(seed)) {
            let answer = row.event.and_then(|event| book.apply(event));
            let (series, refusal) = match answer {
                Ok(Done::Listed(series)) => (series.to_string(), 0),
                Ok(_) => (String::new(), 0),
                Err(Refusal::NoMark(series)) => (series.to_string(), 16),
                Err(refusal) => (String::new(), refusal.number()),
            };
            let periods: &[&str] = if row.is_trade_carried_out() { &["1", "2"] } else { &[""] };
            let period = row.column("account");
            assert!(periods.contains(&period), "market {seed}: {}", row.line);
            assert_eq!(row.line, format!("{number},A,{series},{period},{refusal}"), "market {seed}");
            trades += u64::from(row.is_trade_carried_out());
        }
    }
    assert!(trades > 20_000);
}

#[test]
fn nothing_that_is_paid_depends_on_the_period() {
    let mut paid = 0;
    for seed in gate_seeds() {
        let mut book = Book::new();
        for event in answers(seed).iter().filter_map(|row| row.event.ok()) {
            if !matches!(event, Event::Intraday | Event::Evening) {
                let _ = book.apply(event);
                continue;
            }
            let mut other = book.clone();
            other.blotter.iter_mut().for_each(exchange);
            paid += u64::from(other != book && other.clone().apply(event).is_ok());
            assert_eq!(book.apply(event), other.apply(event), "market {seed}");
            other.blotter.iter_mut().for_each(exchange);
            assert!(book == other, "market {seed}");
        }
    }
    assert!(paid > 5_000, "only {paid} sessions after trades");
}

/// 1 for 2 and 2 for 1.
fn exchange(trade: &mut Trade) {
    trade.period = 3 - trade.period;
}
