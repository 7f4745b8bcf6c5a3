//! The markets, the codes and the calendars of the gate's seeds, and the market of the full size, reach what they are meant
//! to reach.

#[path = "coverage/calendars.rs"]
mod calendars;
#[path = "coverage/interest.rs"]
mod interest;
#[path = "coverage/periods.rs"]
mod periods;
#[path = "coverage/sections.rs"]
mod sections;

use std::array;
use std::collections::BTreeMap;

use second::book::{
    Book, Category, Done, Event, OptionType, Party, Places, Series, LAST_DAY, NOTHING, POSITION_LIMIT, SECTIONS,
};
use second::calendar::{Calendar, File};
use second::codes::{self, Style, Terms};
use second::interest_lines::whole_rows;
use second::market::{calendar, market, odd_calendar};
use second::refusal::Refusal;
use second::rows::{self, Rows};
use second::{gate_seeds, GATE_CALENDARS, GATE_CODES, GATE_INTEREST};

use calendars::{wanted_of_broken_calendars, wanted_of_listings_by_date};
use interest::wanted_of_interest;
use periods::{wanted_of_periods, Day};
use sections::wanted_of_sections;

/// How often each thing has happened.
#[derive(Default)]
struct Census {
    counts: BTreeMap<String, u64>,
    rows: u64,
    carried_out: u64,
    /// The series of the present market that were listed by date.
    by_date: Vec<u8>,
    /// The sessions of its present day.
    day: Day,
    /// The largest of any series.
    open_interest: i64,
}

impl Census {
    fn count(&mut self, what: impl Into<String>) {
        *self.counts.entry(what.into()).or_default() += 1;
    }

    fn count_if(&mut self, condition: bool, what: &str) {
        if condition {
            self.count(what);
        }
    }

    fn print(&self) {
        for (what, count) in &self.counts {
            println!("{count:9} {what}");
        }
    }

    fn demand(&self, least: u64, wanted: &[String]) {
        for what in wanted {
            assert!(self.counts.get(what).is_some_and(|&count| count >= least), "too few: {what}");
        }
    }

    fn demand_both_styles(&self) {
        let [with, without] = ["code with the blank", "code without the blank"].map(|what| self.counts[what]);
        assert!(with.abs_diff(without) < (with + without) / 10, "both styles are about equally frequent");
    }

    /// What a market holds, and what comes of it with its calendar.
    fn take(&mut self, file: &File, input: &[u8]) {
        self.take_calendar(file);
        match file.calendar() {
            Ok(calendar) => self.take_rows(file, &calendar, input),
            Err(refusal) => self.count(format!("refusal {}", refusal.number())),
        }
    }

    fn take_rows(&mut self, file: &File, calendar: &Calendar, input: &[u8]) {
        self.count_if(input.is_empty(), "empty input");
        self.count_if(!input.ends_with(b"\r\n"), "last CRLF missing");
        self.count_if(input.ends_with(b"\r"), "lone CR at the end");
        let long = input.len() >= 65_000 && !input[..65_000].windows(2).any(|pair| pair == b"\r\n");
        self.count_if(long, "row longer than a buffer");
        let mut rows = Rows::new(input);
        let mut book = Book::new();
        self.by_date.clear();
        self.day = Day::default();
        while let Some(row) = rows.next_row().unwrap() {
            self.rows += 1;
            self.take_bytes(row);
            let event = rows::read(row, calendar);
            if let Ok(event) = event {
                self.take_event(&book, &event);
            }
            let answer = event.and_then(|event| book.apply(event));
            self.take_answer(&book, event.ok(), &answer);
            self.take_periods(&book, event.ok(), &answer);
            self.take_interest(&book, event.ok(), &answer);
            self.take_sections(&book, row, event.ok(), &answer);
            self.take_listing(file, calendar, &book, row, &answer);
            if let Some(code) = code_of(row) {
                self.take_code(code);
                let is_listed = matches!(answer, Ok(Done::Listed(_)));
                self.count_if(is_listed, &format!("listing {} is carried out", with_or_without_the_blank(code)));
            }
        }
    }

    fn take_bytes(&mut self, row: &[u8]) {
        self.count_if(row.is_empty(), "empty row");
        self.count_if(row.contains(&b'\r'), "lone CR");
        self.count_if(row.contains(&b'\n'), "lone LF");
        self.count_if(row.contains(&b'"'), "double quote");
        for length in [256, 257, 300, 10_000] {
            self.count_if(row.len() == length, &format!("row of {length} bytes"));
        }
        let is_read = rows::read(row, &Calendar::default()) == Err(Refusal::StrikeText);
        self.count_if(row.len() == 256 && is_read, "row of 256 bytes that is read");
        let digits = |field: &[u8]| field.iter().all(u8::is_ascii_digit);
        for count in [18, 19] {
            self.count_if(
                row.split(|&byte| byte == b',').any(|field| field.len() == count && digits(field)),
                &format!("{count} digits"),
            );
        }
        self.count_if(
            row.split(|&byte| byte == b',').any(|field| field.len() > 1 && field[0] == b'0' && digits(field)),
            "leading zero",
        );
    }

    /// The style of a sound code, and how a blank and a refusal come together in others.
    fn take_code(&mut self, code: &[u8]) {
        let style = with_or_without_the_blank(code);
        match codes::read(code) {
            Ok(_) => {
                self.count(format!("code {style}"));
                for length in [31, 32] {
                    self.count_if(code.len() == length, &format!("code of {length} bytes {style}"));
                }
            }
            Err(refusal) => {
                let is_of_its_style = has_its_blank(code) || !code.contains(&b' ');
                self.count_if(is_of_its_style, &format!("refusal {} of a code {style}", refusal.number()));
                let strike_too = refusal == Refusal::Date && strike_is_out_of_bounds(code);
                self.count_if(strike_too, &format!("no date and a strike out of bounds {style}"));
                self.take_odd_blanks(code);
            }
        }
    }

    /// Codes that would be sound but for a blank, or for what stands in its place.
    fn take_odd_blanks(&mut self, code: &[u8]) {
        let is_sound = |parts: &[&[u8]]| codes::read(&parts.concat()).is_ok();
        for place in 0..code.len() {
            let (before, behind) = code.split_at(place);
            if let [b' ', others @ ..] = behind {
                self.take_blank_too_many(&[before, others].concat(), place);
            }
            if let [b' ', b'0', others @ ..] = behind {
                self.count_if(is_sound(&[before, b" ", others]), "leading zero behind the blank");
            }
            for white in OTHER_WHITE {
                if let Some(others) = behind.strip_prefix(white) {
                    self.count_if(is_sound(&[before, b" ", others]), &in_the_place_of_the_blank(white));
                }
            }
        }
        self.count_if(code.ends_with(b" ") && is_sound(&[code, b"1"]), "blank with no strike behind it");
    }

    /// Where the blank stood that has been taken out of a code.
    fn take_blank_too_many(&mut self, code: &[u8], place: usize) {
        let Ok(terms) = codes::read(code) else { return };
        let blank = terms.futures_code.len() + CATEGORY + 1;
        match terms.style {
            Style::Blank if place == blank => self.count("two blanks before the strike"),
            // The second of the two, and they are counted.
            Style::Blank if place == blank + 1 => {}
            _ => self.count(format!("blank {}", elsewhere(code, &terms, place))),
        }
    }

    /// What an event finds in the book.
    fn take_event(&mut self, book: &Book, event: &Event) {
        match *event {
            Event::Trade { series: 255, .. } => self.count("series held at 255"),
            Event::Trade { buyer: Party { account: 255, .. }, .. }
            | Event::Trade { seller: Party { account: 255, .. }, .. } => self.count("account held at 255"),
            Event::List { .. } => self.count_if(book.intraday_is_over, "listing after an intraday session"),
            Event::Evening => self.take_evening(book),
            _ => {}
        }
        self.count_if(book.day == LAST_DAY, "event on day 999");
    }

    fn take_evening(&mut self, book: &Book) {
        let live = || book.series.iter().filter(|series| book.day <= series.last_day);
        self.count_if(live().count() == 0, "evening without live series");
        let mut after = book.clone();
        if after.apply(Event::Evening).is_err() {
            return;
        }
        for (series, after) in book.series.iter().zip(&after.series) {
            let is_last_day = series.last_day == book.day;
            if book.day > series.last_day {
                continue;
            }
            let held = series.positions.iter().flatten().any(|&position| position > 0);
            let mark = series.mark.expect("the evening is carried out");
            if is_last_day && held {
                let option = if series.option == OptionType::Call { "call" } else { "put" };
                self.count(format!("{option} expires, strike {:?} futures", series.strike.cmp(&mark.futures)));
            }
            self.take_requests(series, is_last_day);
            let given_up = given_up(series, after);
            self.take_interest_of_evening(series, is_last_day, &given_up);
            if given_up != NOTHING {
                self.take_remainders(series, &given_up);
                self.take_places(series, is_last_day, &given_up);
            }
        }
        self.count_if(live().count() > 1 && book.blotter.len() > 1, "evening of several series with trades");
    }

    fn take_requests(&mut self, series: &Series, is_last_day: bool) {
        let requests = series.requests.iter().flatten().zip(series.declined.iter().flatten());
        for (&position, (&request, &declined)) in series.positions.iter().flatten().zip(requests) {
            self.count_if(position > 0 && declined, "holder declines");
            let asks = position > 0 && request > 0;
            self.count_if(asks && request > position, "request above the position that is left");
            let when = if is_last_day { "on" } else { "before" };
            if asks {
                self.count(format!("{:?} request {when} the last day", series.category));
            }
        }
    }

    /// Whether the contracts left over have to pass over a place by its number alone.
    fn take_remainders(&mut self, series: &Series, given_up: &Places<i64>) {
        let writers = writers(series, given_up);
        let all: i64 = writers.iter().map(|writer| writer.short).sum();
        let exercised: i64 = writers.iter().map(|writer| writer.assigned).sum();
        let remainder = |writer: &Writer| exercised * writer.short % all;
        let one_more = |writer: &Writer| writer.assigned > exercised * writer.short / all;
        let (more, no_more): (Vec<&Writer>, Vec<&Writer>) = writers.iter().partition(|&writer| one_more(writer));
        self.count_if(!more.is_empty(), "contracts left over in assignment");
        let ties =
            || more.iter().flat_map(|a| no_more.iter().filter(|b| remainder(a) == remainder(b)).map(move |b| (a, b)));
        let by_account = ties().any(|(a, b)| a.account < b.account);
        self.count_if(by_account, "equal remainders decided by account");
        let by_section = ties().any(|(a, b)| a.account == b.account && a.section < b.section);
        self.count_if(by_section, "equal remainders decided by section");
        let against_sections = ties().any(|(a, b)| a.account < b.account && a.section > b.section);
        self.count_if(against_sections, "equal remainders: section 1 before section 0 of a later account");
        self.count_if(exercised == all, "all writers assigned in full");
    }

    fn take_answer(&mut self, book: &Book, event: Option<Event>, answer: &Result<Done, Refusal>) {
        match answer {
            Ok(Done::Entered) => self.count("A without series"),
            Ok(Done::Listed(_)) => self.count("A with the listed series"),
            Ok(Done::Traded(_)) => self.count("A with a period"),
            Ok(Done::Settled(session)) => {
                let name = if event == Some(Event::Intraday) { "intraday" } else { "evening" };
                for &money in &session.money {
                    self.count_if(money > 0, &format!("M received in an {name}"));
                    self.count_if(money < 0, &format!("M paid in an {name}"));
                    self.count_if((-99..=-1).contains(&money), "M between -0.99 and -0.01");
                    self.count_if(money.abs() > 1_000_000_000_000, "M above ten milliard roubles");
                }
                for &(_, _, count) in &session.futures {
                    self.count_if(count > 0, "F positive");
                    self.count_if(count < 0, "F negative");
                }
            }
            Err(refusal) => self.count(format!("refusal {}", refusal.number())),
        }
        self.carried_out += u64::from(answer.is_ok());
        self.take_event_by_date(book, event, answer);
        if let (Some(Event::Exercise { series, .. }), Ok(_)) = (event, answer) {
            self.count_if(book.series[usize::from(series)].category == Category::European, "European exercise entered");
        }
        if let (Some(Event::Trade { series, .. }), Ok(_)) = (event, answer) {
            let positions = book.series[usize::from(series)].positions.as_flattened();
            self.count_if(positions.contains(&POSITION_LIMIT), "position at the limit");
            self.count_if(positions.contains(&-POSITION_LIMIT), "short position at the limit");
            self.count_if(book.blotter.len() == 256, "full blotter");
        }
    }
}

/// How many contracts each place exercised in an evening, or was assigned with a minus.
fn given_up(before: &Series, after: &Series) -> Places<i64> {
    let sign = if before.option == OptionType::Call { 1 } else { -1 };
    array::from_fn(|account| {
        array::from_fn(|section| sign * (after.futures[account][section] - before.futures[account][section]))
    })
}

struct Writer {
    account: usize,
    section: usize,
    short: i64,
    assigned: i64,
}

fn writers(series: &Series, given_up: &Places<i64>) -> Vec<Writer> {
    let positions = series.positions.as_flattened().iter().zip(given_up.as_flattened()).enumerate();
    positions
        .filter(|(_, (&position, _))| position < 0)
        .map(|(place, (&position, &given_up))| Writer {
            account: place / SECTIONS,
            section: place % SECTIONS,
            short: -position,
            assigned: -given_up,
        })
        .collect()
}

/// White bytes that are no blank, and the no-break space of UTF-8.
const OTHER_WHITE: [&[u8]; 7] = [b"\t", b"\n", b"\x0b", b"\x0c", b"\r", b"\xa0", b"\xc2\xa0"];

fn in_the_place_of_the_blank(white: &[u8]) -> String {
    format!("{} in the place of the blank", white.escape_ascii())
}

/// The code of a listing whose other fields are sound.
fn code_of(row: &[u8]) -> Option<&[u8]> {
    let code = row.strip_prefix(b"L,")?.split(|&byte| byte == b',').next()?;
    (rows::read(row, &Calendar::default()) != Err(Refusal::Row)).then_some(code)
}

fn with_or_without_the_blank(code: &[u8]) -> &'static str {
    if code.contains(&b' ') {
        "with the blank"
    } else {
        "without the blank"
    }
}

/// One blank and no other, between a category letter and a digit.
fn has_its_blank(code: &[u8]) -> bool {
    code.iter().filter(|&&byte| byte == b' ').count() == 1
        && code.windows(3).any(|bytes| matches!(bytes, [b'A' | b'E', b' ', b'0'..=b'9']))
}

/// Whether a code that is refused for its date would be for its strike too.
fn strike_is_out_of_bounds(code: &[u8]) -> bool {
    let point = code.iter().position(|&byte| byte == b'.').expect("its layout is sound");
    let date = point + b".23".len() + DATE;
    let dated = [&code[..date], b"010100", &code[date + b"010100".len()..]].concat();
    codes::read(&dated) == Err(Refusal::StrikeText)
}

// How far behind the futures code the date and the letters of type and category stand.
const DATE: usize = 1;
const TYPE: usize = 7;
const CATEGORY: usize = 8;

/// The joints of a code, the one before the strike apart.
const JOINTS: [&str; 10] = [
    "before the code",
    "before the hyphen",
    "before the futures month",
    "before the point",
    "before the futures year",
    "before the M",
    "before the date",
    "before the type",
    "before the category",
    "behind the strike",
];

/// What a blank at a place of a sound code, but not before its strike, stands before, behind or inside of.
fn elsewhere(code: &[u8], terms: &Terms, place: usize) -> &'static str {
    let futures = terms.futures_code.len();
    let hyphen = code.iter().position(|&byte| byte == b'-').expect("it is sound");
    let places = [
        0,
        hyphen,
        hyphen + 1,
        futures - 3,
        futures - 2,
        futures,
        futures + DATE,
        futures + TYPE,
        futures + CATEGORY,
        code.len(),
    ];
    match places.iter().position(|&joint| joint == place) {
        Some(joint) => JOINTS[joint],
        None if place > futures + CATEGORY => "inside the strike",
        None => "inside another part",
    }
}

fn wanted_of_codes() -> Vec<String> {
    let mut wanted = [
        "code with the blank",
        "code without the blank",
        "code of 31 bytes with the blank",
        "code of 31 bytes without the blank",
        "code of 32 bytes with the blank",
        "refusal 17 of a code with the blank",
        "refusal 18 of a code with the blank",
        "refusal 19 of a code with the blank",
        "refusal 17 of a code without the blank",
        "refusal 18 of a code without the blank",
        "refusal 19 of a code without the blank",
        "no date and a strike out of bounds with the blank",
        "no date and a strike out of bounds without the blank",
        "two blanks before the strike",
        "blank inside the strike",
        "blank inside another part",
        "blank with no strike behind it",
        "leading zero behind the blank",
    ]
    .map(String::from)
    .to_vec();
    wanted.extend(JOINTS.map(|joint| format!("blank {joint}")));
    wanted.extend(OTHER_WHITE.map(in_the_place_of_the_blank));
    wanted
}

#[test]
fn every_refusal_and_every_kind_of_line() {
    let mut census = Census::default();
    for seed in gate_seeds() {
        census.take(&calendar(seed), &market(seed));
    }
    let mut wanted: Vec<String> = (1..=23).map(|number| format!("refusal {number}")).collect();
    wanted.extend(
        [
            "A without series",
            "A with the listed series",
            "A with a period",
            "M received in an intraday",
            "M paid in an intraday",
            "M received in an evening",
            "M paid in an evening",
            "M between -0.99 and -0.01",
            "M above ten milliard roubles",
            "F positive",
            "F negative",
            "empty input",
            "last CRLF missing",
            "lone CR at the end",
            "empty row",
            "lone CR",
            "lone LF",
            "double quote",
            "row of 256 bytes",
            "row of 257 bytes",
            "row of 300 bytes",
            "row of 10000 bytes",
            "row of 256 bytes that is read",
            "row longer than a buffer",
            "18 digits",
            "19 digits",
            "leading zero",
            "series held at 255",
            "account held at 255",
            "listing after an intraday session",
            "event on day 999",
            "evening without live series",
            "call expires, strike Less futures",
            "call expires, strike Equal futures",
            "call expires, strike Greater futures",
            "put expires, strike Less futures",
            "put expires, strike Equal futures",
            "put expires, strike Greater futures",
            "holder declines",
            "request above the position that is left",
            "American request before the last day",
            "American request on the last day",
            "European request on the last day",
            "European exercise entered",
            "evening of several series with trades",
            "contracts left over in assignment",
            "equal remainders decided by account",
            "all writers assigned in full",
            "position at the limit",
            "short position at the limit",
            "full blotter",
            "listing with the blank is carried out",
            "listing without the blank is carried out",
        ]
        .map(String::from),
    );
    wanted.extend(wanted_of_codes());
    wanted.extend(wanted_of_interest());
    wanted.extend(wanted_of_listings_by_date());
    wanted.extend(wanted_of_periods());
    wanted.extend(wanted_of_sections());
    println!("{} rows, {} carried out", census.rows, census.carried_out);
    println!("open interest up to {}", census.open_interest);
    census.print();
    census.demand(5, &wanted);
    census.demand(1, &wanted_of_broken_calendars());
    assert!(3 * census.carried_out > 2 * census.rows, "most rows are carried out");
    census.demand_both_styles();
}

#[test]
fn every_kind_of_code_in_lines() {
    let mut census = Census::default();
    for seed in GATE_CODES {
        let input = second::market::codes(seed);
        assert!(input.len() <= 4_000);
        census.count_if(!input.ends_with(b"\n"), "last LF missing");
        let mut codes = input.split(|&byte| byte == b'\n');
        codes.next_back();
        for code in codes {
            census.take_code(code);
        }
    }
    census.print();
    let mut wanted = wanted_of_codes();
    // It ends a line and is in no code.
    wanted.retain(|what| *what != in_the_place_of_the_blank(b"\n"));
    wanted.push("last LF missing".into());
    census.demand(5, &wanted);
    census.demand_both_styles();
}

/// As it is compared: without calendars, and as far as the rows are run.
#[test]
fn every_form_of_open_interest_in_lines() {
    let mut census = Census::default();
    for seed in GATE_INTEREST.into_iter().flatten() {
        census.take(&File::Missing, whole_rows(&market(seed)));
    }
    println!("{} rows, {} carried out", census.rows, census.carried_out);
    println!("open interest up to {}", census.open_interest);
    census.print();
    census.demand(5, &wanted_of_interest());
    assert!(census.open_interest > POSITION_LIMIT);
}

#[test]
fn every_kind_of_broken_calendar() {
    let mut census = Census::default();
    for seed in GATE_CALENDARS {
        census.take(&odd_calendar(seed), b"");
    }
    census.print();
    census.demand(5, &wanted_of_broken_calendars());
    let refused = census.counts["refusal 21"];
    let all = GATE_CALENDARS.end - GATE_CALENDARS.start;
    assert!((all / 2..all).contains(&refused), "most are refused, but not all");
}

#[test]
fn the_market_of_the_full_size() {
    let mut input = Vec::new();
    second::load::write(&mut input).unwrap();
    let mut census = Census::default();
    census.take(&File::Missing, &input);
    assert!((275_000..=285_000).contains(&census.rows));
    assert_eq!(census.carried_out, census.rows);
    for what in [
        "F positive",
        "F negative",
        "M paid in an intraday",
        "M received in an evening",
        "full blotter",
        "trade in period 1",
        "trade in period 2",
    ] {
        assert!(census.counts[what] >= 1_000, "{what}");
    }
}
