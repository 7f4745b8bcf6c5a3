//! RULES, "The reckoning": fed the events and whether each was carried out, and nothing that the book stores, it finds the
//! book's positions, futures and cash. So the second implementation is held to the rules twice, once by its steps and once by
//! what they must come to.

use second::book::{assign, Book, Event, OptionType, Party, Places, ACCOUNTS, NOBODY, NOTHING};
use second::market::{calendar, market};
use second::rows::{self, Rows};
use second::value::{coefficient, value};
use second::{gate_seeds, GATE_SEEDS};

type Amounts = Places<i64>;

struct Series {
    option: OptionType,
    strike: u64,
    tick: u64,
    last_day: u64,
    /// Option price, futures price and W.
    mark: Option<(u64, u64, u64)>,
    evening_price: u64,
    evening_position: Amounts,
    position: Amounts,
    request: Amounts,
    declined: Places<bool>,
    /// The day's trades as account, signed quantity and price.
    trades: Vec<(usize, i64, u64)>,
    futures: Amounts,
}

struct Reckoning {
    day: u64,
    series: Vec<Series>,
    cash: [i64; ACCOUNTS],
}

impl Reckoning {
    fn new() -> Self {
        Reckoning { day: 0, series: Vec::new(), cash: [0; ACCOUNTS] }
    }

    fn carried_out(&mut self, event: Event) {
        match event {
            Event::List { option, strike, tick, last_day, .. } => self.series.push(Series {
                option,
                strike,
                tick,
                last_day,
                mark: None,
                evening_price: 0,
                evening_position: NOTHING,
                position: NOTHING,
                request: NOTHING,
                declined: NOBODY,
                trades: Vec::new(),
                futures: NOTHING,
            }),
            Event::Trade { series, buyer, seller, quantity, price } => {
                let series = &mut self.series[usize::from(series)];
                for (party, signed) in [(buyer, quantity as i64), (seller, -(quantity as i64))] {
                    let (account, section) = place(party);
                    series.position[account][section] += signed;
                    series.trades.push((account, signed, price));
                }
            }
            Event::Exercise { series, holder, quantity } => {
                self.series[usize::from(series)].asks(place(holder), quantity as i64, false);
            }
            Event::Decline { series, holder } => self.series[usize::from(series)].asks(place(holder), 0, true),
            Event::Mark { series, option, futures, tick_value } => {
                self.series[usize::from(series)].mark = Some((option, futures, tick_value));
            }
            Event::Intraday => self.series.iter_mut().for_each(|series| series.mark = None),
            Event::Evening => self.evening(),
        }
    }

    fn evening(&mut self) {
        for series in self.series.iter_mut().filter(|series| self.day <= series.last_day) {
            let is_last_day = series.last_day == self.day;
            let (option, futures, tick_value) = series.mark.expect("the evening was carried out");
            let c = coefficient(tick_value, series.tick);
            let exercised = series.exercised(is_last_day, futures);
            let short = each_place(|account, section| (-series.position[account][section]).max(0));
            let assigned = assign(in_all(&exercised), in_all(&short), &short);
            let given_up = each_place(|account, section| exercised[account][section] - assigned[account][section]);
            let remains = match is_last_day {
                true => NOTHING,
                false => each_place(|account, section| series.position[account][section] - given_up[account][section]),
            };
            for account in 0..ACCOUNTS {
                let own = series.trades.iter().filter(|trade| trade.0 == account);
                let traded: i64 = own.map(|&(_, signed, price)| signed * value(price, c)).sum();
                let both = |amounts: &Amounts| amounts[account][0] + amounts[account][1];
                self.cash[account] += both(&remains) * value(option, c)
                    - both(&series.evening_position) * value(series.evening_price, c)
                    - traded;
            }
            let sign = if series.option == OptionType::Call { 1 } else { -1 };
            series.futures =
                each_place(|account, section| series.futures[account][section] + sign * given_up[account][section]);
            series.evening_position = remains;
            series.position = series.evening_position;
            series.evening_price = option;
            series.mark = None;
            series.trades.clear();
            series.request = NOTHING;
            series.declined = NOBODY;
        }
        self.day += 1;
    }
}

fn place(party: Party) -> (usize, usize) {
    (usize::from(party.account), party.section as usize)
}

fn in_all(amounts: &Amounts) -> i64 {
    amounts.as_flattened().iter().sum()
}

fn each_place(amount: impl Fn(usize, usize) -> i64) -> Amounts {
    std::array::from_fn(|account| [amount(account, 0), amount(account, 1)])
}

impl Series {
    fn asks(&mut self, (account, section): (usize, usize), request: i64, declined: bool) {
        self.request[account][section] = request;
        self.declined[account][section] = declined;
    }

    fn exercised(&self, is_last_day: bool, futures: u64) -> Amounts {
        each_place(|account, section| {
            let held = self.position[account][section].max(0);
            let half = match self.option {
                OptionType::Call => held - held / 2,
                OptionType::Put => held / 2,
            };
            let in_the_money = match self.option {
                OptionType::Call => futures > self.strike,
                OptionType::Put => futures < self.strike,
            };
            let automatic = match is_last_day {
                true if in_the_money => held,
                true if futures == self.strike => half,
                _ => 0,
            };
            match self.declined[account][section] {
                true => 0,
                false => self.request[account][section].max(automatic).min(held),
            }
        })
    }
}

/// The events of a seed's market; a refused calendar leaves none.
fn events(seed: u64) -> Vec<Event> {
    let Ok(calendar) = calendar(seed).calendar() else { return Vec::new() };
    let input = market(seed);
    let mut rows = Rows::new(input.as_slice());
    let mut events = Vec::new();
    while let Some(row) = rows.next_row().unwrap() {
        events.extend(rows::read(row, &calendar));
    }
    events
}

#[test]
fn the_reckoning_finds_positions_futures_and_cash() {
    let mut evenings = 0;
    for seed in gate_seeds() {
        let mut book = Book::new();
        let mut reckoning = Reckoning::new();
        for event in events(seed) {
            if book.apply(event).is_err() {
                continue;
            }
            reckoning.carried_out(event);
            assert_eq!(book.cash.iter().sum::<i64>(), 0, "cash of market {seed}");
            for (series, reckoned) in book.series.iter().zip(&reckoning.series) {
                assert_eq!(series.positions, reckoned.position, "positions of market {seed}");
                assert_eq!(series.futures, reckoned.futures, "futures of market {seed}");
                assert_eq!(series.positions.as_flattened().iter().sum::<i64>(), 0, "positions of market {seed}");
                assert_eq!(series.futures.as_flattened().iter().sum::<i64>(), 0, "futures of market {seed}");
            }
            if event == Event::Evening {
                evenings += 1;
                assert_eq!(
                    book.cash,
                    reckoning.cash,
                    "cash of market {seed} after the evening of day {}",
                    book.day - 1
                );
            }
        }
    }
    assert!(evenings > 10_000);
}

#[test]
fn nothing_is_in_a_section_that_no_event_names() {
    let mut evenings = 0;
    for seed in GATE_SEEDS {
        let mut book = Book::new();
        for event in events(seed).into_iter().take_while(|event| !names_section_1(event)) {
            // Before an evening there are requests and declines, after it futures and opening positions.
            if event == Event::Evening {
                assert!(has_nothing_in_section_1(&book), "market {seed}");
            }
            if book.apply(event).is_ok() && event == Event::Evening {
                evenings += 1;
                assert!(has_nothing_in_section_1(&book), "market {seed}");
            }
        }
    }
    assert!(evenings > 10_000);
}

fn has_nothing_in_section_1(book: &Book) -> bool {
    let has_nothing = |places: &Amounts| places.iter().all(|sections| sections[1] == 0);
    book.series.iter().all(|series| {
        let amounts = [&series.positions, &series.opening, &series.requests, &series.futures];
        amounts.into_iter().all(has_nothing) && series.declined.iter().all(|sections| !sections[1])
    })
}

/// A section above it names nothing that a book has.
fn names_section_1(event: &Event) -> bool {
    match event {
        Event::Trade { buyer, seller, .. } => buyer.section == 1 || seller.section == 1,
        Event::Exercise { holder, .. } | Event::Decline { holder, .. } => holder.section == 1,
        _ => false,
    }
}

#[test]
fn marks_made_for_an_intraday_session_move_no_evening_cash() {
    let mut moved = 0;
    for seed in gate_seeds() {
        let events = events(seed);
        let mut book = Book::new();
        let carried_out: Vec<bool> = events.iter().map(|&event| book.apply(event).is_ok()).collect();
        let (mut book, mut other) = (Book::new(), Book::new());
        for (place, &event) in events.iter().enumerate() {
            let changed = match event {
                Event::Mark { series, option, futures, tick_value }
                    if is_for_an_intraday(&events[place..], &carried_out[place..]) =>
                {
                    Event::Mark { series, option: option / 3, futures: futures / 2, tick_value }
                }
                _ => event,
            };
            let answers = (book.apply(event), other.apply(changed));
            // The statement is about lists with the same events carried out.
            if answers.0.is_ok() != answers.1.is_ok() {
                break;
            }
            moved += u64::from(answers.0 != answers.1);
            if event == Event::Evening && carried_out[place] {
                assert_eq!(book.cash, other.cash, "market {seed}");
                assert_eq!(book.series, other.series, "market {seed}");
            }
        }
    }
    assert!(moved > 500, "intraday payments did change");
}

/// Whether the first session carried out after the first of these events is an intraday session.
fn is_for_an_intraday(events: &[Event], carried_out: &[bool]) -> bool {
    let sessions = events.iter().zip(carried_out).filter(|(_, &carried_out)| carried_out);
    sessions.map(|(event, _)| event).find(|event| matches!(event, Event::Intraday | Event::Evening))
        == Some(&Event::Intraday)
}
