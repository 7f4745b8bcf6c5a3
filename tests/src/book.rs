//! RULES, "Events": the book, its seven events and the two sessions.

use std::array;
use std::cmp::Reverse;
use std::ops::RangeInclusive;

use crate::refusal::Refusal;
use crate::value::{coefficient, value};

// RULES, "Units and bounds".
pub const ACCOUNTS: usize = 64;
pub const SECTIONS: usize = 2;
pub const SERIES: usize = 8;
pub const LAST_DAY: u64 = 999;
pub const TRADES_A_DAY: usize = 256;
pub const POSITION_LIMIT: i64 = 100_000;
pub const STRIKE: RangeInclusive<u64> = 1..=10_000_000;
pub const TICK: RangeInclusive<u64> = 1..=10_000;
pub const OPTION_PRICE: RangeInclusive<u64> = 0..=1_000_000;
pub const FUTURES_PRICE: RangeInclusive<u64> = 0..=10_000_000;
/// The bounds of W, and of c too.
pub const TICK_VALUE: RangeInclusive<u64> = 1..=200_000_000;
pub const QUANTITY: RangeInclusive<u64> = 1..=1_000;

/// RULES, "Accounts and sections": something for each place, by account and then section.
pub type Places<T> = [[T; SECTIONS]; ACCOUNTS];

pub const NOTHING: Places<i64> = [[0; SECTIONS]; ACCOUNTS];
pub const NOBODY: Places<bool> = [[false; SECTIONS]; ACCOUNTS];

/// What an account has in its sections, added with sign.
pub fn net(sections: &[i64; SECTIONS]) -> i64 {
    sections.iter().sum()
}

/// What an account has in its sections, added without sign.
pub fn gross(sections: &[i64; SECTIONS]) -> i64 {
    sections.iter().map(|amount| amount.abs()).sum()
}

#[derive(Clone, Copy, Debug, PartialEq, Eq)]
pub enum OptionType {
    Call,
    Put,
}

#[derive(Clone, Copy, Debug, PartialEq, Eq)]
pub enum Category {
    American,
    European,
}

/// An account's section as an event names it; either number may be out of bounds.
#[derive(Clone, Copy, Debug, PartialEq, Eq)]
pub struct Party {
    pub account: u8,
    pub section: u64,
}

#[derive(Clone, Copy, Debug, PartialEq, Eq)]
pub enum Event {
    List { option: OptionType, category: Category, strike: u64, tick: u64, last_day: u64 },
    Trade { series: u8, buyer: Party, seller: Party, quantity: u64, price: u64 },
    Exercise { series: u8, holder: Party, quantity: u64 },
    Decline { series: u8, holder: Party },
    Mark { series: u8, option: u64, futures: u64, tick_value: u64 },
    Intraday,
    Evening,
}

/// How an event was carried out.
#[derive(Clone, Debug, PartialEq, Eq)]
pub enum Done {
    Entered,
    /// With the number of the series.
    Listed(u8),
    /// With the period of the trade.
    Traded(u8),
    Settled(Box<Session>),
}

/// What a session brought: each account's money in kopecks, plus is received; and the futures that arose, as
/// (series, account, count) in this order, an account's sections added with sign and none of these sums 0.
#[derive(Clone, Debug, PartialEq, Eq)]
pub struct Session {
    pub money: [i64; ACCOUNTS],
    pub futures: Vec<(u8, u8, i64)>,
}

#[derive(Clone, Copy, Debug, PartialEq, Eq)]
pub struct Mark {
    pub option: u64,
    pub futures: u64,
    pub coefficient: u64,
}

#[derive(Clone, Debug, PartialEq, Eq)]
pub struct Series {
    pub option: OptionType,
    pub category: Category,
    pub strike: u64,
    pub tick: u64,
    pub last_day: u64,
    pub mark: Option<Mark>,
    /// b, the option price of the last evening.
    pub evening_price: u64,
    /// n, the positions now.
    pub positions: Places<i64>,
    /// B, the positions at the day's start.
    pub opening: Places<i64>,
    pub requests: Places<i64>,
    pub declined: Places<bool>,
    /// All futures that have arisen from the series.
    pub futures: Places<i64>,
    /// RULES, "Open interest": the contracts that holders have, over all accounts and sections.
    pub open_interest: i64,
}

/// A trade of the blotter. Its money is the accounts', whatever their sections.
#[derive(Clone, Copy, Debug, PartialEq, Eq)]
pub struct Trade {
    pub series: u8,
    pub buyer: u8,
    pub seller: u8,
    pub quantity: i64,
    pub price: u64,
    /// 2 if an intraday session of the day came before it, or else 1.
    pub period: u8,
}

#[derive(Clone, Debug, PartialEq, Eq)]
pub struct Book {
    /// 1000 when the evening of day 999 is over.
    pub day: u64,
    pub series: Vec<Series>,
    /// The day's trades, of all series.
    pub blotter: Vec<Trade>,
    pub intraday_is_over: bool,
    /// VM1 of all series: what the day's intraday session has paid.
    pub paid: [i64; ACCOUNTS],
    pub cash: [i64; ACCOUNTS],
}

impl Default for Book {
    fn default() -> Self {
        Book::new()
    }
}

impl Book {
    pub fn new() -> Self {
        Book {
            day: 0,
            series: Vec::with_capacity(SERIES),
            blotter: Vec::with_capacity(TRADES_A_DAY),
            intraday_is_over: false,
            paid: [0; ACCOUNTS],
            cash: [0; ACCOUNTS],
        }
    }

    /// Carries out an event, or refuses it by the lowest number that applies, 23 directly after 4, and changes nothing:
    /// each event's tests stand in this order, before its first change.
    pub fn apply(&mut self, event: Event) -> Result<Done, Refusal> {
        refuse_if(self.day > LAST_DAY, Refusal::Finished)?;
        match event {
            Event::List { option, category, strike, tick, last_day } => {
                self.list(option, category, strike, tick, last_day).map(Done::Listed)
            }
            Event::Trade { series, buyer, seller, quantity, price } => {
                self.trade(series, buyer, seller, quantity, price).map(Done::Traded)
            }
            Event::Exercise { series, holder, quantity } => {
                self.exercise(series, holder, quantity).map(|()| Done::Entered)
            }
            Event::Decline { series, holder } => self.decline(series, holder).map(|()| Done::Entered),
            Event::Mark { series, option, futures, tick_value } => {
                self.mark(series, option, futures, tick_value).map(|()| Done::Entered)
            }
            Event::Intraday => self.intraday().map(|session| Done::Settled(Box::new(session))),
            Event::Evening => self.evening().map(|session| Done::Settled(Box::new(session))),
        }
    }

    fn list(
        &mut self,
        option: OptionType,
        category: Category,
        strike: u64,
        tick: u64,
        last_day: u64,
    ) -> Result<u8, Refusal> {
        let sound = STRIKE.contains(&strike) && TICK.contains(&tick) && (self.day..=LAST_DAY).contains(&last_day);
        refuse_if(!sound, Refusal::Terms)?;
        refuse_if(self.series.len() == SERIES, Refusal::SeriesFull)?;
        self.series.push(Series {
            option,
            category,
            strike,
            tick,
            last_day,
            mark: None,
            evening_price: 0,
            positions: NOTHING,
            opening: NOTHING,
            requests: NOTHING,
            declined: NOBODY,
            futures: NOTHING,
            open_interest: 0,
        });
        Ok((self.series.len() - 1) as u8)
    }

    fn trade(&mut self, number: u8, buyer: Party, seller: Party, quantity: u64, price: u64) -> Result<u8, Refusal> {
        let blotter_is_full = self.blotter.len() == TRADES_A_DAY;
        let period = self.period();
        let series = self.live_series(number)?;
        let [buys, sells] = places([buyer, seller])?;
        refuse_if(buys.account == sells.account, Refusal::OwnTrade)?;
        refuse_if(!QUANTITY.contains(&quantity), Refusal::Size)?;
        refuse_if(!OPTION_PRICE.contains(&price) || price % series.tick != 0, Refusal::Price)?;
        let quantity = quantity as i64;
        let mut bought = series.positions[buys.account];
        bought[buys.section] += quantity;
        let mut sold = series.positions[sells.account];
        sold[sells.section] -= quantity;
        refuse_if(gross(&bought) > POSITION_LIMIT || gross(&sold) > POSITION_LIMIT, Refusal::PositionLimit)?;
        refuse_if(blotter_is_full, Refusal::BlotterFull)?;
        series.change(buys, quantity);
        series.change(sells, -quantity);
        self.blotter.push(Trade {
            series: number,
            buyer: buyer.account,
            seller: seller.account,
            quantity,
            price,
            period,
        });
        Ok(period)
    }

    fn exercise(&mut self, number: u8, holder: Party, quantity: u64) -> Result<(), Refusal> {
        let day = self.day;
        let series = self.live_series(number)?;
        let [Place { account, section }] = places([holder])?;
        let too_early = series.category == Category::European && day < series.last_day;
        refuse_if(too_early, Refusal::NotToday)?;
        let held = series.positions[account][section].max(0);
        refuse_if(quantity > held as u64, Refusal::NotHeld)?;
        series.requests[account][section] = quantity as i64;
        series.declined[account][section] = false;
        Ok(())
    }

    fn decline(&mut self, number: u8, holder: Party) -> Result<(), Refusal> {
        let day = self.day;
        let series = self.live_series(number)?;
        let [Place { account, section }] = places([holder])?;
        refuse_if(day < series.last_day, Refusal::NotToday)?;
        series.requests[account][section] = 0;
        series.declined[account][section] = true;
        Ok(())
    }

    fn mark(&mut self, number: u8, option: u64, futures: u64, tick_value: u64) -> Result<(), Refusal> {
        let series = self.live_series(number)?;
        refuse_if(!OPTION_PRICE.contains(&option) || !FUTURES_PRICE.contains(&futures), Refusal::Price)?;
        refuse_if(!TICK_VALUE.contains(&tick_value), Refusal::TickValue)?;
        let coefficient = coefficient(tick_value, series.tick);
        refuse_if(!TICK_VALUE.contains(&coefficient), Refusal::TickValue)?;
        series.mark = Some(Mark { option, futures, coefficient });
        Ok(())
    }

    fn intraday(&mut self) -> Result<Session, Refusal> {
        refuse_if(self.intraday_is_over, Refusal::SecondIntraday)?;
        self.check_marks()?;
        let money = self.variation_margin();
        self.paid = money;
        self.intraday_is_over = true;
        for series in self.live() {
            series.mark = None;
        }
        self.pay(&money);
        Ok(Session { money, futures: Vec::new() })
    }

    fn evening(&mut self) -> Result<Session, Refusal> {
        self.check_marks()?;
        let day = self.day;
        let mut futures = Vec::new();
        for (number, series) in self.series.iter_mut().enumerate() {
            if day <= series.last_day {
                series.settle_exercise(day, number as u8, &mut futures);
            }
            if day == series.last_day {
                series.positions = NOTHING;
                series.open_interest = 0;
            }
        }
        let mut money = self.variation_margin();
        for (money, paid) in money.iter_mut().zip(&self.paid) {
            *money -= paid;
        }
        self.pay(&money);
        for series in self.live() {
            series.close_day();
        }
        self.blotter.clear();
        self.intraday_is_over = false;
        self.paid = [0; ACCOUNTS];
        self.day += 1;
        Ok(Session { money, futures })
    }

    /// The open interest of a series, which is 0 if it isn't listed or has expired.
    pub fn open_interest(&self, number: u8) -> i64 {
        self.series.get(usize::from(number)).map_or(0, |series| series.open_interest)
    }

    /// The period that the day is in.
    fn period(&self) -> u8 {
        if self.intraday_is_over {
            2
        } else {
            1
        }
    }

    /// The series with this number, if it is listed and not expired.
    fn live_series(&mut self, number: u8) -> Result<&mut Series, Refusal> {
        let series = self.series.get_mut(usize::from(number)).ok_or(Refusal::UnknownSeries)?;
        refuse_if(self.day > series.last_day, Refusal::Expired)?;
        Ok(series)
    }

    fn live(&mut self) -> impl Iterator<Item = &mut Series> {
        let day = self.day;
        self.series.iter_mut().filter(move |series| day <= series.last_day)
    }

    fn check_marks(&self) -> Result<(), Refusal> {
        let lacks = |series: &Series| self.day <= series.last_day && series.mark.is_none();
        match self.series.iter().position(lacks) {
            Some(number) => Err(Refusal::NoMark(number as u8)),
            None => Ok(()),
        }
    }

    /// n × V(p) − B × V(b) − the signed value of the day's trades, each with this mark's c, over all live series.
    fn variation_margin(&self) -> [i64; ACCOUNTS] {
        let mut money = [0; ACCOUNTS];
        let mut coefficients = [0; SERIES];
        for (number, series) in self.series.iter().enumerate() {
            let Some(mark) = series.mark else { continue };
            coefficients[number] = mark.coefficient;
            let now = value(mark.option, mark.coefficient);
            let before = value(series.evening_price, mark.coefficient);
            for account in 0..ACCOUNTS {
                money[account] += net(&series.positions[account]) * now - net(&series.opening[account]) * before;
            }
        }
        for trade in &self.blotter {
            let amount = trade.quantity * value(trade.price, coefficients[usize::from(trade.series)]);
            money[usize::from(trade.buyer)] -= amount;
            money[usize::from(trade.seller)] += amount;
        }
        money
    }

    fn pay(&mut self, money: &[i64; ACCOUNTS]) {
        for (cash, money) in self.cash.iter_mut().zip(money) {
            *cash += money;
        }
    }
}

impl Series {
    /// One side of a trade: the open interest rises by what the section then holds more, or falls by what it holds less.
    fn change(&mut self, Place { account, section }: Place, change: i64) {
        let position = &mut self.positions[account][section];
        let held = (*position).max(0);
        *position += change;
        self.open_interest += (*position).max(0) - held;
    }

    /// Exercise and assignment of an evening: positions and the open interest shrink, and futures arise.
    fn settle_exercise(&mut self, day: u64, number: u8, arisen: &mut Vec<(u8, u8, i64)>) {
        let exercised: Places<i64> =
            array::from_fn(|account| array::from_fn(|section| self.exercised(account, section, day)));
        let total = exercised.as_flattened().iter().sum();
        if total == 0 {
            return;
        }
        let short = self.positions.map(|sections| sections.map(|position| (-position).max(0)));
        let assigned = assign(total, self.open_interest, &short);
        self.open_interest -= total;
        for account in 0..ACCOUNTS {
            let mut of_account = 0;
            for section in 0..SECTIONS {
                // Every place is a holder's or a writer's, so that one of the two is 0.
                let shrinks = exercised[account][section] - assigned[account][section];
                let futures = match self.option {
                    OptionType::Call => shrinks,
                    OptionType::Put => -shrinks,
                };
                self.positions[account][section] -= shrinks;
                self.futures[account][section] += futures;
                of_account += futures;
            }
            if of_account != 0 {
                arisen.push((number, account as u8, of_account));
            }
        }
    }

    /// How many contracts of an account's section are exercised this evening.
    fn exercised(&self, account: usize, section: usize, day: u64) -> i64 {
        let held = self.positions[account][section];
        if held <= 0 || self.declined[account][section] {
            return 0;
        }
        let automatic = if day == self.last_day { self.automatic(held) } else { 0 };
        held.min(self.requests[account][section].max(automatic))
    }

    /// What is exercised of `held` contracts without a request on the last day.
    fn automatic(&self, held: i64) -> i64 {
        let Some(mark) = self.mark else { return 0 };
        match self.option {
            OptionType::Call if self.strike < mark.futures => held,
            OptionType::Put if self.strike > mark.futures => held,
            OptionType::Call if self.strike == mark.futures => (held + 1) / 2,
            OptionType::Put if self.strike == mark.futures => held / 2,
            _ => 0,
        }
    }

    fn close_day(&mut self) {
        self.evening_price = self.mark.take().map_or(0, |mark| mark.option);
        self.opening = self.positions;
        self.requests = NOTHING;
        self.declined = NOBODY;
    }
}

/// RULES, "Assignment": shares `exercised` contracts out to the writers, who are `short` so much and the open interest in
/// all, in proportion; what is left over goes one each to the largest remainders, equal ones by account and then section.
pub fn assign(exercised: i64, open_interest: i64, short: &Places<i64>) -> Places<i64> {
    if exercised == 0 {
        return NOTHING;
    }
    let mut assigned = short.map(|sections| sections.map(|short| exercised * short / open_interest));
    let left = exercised - assigned.as_flattened().iter().sum::<i64>();
    let places = short.as_flattened().iter().enumerate();
    let mut writers: Vec<(Reverse<i64>, usize)> = places
        .filter(|&(_, &short)| short > 0)
        .map(|(place, &short)| (Reverse(exercised * short % open_interest), place))
        .collect();
    writers.sort_unstable();
    for &(_, place) in writers.iter().take(left as usize) {
        assigned.as_flattened_mut()[place] += 1;
    }
    assigned
}

/// An account's section, both within their bounds.
struct Place {
    account: usize,
    section: usize,
}

/// The places that an event names. All its accounts are tested before its sections.
fn places<const N: usize>(parties: [Party; N]) -> Result<[Place; N], Refusal> {
    let places = parties.map(|party| (usize::from(party.account), party.section));
    refuse_if(places.iter().any(|&(account, _)| account >= ACCOUNTS), Refusal::UnknownAccount)?;
    refuse_if(places.iter().any(|&(_, section)| section >= SECTIONS as u64), Refusal::UnknownSection)?;
    Ok(places.map(|(account, section)| Place { account, section: section as usize }))
}

fn refuse_if(condition: bool, refusal: Refusal) -> Result<(), Refusal> {
    if condition {
        Err(refusal)
    } else {
        Ok(())
    }
}

#[cfg(test)]
mod tests;
