//! Markets from a seed: rows that follow the state of a book, so that most of them are carried out, with every
//! refusal, damaged rows and odd ends of input among them; and a trading calendar for each.

mod by_date;
mod calendar;
mod code;
mod damage;
mod noise;
mod periods;
mod sections;

use crate::book::{Book, ACCOUNTS, LAST_DAY, SECTIONS, SERIES, TRADES_A_DAY};
use crate::calendar::{Calendar, File};
use crate::random::Random;
use crate::rows::{self, find_crlf};

use sections::{Place, Sections};

pub use by_date::with_days;
pub use sections::{has_sections, with_sections};

/// The kinds of market.
#[derive(Clone, Copy, Debug, PartialEq, Eq)]
pub enum Kind {
    /// A few series and a handful of accounts for some days.
    Ordinary,
    /// More trades than the blotter takes.
    Crowded,
    /// Few accounts with large trades: positions reach their limit.
    Heavy,
    /// Past the evening of day 999.
    Ending,
    /// Series that live a day or two, with marks at and near the strike.
    Expiring,
    /// Many accounts with small positions: equal remainders in assignment.
    Ties,
    /// Prices, ticks and tick values at their bounds.
    Extreme,
    /// Every few rows one is damaged.
    Damaged,
    /// Mostly listings, with sound and broken codes.
    Codes,
    /// Random bytes.
    Noise,
    /// A few accounts that use both of their sections.
    Sections,
    /// Many accounts with small positions in both sections: equal remainders, and futures that cancel out.
    SectionTies,
    /// Large trades in both sections: accounts reach the limit of the two together.
    SectionLimits,
    /// Series that live a day or two, held and written in both sections.
    SectionExpiries,
    /// Past the evening of day 999, with sections.
    SectionEnding,
    /// Every few rows one is damaged, with sections.
    SectionDamage,
    /// Intraday sessions anywhere in a day, also before its first series, and tries of one, with sections.
    Periods,
}

/// Those that name no sections. A seed's kind is its remainder by the number of kinds,
pub const KINDS: [Kind; 10] = [
    Kind::Ordinary,
    Kind::Crowded,
    Kind::Heavy,
    Kind::Ending,
    Kind::Expiring,
    Kind::Ties,
    Kind::Extreme,
    Kind::Damaged,
    Kind::Codes,
    Kind::Noise,
];

/// and from `FIRST_WITH_SECTIONS` on it is one of those that do.
pub const SECTION_KINDS: [Kind; 6] = [
    Kind::Sections,
    Kind::SectionTies,
    Kind::SectionLimits,
    Kind::SectionExpiries,
    Kind::SectionEnding,
    Kind::SectionDamage,
];

pub const FIRST_WITH_SECTIONS: u64 = 1_000_000;

/// From `FIRST_OF_PERIODS` on it is one of periods, which name sections too.
pub const PERIOD_KINDS: [Kind; 1] = [Kind::Periods];

pub const FIRST_OF_PERIODS: u64 = 2_000_000;

pub fn kind(seed: u64) -> Kind {
    let kinds = match seed {
        FIRST_OF_PERIODS.. => &PERIOD_KINDS[..],
        FIRST_WITH_SECTIONS.. => &SECTION_KINDS,
        _ => &KINDS,
    };
    kinds[(seed % kinds.len() as u64) as usize]
}

// Numbers of their own: what is drawn of calendars, dates and sections uses up none of those that the rest of the rows is
// drawn from.
const CALENDARS: u64 = 1 << 62;
const DATES: u64 = 1 << 63;
const SECTION_NUMBERS: u64 = 1 << 61;

/// The market of a seed, as input bytes. It fits the seed's calendar.
pub fn market(seed: u64) -> Vec<u8> {
    market_of(kind(seed), seed, &calendar(seed).calendar().unwrap_or_default())
}

pub fn calendar(seed: u64) -> File {
    calendar::of_market(seed, &mut Random::new(seed ^ CALENDARS))
}

/// A calendar that is refused, or might be.
pub fn odd_calendar(seed: u64) -> File {
    calendar::odd(seed, &mut Random::new(seed ^ CALENDARS))
}

fn market_of(kind: Kind, seed: u64, calendar: &Calendar) -> Vec<u8> {
    let mut random = Random::new(seed);
    if kind == Kind::Noise {
        return noise::bytes(&mut random, calendar);
    }
    let style = Style::of(kind, &mut random);
    let (dates, sections) = (Random::new(seed ^ DATES), Random::new(seed ^ SECTION_NUMBERS));
    let mut market = Market::new(random, style, dates, sections, calendar.clone());
    market.run();
    market.end()
}

/// Trades in series 0 by which half of the accounts come to hold as much as an account may, and the others to be short as
/// much, a hundred of 1,000 contracts each; with an evening wherever the blotter is full.
pub fn trades_to_the_limit() -> String {
    let mut rows = String::new();
    let holders = (0..ACCOUNTS / 2).flat_map(|holder| [holder; 100]);
    for (trade, holder) in holders.enumerate() {
        if trade > 0 && trade % TRADES_A_DAY == 0 {
            rows += "M,0,0,0,100000\r\nV\r\n";
        }
        rows += &format!("T,0,{holder},{},1000,0\r\n", holder + ACCOUNTS / 2);
    }
    rows
}

/// Contract codes of a seed, sound and broken, as input bytes.
pub fn codes(seed: u64) -> Vec<u8> {
    code::lines(&mut Random::new(seed))
}

/// What a kind of market looks like.
struct Style {
    /// Evenings that pass before the first busy day.
    quiet_days: u64,
    busy_days: u64,
    /// Events between the sessions of a busy day, about.
    events: u64,
    /// Of a thousand events, so many are listings.
    listings: u64,
    /// Series that are kept live while numbers last.
    live: usize,
    /// The longest life of a series in days.
    life: u64,
    accounts: u64,
    quantity: u64,
    /// The same accounts buy and sell all the time.
    one_sided: bool,
    /// Of a thousand rows, so many have numbers that are probably wrong, and so many are damaged.
    wrong: u64,
    damaged: u64,
    extreme: bool,
    sections: Sections,
    /// The intraday session is held or tried anywhere in a day.
    periods: bool,
}

impl Style {
    fn of(kind: Kind, random: &mut Random) -> Self {
        let ordinary = Style {
            quiet_days: random.pick(&[0, 0, 0, 1, 50]),
            busy_days: random.between(3, 12),
            events: random.between(10, 60),
            listings: 10,
            live: random.between(1, 5) as usize,
            life: random.between(1, 10),
            accounts: random.between(2, 20),
            quantity: random.pick(&[10, 100, 1000]),
            one_sided: random.one_in(4),
            wrong: 50,
            damaged: 10,
            extreme: false,
            sections: Sections::Unnamed,
            periods: false,
        };
        let in_both = Sections::Mixed(500);
        match kind {
            Kind::Ordinary | Kind::Noise => ordinary,
            Kind::Crowded => Style { quiet_days: 0, busy_days: 3, events: 340, wrong: 20, damaged: 2, ..ordinary },
            Kind::Heavy => Style {
                busy_days: 4,
                events: 300,
                live: 1,
                life: 6,
                accounts: 3,
                quantity: 1000,
                one_sided: true,
                wrong: 20,
                ..ordinary
            },
            Kind::Ending => Style { quiet_days: random.between(990, 998), busy_days: 12, ..ordinary },
            Kind::Expiring => Style { busy_days: 10, live: 3, life: 2, events: 30, ..ordinary },
            Kind::Ties => Style { live: 4, life: 3, accounts: 40, quantity: 2, events: 120, ..ordinary },
            Kind::Extreme => Style { extreme: true, wrong: 100, ..ordinary },
            Kind::Damaged => Style { damaged: 250, ..ordinary },
            Kind::Codes => Style { listings: 600, live: 2, life: 4, ..ordinary },
            Kind::Sections => Style { accounts: random.between(2, 8), sections: in_both, ..ordinary },
            Kind::SectionTies => Style {
                live: 4,
                life: 8,
                busy_days: 10,
                accounts: random.pick(&[4, 8, 25]),
                quantity: random.pick(&[1, 2]),
                events: 60,
                sections: in_both,
                ..ordinary
            },
            Kind::SectionLimits => Style::of_section_limits(ordinary, random),
            Kind::SectionExpiries => Style {
                busy_days: 10,
                live: 3,
                life: 2,
                events: 16,
                accounts: random.between(6, 12),
                quantity: 5,
                one_sided: true,
                sections: in_both,
                ..ordinary
            },
            Kind::SectionEnding => {
                Style { quiet_days: random.between(990, 998), busy_days: 12, sections: in_both, ..ordinary }
            }
            Kind::SectionDamage => Style { damaged: 250, sections: in_both, ..ordinary },
            Kind::Periods => Style {
                busy_days: 8,
                events: 8,
                live: 1,
                life: random.between(0, 2),
                accounts: random.between(2, 8),
                sections: in_both,
                periods: true,
                ..ordinary
            },
        }
    }

    /// Both sections are of one sign, or of two, or nearly all is in one of them.
    fn of_section_limits(ordinary: Style, random: &mut Random) -> Self {
        let sections = random.pick(&[Sections::Mixed(500), Sections::Apart, Sections::Apart, Sections::Mixed(0)]);
        Style {
            busy_days: 3,
            events: 300,
            live: 1,
            life: 6,
            accounts: random.between(2, 3),
            quantity: 1000,
            one_sided: sections != Sections::Apart,
            wrong: 20,
            sections,
            ..ordinary
        }
    }
}

/// Numbers at and beside the bounds, and where narrower numbers would wrap.
const TRICKY: [u64; 44] = [
    0,
    1,
    2,
    3,
    7,
    8,
    9,
    63,
    64,
    65,
    255,
    256,
    257,
    300,
    320,
    511,
    512,
    998,
    999,
    1000,
    1001,
    9_999,
    10_000,
    10_001,
    65_535,
    65_536,
    65_537,
    99_999,
    100_000,
    100_001,
    999_999,
    1_000_000,
    1_000_001,
    9_999_999,
    10_000_000,
    10_000_001,
    2_000_000,
    200_000_000,
    200_000_001,
    4_294_967_295,
    4_294_967_296,
    4_294_967_297,
    999_999_999_999_999_999,
    1_000_000_000_000_000_000,
];

struct Market {
    random: Random,
    style: Style,
    dates: Random,
    sections: Random,
    calendar: Calendar,
    book: Book,
    accounts: Vec<u64>,
    /// The price around which a series is traded, and the tick value around which it is marked.
    price: [u64; SERIES],
    tick_value: [u64; SERIES],
    bytes: Vec<u8>,
}

impl Market {
    fn new(mut random: Random, style: Style, dates: Random, sections: Random, calendar: Calendar) -> Self {
        // The first and the last account take part more often than others.
        let mut accounts = Vec::new();
        for account in [0, ACCOUNTS as u64 - 1] {
            if random.one_in(2) {
                accounts.push(account);
            }
        }
        while accounts.len() < style.accounts as usize {
            let account = random.below(ACCOUNTS as u64);
            if !accounts.contains(&account) {
                accounts.push(account);
            }
        }
        Market {
            random,
            style,
            dates,
            sections,
            calendar,
            book: Book::new(),
            accounts,
            price: [0; SERIES],
            tick_value: [0; SERIES],
            bytes: Vec::new(),
        }
    }

    fn run(&mut self) {
        self.pass_quiet_days();
        for _ in 0..self.style.busy_days {
            if self.style.periods {
                self.day_of_periods();
            } else {
                self.busy_day();
            }
        }
    }

    /// The input's bytes; the last row may lack its CRLF, or have another end.
    fn end(mut self) -> Vec<u8> {
        match self.random.below(8) {
            0 | 1 => self.bytes.truncate(self.bytes.len() - 2),
            2 => self.bytes.truncate(self.bytes.len() - 1),
            3 => self.bytes.push(b'\n'),
            4 => self.bytes.extend_from_slice(b"\r\n"),
            _ => {}
        }
        self.bytes
    }

    fn pass_quiet_days(&mut self) {
        if self.random.one_in(2) {
            self.list();
        }
        while self.book.day < self.style.quiet_days {
            if self.random.one_in(20) {
                self.session("I");
            }
            self.session("V");
        }
    }

    fn busy_day(&mut self) {
        self.perhaps_odd_listing();
        self.list_enough();
        self.events();
        if self.random.one_in(2) {
            self.session("I");
            if self.random.one_in(3) {
                self.list();
            }
            self.events();
        }
        self.session("V");
    }

    fn list_enough(&mut self) {
        while self.live().len() < self.style.live && self.book.series.len() < SERIES && !self.is_finished() {
            self.list();
        }
    }

    fn events(&mut self) {
        // With nothing to trade in, a few events will do.
        let most = if self.live().is_empty() { 8 } else { self.style.events };
        for _ in 0..self.random.between(most / 2, most) {
            self.perhaps_odd_sections();
            self.perhaps_uncover_a_writer();
            if self.random.permille(self.style.listings) {
                self.list();
                continue;
            }
            match self.random.below(100) {
                0..=74 => self.trade(),
                75..=86 => self.exercise(),
                87..=91 => self.decline(),
                92..=97 => {
                    let series = self.some_series();
                    self.mark(series);
                }
                98 => self.row("I", &[]),
                _ => self.row("V", &[]),
            }
        }
    }

    // The events.

    fn list(&mut self) {
        let tick = if self.style.extreme {
            self.random.pick(&[1, 2, 3, 7, 9_999, 10_000])
        } else {
            self.random.pick(&[1, 3, 5, 100, 100, 100, 250])
        };
        let life = self.random.between(0, self.style.life);
        let last_day = (self.book.day + life).min(LAST_DAY);
        let code = code::some(&mut self.random);
        self.perhaps_odd_listing();
        let listed = self.book.series.len();
        self.listing(&code, tick, last_day);
        if listed < self.book.series.len() {
            self.price[listed] = self.random.between(0, 20_000);
            self.tick_value[listed] = self.some_tick_value(tick);
        }
    }

    fn some_tick_value(&mut self, tick: u64) -> u64 {
        // c = 100 × W / R, and W too, stand between 1 and 200,000,000.
        let (least, most) = (tick.div_ceil(200), (2_000_000 * tick).min(200_000_000));
        if self.style.extreme {
            self.random.pick(&[least, most, most, most - 1, least.max(most / 3)])
        } else {
            self.random.pick(&[100_000, 100_000, 50_000, 923_456, 7_777]).clamp(least, most)
        }
    }

    fn trade(&mut self) {
        let number = self.some_series();
        let (buyer, seller) = self.some_sides();
        let [buyer_section, seller_section] = self.sections_of_trade(buyer, seller);
        let mut quantity = self.random.between(1, self.style.quantity);
        let is_large = self.style.one_sided || self.style.sections == Sections::Apart;
        if is_large && !self.random.one_in(4) {
            quantity = self.style.quantity;
        }
        let mut tick = 1;
        if let Some(series) = self.book.series.get(number as usize) {
            tick = series.tick;
            let room = self
                .room_to_buy(number, (buyer, buyer_section))
                .min(self.room_to_sell(number, (seller, seller_section)));
            // Sometimes just up to the limit, sometimes one past it.
            if room < 1000 && self.random.one_in(2) {
                quantity = (room as u64 + self.random.below(2)).max(1);
            }
        }
        let price = self.some_price(number) / tick * tick;
        self.row_in_sections("T", &[number, buyer, seller, quantity, price], &[buyer_section, seller_section]);
        self.perhaps_try_the_limit(number, buyer);
        self.perhaps_try_the_limit(number, seller);
    }

    fn exercise(&mut self) {
        let number = self.some_series();
        let (account, section) = self.some_holder(number);
        let held = self.position(number, (account, section)).max(0) as u64;
        let quantity = match self.random.below(8) {
            0 => 0,
            1 => held,
            2 => held + 1,
            _ => self.random.between(0, held),
        };
        let section = self.perhaps_the_other(section);
        self.row_in_sections("X", &[number, account, quantity], &[section]);
    }

    fn decline(&mut self) {
        let day = self.book.day;
        let on_last_day: Vec<u64> =
            self.live().into_iter().filter(|&number| self.book.series[number as usize].last_day == day).collect();
        let number = if on_last_day.is_empty() { self.some_series() } else { self.random.pick(&on_last_day) };
        let (account, section) = self.some_holder(number);
        self.row_in_sections("D", &[number, account], &[section]);
    }

    fn mark(&mut self, number: u64) {
        let fields = self.mark_fields(number);
        self.row("M", &fields);
    }

    fn mark_fields(&mut self, number: u64) -> [u64; 4] {
        let mut futures = self.random.between(0, 10_000_000);
        let mut tick_value = 100_000;
        if let Some(series) = self.book.series.get(number as usize) {
            let (strike, tick) = (series.strike, series.tick);
            // Now and then the tick value changes, as a rate of exchange does.
            if self.random.one_in(3) {
                self.tick_value[number as usize] = self.some_tick_value(tick);
            }
            tick_value = self.tick_value[number as usize];
            futures = match self.random.below(8) {
                0..=2 => strike,
                3 => strike - 1,
                4 => strike + 1,
                5 => strike / 2,
                6 => strike * 2,
                _ => futures,
            }
            .min(10_000_000);
        }
        [number, self.some_price(number), futures, tick_value]
    }

    /// Marks all live series and holds the session; on the way it may be tried too soon.
    fn session(&mut self, letter: &str) {
        let day = self.book.day;
        if self.random.one_in(10) {
            self.row(letter, &[]);
        }
        let mut live = self.live();
        while !live.is_empty() && self.book.day == day {
            let next = self.random.below(live.len() as u64) as usize;
            let number = live.swap_remove(next);
            self.mark(number);
            if self.random.one_in(12) {
                self.mark(number);
            }
            if self.random.one_in(30) {
                self.row(letter, &[]);
            }
        }
        // What a wrong or damaged row has spoiled is made good.
        if self.book.day == day {
            for number in self.live() {
                if self.book.series[number as usize].mark.is_none() {
                    let fields = self.mark_fields(number);
                    self.push(text("M", &fields).as_bytes());
                }
            }
            self.push(letter.as_bytes());
        }
        if self.random.one_in(30) {
            self.row(letter, &[]);
        }
    }

    // Choices that follow the book.

    fn is_finished(&self) -> bool {
        self.book.day > LAST_DAY
    }

    fn live(&self) -> Vec<u64> {
        let is_live = |&number: &u64| self.book.day <= self.book.series[number as usize].last_day;
        (0..self.book.series.len() as u64).filter(is_live).collect()
    }

    /// Mostly a live series.
    fn some_series(&mut self) -> u64 {
        let live = self.live();
        if live.is_empty() || self.random.one_in(60) {
            self.random.below(SERIES as u64 + 1)
        } else {
            self.random.pick(&live)
        }
    }

    /// Mostly two accounts, in a one-sided market the earlier one as buyer.
    fn some_sides(&mut self) -> (u64, u64) {
        let count = self.accounts.len() as u64;
        let buyer = self.random.below(count);
        let mut seller = self.random.below(count);
        if buyer == seller && !self.random.one_in(20) {
            seller = (buyer + 1) % count;
        }
        let (buyer, seller) =
            if self.style.one_sided { (buyer.min(seller), buyer.max(seller)) } else { (buyer, seller) };
        (self.accounts[buyer as usize], self.accounts[seller as usize])
    }

    /// Mostly a place that holds the series.
    fn some_holder(&mut self, number: u64) -> Place {
        let place = (self.random.pick(&self.accounts), self.some_section());
        let places =
            (0..ACCOUNTS as u64).flat_map(|account| (0..SECTIONS as u64).map(move |section| (account, section)));
        let holders: Vec<Place> = places.filter(|&place| self.position(number, place) > 0).collect();
        if holders.is_empty() || self.random.one_in(8) {
            place
        } else {
            self.random.pick(&holders)
        }
    }

    /// A price near the last one, and now the last one.
    fn some_price(&mut self, number: u64) -> u64 {
        if self.style.extreme && self.random.one_in(2) {
            return self.random.pick(&[0, 1, 999_999, 1_000_000, 1_000_000]);
        }
        let step = self.random.between(0, 2_000);
        let Some(price) = self.price.get_mut(number as usize) else { return step };
        *price = (*price + step).saturating_sub(1_000).min(1_000_000);
        *price
    }

    // Rows.

    /// Adds a row of numbers; some are wrong, some are damaged.
    fn row(&mut self, letter: &str, fields: &[u64]) {
        let mut fields = fields.to_vec();
        self.make_wrong(&mut fields);
        self.push_or_damage(text(letter, &fields).into_bytes());
    }

    fn listing(&mut self, code: &[u8], tick: u64, last_day: u64) {
        let mut fields = [tick, last_day];
        self.make_wrong(&mut fields);
        let row = self.for_a_day_or_by_date(code, fields);
        self.push_or_damage(row);
    }

    fn make_wrong(&mut self, fields: &mut [u64]) {
        if fields.is_empty() || !self.random.permille(self.style.wrong) {
            return;
        }
        for _ in 0..self.random.between(1, 3) {
            let place = self.random.below(fields.len() as u64) as usize;
            fields[place] = match self.random.below(5) {
                0 => fields[place] + 1,
                1 => fields[place].saturating_sub(1),
                2 => self.random.pick(fields),
                _ => self.random.pick(&TRICKY),
            };
        }
    }

    fn push_or_damage(&mut self, mut row: Vec<u8>) {
        if self.random.permille(self.style.damaged) {
            damage::damage(&mut self.random, &mut row);
        }
        self.push(&row);
    }

    /// Adds a row as it is; the book follows. In a market that names no sections it passes over a row that damage has given
    /// some, so that the rows behind it are what they would be if there were no sections.
    fn push(&mut self, row: &[u8]) {
        self.bytes.extend_from_slice(row);
        self.bytes.extend_from_slice(b"\r\n");
        if self.style.sections == Sections::Unnamed && has_sections(row) {
            return;
        }
        if let Ok(event) = rows::read(row, &self.calendar) {
            let _ = self.book.apply(event);
        }
    }
}

fn text(letter: &str, fields: &[u64]) -> String {
    let mut row = letter.to_string();
    for field in fields {
        row.push_str(&format!(",{field}"));
    }
    row
}

/// The same rows, each with an end of its own behind it.
fn with_ends(input: &[u8], end: impl Fn(&[u8]) -> String) -> Vec<u8> {
    let mut output = Vec::with_capacity(input.len());
    let mut rest = input;
    loop {
        let (row, others) = rest.split_at(find_crlf(rest).unwrap_or(rest.len()));
        output.extend_from_slice(row);
        output.extend_from_slice(end(row).as_bytes());
        let Some(others) = others.strip_prefix(b"\r\n") else { return output };
        output.extend_from_slice(b"\r\n");
        rest = others;
    }
}
