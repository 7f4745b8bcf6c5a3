//! Sections in rows: which of them take part, rows that are refused for theirs, and what an account does at its limit.

use super::{text, with_ends, Market};
use crate::book::{gross, ACCOUNTS, POSITION_LIMIT, SECTIONS, SERIES};

/// How a market names sections.
#[derive(Clone, Copy, PartialEq, Eq)]
pub enum Sections {
    /// Not at all.
    Unnamed,
    /// Of a thousand sides so many are in section 1.
    Mixed(u64),
    /// Mostly an account buys in one of its sections and sells in the other.
    Apart,
}

/// An account and its section.
pub type Place = (u64, u64);

/// Above 1, many of them where narrower numbers would wrap to 0 or 1.
const UNKNOWN: [u64; 16] = [
    2,
    2,
    3,
    10,
    64,
    99,
    255,
    256,
    257,
    65_536,
    4_294_967_296,
    4_294_967_297,
    100_000_000_000_000_000,
    429_496_729_600_000_000,
    429_496_729_600_000_001,
    999_999_999_999_999_999,
];

/// What may not stand behind the price of a trade,
const NO_PAIRS: [&str; 14] = [
    ",0",
    ",1",
    ",2",
    ",",
    ",,",
    ",0,",
    ",,1",
    ",0,1,",
    ",1,0,1",
    ",00,1",
    ",0,01",
    ",1,-1",
    ",1000000000000000000,0",
    ",0,1000000000000000000",
];

/// and behind the other fields of a request or a decline.
const NO_SECTIONS: [&str; 8] = [",", ",", ",,", ",0,", ",1,0", ",01", ",+1", ",1000000000000000000"];

impl Market {
    fn names_sections(&self) -> bool {
        self.style.sections != Sections::Unnamed
    }

    /// 0 where the market names none.
    pub(super) fn some_section(&mut self) -> u64 {
        match self.style.sections {
            Sections::Unnamed => 0,
            Sections::Mixed(second) => u64::from(self.sections.permille(second)),
            Sections::Apart => self.sections.below(SECTIONS as u64),
        }
    }

    /// The buyer's and the seller's.
    pub(super) fn sections_of_trade(&mut self, buyer: u64, seller: u64) -> [u64; 2] {
        if self.style.sections != Sections::Apart || self.sections.one_in(8) {
            return [self.some_section(), self.some_section()];
        }
        // Even accounts buy in section 0, odd ones in section 1.
        let [buys, sells] = [buyer % 2, 1 - seller % 2];
        // The other way round, both have less.
        if self.sections.one_in(8) {
            [1 - buys, 1 - sells]
        } else {
            [buys, sells]
        }
    }

    /// Now and then the account's other section.
    pub(super) fn perhaps_the_other(&mut self, section: u64) -> u64 {
        if self.names_sections() && self.sections.one_in(6) {
            1 - section
        } else {
            section
        }
    }

    /// Adds a row that ends in its sections; where all are 0 it may leave them out.
    pub(super) fn row_in_sections(&mut self, letter: &str, fields: &[u64], sections: &[u64]) {
        let all_are_0 = sections.iter().all(|&section| section == 0);
        if !self.names_sections() || all_are_0 && self.sections.one_in(2) {
            self.row(letter, fields);
        } else {
            self.row(letter, &[fields, sections].concat());
        }
    }

    pub(super) fn perhaps_odd_sections(&mut self) {
        if self.names_sections() && self.sections.one_in(12) {
            let row = self.row_with_odd_sections();
            self.push(row.as_bytes());
        }
    }

    /// A row that is refused for its sections, or for something else that is wrong with it too.
    fn row_with_odd_sections(&mut self) -> String {
        let letter = self.sections.pick(&["T", "T", "X", "D"]);
        let number = self.some_series();
        let (buyer, seller) = self.some_sides();
        let mut fields = match letter {
            "T" => vec![number, buyer, seller, self.sections.between(1, self.style.quantity), 0],
            "X" => vec![number, buyer, self.sections.below(3)],
            _ => vec![number, buyer],
        };
        if self.sections.one_in(3) {
            self.spoil(&mut fields);
        }
        let row = text(letter, &fields);
        match letter {
            "T" if self.sections.one_in(3) => row + self.sections.pick(&NO_PAIRS),
            "T" => text(&row, &self.unknown_sections::<2>()),
            _ if self.sections.one_in(3) => row + self.sections.pick(&NO_SECTIONS),
            _ => text(&row, &self.unknown_sections::<1>()),
        }
    }

    /// Puts something into one field that may be out of bounds there, or the buyer into the seller's.
    fn spoil(&mut self, fields: &mut [u64]) {
        let place = self.sections.below(fields.len() as u64) as usize;
        fields[place] = match place {
            0 => self.sections.below(SERIES as u64 + 1),
            1 | 2 => self.sections.pick(&[ACCOUNTS as u64, 300, fields[1], fields[1]]),
            _ => self.sections.pick(&[0, 1_001, 1_000_001]),
        };
    }

    /// One of them is above 1, now and then the first one too.
    fn unknown_sections<const N: usize>(&mut self) -> [u64; N] {
        let mut sections = std::array::from_fn(|_| self.sections.below(SECTIONS as u64));
        sections[self.sections.below(N as u64) as usize] = self.sections.pick(&UNKNOWN);
        if self.sections.one_in(4) {
            sections[0] = self.sections.pick(&UNKNOWN);
        }
        sections
    }

    /// Makes a writer a holder of a few contracts and requests one more than these, and these: the answers tell what his
    /// section was short, which no other line tells of a section by itself.
    pub(super) fn perhaps_uncover_a_writer(&mut self) {
        if !self.names_sections() || !self.sections.one_in(15) {
            return;
        }
        let number = self.some_series();
        let place = (self.random.pick(&self.accounts), self.some_section());
        let short = -self.position(number, place);
        if !(1..900).contains(&short) {
            return;
        }
        let held = self.sections.between(1, 3);
        self.change(number, place, short + held as i64);
        for quantity in [held + 1, held] {
            self.push(text("X", &[number, place.0, quantity, place.1]).as_bytes());
        }
    }

    /// Lets an account that is at its limit try what goes past it, and what leads away from it and back.
    pub(super) fn perhaps_try_the_limit(&mut self, number: u64, account: u64) {
        if !self.names_sections() || self.gross(number, account) != POSITION_LIMIT || self.sections.one_in(2) {
            return;
        }
        let positions = self.positions(number, account);
        let smaller = u64::from(positions[1].abs() < positions[0].abs());
        let (most, least) = ((account, 1 - smaller), (account, smaller));
        self.enlarge(number, most, 1);
        self.enlarge(number, least, 1);
        let quantity = self.sections.between(1, 400) as i64;
        self.enlarge(number, most, -quantity);
        self.enlarge(number, least, quantity);
        self.enlarge(number, least, 1);
        self.reverse(number, least, 1);
        self.reverse(number, least, 0);
    }

    /// A trade after which a place has so many contracts more, without sign.
    fn enlarge(&mut self, number: u64, place: Place, quantity: i64) {
        let position = self.position(number, place);
        let sign = if position == 0 { self.sections.pick(&[1, -1]) } else { position.signum() };
        self.change(number, place, sign * quantity);
    }

    /// A trade that makes a holder a writer of as many contracts, or a writer a holder, and so many more.
    fn reverse(&mut self, number: u64, place: Place, more: i64) {
        let position = self.position(number, place);
        if (1..500).contains(&position.abs()) {
            self.change(number, place, -2 * position - position.signum() * more);
        }
    }

    /// A trade that changes the position of a place, with whoever has the least.
    fn change(&mut self, number: u64, place: Place, change: i64) {
        let others = (0..ACCOUNTS as u64).filter(|&other| other != place.0);
        let other = others.min_by_key(|&other| self.gross(number, other)).expect("there are others");
        let other = (other, self.sections.below(SECTIONS as u64));
        let (buyer, seller) = if change > 0 { (place, other) } else { (other, place) };
        let fields = [number, buyer.0, seller.0, change.unsigned_abs(), 0, buyer.1, seller.1];
        self.push(text("T", &fields).as_bytes());
    }

    /// An account's positions in a series, of both sections; none if the series isn't listed.
    pub(super) fn positions(&self, number: u64, account: u64) -> [i64; SECTIONS] {
        self.book.series.get(number as usize).map_or([0; SECTIONS], |series| series.positions[account as usize])
    }

    pub(super) fn position(&self, number: u64, (account, section): Place) -> i64 {
        self.positions(number, account)[section as usize]
    }

    fn gross(&self, number: u64, account: u64) -> i64 {
        gross(&self.positions(number, account))
    }

    /// How many contracts a place may buy until its account is at the limit.
    pub(super) fn room_to_buy(&self, number: u64, place: Place) -> i64 {
        self.room_in_section(number, place) - self.position(number, place)
    }

    pub(super) fn room_to_sell(&self, number: u64, place: Place) -> i64 {
        self.room_in_section(number, place) + self.position(number, place)
    }

    /// What the account's other section leaves of the limit.
    fn room_in_section(&self, number: u64, place: Place) -> i64 {
        POSITION_LIMIT - (self.gross(number, place.0) - self.position(number, place).abs())
    }
}

/// The same rows, except that each trade, request and decline that leaves its sections out ends in this one.
pub fn with_sections(input: &[u8], section: u64) -> Vec<u8> {
    with_ends(input, |row| match form(row) {
        (Some(b'T'), 5) => text("", &[section, section]),
        (Some(b'X'), 3) | (Some(b'D'), 2) => text("", &[section]),
        _ => String::new(),
    })
}

/// Whether a row has as many fields as one that ends in its sections.
pub fn has_sections(row: &[u8]) -> bool {
    matches!(form(row), (Some(b'T'), 7) | (Some(b'X'), 4) | (Some(b'D'), 3))
}

/// A row's letter, and how many fields stand behind it.
fn form(row: &[u8]) -> (Option<u8>, usize) {
    (row.first().copied(), row.iter().filter(|&&byte| byte == b',').count())
}
