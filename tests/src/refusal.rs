//! RULES, "Refusals".

#[derive(Clone, Copy, Debug, PartialEq, Eq)]
pub enum Refusal {
    Finished,
    UnknownSeries,
    Expired,
    UnknownAccount,
    OwnTrade,
    Size,
    Price,
    PositionLimit,
    BlotterFull,
    Terms,
    SeriesFull,
    NotToday,
    NotHeld,
    TickValue,
    SecondIntraday,
    /// Names the lowest live series that has no mark.
    NoMark(u8),
    Code,
    Date,
    StrikeText,
    Row,
    Calendar,
    NoTradingDate,
    UnknownSection,
}

impl Refusal {
    /// The number in the table.
    pub fn number(self) -> u64 {
        match self {
            Refusal::Finished => 1,
            Refusal::UnknownSeries => 2,
            Refusal::Expired => 3,
            Refusal::UnknownAccount => 4,
            Refusal::OwnTrade => 5,
            Refusal::Size => 6,
            Refusal::Price => 7,
            Refusal::PositionLimit => 8,
            Refusal::BlotterFull => 9,
            Refusal::Terms => 10,
            Refusal::SeriesFull => 11,
            Refusal::NotToday => 12,
            Refusal::NotHeld => 13,
            Refusal::TickValue => 14,
            Refusal::SecondIntraday => 15,
            Refusal::NoMark(_) => 16,
            Refusal::Code => 17,
            Refusal::Date => 18,
            Refusal::StrikeText => 19,
            Refusal::Row => 20,
            Refusal::Calendar => 21,
            Refusal::NoTradingDate => 22,
            Refusal::UnknownSection => 23,
        }
    }
}
