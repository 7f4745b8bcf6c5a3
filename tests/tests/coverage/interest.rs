//! How trades and evenings move the open interest of a series.

use second::book::{Book, Done, Event, Party, Places, Series};
use second::refusal::Refusal;

use super::Census;

/// What a trade does to the position of one of its two sections.
#[derive(Clone, Copy)]
enum Side {
    /// It becomes larger without sign,
    Opens,
    /// or smaller,
    Closes,
    /// or what was held is short afterwards, or the other way round.
    Crosses,
}

impl Side {
    /// Of a party, and what the trade has changed its position by.
    fn of(series: &Series, party: Party, change: i64) -> Self {
        let after = series.positions[usize::from(party.account)][party.section as usize];
        let before = after - change;
        if before.signum() * after.signum() < 0 {
            Side::Crosses
        } else if before.abs() < after.abs() {
            Side::Opens
        } else {
            Side::Closes
        }
    }
}

fn form(buyer: Side, seller: Side) -> &'static str {
    match (buyer, seller) {
        (Side::Opens, Side::Opens) => "trade opens on both sides",
        (Side::Opens, Side::Closes) => "trade from holder to holder",
        (Side::Closes, Side::Opens) => "trade from writer to writer",
        (Side::Closes, Side::Closes) => "trade closes on both sides",
        (Side::Crosses, Side::Opens) => "buyer crosses 0, seller opens",
        (Side::Crosses, Side::Closes) => "buyer crosses 0, seller closes",
        (Side::Opens, Side::Crosses) => "seller crosses 0, buyer opens",
        (Side::Closes, Side::Crosses) => "seller crosses 0, buyer closes",
        (Side::Crosses, Side::Crosses) => "buyer and seller cross 0",
    }
}

impl Census {
    /// An event with its answer, and the book after it.
    pub fn take_interest(&mut self, book: &Book, event: Option<Event>, answer: &Result<Done, Refusal>) {
        let Some(Event::Trade { series: number, buyer, seller, quantity, .. }) = event else { return };
        let open_interest = book.open_interest(number);
        if answer.is_err() {
            self.count_if(open_interest > 0, "trade refused in a series with open interest");
            return;
        }
        let (series, quantity) = (&book.series[usize::from(number)], quantity as i64);
        let [buys, sells] =
            [(buyer, quantity), (seller, -quantity)].map(|(party, change)| Side::of(series, party, change));
        self.count(form(buys, sells));
        self.count_if(buyer.section != seller.section, "trade between unlike sections");
        self.open_interest = self.open_interest.max(open_interest);
    }

    /// A series before an evening, and how many contracts each place exercised in it, or was assigned with a minus.
    pub fn take_interest_of_evening(&mut self, series: &Series, is_last_day: bool, given_up: &Places<i64>) {
        let exercised: i64 = given_up.as_flattened().iter().filter(|&&contracts| contracts > 0).sum();
        let when = if is_last_day { "on" } else { "before" };
        self.count_if(exercised > 0, &format!("exercise lowers the open interest {when} the last day"));
        if is_last_day && series.open_interest > 0 {
            let how_much = match exercised {
                0 => "none",
                _ if exercised == series.open_interest => "all",
                _ => "a part",
            };
            self.count(format!("expiry with open interest, {how_much} of it exercised"));
        }
    }
}

pub fn wanted_of_interest() -> Vec<String> {
    [
        "trade opens on both sides",
        "trade from holder to holder",
        "trade from writer to writer",
        "trade closes on both sides",
        "buyer crosses 0, seller opens",
        "buyer crosses 0, seller closes",
        "seller crosses 0, buyer opens",
        "seller crosses 0, buyer closes",
        "buyer and seller cross 0",
        "trade between unlike sections",
        "trade refused in a series with open interest",
        "exercise lowers the open interest before the last day",
        "exercise lowers the open interest on the last day",
        "expiry with open interest, none of it exercised",
        "expiry with open interest, a part of it exercised",
        "expiry with open interest, all of it exercised",
    ]
    .map(String::from)
    .to_vec()
}
