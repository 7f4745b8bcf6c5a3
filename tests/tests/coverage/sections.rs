//! What rows say of sections and what is answered, and what becomes of the two sections of an account.

use std::cmp::Ordering;

use second::book::{gross, net, Book, Done, Event, OptionType, Party, Places, Series, POSITION_LIMIT, SECTIONS};
use second::calendar::Calendar;
use second::market::has_sections;
use second::refusal::Refusal;
use second::rows;

use super::Census;

impl Census {
    /// A row with its answer, and the book after it.
    pub fn take_sections(&mut self, book: &Book, row: &[u8], event: Option<Event>, answer: &Result<Done, Refusal>) {
        let Some(event) = event else { return self.take_no_row(row) };
        self.take_form(row, &event, answer);
        if parties(&event).iter().any(|party| is_unknown(*party)) {
            self.take_unknown_section(book, &event, answer);
        }
        match event {
            Event::Trade { .. } => self.take_limit(book, &event, answer),
            Event::Exercise { series, holder, quantity } if *answer == Err(Refusal::NotHeld) => {
                let positions = book.series[usize::from(series)].positions[usize::from(holder.account)];
                let [own, other] = [holder.section, 1 - holder.section].map(|section| positions[section as usize]);
                let quantity = quantity as i64;
                self.count_if(other >= quantity, "13, though the other section holds enough");
                let together = own > 0 && other > 0 && other < quantity && own + other >= quantity;
                self.count_if(together, "13, though both sections together hold enough");
            }
            _ => {}
        }
    }

    fn take_form(&mut self, row: &[u8], event: &Event, answer: &Result<Done, Refusal>) {
        let [without, with] = match event {
            Event::Trade { .. } => ["T without sections is carried out", "T with sections is carried out"],
            Event::Exercise { .. } => ["X without sections is carried out", "X with sections is carried out"],
            Event::Decline { .. } => ["D without sections is carried out", "D with sections is carried out"],
            _ => return,
        };
        self.count_if(answer.is_ok(), if has_sections(row) { with } else { without });
    }

    /// How its sections make something no row.
    fn take_no_row(&mut self, row: &[u8]) {
        let fields: Vec<&[u8]> = row.split(|&byte| byte == b',').collect();
        let (letter, without) = match fields[0] {
            b"T" => ("T", 6),
            b"X" => ("X", 4),
            b"D" => ("D", 3),
            _ => return,
        };
        let Some((others, sections)) = fields.split_at_checked(without) else { return };
        if rows::read(&others.join(&b','), &Calendar::default()).is_err() {
            return;
        }
        let is_section = |field: &&[u8]| !field.is_empty() && field.iter().all(u8::is_ascii_digit);
        match sections {
            [section] if letter == "T" && is_section(section) => self.count("20 for one section alone behind T"),
            [b""] => self.count(format!("20 for a comma behind {letter}")),
            [b"", section] if is_section(section) => self.count("20 for an empty buyer's section"),
            [section, b""] if letter == "T" && is_section(section) => self.count("20 for an empty seller's section"),
            _ if sections.iter().all(is_section) => self.count(format!("20 for odd sections behind {letter}")),
            _ => {}
        }
    }

    /// Which section is refused, or what comes before it; and what would come behind it if it weren't.
    fn take_unknown_section(&mut self, book: &Book, event: &Event, answer: &Result<Done, Refusal>) {
        let number = answer.as_ref().map_or_else(|refusal| refusal.number(), |_| 0);
        if number != 23 {
            self.count(format!("{number} before 23"));
            if let Event::Trade { buyer, seller, .. } = *event {
                let of_one = |a: Party, b: Party| a.account > 63 && !is_unknown(a) && b.account < 64 && is_unknown(b);
                self.count_if(number == 4 && of_one(buyer, seller), "4 of the buyer before 23 of the seller");
                self.count_if(number == 4 && of_one(seller, buyer), "4 of the seller before 23 of the buyer");
            }
            return;
        }
        let (whose, section) = match *event {
            Event::Trade { buyer, seller, .. } if is_unknown(buyer) && is_unknown(seller) => {
                ("T for both sections", buyer.section.min(seller.section))
            }
            Event::Trade { buyer, .. } if is_unknown(buyer) => ("T for the buyer's section", buyer.section),
            Event::Trade { seller, .. } => ("T for the seller's section", seller.section),
            Event::Exercise { holder, .. } => ("X", holder.section),
            Event::Decline { holder, .. } => ("D", holder.section),
            _ => return,
        };
        self.count(format!("23 of {whose}, {} digits", section.to_string().len()));
        if let Err(refusal) = book.clone().apply(in_section_0(event)) {
            self.count(format!("23 before {}", refusal.number()));
        }
    }

    /// A trade that brings a side to the limit, leaves it there, leads away from it, or is refused one above it.
    fn take_limit(&mut self, book: &Book, event: &Event, answer: &Result<Done, Refusal>) {
        let Event::Trade { series, buyer, seller, quantity, .. } = *event else { return };
        for (party, change) in [(buyer, quantity as i64), (seller, -(quantity as i64))] {
            let now = || book.series[usize::from(series)].positions[usize::from(party.account)];
            let changed = |mut sections: [i64; SECTIONS], change: i64| {
                sections[party.section as usize] += change;
                sections
            };
            match answer {
                Ok(_) => self.take_trade_at_the_limit(changed(now(), -change), now()),
                Err(Refusal::PositionLimit) => {
                    let refused = changed(now(), change);
                    let one_above = gross(&refused) == POSITION_LIMIT + 1;
                    self.count_if(one_above, &format!("8 one above the limit, {}", signs(&refused)));
                }
                _ => {}
            }
        }
    }

    fn take_trade_at_the_limit(&mut self, before: [i64; SECTIONS], after: [i64; SECTIONS]) {
        let is_at_the_limit = |sections: &[i64; SECTIONS]| gross(sections) == POSITION_LIMIT;
        match (is_at_the_limit(&before), is_at_the_limit(&after)) {
            (false, true) => self.count(format!("limit reached, {}", signs(&after))),
            (true, true) => self.count("at the limit a section changes its sign"),
            (true, false) => self.count(format!("lowered at the limit, {}", signs(&before))),
            (false, false) => {}
        }
    }

    /// A series before an evening, and how many contracts each place exercised in it, or was assigned with a minus.
    pub fn take_places(&mut self, series: &Series, is_last_day: bool, given_up: &Places<i64>) {
        for (account, &positions) in series.positions.iter().enumerate() {
            let asks_nothing = series.requests[account] == [0, 0] && series.declined[account] == [false, false];
            let mark = series.mark.expect("the evening is carried out");
            if is_last_day && series.strike == mark.futures && asks_nothing {
                self.take_halves(series.option, positions, given_up[account]);
            }
            self.take_both_sections(positions, given_up[account]);
            let [first, second] = given_up[account];
            let [declined_first, declined_second] = series.declined[account];
            let declines = |declined: bool, position: i64, other: i64| declined && position > 0 && other > 0;
            self.count_if(declines(declined_first, positions[0], second), "section 0 declines, section 1 exercises");
            self.count_if(declines(declined_second, positions[1], first), "section 1 declines, section 0 exercises");
            let holds_in_both = positions.iter().all(|&position| position > 0);
            let one_asks = holds_in_both && !is_last_day && (first > 0) != (second > 0);
            self.count_if(one_asks, "one section is exercised by request, the other holds on");
        }
    }

    fn take_halves(&mut self, option: OptionType, positions: [i64; SECTIONS], given_up: [i64; SECTIONS]) {
        let name = if option == OptionType::Call { "call" } else { "put" };
        let both_odd = positions.iter().all(|&position| position > 0 && position % 2 == 1);
        self.count_if(both_odd, &format!("{name} at the money, odd positions in both sections"));
        let halves = (option, positions, given_up);
        self.count_if(halves == (OptionType::Call, [5, 5], [3, 3]), "two sections of 5 calls exercise 3 + 3");
        self.count_if(halves == (OptionType::Put, [5, 5], [2, 2]), "two sections of 5 puts exercise 2 + 2");
        let one_of_10 = halves == (option, [10, 0], [5, 0]) || halves == (option, [0, 10], [0, 5]);
        self.count_if(one_of_10, &format!("one section of 10 {name}s exercises 5"));
    }

    fn take_both_sections(&mut self, positions: [i64; SECTIONS], given_up: [i64; SECTIONS]) {
        if let [1, -1] | [-1, 1] = positions.map(i64::signum) {
            let assigned = given_up.iter().any(|&contracts| contracts < 0);
            self.count_if(assigned, "holder in one section, assigned in the other");
            let exercises = given_up.iter().any(|&contracts| contracts > 0);
            self.count_if(exercises && assigned, "exercises in one section, assigned in the other");
            self.count_if(exercises && assigned && net(&given_up) == 0, "futures that cancel out");
        }
        let both_assigned = given_up.iter().all(|&contracts| contracts < 0);
        self.count_if(both_assigned, "assigned in both sections");
        let both_exercise = given_up.iter().all(|&contracts| contracts > 0);
        self.count_if(both_exercise, "exercises in both sections");
    }
}

fn parties(event: &Event) -> Vec<Party> {
    match *event {
        Event::Trade { buyer, seller, .. } => vec![buyer, seller],
        Event::Exercise { holder, .. } | Event::Decline { holder, .. } => vec![holder],
        _ => Vec::new(),
    }
}

fn is_unknown(party: Party) -> bool {
    party.section > 1
}

fn in_section_0(event: &Event) -> Event {
    let mut event = *event;
    match &mut event {
        Event::Trade { buyer, seller, .. } => (buyer.section, seller.section) = (0, 0),
        Event::Exercise { holder, .. } | Event::Decline { holder, .. } => holder.section = 0,
        _ => {}
    }
    event
}

fn signs(sections: &[i64; SECTIONS]) -> &'static str {
    match (sections[0] * sections[1]).cmp(&0) {
        Ordering::Less => "sections of unlike signs",
        Ordering::Equal => "in one section",
        Ordering::Greater => "sections of one sign",
    }
}

pub fn wanted_of_sections() -> Vec<String> {
    let mut wanted = [
        "T without sections is carried out",
        "T with sections is carried out",
        "X without sections is carried out",
        "X with sections is carried out",
        "D without sections is carried out",
        "D with sections is carried out",
        "20 for one section alone behind T",
        "20 for a comma behind T",
        "20 for an empty buyer's section",
        "20 for an empty seller's section",
        "20 for odd sections behind T",
        "20 for a comma behind X",
        "20 for odd sections behind X",
        "20 for a comma behind D",
        "20 for odd sections behind D",
        // What comes before 23,
        "1 before 23",
        "2 before 23",
        "3 before 23",
        "4 before 23",
        "4 of the buyer before 23 of the seller",
        "4 of the seller before 23 of the buyer",
        // and behind it.
        "23 before 5",
        "23 before 6",
        "23 before 7",
        "23 before 8",
        "23 before 9",
        "23 before 12",
        "23 before 13",
        "limit reached, in one section",
        "limit reached, sections of one sign",
        "limit reached, sections of unlike signs",
        "8 one above the limit, in one section",
        "8 one above the limit, sections of one sign",
        "8 one above the limit, sections of unlike signs",
        "lowered at the limit, in one section",
        "lowered at the limit, sections of one sign",
        "lowered at the limit, sections of unlike signs",
        "at the limit a section changes its sign",
        "13, though the other section holds enough",
        "13, though both sections together hold enough",
        "call at the money, odd positions in both sections",
        "put at the money, odd positions in both sections",
        "two sections of 5 calls exercise 3 + 3",
        "two sections of 5 puts exercise 2 + 2",
        "one section of 10 calls exercises 5",
        "one section of 10 puts exercises 5",
        "section 0 declines, section 1 exercises",
        "section 1 declines, section 0 exercises",
        "one section is exercised by request, the other holds on",
        "holder in one section, assigned in the other",
        "exercises in one section, assigned in the other",
        "futures that cancel out",
        "assigned in both sections",
        "exercises in both sections",
        "equal remainders decided by section",
        "equal remainders: section 1 before section 0 of a later account",
    ]
    .map(String::from)
    .to_vec();
    for whose in ["T for the buyer's section", "T for the seller's section", "T for both sections", "X", "D"] {
        wanted.extend([1, 2, 18].map(|digits| format!("23 of {whose}, {digits} digits")));
    }
    wanted
}
