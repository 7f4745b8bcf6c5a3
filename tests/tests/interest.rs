//! RULES, "Open interest": after every event the number that the book keeps of a series is what its holders have, and what
//! its writers are short. Both are added up anew here, over all accounts and sections.

use second::book::{Book, Event, SERIES};
use second::calendar::Calendar;
use second::interest_lines::{lines, whole_rows};
use second::market::{calendar, market};
use second::refusal::Refusal;
use second::rows::{self, Rows};
use second::{gate_seeds, GATE_INTEREST};

/// What the rows of an input say.
fn events(input: &[u8], calendar: &Calendar) -> Vec<Result<Event, Refusal>> {
    let mut rows = Rows::new(input);
    let mut events = Vec::new();
    while let Some(row) = rows.next_row().unwrap() {
        events.push(rows::read(row, calendar));
    }
    events
}

/// What the holders of each series have, and what the writers are short; nothing where none is listed.
fn held_and_short(book: &Book) -> [(i64, i64); SERIES] {
    let mut sums = [(0, 0); SERIES];
    for (series, (held, short)) in book.series.iter().zip(&mut sums) {
        for &position in series.positions.as_flattened() {
            *held += position.max(0);
            *short += (-position).max(0);
        }
    }
    sums
}

#[test]
fn the_open_interest_is_what_holders_have_and_what_writers_are_short() {
    let (mut events_seen, mut changes) = (0, 0);
    for seed in gate_seeds() {
        let Ok(calendar) = calendar(seed).calendar() else { continue };
        let mut book = Book::new();
        let mut before = [0; SERIES];
        for event in events(&market(seed), &calendar).into_iter().flatten() {
            let is_carried_out = book.apply(event).is_ok();
            let kept: [i64; SERIES] = std::array::from_fn(|number| book.open_interest(number as u8));
            assert_eq!(kept.map(|kept| (kept, kept)), held_and_short(&book), "market {seed}: {event:?}");
            let may_change = is_carried_out && matches!(event, Event::Trade { .. } | Event::Evening);
            assert!(may_change || kept == before, "market {seed}: {event:?}");
            events_seen += 1;
            changes += u64::from(kept != before);
            before = kept;
        }
    }
    println!("{events_seen} events, {changes} of them changed it");
    assert!(events_seen > 100_000 && changes > 20_000, "{events_seen} events, {changes} changes");
}

#[test]
fn the_lines_tell_it_after_every_row() {
    let mut changes = 0;
    for seed in GATE_INTEREST.into_iter().flatten() {
        let input = market(seed);
        let output = String::from_utf8(lines(&input)).unwrap();
        let mut told = output.split_inclusive('\n');
        let mut book = Book::new();
        let mut before = [(0, 0); SERIES];
        for (number, event) in (1..).zip(events(whole_rows(&input), &Calendar::default())) {
            let _ = event.and_then(|event| book.apply(event));
            let sums = held_and_short(&book);
            let numbers: String = sums.iter().map(|(held, _)| format!(",{held}")).collect();
            assert_eq!(told.next(), Some(format!("{number}{numbers}\n").as_str()), "market {seed}");
            changes += u64::from(sums != before);
            before = sums;
        }
        assert_eq!(told.next(), None, "market {seed}");
    }
    println!("{changes} changes");
    assert!(changes > 2_000, "only {changes} changes");
}
