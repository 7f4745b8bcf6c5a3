//! Measures single steps on a day of the full size: a trade among 256, and the evening after them, in the proved book and in
//! the second implementation. The day is the one of the crate `full_day` (`crates/full_day/specs/Day.antt`).

use std::hint::black_box;
use std::process::ExitCode;
use std::time::Instant;

use second::book::{Book, Category, Event, OptionType, Party, SERIES, TRADES_A_DAY};

const DAYS: u64 = 1_000;
const RUNS: u32 = 20;

#[link(name = "full_day", kind = "static")]
extern "C" {
    fn full_day_trades(days: u64) -> u64;
    fn full_day_evenings(days: u64) -> u64;
}

fn main() -> ExitCode {
    let trades = DAYS * TRADES_A_DAY as u64;
    // SAFETY: both take any number.
    let rows = [
        ("trade", trades, best(trades, second_trades), best(trades, |days| unsafe { full_day_trades(days) })),
        ("evening", DAYS, best(DAYS, second_evenings), best(DAYS, |days| unsafe { full_day_evenings(days) })),
    ];
    println!("{DAYS} days, the best of {RUNS} runs");
    println!("us a step  plain Rust  proved book  ratio");
    for (step, count, plain, proved) in rows {
        let (Some(plain), Some(proved)) = (plain, proved) else {
            println!("{step}: not all of {count} steps were carried out");
            return ExitCode::FAILURE;
        };
        println!("{step:9}  {plain:10.3}  {proved:11.3}  {:5.2}", proved / plain);
    }
    ExitCode::SUCCESS
}

/// The microseconds of one of `count` steps, in the best run; nothing if fewer were carried out.
fn best(count: u64, run: impl Fn(u64) -> u64) -> Option<f64> {
    let mut best = f64::INFINITY;
    for _ in 0..RUNS {
        let start = Instant::now();
        if run(black_box(DAYS)) != count {
            return None;
        }
        best = best.min(start.elapsed().as_secs_f64());
    }
    Some(1e6 * best / count as f64)
}

fn listing(n: usize) -> Event {
    Event::List {
        option: OptionType::Call,
        category: Category::American,
        strike: 100_000,
        tick: 1,
        last_day: n as u64 % 2 * 999,
    }
}

fn trade(n: usize) -> Event {
    let account = (n / 8) as u8;
    Event::Trade {
        series: n as u8 % 8,
        buyer: Party { account, section: 0 },
        seller: Party { account: account + 32, section: 0 },
        quantity: n as u64 + 1,
        price: n as u64 + 5_000,
    }
}

fn mark(n: usize) -> Event {
    Event::Mark { series: n as u8, option: 5_000, futures: 100_000, tick_value: 12_345 }
}

/// Applies events to a book, and counts those that are carried out.
fn apply(book: &mut Book, events: impl Iterator<Item = Event>) -> u64 {
    events.map(|event| u64::from(book.apply(event).is_ok())).sum()
}

fn listed() -> Book {
    let mut book = Book::new();
    apply(&mut book, (0..SERIES).map(listing));
    book
}

fn second_trades(days: u64) -> u64 {
    let start = listed();
    let mut carried_out = 0;
    for _ in 0..days {
        let mut book = start.clone();
        carried_out += apply(&mut book, (0..TRADES_A_DAY).map(trade));
        black_box(&book);
    }
    carried_out
}

fn second_evenings(days: u64) -> u64 {
    let mut full = listed();
    apply(&mut full, (0..TRADES_A_DAY).map(trade).chain((0..SERIES).map(mark)));
    let mut carried_out = 0;
    for _ in 0..days {
        let mut book = full.clone();
        carried_out += apply(&mut book, std::iter::once(Event::Evening));
        black_box(&book);
    }
    carried_out
}
