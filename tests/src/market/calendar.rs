//! Trading calendars, sound and broken.

use std::sync::LazyLock;

use super::{kind, Kind};
use crate::calendar::{File, MOST_BYTES, MOST_DATES};
use crate::codes::Date;
use crate::random::Random;

/// All dates from 2000 to 2099.
static CENTURY: LazyLock<Vec<Date>> = LazyLock::new(|| {
    let months = (0..100).flat_map(|year| (1..=12).map(move |month| (year, month)));
    let days = months.flat_map(|(year, month)| (1..=31).map(move |day| Date { year, month, day }));
    days.filter(|date| date.exists()).collect()
});

pub fn any_date(random: &mut Random) -> Date {
    random.pick(&CENTURY)
}

/// The calendar of a seed's market, if any. One seed of 13 has an odd one: all kinds of market, and all forms in turn.
pub fn of_market(seed: u64, random: &mut Random) -> File {
    if seed % 13 == 7 {
        return odd(seed / 13, random);
    }
    match random.below(100) {
        0..=15 => File::Missing,
        16..=18 => File::Bytes(Vec::new()),
        19..=24 => File::Bytes(sound(random, MOST_DATES)),
        _ => {
            let count = length(kind(seed), random);
            let dates = rising(random, count);
            File::Bytes(text(random, &dates))
        }
    }
}

/// Mostly about as many dates as the market has days.
fn length(kind: Kind, random: &mut Random) -> usize {
    let longest = MOST_DATES as u64;
    let is_ending = matches!(kind, Kind::Ending | Kind::SectionEnding);
    let length = match random.below(8) {
        0..=2 if is_ending => longest,
        3..=5 if is_ending => random.between(longest - 12, longest),
        0 => 1,
        1..=4 => random.between(2, 16),
        5 | 6 => random.between(40, 75),
        _ => random.between(1, longest),
    };
    length as usize
}

/// Rising dates, as many as are asked for if the century has them. They lie close together or far apart, and many agree
/// in two of day, month and year.
fn rising(random: &mut Random, count: usize) -> Vec<Date> {
    let pattern = random.below(7);
    let like = any_date(random);
    let first = match random.below(4) {
        0 => 0,
        1 if pattern == 0 => CENTURY.len() - count,
        _ => random.below(CENTURY.len() as u64) as usize,
    };
    let days = CENTURY.iter().copied().enumerate().skip(first);
    let trading_days = days.filter(|&(place, date)| match pattern {
        0 => true,
        // 1 January 2000 was a Saturday.
        1 | 2 => place % 7 >= 2,
        3 => random.one_in(8),
        4 => date.day == like.day,
        5 => date.month == like.month,
        _ => date.day == like.day && date.month == like.month,
    });
    trading_days.map(|(_, date)| date).take(count).collect()
}

/// As many rising dates as are asked for.
fn exactly(random: &mut Random, count: usize) -> Vec<Date> {
    loop {
        let dates = rising(random, count);
        if dates.len() == count {
            return dates;
        }
    }
}

fn sound(random: &mut Random, count: usize) -> Vec<u8> {
    let dates = exactly(random, count);
    text(random, &dates)
}

fn lines(dates: &[Date]) -> Vec<Vec<u8>> {
    dates.iter().map(|date| format!("{date}\r\n").into_bytes()).collect()
}

/// The last line has its CRLF or lacks it.
fn text(random: &mut Random, dates: &[Date]) -> Vec<u8> {
    let mut text = lines(dates).concat();
    if random.one_in(2) {
        text.truncate(text.len().saturating_sub(2));
    }
    text
}

/// What else may stand under the calendar's name: a calendar that is refused, one that an accident may have spoilt, or a
/// folder. The forms take turns.
pub fn odd(turn: u64, random: &mut Random) -> File {
    match ODD.get(turn as usize % (ODD.len() + 2)) {
        Some(text) => File::Bytes(text(random)),
        None => File::Unreadable,
    }
}

const ODD: [fn(&mut Random) -> Vec<u8>; 44] = [
    // Dates that don't rise strictly.
    |random| of_odd_dates(random, repeat_one),
    |random| of_odd_dates(random, |random, dates| swap_neighbours(random, dates)),
    |random| falling(random, |date, other| Date { day: other.day, ..date }),
    |random| falling(random, |date, other| Date { month: other.month, day: date.day.max(other.day), ..date }),
    |random| falling(random, |date, other| Date { year: other.year, month: date.month.max(other.month), ..date }),
    // Six digits that are no date, in a place where they rise.
    |random| with_no_date(random, |random, date| Date { month: random.pick(&[4, 6, 9, 11]), day: 31, ..date }),
    |random| with_no_date(random, |random, date| Date { month: 2, day: random.between(30, 31), ..date }),
    |random| with_no_date(random, |_, date| Date { year: a_common_year(date.year), month: 2, day: 29 }),
    |random| with_no_date(random, |_, date| Date { month: 0, ..date }),
    |random| with_no_date(random, |random, date| Date { month: random.pick(&[13, 13, 20, 99]), ..date }),
    |random| with_no_date(random, |_, date| Date { day: 0, ..date }),
    |random| with_no_date(random, |random, date| Date { day: random.pick(&[32, 32, 40, 99]), ..date }),
    // Empty lines.
    |random| of_odd_lines(random, |_, lines| lines.insert(0, b"\r\n".to_vec())),
    |random| of_odd_lines(random, |_, lines| lines.insert(1, b"\r\n".to_vec())),
    |random| of_odd_lines(random, |_, lines| lines.push(b"\r\n".to_vec())),
    // Lines that end in another way, or not at all.
    |random| of_odd_lines(random, |random, lines| end_one(random, lines, b"\n")),
    |random| of_odd_lines(random, |random, lines| end_one(random, lines, b"\r")),
    |random| of_odd_lines(random, |random, lines| end_one(random, lines, b"\r\r\n")),
    |random| of_odd_lines(random, |random, lines| end_one(random, lines, b"\n\r")),
    |random| of_odd_lines(random, |_, lines| lines[0].truncate(DIGITS)),
    |random| of_odd_lines(random, |_, lines| lines.iter_mut().for_each(|line| line.retain(|&byte| byte != b'\r'))),
    |random| of_odd_lines(random, |_, lines| cut_the_last(lines, DIGITS + 1)),
    |random| of_odd_lines(random, |random, lines| cut_the_last(lines, random.between(1, 5) as usize)),
    // Bytes too many, too few, and in the place of digits.
    |random| of_odd_lines(random, |random, lines| insert_into_one(random, lines, b"0123456789")),
    |random| of_odd_lines(random, |random, lines| insert_into_one(random, lines, b" ")),
    |random| of_odd_lines(random, |random, lines| insert_into_one(random, lines, b"\0\t\x0b\x0c\xa0")),
    |random| of_odd_lines(random, |random, lines| remove_a_digit(random, lines)),
    |random| of_odd_lines(random, |random, lines| replace_a_digit(random, lines, b"OolISDMY")),
    |random| of_odd_lines(random, |random, lines| replace_a_digit(random, lines, b"/:.,-+;\"\x7f\x80\xb0\xb9\xff")),
    |random| of_odd_lines(random, |random, lines| replace_a_digit(random, lines, b"\0")),
    |random| of_odd_lines(random, |_, lines| lines.insert(0, b"\xef\xbb\xbf".to_vec())),
    |random| of_odd_lines(random, |random, lines| lines.push(random.pick(&[&b" "[..], b" \r\n"]).to_vec())),
    |random| of_odd_lines(random, |random, lines| lines.push(vec![random.pick(b"\0\x1a\n#")])),
    |random| of_odd_lines(random, |random, lines| write_in_another_way(random, lines)),
    // Too long.
    |random| sound(random, MOST_DATES + 1),
    |random| [lines(&exactly(random, MOST_DATES)).concat(), vec![random.pick(b"0 \r\n\0")]].concat(),
    |_| lines(&CENTURY).concat(),
    // Accidents, which may leave a sound calendar.
    |random| after_an_accident(random, |random, text, place| text[place] = random.below(256) as u8),
    |random| after_an_accident(random, |random, text, place| text.insert(place, random.pick(b"0123456789\r\n"))),
    |random| after_an_accident(random, |_, text, place| text.truncate(place)),
    |random| after_an_accident(random, remove),
    noise,
    // Twice, for others leave a sound calendar too seldom.
    |random| after_an_accident(random, |random, text, place| change_a_digit(random, text, place)),
    |random| after_an_accident(random, |random, text, place| change_a_digit(random, text, place)),
];

fn of_odd_dates(random: &mut Random, spoil: impl Fn(&mut Random, &mut Vec<Date>)) -> Vec<u8> {
    let count = random.between(2, 20) as usize;
    let mut dates = exactly(random, count);
    spoil(random, &mut dates);
    text(random, &dates)
}

fn repeat_one(random: &mut Random, dates: &mut Vec<Date>) {
    let place = random.below(dates.len() as u64) as usize;
    dates.insert(place, dates[place]);
}

fn swap_neighbours(random: &mut Random, dates: &mut [Date]) {
    let place = random.below(dates.len() as u64 - 1) as usize;
    dates.swap(place, place + 1);
}

/// Dates with an earlier one behind one of them: another date with parts of that one's.
fn falling(random: &mut Random, change: impl Fn(Date, Date) -> Date) -> Vec<u8> {
    loop {
        let count = random.between(1, 20) as usize;
        let mut dates = exactly(random, count);
        let place = random.below(count as u64) as usize;
        let earlier = change(dates[place], any_date(random));
        if earlier.exists() && earlier < dates[place] {
            dates.insert(place + 1, earlier);
            return text(random, &dates);
        }
    }
}

fn with_no_date(random: &mut Random, spoil: impl Fn(&mut Random, Date) -> Date) -> Vec<u8> {
    of_odd_dates(random, |random, dates| {
        let date = random.pick(dates);
        let none = spoil(random, date);
        let place = dates.partition_point(|&date| date < none);
        dates.insert(place, none);
    })
}

fn a_common_year(year: u64) -> u64 {
    // No odd number is a multiple of four.
    year | 1
}

const DIGITS: usize = 6;

fn of_odd_lines(random: &mut Random, spoil: impl Fn(&mut Random, &mut Vec<Vec<u8>>)) -> Vec<u8> {
    let count = random.between(2, 20) as usize;
    let mut lines = lines(&exactly(random, count));
    spoil(random, &mut lines);
    lines.concat()
}

fn some_line<'a>(random: &mut Random, lines: &'a mut [Vec<u8>]) -> &'a mut Vec<u8> {
    let place = random.below(lines.len() as u64) as usize;
    &mut lines[place]
}

fn end_one(random: &mut Random, lines: &mut [Vec<u8>], end: &[u8]) {
    let line = some_line(random, lines);
    line.truncate(DIGITS);
    line.extend_from_slice(end);
}

fn cut_the_last(lines: &mut [Vec<u8>], length: usize) {
    if let Some(line) = lines.last_mut() {
        line.truncate(length);
    }
}

fn insert_into_one(random: &mut Random, lines: &mut [Vec<u8>], bytes: &[u8]) {
    let place = random.between(0, DIGITS as u64) as usize;
    let byte = random.pick(bytes);
    some_line(random, lines).insert(place, byte);
}

fn remove_a_digit(random: &mut Random, lines: &mut [Vec<u8>]) {
    let place = random.below(DIGITS as u64) as usize;
    some_line(random, lines).remove(place);
}

fn replace_a_digit(random: &mut Random, lines: &mut [Vec<u8>], bytes: &[u8]) {
    let place = random.below(DIGITS as u64) as usize;
    let byte = random.pick(bytes);
    some_line(random, lines)[place] = byte;
}

fn write_in_another_way(random: &mut Random, lines: &mut [Vec<u8>]) {
    let date = random.pick(&["15032023", "15.03.23", "15-03-23", "\"150323\"", "2023-03-15", "150323,", "DDMMYY", "2"]);
    *some_line(random, lines) = format!("{date}\r\n").into_bytes();
}

fn after_an_accident(random: &mut Random, happen: impl Fn(&mut Random, &mut Vec<u8>, usize)) -> Vec<u8> {
    let count = random.between(1, 20) as usize;
    let mut text = sound(random, count);
    let place = random.below(text.len() as u64) as usize;
    happen(random, &mut text, place);
    text
}

fn remove(_: &mut Random, text: &mut Vec<u8>, place: usize) {
    text.remove(place);
}

/// In the line of the place.
fn change_a_digit(random: &mut Random, text: &mut [u8], place: usize) {
    let line = place / 8 * 8;
    text[line + random.below(DIGITS as u64) as usize] = random.pick(b"0123456789");
}

fn noise(random: &mut Random) -> Vec<u8> {
    let length = random.pick(&[1, 2, 6, 7, 8, 14, 100, MOST_BYTES, MOST_BYTES + 1]);
    if random.one_in(3) {
        return (0..length).map(|_| random.below(256) as u8).collect();
    }
    (0..length).map(|_| random.pick(b"0012346789\r\n\r\n")).collect()
}
