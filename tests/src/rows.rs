//! RULES, "Rows": cutting the input into rows, and reading a row into an event.

use std::io::{self, ErrorKind, Read};

use crate::book::{Event, Party};
use crate::calendar::Calendar;
use crate::codes;
use crate::refusal::Refusal;

/// A row has at most this many bytes, its CRLF not counted.
pub const LONGEST_ROW: usize = 256;

/// A number outside the code has at most this many digits.
const LONGEST_NUMBER: usize = 18;

const BUFFER: usize = 1 << 16;

/// The rows of an input of any size, in constant memory. Rows are cut at CRLF and nowhere else.
pub struct Rows<R> {
    input: R,
    buffer: Box<[u8]>,
    /// The part of the buffer that is read and not yet handed out.
    start: usize,
    end: usize,
}

impl<R: Read> Rows<R> {
    pub fn new(input: R) -> Self {
        Rows { input, buffer: vec![0; BUFFER].into_boxed_slice(), start: 0, end: 0 }
    }

    /// The next row without its CRLF. A row that outgrows the buffer loses bytes at its front, but never so many that
    /// what is left would pass for a row.
    pub fn next_row(&mut self) -> io::Result<Option<&[u8]>> {
        let mut searched = 0;
        loop {
            let waiting = &self.buffer[self.start..self.end];
            if let Some(found) = find_crlf(&waiting[searched..]) {
                let row = self.start..self.start + searched + found;
                self.start = row.end + 2;
                return Ok(Some(&self.buffer[row]));
            }
            // The last byte may be the CR of a CRLF.
            searched = waiting.len().saturating_sub(1);
            if waiting.len() == BUFFER {
                self.start = self.end - (LONGEST_ROW + 2);
                searched = LONGEST_ROW + 1;
            }
            if !self.fill()? {
                let row = self.start..self.end;
                self.start = self.end;
                return Ok((!row.is_empty()).then(|| &self.buffer[row]));
            }
        }
    }

    /// Moves what is waiting to the buffer's front and reads more behind it; false at the end of the input.
    fn fill(&mut self) -> io::Result<bool> {
        self.buffer.copy_within(self.start..self.end, 0);
        self.end -= self.start;
        self.start = 0;
        loop {
            match self.input.read(&mut self.buffer[self.end..]) {
                Ok(count) => {
                    self.end += count;
                    return Ok(count > 0);
                }
                Err(error) if error.kind() == ErrorKind::Interrupted => {}
                Err(error) => return Err(error),
            }
        }
    }
}

pub fn find_crlf(bytes: &[u8]) -> Option<usize> {
    bytes.windows(2).position(|pair| pair == b"\r\n")
}

/// Reads one row. Letter, fields and digits are tested first (20), then the code (17, 18, 19), then whether its date has
/// the day that the row leaves to the calendar (22).
pub fn read(row: &[u8], calendar: &Calendar) -> Result<Event, Refusal> {
    if row.len() > LONGEST_ROW {
        return Err(Refusal::Row);
    }
    match row {
        [b'T', b',', rest @ ..] => trade(rest).ok_or(Refusal::Row),
        [b'M', b',', rest @ ..] => mark(rest).ok_or(Refusal::Row),
        [b'X', b',', rest @ ..] => exercise(rest).ok_or(Refusal::Row),
        [b'D', b',', rest @ ..] => decline(rest).ok_or(Refusal::Row),
        [b'L', b',', rest @ ..] => list(rest, calendar),
        b"I" => Ok(Event::Intraday),
        b"V" => Ok(Event::Evening),
        _ => Err(Refusal::Row),
    }
}

fn list(rest: &[u8], calendar: &Calendar) -> Result<Event, Refusal> {
    let (code, tick, last_day) = list_fields(rest).ok_or(Refusal::Row)?;
    let terms = codes::read(code)?;
    let last_day = match last_day {
        Some(day) => day,
        None => calendar.day(terms.date).ok_or(Refusal::NoTradingDate)?,
    };
    Ok(Event::List { option: terms.option, category: terms.category, strike: terms.strike, tick, last_day })
}

/// Code, R and last day; a row may end after R.
fn list_fields(rest: &[u8]) -> Option<(&[u8], u64, Option<u64>)> {
    let (code, tick, last_day) = match fields(rest) {
        Some([code, tick, last_day]) => (code, tick, Some(number(last_day)?)),
        None => {
            let [code, tick] = fields(rest)?;
            (code, tick, None)
        }
    };
    // Rows are unquoted: a double quote belongs to no field.
    if code.contains(&b'"') {
        return None;
    }
    Some((code, number(tick)?, last_day))
}

fn trade(rest: &[u8]) -> Option<Event> {
    let ([series, buyer, seller, quantity, price], [buyer_section, seller_section]) = fields_and_sections(rest)?;
    Some(Event::Trade {
        series: byte(series)?,
        buyer: Party { account: byte(buyer)?, section: buyer_section },
        seller: Party { account: byte(seller)?, section: seller_section },
        quantity: number(quantity)?,
        price: number(price)?,
    })
}

fn exercise(rest: &[u8]) -> Option<Event> {
    let ([series, account, quantity], [section]) = fields_and_sections(rest)?;
    let holder = Party { account: byte(account)?, section };
    Some(Event::Exercise { series: byte(series)?, holder, quantity: number(quantity)? })
}

fn decline(rest: &[u8]) -> Option<Event> {
    let ([series, account], [section]) = fields_and_sections(rest)?;
    let holder = Party { account: byte(account)?, section };
    Some(Event::Decline { series: byte(series)?, holder })
}

fn mark(rest: &[u8]) -> Option<Event> {
    let [series, option, futures, tick_value] = fields(rest)?;
    Some(Event::Mark {
        series: byte(series)?,
        option: number(option)?,
        futures: number(futures)?,
        tick_value: number(tick_value)?,
    })
}

/// Exactly N fields between commas.
fn fields<const N: usize>(row: &[u8]) -> Option<[&[u8]; N]> {
    fields_and_sections(row).map(|(fields, [])| fields)
}

/// N fields between commas, and behind them S sections or none: then the sections are 0.
fn fields_and_sections<const N: usize, const S: usize>(row: &[u8]) -> Option<([&[u8]; N], [u64; S])> {
    let mut parts = row.split(|&byte| byte == b',').peekable();
    let mut fields = [&row[..0]; N];
    for field in &mut fields {
        *field = parts.next()?;
    }
    let mut sections = [0; S];
    if parts.peek().is_some() {
        for section in &mut sections {
            *section = number(parts.next()?)?;
        }
    }
    parts.next().is_none().then_some((fields, sections))
}

/// A decimal number of 1 to 18 digits without leading zeros.
fn number(field: &[u8]) -> Option<u64> {
    if field.is_empty() || field.len() > LONGEST_NUMBER || (field[0] == b'0' && field.len() > 1) {
        return None;
    }
    let mut number = 0;
    for &byte in field {
        if !byte.is_ascii_digit() {
            return None;
        }
        number = 10 * number + u64::from(byte - b'0');
    }
    Some(number)
}

/// A series or an account: a number too large for its byte becomes the largest that a byte holds.
fn byte(field: &[u8]) -> Option<u8> {
    Some(number(field)?.min(255) as u8)
}

#[cfg(test)]
mod tests {
    use super::*;
    use crate::book::{Category, OptionType};

    /// Reads a row where there is no calendar.
    fn read(row: &[u8]) -> Result<Event, Refusal> {
        super::read(row, &Calendar::default())
    }

    fn refusal(row: &[u8]) -> u64 {
        read(row).expect_err(&String::from_utf8_lossy(row)).number()
    }

    fn party(account: u8, section: u64) -> Party {
        Party { account, section }
    }

    #[test]
    fn the_seven_kinds() {
        assert_eq!(
            read(b"L,GAZR-3.23M150323PE17000,100,1"),
            Ok(Event::List {
                option: OptionType::Put,
                category: Category::European,
                strike: 1_700_000,
                tick: 100,
                last_day: 1
            })
        );
        assert_eq!(
            read(b"T,0,1,2,10,15000"),
            Ok(Event::Trade { series: 0, buyer: party(1, 0), seller: party(2, 0), quantity: 10, price: 15_000 })
        );
        assert_eq!(read(b"X,7,63,0"), Ok(Event::Exercise { series: 7, holder: party(63, 0), quantity: 0 }));
        assert_eq!(read(b"D,3,4"), Ok(Event::Decline { series: 3, holder: party(4, 0) }));
        assert_eq!(
            read(b"M,0,16000,1702000,100000"),
            Ok(Event::Mark { series: 0, option: 16_000, futures: 1_702_000, tick_value: 100_000 })
        );
        assert_eq!(read(b"I"), Ok(Event::Intraday));
        assert_eq!(read(b"V"), Ok(Event::Evening));
    }

    #[test]
    fn rows_that_are_none() {
        for row in [
            "",
            " ",
            ",",
            "I,",
            "I ",
            " I",
            "i",
            "v",
            "V,0",
            "IV",
            "I\r",
            "I\n",
            "\nI",
            "A",
            "Q,1",
            "T",
            "T,",
            "L",
            "X",
            "D",
            "M",
            "T,0,1,2,10",
            "T,0,1,2,10,15000,",
            "T,0,1,2,10,15000,0",
            "T,0,1,2,10,15000,1",
            "T,0,1,2,10,15000,,",
            "T,0,1,2,10,15000,0,",
            "T,0,1,2,10,15000,,0",
            "T,0,1,2,10,15000,0,1,",
            "T,0,1,2,10,15000,0,1,0",
            "T,0,1,2,10,15000,00,1",
            "T,0,1,2,10,15000,0,01",
            "T,0,1,2,10,15000,-1,0",
            "T,0,1,2,10,15000,0, 1",
            "T,0,1,2,10,15000,1000000000000000000,0",
            "T,0,1,2,10,15000,0,1000000000000000000",
            "T,0,1,2,10,,0,1",
            "T,0,1,2,10,0,1",
            "T,0,1,2,,15000",
            "T,,1,2,10,15000",
            "t,0,1,2,10,15000",
            "T,0,1,2,010,15000",
            "T,00,1,2,10,15000",
            "T,0,1,2,10,-1",
            "T,0,1,2,10,+1",
            "T,0,1,2,10,1.0",
            "T,0,1,2,10, 1",
            "T,0,1,2,10,1\r",
            "T,0,1,2,10,1\n",
            "T;0;1;2;10;1",
            "T,\"0\",1,2,10,1",
            "\"T\",0,1,2,10,1",
            "TT,0,1,2,10,1",
            "T,0,1,2,10,1000000000000000000",
            "X,0,1",
            "X,0,1,2,",
            "X,0,1,2,01",
            "X,0,1,2,1000000000000000000",
            "X,0,1,2,0,0",
            "X,0,1,,0",
            "D,0",
            "D,0,1,",
            "D,0,1,01",
            "D,0,1,1000000000000000000",
            "D,0,1,0,0",
            "D,0,,0",
            "M,0,1,2",
            "M,0,1,2,3,4",
            "L,GAZR-3.23M150323CA17000",
            "L,GAZR-3.23M150323CA17000,",
            "L,GAZR-3.23M150323CA17000,100,",
            "L,GAZR-3.23M150323CA17000,100,1,",
            "L,GAZR-3.23M150323CA17000,,1",
            "L,GAZR-3.23M150323CA17000,100,01",
            "L,\"GAZR-3.23M150323CA17000\",100,1",
            "L,GAZR-3.23M150323CA17,000,100,1",
            "L,GAZR\"-3.23M150323CA17000,100,1",
        ] {
            assert_eq!(refusal(row.as_bytes()), 20, "{row:?}");
        }
        assert_eq!(refusal(b"T,0,1,2,10,\xff"), 20);
        assert_eq!(refusal(b"\xef\xbb\xbfI"), 20);
    }

    #[test]
    fn the_row_comes_before_the_code() {
        assert_eq!(refusal(b"L,nonsense,0100,1"), 20);
        assert_eq!(refusal(b"L,nonsense,100,1"), 17);
        assert_eq!(refusal(b"L,,100,1"), 17);
        assert_eq!(refusal(b"L,GAZR-3.23M150323CA17000\n,100,1"), 17);
        assert_eq!(refusal(b"L,GAZR-3.23\xffM150323CA17000,100,1"), 17);
        assert_eq!(refusal(b"L,GAZR-3.23M310223CA0,100,1"), 18);
        assert_eq!(refusal(b"L,GAZR-3.23M150323CA0,100,1"), 19);
    }

    #[test]
    fn a_blank_before_the_strike_and_none_elsewhere() {
        let without = read(b"L,GAZR-3.23M150323CA17000,100,1");
        assert!(without.is_ok());
        assert_eq!(read(b"L,GAZR-3.23M150323CA 17000,100,1"), without);
        for (row, number) in [
            ("L,GAZR-3.23M150323CA  17000,100,1", 17),
            ("L, GAZR-3.23M150323CA 17000,100,1", 17),
            ("L,GAZR-3.23M150323CA 17000 ,100,1", 17),
            ("L,GAZR-3.23M150323CA ,100,1", 17),
            ("L,GAZR-3.23M150323CA\t17000,100,1", 17),
            ("L,GAZR-3.23M310223CA 0,100,1", 18),
            ("L,GAZR-3.23M150323CA 0,100,1", 19),
            (" L,GAZR-3.23M150323CA 17000,100,1", 20),
            ("L ,GAZR-3.23M150323CA 17000,100,1", 20),
            ("L,GAZR-3.23M150323CA 17000, 100,1", 20),
            ("L,GAZR-3.23M150323CA 17000,100 ,1", 20),
            ("L,GAZR-3.23M150323CA 17000,100,1 ", 20),
            ("L,GAZR-3.23M150323CA 17,000,100,1", 20),
            ("L,GAZR-3.23M150323CA  17000,0100,1", 20),
        ] {
            assert_eq!(refusal(row.as_bytes()), number, "{row:?}");
        }
    }

    fn last_day(row: &[u8], calendar: &Calendar) -> u64 {
        match super::read(row, calendar) {
            Ok(Event::List { last_day, .. }) => last_day,
            other => panic!("{}: {other:?}", String::from_utf8_lossy(row)),
        }
    }

    #[test]
    fn a_listing_that_ends_after_its_tick() {
        let calendar = Calendar::read(b"140323\r\n150323\r\n150324").unwrap();
        for (date, day) in [("140323", 0), ("150323", 1), ("150324", 2)] {
            for blank in ["", " "] {
                let row = format!("L,GAZR-3.23M{date}PE{blank}17000,100");
                assert_eq!(last_day(row.as_bytes(), &calendar), day);
                let given = format!("{row},{day}");
                assert_eq!(super::read(row.as_bytes(), &calendar), super::read(given.as_bytes(), &Calendar::default()));
                assert_eq!(refusal(row.as_bytes()), 22);
                assert_eq!(super::read(format!("{row},").as_bytes(), &calendar), Err(Refusal::Row));
            }
        }
        for date in ["130323", "160323", "150325", "150322", "150423", "140324", "010100", "311299"] {
            let row = format!("L,GAZR-3.23M{date}PE17000,100");
            assert_eq!(super::read(row.as_bytes(), &calendar), Err(Refusal::NoTradingDate), "{date}");
        }
    }

    #[test]
    fn a_day_that_is_given_is_taken_whatever_the_calendar_says() {
        let calendar = Calendar::read(b"140323\r\n150323\r\n").unwrap();
        for day in [0, 1, 2, 999, 1_000] {
            assert_eq!(last_day(format!("L,GAZR-3.23M150323CA17000,100,{day}").as_bytes(), &calendar), day);
            assert_eq!(last_day(format!("L,GAZR-3.23M160323CA17000,100,{day}").as_bytes(), &calendar), day);
        }
    }

    #[test]
    fn row_and_code_come_before_the_date() {
        for (row, number) in [
            ("L,GAZR-3.23M150323CA17000", 20),
            ("L,GAZR-3.23M150323CA17000,", 20),
            ("L,GAZR-3.23M150323CA17000,0100", 20),
            ("L,GAZR-3.23M150323CA17000,100,", 20),
            ("L,GAZR-3.23M150323CA17000,100 ", 20),
            ("L,\"GAZR-3.23M150323CA17000\",100", 20),
            ("L,GAZR-3.23M150323CA01,100", 17),
            ("L,,100", 17),
            ("L,GAZR-3.23M310223CA0,100", 18),
            ("L,GAZR-3.23M150323CA0,100", 19),
            ("L,GAZR-3.23M150323CA17000,0", 22),
            ("L,GAZR-3.23M150323CA17000,10001", 22),
            ("L,GAZR-3.23M150323CA17000,100", 22),
        ] {
            assert_eq!(refusal(row.as_bytes()), number, "{row:?}");
        }
    }

    #[test]
    fn eighteen_digits_and_no_more() {
        let exercise = |digits: &str| read(format!("X,0,0,{digits}").as_bytes());
        assert_eq!(
            exercise("999999999999999999"),
            Ok(Event::Exercise { series: 0, holder: party(0, 0), quantity: 999_999_999_999_999_999 })
        );
        assert_eq!(exercise("1000000000000000000"), Err(Refusal::Row));
        assert_eq!(exercise("0000000000000000001"), Err(Refusal::Row));
    }

    #[test]
    fn a_number_too_large_becomes_the_largest_of_its_place() {
        let held = Ok(Event::Decline { series: 255, holder: party(255, 0) });
        assert_eq!(read(b"D,300,256"), held);
        assert_eq!(read(b"D,999999999999999999,255"), held);
        assert_eq!(refusal(b"D,0,1000000000000000000"), 20);
    }

    #[test]
    fn a_section_is_held_whole() {
        for section in [0, 1, 2, 10, 255, 256, 4_294_967_296, 999_999_999_999_999_999] {
            let holder = party(2, section);
            assert_eq!(
                read(format!("T,0,1,2,10,15000,1,{section}").as_bytes()),
                Ok(Event::Trade { series: 0, buyer: party(1, 1), seller: holder, quantity: 10, price: 15_000 })
            );
            assert_eq!(
                read(format!("T,0,2,3,10,15000,{section},0").as_bytes()),
                Ok(Event::Trade { series: 0, buyer: holder, seller: party(3, 0), quantity: 10, price: 15_000 })
            );
            assert_eq!(
                read(format!("X,7,2,5,{section}").as_bytes()),
                Ok(Event::Exercise { series: 7, holder, quantity: 5 })
            );
            assert_eq!(read(format!("D,7,2,{section}").as_bytes()), Ok(Event::Decline { series: 7, holder }));
        }
    }

    #[test]
    fn a_row_without_sections_means_section_0() {
        for (without, with) in [
            ("T,0,1,2,10,15000", "T,0,1,2,10,15000,0,0"),
            ("T,0,1,1,0,999999999999999999", "T,0,1,1,0,999999999999999999,0,0"),
            ("X,0,1,2", "X,0,1,2,0"),
            ("D,0,1", "D,0,1,0"),
        ] {
            assert!(read(without.as_bytes()).is_ok());
            assert_eq!(read(without.as_bytes()), read(with.as_bytes()), "{without}");
        }
    }

    #[test]
    fn a_row_of_the_most_bytes_and_one_more() {
        let list = |front: &str, back: &str, length: usize| {
            let row = format!("{front}{}{back}", "9".repeat(length - front.len() - back.len()));
            assert_eq!(row.len(), length);
            refusal(row.as_bytes())
        };
        for front in ["L,GAZR-3.23M150323CA", "L,GAZR-3.23M150323CA "] {
            for back in [",100,1", ",100"] {
                assert_eq!(list(front, back, 256), 19);
                assert_eq!(list(front, back, 257), 20);
            }
        }
    }

    /// Hands out pieces of the given size.
    struct Pieces<'a>(&'a [u8], usize);

    impl Read for Pieces<'_> {
        fn read(&mut self, buffer: &mut [u8]) -> io::Result<usize> {
            let count = self.1.min(buffer.len()).min(self.0.len());
            let (piece, rest) = self.0.split_at(count);
            buffer[..count].copy_from_slice(piece);
            self.0 = rest;
            Ok(count)
        }
    }

    fn cut(input: &[u8], size: usize) -> Vec<Vec<u8>> {
        let mut rows = Rows::new(Pieces(input, size));
        let mut all = Vec::new();
        while let Some(row) = rows.next_row().unwrap() {
            all.push(row.to_vec());
        }
        all
    }

    #[test]
    fn cutting() {
        for (input, rows) in [
            ("", vec![]),
            ("I", vec!["I"]),
            ("I\r\n", vec!["I"]),
            ("I\r\nV", vec!["I", "V"]),
            ("\r\n", vec![""]),
            ("\r\n\r\nI\r\n\r\n", vec!["", "", "I", ""]),
            ("I\r", vec!["I\r"]),
            ("I\n", vec!["I\n"]),
            ("I\nV\r\n", vec!["I\nV"]),
            ("I\rV\r\n", vec!["I\rV"]),
            ("I\r\r\nV", vec!["I\r", "V"]),
            ("I\n\r\nV", vec!["I\n", "V"]),
            ("I\r\n\nV", vec!["I", "\nV"]),
            ("I\r\n\r", vec!["I", "\r"]),
            ("\n\r", vec!["\n\r"]),
        ] {
            for size in 1..=5 {
                assert_eq!(
                    cut(input.as_bytes(), size),
                    rows.iter().map(|row| row.as_bytes()).collect::<Vec<_>>(),
                    "{input:?}"
                );
            }
        }
    }

    #[test]
    fn a_row_longer_than_the_buffer_is_one_row() {
        for length in [BUFFER - 2, BUFFER - 1, BUFFER, BUFFER + 1, 2 * BUFFER - 300, 3 * BUFFER] {
            let mut input = b"I\r\n".to_vec();
            input.extend(vec![b'\r'; length]);
            input.extend_from_slice(b"\r\nV\r\n");
            for size in [1, 7, BUFFER - 1, BUFFER, usize::MAX] {
                let rows = cut(&input, size);
                assert_eq!(rows.len(), 3);
                assert_eq!(refusal(&rows[1]), 20);
                assert_eq!(rows[2], b"V");
            }
            let rows = cut(&input[..input.len() - 5], 1000);
            assert_eq!(rows.len(), 2);
            assert_eq!(refusal(&rows[1]), 20);
        }
    }
}
