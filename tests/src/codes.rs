//! RULES, "Contract codes": the reader and the writer.

use std::fmt;

use crate::book::{Category, OptionType};
use crate::refusal::Refusal;

/// The strike of 100,000 roubles or dollars, in hundredths.
const LARGEST_STRIKE: u64 = 10_000_000;

/// What a code says. The futures code is a part of the code's own bytes.
#[derive(Clone, Copy, Debug, PartialEq, Eq)]
pub struct Terms<'a> {
    pub futures_code: &'a [u8],
    pub date: Date,
    pub option: OptionType,
    pub category: Category,
    pub style: Style,
    /// In hundredths.
    pub strike: u64,
}

/// What stands between the category letter and the strike: one blank, as in lists of share options, or nothing, as in
/// those of oil.
#[derive(Clone, Copy, Debug, PartialEq, Eq)]
pub enum Style {
    Blank,
    NoBlank,
}

/// Year, month and day, in this order so that an earlier date is less than a later one. Not all of them exist.
#[derive(Clone, Copy, Debug, PartialEq, Eq, PartialOrd, Ord)]
pub struct Date {
    /// 0 to 99 for 2000 to 2099.
    pub year: u64,
    pub month: u64,
    pub day: u64,
}

impl Date {
    /// Reads DDMMYY; any six digits will do.
    pub fn read(digits: &[u8; 6]) -> Option<Self> {
        let [d1, d2, m1, m2, y1, y2] = *digits;
        Some(Date { year: two_digits(y1, y2)?, month: two_digits(m1, m2)?, day: two_digits(d1, d2)? })
    }

    /// Whether two digits hold each of its numbers.
    fn has_a_layout(self) -> bool {
        [self.day, self.month, self.year].iter().all(|&number| number <= 99)
    }

    /// Whether there is such a day, from 2000 to 2099.
    pub fn exists(self) -> bool {
        let days = match self.month {
            1 | 3 | 5 | 7 | 8 | 10 | 12 => 31,
            4 | 6 | 9 | 11 => 30,
            // From 2000 to 2099 every fourth year is a leap year, 2000 among them.
            2 if self.year % 4 == 0 => 29,
            2 => 28,
            _ => return false,
        };
        (1..=days).contains(&self.day)
    }
}

/// DDMMYY.
impl fmt::Display for Date {
    fn fmt(&self, formatter: &mut fmt::Formatter) -> fmt::Result {
        write!(formatter, "{:02}{:02}{:02}", self.day, self.month, self.year)
    }
}

/// Reads a code. The whole layout is tested first (17), then the date (18), then the strike (19).
pub fn read(code: &[u8]) -> Result<Terms<'_>, Refusal> {
    let terms = layout(code).ok_or(Refusal::Code)?;
    check(&terms)?;
    Ok(terms)
}

/// Writes the code of `terms`, or says why no code has them.
pub fn write(terms: &Terms) -> Result<String, Refusal> {
    let futures_code = match futures_code_length(terms.futures_code) {
        Some(length) if length == terms.futures_code.len() => String::from_utf8_lossy(terms.futures_code),
        _ => return Err(Refusal::Code),
    };
    if !terms.date.has_a_layout() {
        return Err(Refusal::Code);
    }
    check(terms)?;
    let date = terms.date;
    let option = match terms.option {
        OptionType::Call => 'C',
        OptionType::Put => 'P',
    };
    let category = match terms.category {
        Category::American => 'A',
        Category::European => 'E',
    };
    let blank = match terms.style {
        Style::Blank => " ",
        Style::NoBlank => "",
    };
    let strike = strike_text(terms.strike);
    Ok(format!("{futures_code}M{date}{option}{category}{blank}{strike}"))
}

fn check(terms: &Terms) -> Result<(), Refusal> {
    if !terms.date.exists() {
        return Err(Refusal::Date);
    }
    if !(1..=LARGEST_STRIKE).contains(&terms.strike) {
        return Err(Refusal::StrikeText);
    }
    Ok(())
}

/// Takes a code apart; `None` where its layout is broken. A strike past every bound is held at the largest number.
fn layout(code: &[u8]) -> Option<Terms<'_>> {
    let (futures_code, rest) = code.split_at(futures_code_length(code)?);
    let [b'M', d1, d2, m1, m2, y1, y2, option, category, rest @ ..] = rest else {
        return None;
    };
    let date = Date::read(&[*d1, *d2, *m1, *m2, *y1, *y2])?;
    let option = match option {
        b'C' => OptionType::Call,
        b'P' => OptionType::Put,
        _ => return None,
    };
    let category = match category {
        b'A' => Category::American,
        b'E' => Category::European,
        _ => return None,
    };
    let (style, strike) = match rest {
        [b' ', strike @ ..] => (Style::Blank, strike),
        strike => (Style::NoBlank, strike),
    };
    Some(Terms { futures_code, date, option, category, style, strike: strike_hundredths(strike)? })
}

/// The length of the futures code that `code` starts with: 1 to 8 capitals, a hyphen, a month, a point, a year.
fn futures_code_length(code: &[u8]) -> Option<usize> {
    let capitals = code.iter().take_while(|byte| byte.is_ascii_uppercase()).count();
    if !(1..=8).contains(&capitals) {
        return None;
    }
    let month = match &code[capitals..] {
        [b'-', b'1'..=b'9', b'.', ..] => 1,
        [b'-', b'1', b'0'..=b'2', b'.', ..] => 2,
        _ => return None,
    };
    let year = capitals + 1 + month + 1;
    two_digits(*code.get(year)?, *code.get(year + 1)?)?;
    Some(year + 2)
}

fn two_digits(tens: u8, ones: u8) -> Option<u64> {
    Some(10 * digit(tens)? + digit(ones)?)
}

fn digit(byte: u8) -> Option<u64> {
    byte.is_ascii_digit().then(|| u64::from(byte - b'0'))
}

/// The strike in hundredths: no leading zero save a lone 0; a point and one or two digits, the last of them not 0.
fn strike_hundredths(text: &[u8]) -> Option<u64> {
    let point = text.iter().position(|&byte| byte == b'.').unwrap_or(text.len());
    let (whole, fraction) = text.split_at(point);
    if whole.is_empty() || (whole[0] == b'0' && whole.len() > 1) {
        return None;
    }
    let mut units: u64 = 0;
    for &byte in whole {
        units = units.saturating_mul(10).saturating_add(digit(byte)?);
    }
    let hundredths = match *fraction {
        [] => 0,
        [_, tenths @ b'1'..=b'9'] => 10 * digit(tenths)?,
        [_, tenths, ones @ b'1'..=b'9'] => two_digits(tenths, ones)?,
        _ => return None,
    };
    Some(units.saturating_mul(100).saturating_add(hundredths))
}

fn strike_text(strike: u64) -> String {
    let (units, hundredths) = (strike / 100, strike % 100);
    if hundredths == 0 {
        format!("{units}")
    } else if hundredths % 10 == 0 {
        format!("{units}.{}", hundredths / 10)
    } else {
        format!("{units}.{hundredths:02}")
    }
}

#[cfg(test)]
mod tests {
    use super::*;

    /// What may stand before a strike.
    const BLANKS: [&str; 2] = ["", " "];

    fn refusal(code: impl AsRef<[u8]>) -> u64 {
        let code = code.as_ref();
        read(code).expect_err(&String::from_utf8_lossy(code)).number()
    }

    #[test]
    fn the_code_of_the_example() {
        let code = b"GAZR-3.23M150323CA17000";
        let terms = read(code).unwrap();
        assert_eq!(terms.futures_code, b"GAZR-3.23");
        assert_eq!(terms.date, Date { day: 15, month: 3, year: 23 });
        assert_eq!(terms.option, OptionType::Call);
        assert_eq!(terms.category, Category::American);
        assert_eq!(terms.style, Style::NoBlank);
        assert_eq!(terms.strike, 1_700_000);
        // The futures code is that part of the caller's bytes.
        assert!(std::ptr::eq(terms.futures_code.as_ptr(), code.as_ptr()));
    }

    #[test]
    fn codes_that_differ_only_in_the_blank_differ_in_style_alone() {
        for (kind, strike) in [("CA", "17000"), ("PA", "0.01"), ("CE", "72.5"), ("PE", "100000")] {
            let codes = BLANKS.map(|blank| format!("GAZR-3.23M150323{kind}{blank}{strike}"));
            let [without, with] = codes.each_ref().map(|code| read(code.as_bytes()).unwrap());
            assert_ne!(without, with);
            assert_eq!(without.style, Style::NoBlank);
            assert_eq!(with, Terms { style: Style::Blank, ..without });
            assert_eq!([without, with].map(|terms| write(&terms).unwrap()), codes);
        }
    }

    #[test]
    fn strikes_that_are_read() {
        for (text, strike) in [
            ("0.01", 1),
            ("0.5", 50),
            ("1", 100),
            ("12.05", 1_205),
            ("12.5", 1_250),
            ("99999.99", 9_999_999),
            ("100000", 10_000_000),
        ] {
            for blank in BLANKS {
                let code = format!("GAZR-3.23M150323CA{blank}{text}");
                assert_eq!(read(code.as_bytes()).expect(&code).strike, strike);
            }
        }
    }

    #[test]
    fn strikes_whose_layout_is_broken() {
        for text in [
            "", ".", ".5", "1.", "00", "01", "00.5", "1.0", "1.00", "1.50", "0.0", "1.234", "1.001", "1..5", "1.5.5",
            "-1", "+1", "1 ", "1 000", "1. 5", "1 .5", "1,5", "1e3", "1.a", "1.a5", "1.5a",
        ] {
            for blank in BLANKS {
                assert_eq!(refusal(format!("GAZR-3.23M150323CA{blank}{text}")), 17, "{blank:?} {text:?}");
            }
        }
    }

    #[test]
    fn strikes_out_of_bounds() {
        let long = "9".repeat(200);
        let wrapping = format!("{}{}", "18446744073709551617", "00");
        for text in ["0", "100000.01", "100000.1", "100001", "1000000", &long, &wrapping] {
            for blank in BLANKS {
                assert_eq!(refusal(format!("GAZR-3.23M150323CA{blank}{text}")), 19, "{blank:?} {text:?}");
            }
        }
    }

    #[test]
    fn more_than_one_blank() {
        for count in 2..10 {
            let blanks = " ".repeat(count);
            assert_eq!(refusal(format!("GAZR-3.23M150323CA{blanks}17000")), 17);
            assert_eq!(refusal(format!("GAZR-3.23M150323CA{blanks}")), 17);
        }
    }

    #[test]
    fn a_blank_anywhere_else() {
        let (front, strike) = ("GAZR-12.23M150323CA", "17000.05");
        let code = format!("{front}{strike}");
        for place in (0..=code.len()).filter(|&place| place != front.len()) {
            let (before, behind) = code.split_at(place);
            assert_eq!(refusal(format!("{before} {behind}")), 17, "{place}");
        }
        // Beside the blank before the strike there is room for no other.
        let code = format!("{front} {strike}");
        for place in 0..=code.len() {
            let (before, behind) = code.split_at(place);
            assert_eq!(refusal(format!("{before} {behind}")), 17, "{place}");
        }
    }

    #[test]
    fn bytes_in_the_place_of_the_blank() {
        for byte in 0..=255 {
            let code = [b"GAZR-3.23M150323CA", &[byte][..], b"700"].concat();
            match byte {
                b' ' => assert_eq!(read(&code).unwrap().style, Style::Blank),
                b'1'..=b'9' => assert_eq!(read(&code).unwrap().style, Style::NoBlank),
                _ => assert_eq!(refusal(code), 17, "{byte}"),
            }
        }
        for blank in ["\u{a0}", "\u{2003}", "\u{2009}", "\u{202f}", "\u{3000}", "\t ", " \t", "\r\n", " \u{a0}"] {
            assert_eq!(refusal(format!("GAZR-3.23M150323CA{blank}17000")), 17, "{blank:?}");
        }
    }

    #[test]
    fn layouts_that_are_broken() {
        for code in [
            "",
            "G",
            "GAZR",
            "GAZR-3",
            "GAZR-3.2",
            "GAZR-3.23",
            "-3.23M150323CA1",
            "GAZRGAZRG-3.23M150323CA1",
            "gazr-3.23M150323CA1",
            "GAZ1-3.23M150323CA1",
            "GAZR3.23M150323CA1",
            "GAZR-0.23M150323CA1",
            "GAZR-03.23M150323CA1",
            "GAZR-13.23M150323CA1",
            "GAZR-20.23M150323CA1",
            "GAZR-123.23M150323CA1",
            "GAZR-.23M150323CA1",
            "GAZR-3.2M150323CA1",
            "GAZR-3.223M150323CA1",
            "GAZR-3-23M150323CA1",
            "GAZR-3.23m150323CA1",
            "GAZR-3.23 M150323CA1",
            "GAZR-3.23M15032CA1",
            "GAZR-3.23M1503233CA1",
            "GAZR-3.23M15O323CA1",
            "GAZR-3.23M150323XA1",
            "GAZR-3.23M150323CX1",
            "GAZR-3.23M150323AC1",
            "GAZR-3.23M150323CA",
            "GAZR-3.23M150323C",
            " GAZR-3.23M150323CA1",
            "GAZR-3.23M150323CA1\r",
            "GAZR-3.23M150323CA1\n",
            "GAZR-3.23M150323CA1\0",
        ] {
            assert_eq!(refusal(code), 17, "{code:?}");
        }
    }

    #[test]
    fn shortest_and_longest_codes() {
        for (code, length) in [
            ("A-1.00M010100PE1", 16),
            ("A-1.00M010100PE 1", 17),
            ("ABCDEFGH-12.99M311299PE99999.99", 31),
            ("ABCDEFGH-12.99M311299PE 99999.99", 32),
        ] {
            assert_eq!(code.len(), length);
            assert_eq!(write(&read(code.as_bytes()).unwrap()).unwrap(), code);
        }
    }

    #[test]
    fn dates() {
        let refused =
            |date: &str| read(format!("A-1.00M{date}CA1").as_bytes()).is_err_and(|refusal| refusal == Refusal::Date);
        for date in ["010100", "310123", "280223", "290200", "290224", "290296", "300423", "311299"] {
            assert!(!refused(date), "{date}");
        }
        for date in [
            "000123", "320123", "290223", "290299", "300224", "310423", "310623", "310923", "311123", "010023",
            "011323", "019923", "990123",
        ] {
            assert!(refused(date), "{date}");
        }
    }

    #[test]
    fn layout_comes_before_date_and_date_before_strike() {
        for blank in BLANKS {
            assert_eq!(refusal(format!("GAZR-3.23M990323CA{blank}01")), 17);
            assert_eq!(refusal(format!("GAZR-3.23M990323CA{blank}0")), 18);
            assert_eq!(refusal(format!("GAZR-3.23M150323CA{blank}0")), 19);
        }
        assert_eq!(refusal("GAZR-3.23M990323CA  0"), 17);
        assert_eq!(refusal("GAZR-3.23M990323CA "), 17);
    }

    #[test]
    fn a_code_and_its_terms_determine_each_other() {
        for (front, strike) in [
            ("GAZR-3.23M150323CA", "17000"),
            ("A-1.00M290200PE", "0.01"),
            ("ABCDEFGH-12.99M311299PE", "99999.99"),
            ("CL-10.24M010124CE", "70.5"),
            ("SBRF-6.23M070623PA", "100000"),
        ] {
            for blank in BLANKS {
                let code = format!("{front}{blank}{strike}");
                assert_eq!(write(&read(code.as_bytes()).unwrap()).unwrap(), code);
            }
        }
        for strike in (1..=LARGEST_STRIKE).step_by(997).chain([1, 9, 10, 99, 100, 101, 110, LARGEST_STRIKE]) {
            for style in [Style::Blank, Style::NoBlank] {
                let terms = Terms {
                    futures_code: b"SBRF-6.23",
                    date: Date { day: 7, month: 6, year: 23 },
                    option: OptionType::Put,
                    category: Category::European,
                    style,
                    strike,
                };
                assert_eq!(read(write(&terms).unwrap().as_bytes()), Ok(terms));
            }
        }
    }

    #[test]
    fn terms_that_no_code_has() {
        for style in [Style::Blank, Style::NoBlank] {
            let terms = Terms { style, ..read(b"GAZR-3.23M150323CA17000").unwrap() };
            let date = Date { day: 29, month: 2, year: 23 };
            assert_eq!(write(&Terms { futures_code: b"GAZR-3.23M", ..terms }), Err(Refusal::Code));
            assert_eq!(write(&Terms { futures_code: b"", date, ..terms }), Err(Refusal::Code));
            assert_eq!(write(&Terms { date, strike: 0, ..terms }), Err(Refusal::Date));
            for date in [
                Date { day: 100, ..terms.date },
                Date { month: 100, ..terms.date },
                Date { year: 100, ..terms.date },
                Date { year: u64::MAX, ..date },
            ] {
                assert_eq!(write(&Terms { date, strike: 0, ..terms }), Err(Refusal::Code));
            }
            for date in [Date { day: 99, ..terms.date }, Date { month: 99, ..terms.date }] {
                assert_eq!(write(&Terms { date, strike: 0, ..terms }), Err(Refusal::Date));
            }
            assert_eq!(write(&Terms { strike: 0, ..terms }), Err(Refusal::StrikeText));
            assert_eq!(write(&Terms { strike: LARGEST_STRIKE + 1, ..terms }), Err(Refusal::StrikeText));
        }
    }
}
