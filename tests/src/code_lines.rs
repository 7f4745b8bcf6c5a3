//! RULES, "Contract codes": what the reader and the writer make of many codes, a line for each.

use crate::book::{Category, OptionType};
use crate::codes::{self, Date, Style, Terms};

/// Futures code, day, month and year, strike in hundredths: what the writer is given beside the codes of the input.
type OwnTerms = (&'static str, [u64; 3], u64);

const OWN_TERMS: [OwnTerms; 13] = [
    ("GAZR-3.23", [15, 3, 23], 1_700_000),
    ("ABCDEFGH-12.99", [31, 12, 99], 9_999_999),
    ("A-1.00", [29, 2, 0], 1),
    ("GAZR-3.23", [100, 3, 23], 1_700_000),
    ("GAZR-3.23", [15, 100, 23], 1_700_000),
    ("GAZR-3.23", [15, 3, 100], 1_700_000),
    ("GAZR-3.23M", [15, 3, 23], 1_700_000),
    ("", [15, 3, 23], 1_700_000),
    ("GAZR-3.23", [0, 3, 23], 0),
    ("GAZR-3.23", [31, 4, 23], 1_700_000),
    ("GAZR-3.23", [15, 3, 23], 0),
    ("GAZR-3.23", [15, 3, 23], 10_000_001),
    ("GAZR-3.23", [15, 3, 23], u64::MAX),
];

/// A line for each code of the input, which ends each with LF, then one for each of the terms above, in both styles. Bytes behind the
/// last LF are no code.
pub fn lines(input: &[u8]) -> Vec<u8> {
    let mut codes = input.split(|&byte| byte == b'\n');
    codes.next_back();
    let mut lines: Vec<u8> = codes.flat_map(line_of_code).collect();
    for style in [Style::NoBlank, Style::Blank] {
        for own in &OWN_TERMS {
            lines.extend(line_of_terms(&terms(own, style)).into_bytes());
        }
    }
    lines
}

/// The writer is asked for puts of the European category alone.
fn terms(&(futures_code, [day, month, year], strike): &OwnTerms, style: Style) -> Terms<'static> {
    Terms {
        futures_code: futures_code.as_bytes(),
        date: Date { day, month, year },
        option: OptionType::Put,
        category: Category::European,
        style,
        strike,
    }
}

fn line_of_code(code: &[u8]) -> Vec<u8> {
    let answer = match codes::read(code) {
        Ok(terms) => format!(
            "future {} {} {} {} {}",
            numbers(&terms),
            option_word(terms.option),
            category_word(terms.category),
            style_words(terms.style),
            written(&terms)
        ),
        Err(refusal) => format!("refused {}", refusal.number()),
    };
    [code, b" ", answer.as_bytes(), b"\n"].concat()
}

fn line_of_terms(terms: &Terms) -> String {
    format!("{} {} {}\n", numbers(terms), style_words(terms.style), written(terms))
}

/// The futures code stands before them.
fn numbers(terms: &Terms) -> String {
    let Date { day, month, year } = terms.date;
    format!("{} {day} {month} {year} {}", String::from_utf8_lossy(terms.futures_code), terms.strike)
}

fn written(terms: &Terms) -> String {
    match codes::write(terms) {
        Ok(code) => format!("written {code} {}", code.len()),
        Err(refusal) => format!("refused {} 0", refusal.number()),
    }
}

fn option_word(option: OptionType) -> &'static str {
    match option {
        OptionType::Call => "call",
        OptionType::Put => "put",
    }
}

fn category_word(category: Category) -> &'static str {
    match category {
        Category::American => "American",
        Category::European => "European",
    }
}

fn style_words(style: Style) -> &'static str {
    match style {
        Style::Blank => "blank",
        Style::NoBlank => "no blank",
    }
}

#[cfg(test)]
mod tests {
    use super::*;

    #[test]
    fn codes_in_their_order() {
        let input =
            b"GAZR-3.23M150323CA17000\n\nCL-6.24M160524PE 72.5\n\xff\nA-1.00M000000CA0\nA-1.00M010100CA0\nA-1.00";
        let expected = b"\
            GAZR-3.23M150323CA17000 future GAZR-3.23 15 3 23 1700000 call American no blank \
            written GAZR-3.23M150323CA17000 23\n \
            refused 17\n\
            CL-6.24M160524PE 72.5 future CL-6.24 16 5 24 7250 put European blank written CL-6.24M160524PE 72.5 21\n\
            \xff refused 17\n\
            A-1.00M000000CA0 refused 18\n\
            A-1.00M010100CA0 refused 19\n";
        let lines = lines(input);
        let (codes, own) = lines.split_at(expected.len());
        assert_eq!(codes.escape_ascii().to_string(), expected.escape_ascii().to_string());
        assert!(own.starts_with(b"GAZR-3.23 15 3 23 1700000 no blank written GAZR-3.23M150323PE17000 23\n"));
    }

    #[test]
    fn terms_follow_an_input_without_codes() {
        let expected = "\
GAZR-3.23 15 3 23 1700000 no blank written GAZR-3.23M150323PE17000 23
ABCDEFGH-12.99 31 12 99 9999999 no blank written ABCDEFGH-12.99M311299PE99999.99 31
A-1.00 29 2 0 1 no blank written A-1.00M290200PE0.01 19
GAZR-3.23 100 3 23 1700000 no blank refused 17 0
GAZR-3.23 15 100 23 1700000 no blank refused 17 0
GAZR-3.23 15 3 100 1700000 no blank refused 17 0
GAZR-3.23M 15 3 23 1700000 no blank refused 17 0
 15 3 23 1700000 no blank refused 17 0
GAZR-3.23 0 3 23 0 no blank refused 18 0
GAZR-3.23 31 4 23 1700000 no blank refused 18 0
GAZR-3.23 15 3 23 0 no blank refused 19 0
GAZR-3.23 15 3 23 10000001 no blank refused 19 0
GAZR-3.23 15 3 23 18446744073709551615 no blank refused 19 0
GAZR-3.23 15 3 23 1700000 blank written GAZR-3.23M150323PE 17000 24
ABCDEFGH-12.99 31 12 99 9999999 blank written ABCDEFGH-12.99M311299PE 99999.99 32
A-1.00 29 2 0 1 blank written A-1.00M290200PE 0.01 20
GAZR-3.23 100 3 23 1700000 blank refused 17 0
GAZR-3.23 15 100 23 1700000 blank refused 17 0
GAZR-3.23 15 3 100 1700000 blank refused 17 0
GAZR-3.23M 15 3 23 1700000 blank refused 17 0
 15 3 23 1700000 blank refused 17 0
GAZR-3.23 0 3 23 0 blank refused 18 0
GAZR-3.23 31 4 23 1700000 blank refused 18 0
GAZR-3.23 15 3 23 0 blank refused 19 0
GAZR-3.23 15 3 23 10000001 blank refused 19 0
GAZR-3.23 15 3 23 18446744073709551615 blank refused 19 0
";
        for input in ["", "GAZR-3.23M150323CA17000"] {
            assert_eq!(String::from_utf8(lines(input.as_bytes())).unwrap(), expected);
        }
    }
}
