//! RULES, "Open interest": that of every series after each row, a line for each.

use crate::book::{Book, SERIES};
use crate::calendar::Calendar;
use crate::rows::{self, Rows};

/// Of an input so many bytes are looked at.
pub const MOST_BYTES: usize = 1 << 16;

/// Runs the rows of an input through an empty book, without a calendar. Each has a line, also one that is refused: its
/// number, and the open interest of series 0 to 7 after it.
pub fn lines(input: &[u8]) -> Vec<u8> {
    let mut rows = Rows::new(whole_rows(input));
    let mut book = Book::new();
    let mut lines = Vec::new();
    let mut number = 0;
    while let Some(row) = rows.next_row().expect("memory can be read") {
        number += 1;
        if let Ok(event) = rows::read(row, &Calendar::default()) {
            let _ = book.apply(event);
        }
        lines.extend(line(number, &book).into_bytes());
    }
    lines
}

/// The rows that are run: those whose CRLF stands within the first bytes of the input.
pub fn whole_rows(input: &[u8]) -> &[u8] {
    let first = &input[..input.len().min(MOST_BYTES)];
    let last_crlf = first.windows(2).rposition(|pair| pair == b"\r\n");
    &first[..last_crlf.map_or(0, |place| place + 2)]
}

fn line(number: u64, book: &Book) -> String {
    let interest = (0..SERIES as u8).map(|series| format!(",{}", book.open_interest(series)));
    format!("{number}{}\n", interest.collect::<String>())
}

#[cfg(test)]
mod tests {
    use super::*;

    fn lines_of(input: &str) -> String {
        String::from_utf8(lines(input.as_bytes())).unwrap()
    }

    /// Rows, each with the open interest of all series after it.
    fn assert_lines(rows: &[(&str, [i64; SERIES])]) {
        let input: String = rows.iter().map(|(row, _)| format!("{row}\r\n")).collect();
        let numbers = |interest: &[i64]| interest.iter().map(i64::to_string).collect::<Vec<_>>().join(",");
        let lines = (1..).zip(rows).map(|(number, (_, interest))| format!("{number},{}\n", numbers(interest)));
        assert_eq!(lines_of(&input), lines.collect::<String>());
    }

    #[test]
    fn a_line_for_each_row() {
        assert_lines(&[
            ("T,0,1,2,10,0", [0; SERIES]),
            ("L,GAZR-3.23M150323CA17000,100,1", [0; SERIES]),
            ("T,0,1,2,10,0", [10, 0, 0, 0, 0, 0, 0, 0]),
            ("T,0,1,2,10,50", [10, 0, 0, 0, 0, 0, 0, 0]),
            ("T,0,1,2", [10, 0, 0, 0, 0, 0, 0, 0]),
            ("", [10, 0, 0, 0, 0, 0, 0, 0]),
            ("L,BR-4.23M270323PE 82.5,1,2", [10, 0, 0, 0, 0, 0, 0, 0]),
            ("T,1,5,4,1000,0,1,1", [10, 1000, 0, 0, 0, 0, 0, 0]),
            ("X,0,1,4", [10, 1000, 0, 0, 0, 0, 0, 0]),
            ("V", [10, 1000, 0, 0, 0, 0, 0, 0]),
            ("M,0,0,1700000,100000", [10, 1000, 0, 0, 0, 0, 0, 0]),
            ("M,1,0,8250,100000", [10, 1000, 0, 0, 0, 0, 0, 0]),
            ("I", [10, 1000, 0, 0, 0, 0, 0, 0]),
            ("M,0,0,1700000,100000", [10, 1000, 0, 0, 0, 0, 0, 0]),
            ("M,1,0,8250,100000", [10, 1000, 0, 0, 0, 0, 0, 0]),
            ("V", [6, 1000, 0, 0, 0, 0, 0, 0]),
            ("T,1,4,5,1,0,1,1", [6, 999, 0, 0, 0, 0, 0, 0]),
            ("M,0,0,1700000,100000", [6, 999, 0, 0, 0, 0, 0, 0]),
            ("M,1,0,8250,100000", [6, 999, 0, 0, 0, 0, 0, 0]),
            ("V", [0, 999, 0, 0, 0, 0, 0, 0]),
            ("T,0,1,2,10,0", [0, 999, 0, 0, 0, 0, 0, 0]),
        ]);
    }

    #[test]
    fn all_eight_series() {
        let listing = "L,GAZR-3.23M150323CA17000,100,1\r\n".repeat(9);
        let trades: String = (0..9).map(|series| format!("T,{series},1,2,{},0\r\n", series + 1)).collect();
        assert!(lines_of(&(listing + &trades)).ends_with("\n17,1,2,3,4,5,6,7,8\n18,1,2,3,4,5,6,7,8\n"));
    }

    #[test]
    fn there_is_no_calendar() {
        assert_lines(&[
            ("L,GAZR-3.23M150323CA17000,100", [0; SERIES]),
            ("T,0,1,2,10,0", [0; SERIES]),
            ("L,GAZR-3.23M150323CA17000,100,0", [0; SERIES]),
            ("T,0,1,2,10,0", [10, 0, 0, 0, 0, 0, 0, 0]),
        ]);
    }

    #[test]
    fn a_last_row_without_its_crlf_is_no_row() {
        for input in ["", "I", "I\r", "I\n", "\n\r"] {
            assert_eq!(lines_of(input), "");
        }
        for end in ["", "I", "I\r", "I\n", "\r", "\n"] {
            assert_eq!(lines_of(&format!("I\r\n{end}")), "1,0,0,0,0,0,0,0,0\n");
        }
        assert_eq!(lines_of("I\r\r\n\nV\r\n\r"), "1,0,0,0,0,0,0,0,0\n2,0,0,0,0,0,0,0,0\n");
    }

    #[test]
    fn rows_that_end_behind_the_first_bytes_are_none() {
        let front = "L,GAZR-3.23M150323CA17000,100,1\r\n";
        let trade = "T,0,1,2,10,0\r\n";
        // Between the two a long row, with which the trade ends so many bytes before the bound or behind it.
        for (behind, expected) in [
            (-3, "\n3,10,0,0,0,0,0,0,0\n4,10,0,0,0,0,0,0,0\n"),
            (-2, "\n3,10,0,0,0,0,0,0,0\n4,10,0,0,0,0,0,0,0\n"),
            (-1, "\n3,10,0,0,0,0,0,0,0\n"),
            (0, "\n3,10,0,0,0,0,0,0,0\n"),
            (1, "\n2,0,0,0,0,0,0,0,0\n"),
            (2, "\n2,0,0,0,0,0,0,0,0\n"),
            (1_000, "1,0,0,0,0,0,0,0,0\n"),
        ] {
            let length = (65_536 + behind) as usize - front.len() - trade.len() - 2;
            let input = format!("{front}{}\r\n{trade}\r\nT,0,1,2,10,0\r\n", "x".repeat(length));
            assert!(lines_of(&input).ends_with(expected), "{behind}");
        }
    }
}
