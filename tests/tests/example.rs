//! The worked example of crates/replay/stdin, and the ends that an input can have; its call listed by date, and a calendar
//! that is refused; the period of a trade in its answer; sections that are left out, and those of two worked examples.

use std::io::{self, Read};

use second::calendar::File;
use second::market::{calendar, has_sections, market, with_days, with_sections};
use second::rows::Rows;
use second::{gate_seeds, replay, GATE_SEEDS};

const INPUT: &str = "\
L,GAZR-3.23M150323CA17000,100,1
T,0,1,2,10,15000
M,0,16000,1702000,100000
I
M,0,15500,1700000,100000
V
M,0,0,1700000,100000
V
";

const OUTPUT: &str = "\
row,kind,series,account,amount
1,A,0,,0
2,A,,1,0
3,A,,,0
4,A,,,0
4,M,,1,100.00
4,M,,2,-100.00
5,A,,,0
6,A,,,0
6,M,,1,-50.00
6,M,,2,50.00
7,A,,,0
8,A,,,0
8,M,,1,-1550.00
8,M,,2,1550.00
8,F,0,1,5
8,F,0,2,-5
";

fn crlf(text: &str) -> String {
    text.replace('\n', "\r\n")
}

fn answers(input: &str) -> String {
    answers_with(&File::Missing, input.as_bytes())
}

fn answers_with(calendar: &File, input: &[u8]) -> String {
    let mut output = Vec::new();
    replay(calendar, input, &mut output).unwrap();
    String::from_utf8(output).unwrap()
}

#[test]
fn the_worked_example() {
    assert_eq!(answers(&crlf(INPUT)), crlf(OUTPUT));
}

#[test]
fn a_blank_before_the_strike_changes_no_answer() {
    let input = INPUT.replace("CA17000", "CA 17000");
    assert_ne!(input, INPUT);
    assert_eq!(answers(&crlf(&input)), crlf(OUTPUT));
}

#[test]
fn the_last_row_may_lack_its_crlf() {
    let input = crlf(INPUT);
    assert_eq!(answers(input.trim_end()), crlf(OUTPUT));
}

#[test]
fn an_empty_input_gives_the_header_alone() {
    assert_eq!(answers(""), "row,kind,series,account,amount\r\n");
}

#[test]
fn every_row_counts_and_refused_ones_too() {
    let output = "row,kind,series,account,amount\r\n1,A,,,20\r\n2,A,,,20\r\n3,A,,,0\r\n4,A,,,15\r\n5,A,,,20\r\n";
    assert_eq!(answers("\r\nhello\nworld\r\nI\r\nI\r\n\r"), output);
}

#[test]
fn a_session_that_lacks_a_mark_names_the_series() {
    let input = crlf("L,GAZR-3.23M150323CA17000,100,1\nL,GAZR-3.23M150323CA18000,100,1\nM,0,0,0,100000\nV\n");
    assert!(answers(&input).ends_with("\r\n4,A,1,,16\r\n"));
}

/// Rows, each with its line but for the row's number.
fn assert_lines(rows: &[(&str, &str)]) {
    let input: String = rows.iter().map(|(row, _)| format!("{row}\n")).collect();
    let lines: String = (1..).zip(rows).map(|(number, (_, line))| format!("{number},{line}\n")).collect();
    assert_eq!(answers(&crlf(&input)), crlf(&format!("row,kind,series,account,amount\n{lines}")));
}

#[test]
fn a_trade_that_is_carried_out_has_its_period_in_the_account_column() {
    assert_lines(&[
        ("L,GAZR-3.23M150323CA17000,100,1", "A,0,,0"),
        ("T,0,1,2,1,0", "A,,1,0"),
        ("T,1,1,2,1,0", "A,,,2"),
        ("T,0,1,2,1,1", "A,,,7"),
        ("T,0,1,2,1", "A,,,20"),
        ("I", "A,0,,16"),
        ("T,0,1,2,1,0,1,1", "A,,1,0"),
        ("M,0,0,0,100000", "A,,,0"),
        ("T,0,2,1,1,0", "A,,1,0"),
        ("I", "A,,,0"),
        ("T,0,1,2,1,0", "A,,2,0"),
        ("T,1,1,2,1,0", "A,,,2"),
        ("T,0,64,2,1,0", "A,,,4"),
        ("T,0,1,2,1,0,0,2", "A,,,23"),
        ("T,0,1,1,1,0", "A,,,5"),
        ("T,0,1,2,0,0", "A,,,6"),
        ("T,0,1,2,1,1", "A,,,7"),
        ("T,0,1,2,1", "A,,,20"),
        ("I", "A,,,15"),
        ("V", "A,0,,16"),
        ("T,0,1,2,1,0,1,1", "A,,2,0"),
        ("X,0,1,0", "A,,,0"),
        ("M,0,0,0,100000", "A,,,0"),
        ("V", "A,,,0"),
        ("T,0,1,2,1,0", "A,,1,0"),
        ("D,0,1", "A,,,0"),
    ]);
}

#[test]
fn a_trade_after_an_intraday_session_without_live_series_is_in_period_2() {
    assert_lines(&[
        ("I", "A,,,0"),
        ("T,0,1,2,1,0", "A,,,2"),
        ("L,GAZR-3.23M150323CA17000,100,1", "A,0,,0"),
        ("T,0,1,2,1,0", "A,,2,0"),
        ("I", "A,,,15"),
        ("T,0,1,2,1,0", "A,,2,0"),
    ]);
}

#[test]
fn the_day_of_the_codes_date_in_place_of_the_day() {
    let input = INPUT.replace("17000,100,1", "17000,100");
    assert_ne!(input, INPUT);
    let with = |calendar: &str| answers_with(&File::Bytes(calendar.into()), crlf(&input).as_bytes());
    for calendar in ["140323\r\n150323", "140323\r\n150323\r\n", "010100\r\n150323\r\n150324\r\n"] {
        assert_eq!(with(calendar), crlf(OUTPUT));
    }
    // For day 0 it expires on the first evening, with half of it exercised; for day 2 it is live after the second.
    assert!(with("150323").contains("\r\n6,F,0,1,5\r\n"));
    let without_futures: String = OUTPUT.split_inclusive('\n').filter(|line| !line.contains(",F,")).collect();
    assert_eq!(with("010100\r\n010200\r\n150323"), crlf(&without_futures));
    for calendar in ["", "140323\r\n150324", "150423"] {
        assert!(with(calendar).starts_with("row,kind,series,account,amount\r\n1,A,,,22\r\n2,A,,,2\r\n"));
    }
    assert!(answers(&crlf(&input)).contains("\r\n1,A,,,22\r\n"));
}

#[test]
fn a_date_without_a_day_is_refused_before_the_book_is_asked() {
    let calendar = File::Bytes(b"150323\r\n160323".into());
    let (known, unknown) = ("L,GAZR-3.23M150323CA17000,100\n", "L,GAZR-3.23M170323CA17000,100\n");
    let last_answers = |rows: &str, count: usize| {
        let lines = answers_with(&calendar, crlf(rows).as_bytes());
        let answer = |line: &str| line.rsplit(',').next().unwrap().parse().unwrap();
        let mut answers: Vec<u64> = lines.lines().rev().take(count).map(answer).collect();
        answers.reverse();
        answers
    };
    let finished = "V\n".repeat(1_000);
    assert_eq!(last_answers(&format!("{finished}{known}{unknown}"), 2), [1, 22]);
    let full = known.repeat(8);
    assert_eq!(last_answers(&format!("{full}{known}{unknown}"), 3), [0, 11, 22]);
    let wrong_tick = [known, unknown].map(|row| row.replace(",100\n", ",10001\n")).concat();
    assert_eq!(last_answers(&wrong_tick, 2), [10, 22]);
    assert_eq!(last_answers(&format!("V\n{known}{unknown}"), 2), [10, 22]);
}

/// An input that nobody may read from.
struct Untouched;

impl Read for Untouched {
    fn read(&mut self, _: &mut [u8]) -> io::Result<usize> {
        panic!("the input was read");
    }
}

#[test]
fn a_refused_calendar_stands_in_place_of_all_rows() {
    for calendar in [File::Unreadable, File::Bytes(b"150323\r\n150323\r\n".into()), File::Bytes(b"\n".into())] {
        let mut output = Vec::new();
        replay(&calendar, Untouched, &mut output).unwrap();
        assert_eq!(output, b"row,kind,series,account,amount\r\n0,A,,,21\r\n");
    }
}

#[test]
fn a_calendar_changes_no_row_that_gives_its_day() {
    for calendar in ["", "150323", "140323\r\n150323\r\n", "160323"] {
        assert_eq!(answers_with(&File::Bytes(calendar.into()), crlf(INPUT).as_bytes()), crlf(OUTPUT));
    }
}

#[test]
fn a_market_listed_by_dates_is_the_market_of_their_days() {
    let mut rewritten = 0;
    for seed in gate_seeds() {
        let (file, input) = (calendar(seed), market(seed));
        let Ok(calendar) = file.calendar() else { continue };
        let with_days = with_days(&input, &calendar);
        rewritten += u64::from(with_days != input);
        assert_eq!(answers_with(&file, &input), answers_with(&File::Missing, &with_days), "market {seed}");
    }
    assert!(rewritten > 400, "only {rewritten} markets list by date");
}

#[test]
fn sections_that_are_left_out_are_0() {
    let input = INPUT.replace("T,0,1,2,10,15000", "T,0,1,2,10,15000,0,0");
    assert_ne!(input, INPUT);
    assert_eq!(answers(&crlf(&input)), crlf(OUTPUT));
}

#[test]
fn a_market_without_sections_is_the_market_in_section_0_and_in_section_1() {
    let mut rewritten = [0, 0];
    for seed in GATE_SEEDS {
        let (file, input) = (calendar(seed), market(seed));
        let answers = answers_with(&file, &input);
        // Damage may have given a row sections 0: then the others may not be in section 1.
        let sections = if names_sections(&input) { 0..1 } else { 0..2 };
        for section in sections {
            let with_sections = with_sections(&input, section);
            rewritten[section as usize] += u64::from(with_sections != input);
            assert_eq!(answers, answers_with(&file, &with_sections), "market {seed}");
        }
    }
    assert!(rewritten.iter().all(|&markets| markets > 800), "few markets leave sections out: {rewritten:?}");
}

fn names_sections(input: &[u8]) -> bool {
    let mut rows = Rows::new(input);
    while let Some(row) = rows.next_row().unwrap() {
        if has_sections(row) {
            return true;
        }
    }
    false
}

/// The lines of a market's last row.
fn last_lines(rows: &str) -> String {
    let lines = answers(&crlf(rows));
    let row = format!("{},", rows.lines().count());
    lines.split_inclusive("\r\n").filter(|line| line.starts_with(&row)).collect()
}

#[test]
fn two_sections_of_5_calls_at_the_money_and_one_of_10() {
    let day = |trades: &str| last_lines(&format!("L,GAZR-3.23M150323CA17000,100,0\n{trades}M,0,0,1700000,100000\nV\n"));
    assert_eq!(day("T,0,1,2,5,0,0,0\nT,0,1,2,5,0,1,0\n"), "5,A,,,0\r\n5,F,0,1,6\r\n5,F,0,2,-6\r\n");
    assert_eq!(day("T,0,1,2,10,0\n"), "4,A,,,0\r\n4,F,0,1,5\r\n4,F,0,2,-5\r\n");
}
