//! Contract codes, sound and broken.

use crate::book::{Category, OptionType};
use crate::codes::{self, Date, Style, Terms};
use crate::random::Random;

/// An input of codes has at most this many bytes.
const LONGEST_INPUT: usize = 4_000;

/// What isn't the one blank that may stand before a strike; two blanks are here twice, to be drawn more often.
const ODD_BLANKS: [&[u8]; 14] =
    [b"  ", b"  ", b"   ", b"\t", b"\n", b"\x0b", b"\x0c", b"\r", b"\0", b"\xa0", b"\xc2\xa0", b" \t", b"\t ", b"_"];

/// Mostly a sound code.
pub fn some(random: &mut Random) -> Vec<u8> {
    match random.below(16) {
        0..=3 => broken(random).into_bytes(),
        4 | 5 => with_an_odd_blank(random),
        6 => without_a_date(random).into_bytes(),
        _ => {
            let style = random.pick(&[Style::Blank, Style::NoBlank]);
            sound(random, style).into_bytes()
        }
    }
}

/// An input of codes, each ended with LF; now and then the last lacks it.
pub fn lines(random: &mut Random) -> Vec<u8> {
    let mut lines = Vec::new();
    loop {
        let mut code = some(random);
        if random.one_in(8) {
            change_a_byte(random, &mut code);
        }
        if lines.len() + code.len() >= LONGEST_INPUT {
            break;
        }
        lines.extend(code);
        lines.push(b'\n');
    }
    if random.one_in(4) {
        lines.pop();
    }
    lines
}

fn change_a_byte(random: &mut Random, code: &mut [u8]) {
    if !code.is_empty() {
        let place = random.below(code.len() as u64) as usize;
        code[place] = random.below(256) as u8;
    }
}

fn sound(random: &mut Random, style: Style) -> String {
    let futures_code = format!("{}-{}.{:02}", letters(random), random.between(1, 12), random.below(100));
    let terms = Terms {
        futures_code: futures_code.as_bytes(),
        date: date(random),
        option: random.pick(&[OptionType::Call, OptionType::Put]),
        category: random.pick(&[Category::American, Category::American, Category::European]),
        style,
        strike: strike(random),
    };
    codes::write(&terms).expect("these terms have a code")
}

/// A sound code whose blank has been spoilt: something else in its place, nothing or a 0 behind it, or a blank anywhere.
fn with_an_odd_blank(random: &mut Random) -> Vec<u8> {
    let mut code = sound(random, Style::Blank).into_bytes();
    let blank = code.iter().position(|&byte| byte == b' ').expect("its style has one");
    match random.below(6) {
        0 => {
            code.splice(blank..=blank, random.pick(&ODD_BLANKS).iter().copied());
        }
        1 => code.truncate(blank + 1),
        2 => code.insert(blank + 1, b'0'),
        3 => insert_a_blank(random, &mut code),
        _ => {
            code.remove(blank);
            insert_a_blank(random, &mut code);
        }
    }
    code
}

/// Anywhere, the code's two ends included.
fn insert_a_blank(random: &mut Random, code: &mut Vec<u8>) {
    let place = random.between(0, code.len() as u64) as usize;
    code.insert(place, b' ');
}

/// A code with no date, and mostly with a strike that would be refused too.
fn without_a_date(random: &mut Random) -> String {
    let date = random.pick(&["000123", "320123", "290223", "310423", "150023", "011323"]);
    let kind = random.pick(&["CA", "CE", "PA", "PE"]);
    let blank = random.pick(&["", " "]);
    let strike = random.pick(&["17000", "0", "100000.01", "100001", "18446744073709551617", "0.50", "00"]);
    format!("SBRF-6.23M{date}{kind}{blank}{strike}")
}

/// A code put together of parts, a few of which are broken.
fn broken(random: &mut Random) -> String {
    let blank = random.pick(&["", " "]);
    let mut part =
        |sound: String, broken: &[&str]| if random.one_in(10) { random.pick(broken).to_string() } else { sound };
    let letters = part("SBRF".into(), &["", "A", "ABCDEFGH", "ABCDEFGHI", "sbrf", "SB1F", "SBR ", "SBRF-"]);
    let hyphen = part("-".into(), &["", "--", ".", " "]);
    let month = part("6".into(), &["", "0", "00", "01", "06", "1", "9", "10", "12", "13", "20", "61", "123"]);
    let point = part(".".into(), &["", "-", ".."]);
    let year = part("23".into(), &["00", "99", "3", "", "2a", "023", "2023"]);
    let m = part("M".into(), &["", "m", "MM", "N"]);
    let date = part(
        "150623".into(),
        &[
            "000123", "010123", "310123", "320123", "280223", "290223", "290200", "290224", "290296", "300224",
            "310323", "320323", "300423", "310423", "310523", "310623", "310723", "310823", "310923", "311023",
            "311123", "311223", "321223", "010023", "011323", "999999", "15062", "1506230", "15O623", "",
        ],
    );
    let option = part("C".into(), &["P", "c", "", "A", "CP", "X"]);
    let category = part("A".into(), &["E", "a", "", "C", "AE", "M"]);
    let blank = part(blank.into(), &["", " ", "  ", "   ", "\t", "\u{a0}", "0", "-", "."]);
    let strike = part(
        "17000".into(),
        &[
            "",
            "0",
            "0.01",
            "0.1",
            "0.5",
            "0.50",
            "0.0",
            "0.00",
            "00",
            "01",
            "00.5",
            "1.",
            "1.0",
            "1.00",
            "1.05",
            "1.5",
            "1.50",
            "1.234",
            ".5",
            ".",
            "99999.99",
            "100000",
            "100000.0",
            "100000.01",
            "100000.1",
            "100001",
            "1000000",
            "4294967297",
            "18446744073709551617",
            "184467440737095516160.05",
            "17000 ",
            "-1",
            "+1",
            "1e3",
            "1 000",
            "17\n",
            "1\r7",
        ],
    );
    format!("{letters}{hyphen}{month}{point}{year}{m}{date}{option}{category}{blank}{strike}")
}

fn letters(random: &mut Random) -> String {
    let count = random.between(1, 8);
    (0..count).map(|_| random.between(b'A'.into(), b'Z'.into()) as u8 as char).collect()
}

fn date(random: &mut Random) -> Date {
    let month = random.between(1, 12);
    let longest = match month {
        2 => 28,
        4 | 6 | 9 | 11 => 30,
        _ => 31,
    };
    if random.one_in(20) {
        return Date { day: 29, month: 2, year: 4 * random.below(25) };
    }
    let day = random.between(1, longest);
    Date { day: random.pick(&[1, day, longest]), month, year: random.below(100) }
}

fn strike(random: &mut Random) -> u64 {
    let scale = random.pick(&[10, 1_000, 100_000, 10_000_000]);
    let strike = random.between(1, scale);
    match random.below(4) {
        0 => strike,
        1 => strike.div_ceil(10) * 10,
        2 => strike.div_ceil(100) * 100,
        _ => random.pick(&[1, 99, 100, 9_999_999, 10_000_000, strike]),
    }
    .min(10_000_000)
}
