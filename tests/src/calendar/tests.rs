use std::os::unix::fs::symlink;

use super::*;
use crate::program::Folder;

fn date(text: &str) -> Date {
    Date::read(text.as_bytes().try_into().expect("six digits")).expect("six digits")
}

fn read(text: &str) -> Result<Calendar, Refusal> {
    Calendar::read(text.as_bytes())
}

/// The first 28 days of each month from January 2000 on, as lines.
fn lines(count: usize) -> String {
    let dates =
        (0..count).map(|n| Date { year: n as u64 / 336, month: n as u64 / 28 % 12 + 1, day: n as u64 % 28 + 1 });
    dates.map(|date| format!("{date}\r\n")).collect()
}

#[test]
fn days_are_places() {
    let calendar = read("150323\r\n160323\r\n170323\r\n").unwrap();
    for (text, day) in
        [("150323", Some(0)), ("160323", Some(1)), ("170323", Some(2)), ("180323", None), ("140323", None)]
    {
        assert_eq!(calendar.day(date(text)), day);
        assert!(day.is_none_or(|day| calendar.date(day) == Some(date(text))));
    }
    for day in [3, 999, 1_000, u64::MAX] {
        assert_eq!(calendar.date(day), None);
    }
}

#[test]
fn dates_that_agree_in_two_of_day_month_and_year() {
    let calendar = read("150323\r\n160323\r\n150423\r\n150324\r\n").unwrap();
    for (text, day) in [("150323", 0), ("160323", 1), ("150423", 2), ("150324", 3)] {
        assert_eq!(calendar.day(date(text)), Some(day));
    }
    for text in ["170323", "150523", "150325", "160423", "160324", "150424", "150322", "230315", "031523"] {
        assert_eq!(calendar.day(date(text)), None, "{text}");
    }
}

#[test]
fn no_date_is_in_an_empty_calendar() {
    assert_eq!(read(""), Ok(Calendar::default()));
    for text in ["010100", "150323", "311299", "000000"] {
        assert_eq!(Calendar::default().day(date(text)), None);
    }
}

#[test]
fn the_last_line_may_lack_its_crlf() {
    for text in ["150323", "150323\r\n"] {
        assert_eq!(read(text).unwrap().dates(), [date("150323")]);
    }
    assert_eq!(read("150323\r\n160323"), read("150323\r\n160323\r\n"));
}

#[test]
fn lines_that_are_no_dates() {
    for text in [
        "\r\n",
        "\r\n150323\r\n",
        "150323\r\n\r\n",
        "150323\r\n\r\n160323\r\n",
        "\n",
        "\r",
        "150323\n",
        "150323\r",
        "150323\r\n\r",
        "150323\r\n\n",
        "150323\n160323",
        "150323\r160323",
        "150323\n\r160323",
        "150323\r\r\n160323",
        "150323\r\n\n160323",
        "150323160323",
        "15032316",
        "15032316032317",
        "1503230\r\n",
        "0150323\r\n",
        "15032\r\n",
        "15032",
        "1",
        "150323\r\n1603",
        " 150323\r\n",
        "150323 \r\n",
        "15 323\r\n",
        "150323\r\n ",
        "150323\r\n \r\n",
        "150323\t\r\n",
        "15O323\r\n",
        "DDMMYY\r\n",
        "15/323\r\n",
        "15:323\r\n",
        "-50323\r\n",
        "+50323\r\n",
        "15.03.23\r\n",
        "15032023\r\n",
        "\"150323\"\r\n",
        "150323,\r\n",
        "150323\0\r\n",
        "150323\r\n\0",
        "150323\r\n\x1a",
        "\u{feff}150323\r\n",
        "\u{661}50323\r\n",
    ] {
        assert_eq!(read(text), Err(Refusal::Calendar), "{text:?}");
    }
    assert_eq!(Calendar::read(b"\xb150323\r\n"), Err(Refusal::Calendar));
}

#[test]
fn dates_are_those_of_the_codes() {
    for day in 0..100 {
        for month in 0..100 {
            for year in [0, 1, 4, 23, 24, 96, 99] {
                let text = format!("{day:02}{month:02}{year:02}");
                let code = format!("A-1.00M{text}CA1");
                assert_eq!(read(&text).is_ok(), crate::codes::read(code.as_bytes()).is_ok(), "{text}");
            }
        }
    }
}

#[test]
fn dates_that_do_not_rise() {
    for text in [
        "150323\r\n150323",
        "160323\r\n150323",
        "150323\r\n160223",
        "150323\r\n160422",
        "010100\r\n010200\r\n010200",
        "150323\r\n170323\r\n160323",
        "311299\r\n010100",
    ] {
        assert_eq!(read(text), Err(Refusal::Calendar), "{text:?}");
    }
    for text in ["310323\r\n010423", "311223\r\n010124", "280224\r\n290224\r\n010324", "010100\r\n311299"] {
        assert!(read(text).is_ok(), "{text:?}");
    }
}

#[test]
fn a_thousand_dates_and_no_more() {
    for text in [lines(1_000), lines(1_000).trim_end().to_string()] {
        let calendar = read(&text).unwrap();
        assert_eq!(calendar.dates().len(), 1_000);
        assert_eq!(calendar.day(calendar.dates()[999]), Some(999));
    }
    assert_eq!(lines(1_000).len(), MOST_BYTES);
    for text in [lines(1_001), lines(1_001).trim_end().to_string(), lines(1_200)] {
        assert_eq!(read(&text), Err(Refusal::Calendar));
    }
    for byte in ["0", "\r", "\n", " ", "\0"] {
        assert_eq!(read(&(lines(1_000) + byte)), Err(Refusal::Calendar));
    }
}

#[test]
fn what_stands_under_the_calendars_name() {
    let mut folder = Folder::new("calendar").unwrap();
    let path = folder.calendar_path();
    assert_eq!(File::at(&path), File::Missing);
    assert_eq!(File::at(&path).calendar(), Ok(Calendar::default()));
    for file in [File::Bytes(Vec::new()), File::Bytes(b"150323\r\n\xff".to_vec()), File::Unreadable] {
        folder.put(&file).unwrap();
        assert_eq!(File::at(&path), file);
    }
    assert_eq!(File::Unreadable.calendar(), Err(Refusal::Calendar));
    folder.put(&File::Missing).unwrap();
    fs::write(folder.path().join("dates.txt"), "150323\r\n").unwrap();
    let dates = File::Bytes(b"150323\r\n".to_vec());
    for (target, file) in [("nowhere", File::Unreadable), (FILE_NAME, File::Unreadable), ("dates.txt", dates)] {
        symlink(target, &path).unwrap();
        assert_eq!(File::at(&path), file, "{target}");
        fs::remove_file(&path).unwrap();
    }
}

#[test]
fn of_a_long_file_one_byte_too_many_is_read() {
    let mut folder = Folder::new("long").unwrap();
    for (length, read) in [(7_999, 7_999), (8_000, 8_000), (8_001, 8_001), (8_002, 8_001), (1_000_000, 8_001)] {
        folder.put(&File::Bytes(vec![b'0'; length])).unwrap();
        assert_eq!(File::at(&folder.calendar_path()), File::Bytes(vec![b'0'; read]));
    }
    assert_eq!(File::first_bytes(std::io::repeat(b'0')), File::Bytes(vec![b'0'; 8_001]));
}
