//! RULES, "Output lines".

use crate::book::{Done, Session};
use crate::refusal::Refusal;

pub const HEADER: &[u8] = b"row,kind,series,account,amount\r\n";

/// The lines of one row: its answer, then money by account, then futures by series and account.
pub fn write_lines(out: &mut Vec<u8>, row: u64, answer: &Result<Done, Refusal>) {
    match answer {
        Ok(Done::Entered) => write_answer(out, row, None, None, 0),
        Ok(Done::Listed(series)) => write_answer(out, row, Some(*series), None, 0),
        Ok(Done::Traded(period)) => write_answer(out, row, None, Some(*period), 0),
        Ok(Done::Settled(session)) => {
            write_answer(out, row, None, None, 0);
            write_session(out, row, session);
        }
        Err(refusal) => {
            let named = match refusal {
                Refusal::NoMark(series) => Some(*series),
                _ => None,
            };
            write_answer(out, row, named, None, refusal.number());
        }
    }
}

/// A trade's period stands in the place of the account.
fn write_answer(out: &mut Vec<u8>, row: u64, series: Option<u8>, period: Option<u8>, number: u64) {
    write_number(out, row);
    out.extend_from_slice(b",A,");
    if let Some(series) = series {
        write_number(out, series.into());
    }
    out.push(b',');
    if let Some(period) = period {
        write_number(out, period.into());
    }
    out.push(b',');
    write_number(out, number);
    out.extend_from_slice(b"\r\n");
}

fn write_session(out: &mut Vec<u8>, row: u64, session: &Session) {
    for (account, &kopecks) in session.money.iter().enumerate() {
        if kopecks != 0 {
            write_number(out, row);
            out.extend_from_slice(b",M,,");
            write_number(out, account as u64);
            out.push(b',');
            write_roubles(out, kopecks);
            out.extend_from_slice(b"\r\n");
        }
    }
    for &(series, account, count) in &session.futures {
        write_number(out, row);
        out.extend_from_slice(b",F,");
        write_number(out, series.into());
        out.push(b',');
        write_number(out, account.into());
        out.push(b',');
        write_sign(out, count);
        write_number(out, count.unsigned_abs());
        out.extend_from_slice(b"\r\n");
    }
}

fn write_roubles(out: &mut Vec<u8>, kopecks: i64) {
    write_sign(out, kopecks);
    let kopecks = kopecks.unsigned_abs();
    write_number(out, kopecks / 100);
    let part = (kopecks % 100) as u8;
    out.extend_from_slice(&[b'.', b'0' + part / 10, b'0' + part % 10]);
}

fn write_sign(out: &mut Vec<u8>, number: i64) {
    if number < 0 {
        out.push(b'-');
    }
}

fn write_number(out: &mut Vec<u8>, mut number: u64) {
    let mut digits = [0; 20];
    let mut first = digits.len();
    loop {
        first -= 1;
        digits[first] = b'0' + (number % 10) as u8;
        number /= 10;
        if number == 0 {
            break;
        }
    }
    out.extend_from_slice(&digits[first..]);
}

#[cfg(test)]
mod tests {
    use super::*;
    use crate::book::ACCOUNTS;

    fn roubles(kopecks: i64) -> String {
        let mut out = Vec::new();
        write_roubles(&mut out, kopecks);
        String::from_utf8(out).unwrap()
    }

    fn lines(answer: Result<Done, Refusal>) -> String {
        let mut out = Vec::new();
        write_lines(&mut out, 12, &answer);
        String::from_utf8(out).unwrap()
    }

    #[test]
    fn amounts() {
        for (kopecks, text) in [
            (1, "0.01"),
            (-1, "-0.01"),
            (-99, "-0.99"),
            (10, "0.10"),
            (100, "1.00"),
            (-100, "-1.00"),
            (-155_000, "-1550.00"),
            (i64::MAX, "92233720368547758.07"),
            (i64::MIN, "-92233720368547758.08"),
        ] {
            assert_eq!(roubles(kopecks), text);
        }
    }

    #[test]
    fn numbers() {
        for number in [0, 1, 9, 10, 11, 99, 100, 1_000_000, u64::MAX] {
            let mut out = Vec::new();
            write_number(&mut out, number);
            assert_eq!(String::from_utf8(out).unwrap(), number.to_string());
        }
    }

    #[test]
    fn answers() {
        assert_eq!(lines(Ok(Done::Entered)), "12,A,,,0\r\n");
        assert_eq!(lines(Ok(Done::Listed(7))), "12,A,7,,0\r\n");
        assert_eq!(lines(Ok(Done::Traded(1))), "12,A,,1,0\r\n");
        assert_eq!(lines(Ok(Done::Traded(2))), "12,A,,2,0\r\n");
        assert_eq!(lines(Err(Refusal::Finished)), "12,A,,,1\r\n");
        assert_eq!(lines(Err(Refusal::NoMark(3))), "12,A,3,,16\r\n");
        assert_eq!(lines(Err(Refusal::Row)), "12,A,,,20\r\n");
    }

    #[test]
    fn money_by_account_then_futures_in_their_order() {
        let mut session = Session { money: [0; ACCOUNTS], futures: vec![(0, 5, -2), (1, 0, 2)] };
        session.money[63] = -5;
        session.money[2] = 5;
        assert_eq!(
            lines(Ok(Done::Settled(Box::new(session)))),
            "12,A,,,0\r\n12,M,,2,0.05\r\n12,M,,63,-0.05\r\n12,F,0,5,-2\r\n12,F,1,0,2\r\n"
        );
    }
}
