//! Inputs that are no market.

use super::{market_of, Kind, KINDS};
use crate::calendar::Calendar;
use crate::random::Random;

const ROW_BYTES: &[u8] = b"LTXDMIV,,,,0123456789.-\r\n\r\n\r\n";
const ENDS: &[u8] = b"\r\r\n\nIV,";

pub fn bytes(random: &mut Random, calendar: &Calendar) -> Vec<u8> {
    let length = random.pick(&[0, 1, 2, 3, 50, 1_000, 5_000]);
    match random.below(7) {
        0 => (0..length).map(|_| random.below(256) as u8).collect(),
        1 => (0..length).map(|_| random.pick(ROW_BYTES)).collect(),
        2 => (0..length).map(|_| random.pick(ENDS)).collect(),
        3 => b"\r\n".repeat(length),
        4 => without_an_end(random),
        5 => short_rows(random, length / 5),
        _ => with_changed_bytes(random, calendar),
    }
}

/// One row longer than any buffer, and perhaps a sound one after it.
fn without_an_end(random: &mut Random) -> Vec<u8> {
    let length = random.pick(&[65_000, 65_535, 65_536, 65_537, 131_072, 300_000]);
    let byte = random.pick(b"0V\r\n,\"");
    let mut bytes = vec![byte; length];
    bytes.extend_from_slice(random.pick(&[&b""[..], b"\r", b"\r\n", b"\r\nV", b"\r\nV\r\n"]));
    bytes
}

fn short_rows(random: &mut Random, count: usize) -> Vec<u8> {
    let rows: [&[u8]; 12] = [
        b"I",
        b"V",
        b"",
        b"M,0,1,2,3",
        b"L,A-1.00M010100CA1,1,999",
        b"T,0,1,2,3,4",
        b"D,0,1",
        b"X,0,1,1",
        b"T",
        b"I,",
        b"\r",
        b"\n",
    ];
    let mut bytes = Vec::new();
    for _ in 0..count {
        bytes.extend_from_slice(random.pick(&rows));
        bytes.extend_from_slice(b"\r\n");
    }
    bytes
}

/// A market in which any byte may have been changed.
fn with_changed_bytes(random: &mut Random, calendar: &Calendar) -> Vec<u8> {
    let seed = random.below(1 << 32) / KINDS.len() as u64 * KINDS.len() as u64;
    let mut bytes = market_of(Kind::Ordinary, seed, calendar);
    let changes = random.pick(&[1, 2, 10]);
    for byte in &mut bytes {
        if random.permille(changes) {
            *byte = random.below(256) as u8;
        }
    }
    bytes
}
