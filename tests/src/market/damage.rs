//! Damage to the bytes of a row. A damaged row never holds a whole CRLF, so that it stays one row.

use crate::random::Random;

const ODD_BYTES: &[u8] = b",,\"\"\r\n  00-+.;:\0\t'AaLTXDMIVltxdmivCPE19\x7f\x80\xc3\xff";

pub fn damage(random: &mut Random, row: &mut Vec<u8>) {
    let place = random.below(row.len() as u64) as usize;
    match random.below(16) {
        0 => {
            row.remove(place);
        }
        1 => row[place] = random.pick(ODD_BYTES),
        2 => row.insert(place, random.pick(ODD_BYTES)),
        3 => row.truncate(place),
        4 => row.insert(place, row[place]),
        5 => row.push(random.pick(ODD_BYTES)),
        6 => replace_field(random, row, |_, field| [b"0", field].concat()),
        7 => replace_field(random, row, |_, field| [b"\"", field, b"\""].concat()),
        8 => replace_field(random, row, |random, _| {
            let count = random.between(17, 21);
            digits(random, count as usize)
        }),
        9 => replace_field(random, row, |_, _| Vec::new()),
        10 => row.extend_from_slice(random.pick(&[b"\nV", b"\rV", b"\n\r", b",0", b"\r\r", b",,"])),
        11 => row.clear(),
        12 => row.make_ascii_lowercase(),
        13 => {
            let count = random.between(1, 40);
            *row = (0..count).map(|_| random.below(256) as u8).collect();
        }
        _ => *row = long_row(random),
    }
    while let Some(at) = row.windows(2).position(|pair| pair == b"\r\n") {
        row.remove(at);
    }
}

fn replace_field(random: &mut Random, row: &mut Vec<u8>, with: impl Fn(&mut Random, &[u8]) -> Vec<u8>) {
    let mut fields: Vec<Vec<u8>> = row.split(|&byte| byte == b',').map(<[u8]>::to_vec).collect();
    let place = random.below(fields.len() as u64) as usize;
    fields[place] = with(random, &fields[place]);
    *row = fields.join(&b',');
}

fn digits(random: &mut Random, count: usize) -> Vec<u8> {
    let mut digits: Vec<u8> = (0..count).map(|_| b'0' + random.below(10) as u8).collect();
    digits[0] = digits[0].max(b'1');
    digits
}

/// A row about as long as a row may be, or far longer. Up to 256 bytes a long strike text is 19.
fn long_row(random: &mut Random) -> Vec<u8> {
    let length = random.pick(&[250, 254, 255, 256, 256, 257, 257, 258, 300, 512, 10_000]);
    let (front, back): (&[u8], &[u8]) = random.pick(&[
        (b"L,GAZR-3.23M150323CA", b",100,999"),
        (b"L,GAZR-3.23M150323CA ", b",100,999"),
        (b"L,", b",100,999"),
        (b"T,0,1,2,1,", b""),
        (b"I", b""),
        (b"", b",0"),
    ]);
    let middle = digits(random, length - front.len() - back.len());
    [front, &middle, back].concat()
}
