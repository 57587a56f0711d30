//! Edition 2 of replay files (02, request 14): each record carries the bits of a score, and the engine blends unless told otherwise.
use crate::engine::Book;
use crate::registers::SRC_OVER;
use crate::replay::{line_of, opened_with};
use crate::words::read_be32;

/// A record that is submitted, or one with a bad score.
pub enum Scored<'a> {
    Bad,
    Good { client: u8, batch: &'a [u8] },
}

/// By its bits: from 0.0 up to 1.0, or -0.0.
pub fn is_score(bits: u32) -> bool {
    bits <= 0x3F80_0000 || bits == 0x8000_0000
}

/// The next record, and what follows it; or the line that ends the file.
fn next(rest: &[u8]) -> Result<(Scored<'_>, &[u8]), &'static str> {
    let length = read_be32(rest, 0).ok_or("cut record")? as usize;
    if !(5..=32773).contains(&length) {
        return Err("bad record");
    }
    let body = rest.get(4..4 + length).ok_or("cut record")?;
    let bits = u32::from_be_bytes([body[1], body[2], body[3], body[4]]);
    let scored = if is_score(bits) { Scored::Good { client: body[0], batch: &body[5..] } } else { Scored::Bad };
    Ok((scored, &rest[4 + length..]))
}

/// The records of a file and the line that ends it, if one does.
pub fn records(file: &[u8]) -> (Vec<Scored<'_>>, Option<&'static str>) {
    let mut records = Vec::new();
    if file.first() != Some(&2) {
        return (records, Some("bad version"));
    }
    let mut rest = &file[1..];
    while !rest.is_empty() {
        match next(rest) {
            Ok((record, behind)) => {
                records.push(record);
                rest = behind;
            }
            Err(ending) => return (records, Some(ending)),
        }
    }
    (records, None)
}

/// The lines of a file, and the book after it.
pub fn played(file: &[u8]) -> (String, Book) {
    let mut book = opened_with(SRC_OVER);
    let (records, ending) = records(file);
    let mut lines = String::new();
    for record in records {
        match record {
            Scored::Bad => lines.push_str("bad score\n"),
            Scored::Good { client, batch } => lines.push_str(&line_of(&mut book, client, batch)),
        }
    }
    if let Some(ending) = ending {
        lines.push_str(ending);
        lines.push('\n');
    }
    (lines, book)
}

/// A record's bytes.
pub fn record(client: u8, score: u32, batch: &[u8]) -> Vec<u8> {
    let mut bytes = (batch.len() as u32 + 5).to_be_bytes().to_vec();
    bytes.push(client);
    bytes.extend(score.to_be_bytes());
    bytes.extend_from_slice(batch);
    bytes
}

#[cfg(test)]
mod tests {
    use super::*;
    use crate::words::bytes;
    use crate::writer::WORKED;

    fn lines(parts: &[&[u8]]) -> String {
        played(&parts.concat()).0
    }

    const HALF: u32 = 0x3F00_0000;

    #[test]
    fn endings() {
        assert_eq!([lines(&[]), lines(&[&[1]]), lines(&[&[3]])], ["bad version\n"; 3].map(String::from));
        assert_eq!(lines(&[&[2]]), "");
        assert_eq!([lines(&[&[2, 0, 0]]), lines(&[&[2, 0, 0, 0, 5, 0, 63]])], ["cut record\n"; 2].map(String::from));
        assert_eq!([lines(&[&[2, 0, 0, 0, 4]]), lines(&[&[2, 0, 0, 128, 6]])], ["bad record\n"; 2].map(String::from));
        assert_eq!(lines(&[&[2], &record(0, HALF, &[])]), "0 - - 6 0\n");
    }

    #[test]
    fn scores() {
        for bits in [0, 1, HALF, 0x3F80_0000, 0x8000_0000] {
            assert!(is_score(bits), "{bits:08X}");
        }
        for bits in [0x3F80_0001, 0x7F80_0000, 0x7FC0_0000, 0x8000_0001, 0xBF00_0000, 0xFF80_0000, u32::MAX] {
            assert!(!is_score(bits), "{bits:08X}");
        }
        // A bad score takes no ticket, and is reported before submit could refuse.
        let worked = bytes(&WORKED);
        let good = record(0, HALF, &worked);
        assert_eq!(
            lines(&[&[2], &good, &record(9, u32::MAX, &worked), &good]),
            "0 0 00010001 0 0\nbad score\n0 1 00010001 0 0\n"
        );
    }
}
