//! Replay files (01, "Writer and replay"): read as records first, then played on an engine of fixed numbers, one line each.
use crate::engine::{Book, Numbers};
use crate::registers::UNBLENDED;
use crate::words::read_be32;

pub const RING: u64 = 32768;
pub const MEMORY: u32 = 65536;
pub const COMMON: u32 = 16384;
pub const WINDOW: u32 = 12288;
const LONGEST: u32 = 32769;

/// The first byte of a client's window.
pub fn window_start(client: u32) -> u32 {
    COMMON + WINDOW * client
}

pub struct Record<'a> {
    pub client: u8,
    pub batch: &'a [u8],
}

/// The records of a file and the line that ends it, if one does.
pub fn records(file: &[u8]) -> (Vec<Record<'_>>, Option<&'static str>) {
    let Some((1, mut rest)) = file.split_first() else { return (Vec::new(), Some("bad version")) };
    let mut records = Vec::new();
    while !rest.is_empty() {
        let Some(length) = read_be32(rest, 0) else { return (records, Some("cut record")) };
        if length == 0 || length > LONGEST {
            return (records, Some("bad record"));
        }
        let Some(body) = rest.get(4..4 + length as usize) else { return (records, Some("cut record")) };
        records.push(Record { client: body[0], batch: &body[1..] });
        rest = &rest[4 + length as usize..];
    }
    (records, None)
}

/// The engine that a file of edition 1 is played on, with the old reset rule.
pub fn opened() -> Book {
    opened_with(UNBLENDED)
}

/// The engine that a file is played on, by a reset rule.
pub fn opened_with(reset: u32) -> Book {
    let numbers = Numbers { ring: RING, memory: MEMORY.into(), common: COMMON.into() };
    let mut book = Book::set_up(numbers, reset, RING as usize, &[0; MEMORY as usize]).ok().expect("allowed numbers");
    for client in 0..4 {
        book.open(window_start(client), WINDOW).expect("an allowed window");
    }
    book
}

/// A record is submitted and, if accepted, run: its line.
pub fn line_of(book: &mut Book, client: u8, batch: &[u8]) -> String {
    if let Err(number) = book.submit(client.into(), batch) {
        return format!("{client} - - {number} 0\n");
    }
    let done = book.run().expect("a batch to run");
    format!("{} {} {:08X} {} {}\n", done.client, done.ticket, done.status, done.fault, done.place)
}

/// The lines of a file, and the book after it.
pub fn played(file: &[u8]) -> (String, Book) {
    let mut book = opened();
    let (records, ending) = records(file);
    let mut lines: String = records.iter().map(|record| line_of(&mut book, record.client, record.batch)).collect();
    if let Some(ending) = ending {
        lines.push_str(ending);
        lines.push('\n');
    }
    (lines, book)
}

/// The lines of a file, and memory after it.
pub fn replayed(file: &[u8]) -> (String, Vec<u8>) {
    let (lines, book) = played(file);
    (lines, book.memory)
}

/// A record's bytes.
pub fn record(client: u8, batch: &[u8]) -> Vec<u8> {
    let mut bytes = (batch.len() as u32 + 1).to_be_bytes().to_vec();
    bytes.push(client);
    bytes.extend_from_slice(batch);
    bytes
}

#[cfg(test)]
mod tests {
    use super::*;
    use crate::words::bytes;
    use crate::writer::WORKED;

    fn lines(parts: &[&[u8]]) -> String {
        replayed(&parts.concat()).0
    }

    /// 01's lines.
    #[test]
    fn as_the_paper_words_it() {
        let mut outside = WORKED;
        outside[19] = 64;
        assert_eq!(lines(&[&[1], &record(0, &bytes(&WORKED))]), "0 0 00010001 0 0\n");
        assert_eq!(lines(&[&[1], &record(0, &bytes(&outside))]), "0 0 00000002 27 72\n");
        assert_eq!(lines(&[&[1], &record(0, &[])]), "0 - - 6 0\n");
    }

    #[test]
    fn endings() {
        assert_eq!([lines(&[]), lines(&[&[2]])], ["bad version\n", "bad version\n"]);
        assert_eq!(lines(&[&[1]]), "");
        assert_eq!([lines(&[&[1, 0]]), lines(&[&[1, 0, 0, 0, 2, 0]])], ["cut record\n", "cut record\n"]);
        assert_eq!([lines(&[&[1, 0, 0, 0, 0]]), lines(&[&[1, 0, 0, 128, 2]])], ["bad record\n", "bad record\n"]);
        assert_eq!(
            lines(&[&[1], &record(9, &[0; 32768]), &record(0, &[0; 4]), &[0, 0, 128, 1]]),
            "9 - - 5 0\n0 0 00000100 21 0\ncut record\n"
        );
    }
}
