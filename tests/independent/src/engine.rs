//! The book (01, "The book of demand 3"): the engine as four places for windows (02, 11), a list of waiting batches with their bytes, the
//! hand-over that is open (02, 6), the number accepted, and memory. It knows no record, no slots and no ring bytes; a ring's are beside it, for comparing.
use crate::batch::{self, Bounds};
use crate::drawing;
use crate::registers::{Bank, Task};
use crate::ring;
use crate::surface::{run, shares, Run};
use std::collections::VecDeque;

const PLACES: usize = 4;
const MOST_WAITING: usize = 8;

/// A refusal's number in 01's table.
pub type Refusal = u32;

/// The set-up numbers.
#[derive(Clone, Copy, Debug, PartialEq)]
pub struct Numbers {
    pub ring: u64,
    pub memory: u64,
    pub common: u64,
}

impl Numbers {
    /// 1 and 2.
    pub fn refusal(self) -> Option<Refusal> {
        if self.ring == 0 || self.ring > 32768 || self.ring % 128 != 0 {
            return Some(1);
        }
        (self.memory > 16777216 || self.common > self.memory).then_some(2)
    }
}

#[derive(Clone)]
struct Waiting {
    client: u32,
    ticket: u32,
    bytes: Vec<u8>,
}

/// The open hand-over (02, 6): its client, its total length and the bytes so far.
#[derive(Clone)]
struct HandOver {
    client: u32,
    total: u64,
    bytes: Vec<u8>,
}

/// What a piece answers.
#[derive(Clone, Copy, Debug, PartialEq)]
pub enum Progress {
    Missing(u32),
    Accepted(u32),
}

/// What run answers.
#[derive(Clone, Copy, Debug, PartialEq)]
pub struct Completion {
    pub client: u32,
    pub ticket: u32,
    pub status: u32,
    pub fault: u32,
    pub place: u32,
}

#[derive(Clone)]
pub struct Book {
    numbers: Numbers,
    /// The reset rule.
    reset: u32,
    /// The length of the ring that is lent with each call.
    lent_ring: u64,
    /// By id; nothing where no client is open.
    windows: [Option<Run>; PLACES],
    waiting: VecDeque<Waiting>,
    hand_over: Option<HandOver>,
    accepted: u64,
    pub memory: Vec<u8>,
    /// The tasks that rule 28 was asked about, for counting alone.
    pub asked: Vec<Task>,
}

impl Book {
    pub fn set_up(numbers: Numbers, reset: u32, lent_ring: usize, memory: &[u8]) -> Result<Self, Refusal> {
        if let Some(number) = numbers.refusal() {
            return Err(number);
        }
        let (windows, waiting, asked) = ([None, None, None, None], VecDeque::new(), Vec::new());
        let (lent_ring, memory) = (lent_ring as u64, memory.to_vec());
        Ok(Book { numbers, reset, lent_ring, windows, waiting, hand_over: None, accepted: 0, memory, asked })
    }

    /// The open clients.
    pub fn clients(&self) -> Vec<u32> {
        (0..PLACES as u32).filter(|client| self.is_open(*client)).collect()
    }

    /// Their windows.
    pub fn windows(&self) -> Vec<Run> {
        self.windows.iter().flatten().cloned().collect()
    }

    /// What a client's batches are judged by.
    pub fn bounds(&self, client: usize) -> Bounds {
        Bounds { window: self.windows[client].clone().expect("an open client"), common: self.numbers.common }
    }

    /// The client's id.
    pub fn open(&mut self, start: u32, length: u32) -> Result<u32, Refusal> {
        let client = self.windows.iter().position(Option::is_none).ok_or(3u32)?;
        let window = run(start, length);
        let common = 0..self.numbers.common;
        let taken = std::iter::once(&common).chain(self.windows.iter().flatten()).any(|other| shares(&window, other));
        if length == 0 || window.end > self.numbers.memory || taken {
            return Err(4);
        }
        self.windows[client] = Some(window);
        Ok(client as u32)
    }

    /// 10, 5, 18; then the window is filled with zeros and dropped.
    pub fn close(&mut self, client: u32) -> Result<(), Refusal> {
        if self.memory.len() as u64 != self.numbers.memory {
            return Err(10);
        }
        let window = self.vacate(client)?;
        self.memory[window.start as usize..window.end as usize].fill(0);
        Ok(())
    }

    /// 5, 18; the window that the client had.
    pub fn vacate(&mut self, client: u32) -> Result<Run, Refusal> {
        if !self.is_open(client) {
            return Err(5);
        }
        let ready = self.waiting.iter().any(|batch| batch.client == client);
        if ready || self.hand_over.as_ref().map_or(false, |one| one.client == client) {
            return Err(18);
        }
        Ok(self.windows[client as usize].take().expect("an open client"))
    }

    /// The oldest batch leaves without being drawn.
    pub fn skip(&mut self) {
        self.waiting.pop_front();
    }

    fn is_open(&self, client: u32) -> bool {
        matches!(self.windows.get(client as usize), Some(Some(_)))
    }

    /// The first of 10, 5, 13 and 6 to 8 that a submit or a begin breaks. An open hand-over counts as a waiting batch.
    fn submit_refusal(&self, client: u32, length: u64) -> Option<Refusal> {
        let open = self.hand_over.iter();
        let waiting = self.waiting.iter().map(|batch| batch.bytes.len() as u64);
        let taken: u64 = waiting.chain(open.clone().map(|one| one.total)).sum();
        let broken = [
            (10, self.lent_ring != self.numbers.ring),
            (5, !self.is_open(client)),
            (13, self.hand_over.is_some()),
            (6, length == 0 || length % 4 != 0 || length > self.numbers.ring),
            (7, self.waiting.len() + open.count() >= MOST_WAITING),
            (8, self.numbers.ring - taken < length),
        ];
        broken.iter().find(|(_, holds)| *holds).map(|(number, _)| *number)
    }

    /// The batch's ticket.
    pub fn submit(&mut self, client: u32, bytes: &[u8]) -> Result<u32, Refusal> {
        if let Some(number) = self.submit_refusal(client, bytes.len() as u64) {
            return Err(number);
        }
        Ok(self.accept(client, bytes.to_vec()))
    }

    fn accept(&mut self, client: u32, bytes: Vec<u8>) -> u32 {
        let ticket = (self.accepted % (1 << 32)) as u32;
        self.waiting.push_back(Waiting { client, ticket, bytes });
        self.accepted += 1;
        ticket
    }

    pub fn begin(&mut self, client: u32, total: u64) -> Result<(), Refusal> {
        if let Some(number) = self.submit_refusal(client, total) {
            return Err(number);
        }
        self.hand_over = Some(HandOver { client, total, bytes: Vec::new() });
        Ok(())
    }

    /// The client's own hand-over: 5, 14.
    fn own(&mut self, client: u32) -> Result<HandOver, Refusal> {
        if !self.is_open(client) {
            return Err(5);
        }
        self.hand_over.clone().filter(|one| one.client == client).ok_or(14)
    }

    pub fn piece(&mut self, client: u32, piece: &[u8]) -> Result<Progress, Refusal> {
        if self.lent_ring != self.numbers.ring {
            return Err(10);
        }
        let mut one = self.own(client)?;
        one.bytes.extend(piece);
        let left = one.total.checked_sub(one.bytes.len() as u64).ok_or(14u32)?;
        if left > 0 {
            self.hand_over = Some(one);
            return Ok(Progress::Missing(left as u32));
        }
        self.hand_over = None;
        Ok(Progress::Accepted(self.accept(client, one.bytes)))
    }

    pub fn cancel(&mut self, client: u32) -> Result<(), Refusal> {
        self.own(client)?;
        self.hand_over = None;
        Ok(())
    }

    pub fn run(&mut self) -> Result<Completion, Refusal> {
        if self.lent_ring != self.numbers.ring || self.memory.len() as u64 != self.numbers.memory {
            return Err(10);
        }
        let Waiting { client, ticket, bytes } = self.waiting.pop_front().ok_or(9u32)?;
        let words = ring::words(&bytes, 0, bytes.len() as u64);
        let reading = batch::read(&words, &self.bounds(client as usize), &Bank::reset(self.reset));
        let [status, fault, place] = reading.answer();
        self.memory = drawing::drawn_reading(&reading, &self.memory);
        self.asked.extend(reading.asked());
        Ok(Completion { client, ticket, status, fault, place })
    }

    pub fn pending(&self, client: u32) -> Result<u32, Refusal> {
        if !self.is_open(client) {
            return Err(5);
        }
        Ok(self.waiting.iter().filter(|batch| batch.client == client).count() as u32)
    }
}

/// The bytes of a ring beside the book: batches lie end to end from the read offset on.
pub struct RingBytes {
    pub bytes: Vec<u8>,
    read: usize,
    lengths: VecDeque<usize>,
    /// Bytes so far of the open hand-over.
    so_far: usize,
}

impl RingBytes {
    pub fn new(bytes: &[u8]) -> Self {
        RingBytes { bytes: bytes.to_vec(), read: 0, lengths: VecDeque::new(), so_far: 0 }
    }

    /// An accepted batch is copied in after the newest. Whether it went on at byte 0.
    pub fn copy_in(&mut self, batch: &[u8]) -> bool {
        let wraps = self.copy_piece(batch);
        self.finish();
        wraps
    }

    /// An accepted piece is copied in behind those before it. Whether it went on at byte 0.
    pub fn copy_piece(&mut self, piece: &[u8]) -> bool {
        let mut at = (self.read + self.lengths.iter().sum::<usize>() + self.so_far) % self.bytes.len();
        let wraps = at + piece.len() > self.bytes.len();
        for byte in piece {
            self.bytes[at] = *byte;
            at = if at + 1 == self.bytes.len() { 0 } else { at + 1 };
        }
        self.so_far += piece.len();
        wraps
    }

    /// The bytes so far are a batch.
    pub fn finish(&mut self) {
        self.lengths.push_back(self.so_far);
        self.so_far = 0;
    }

    /// They are dropped, and stay where they are.
    pub fn cancel(&mut self) {
        self.so_far = 0;
    }

    /// A run moves the read offset past its batch and changes no byte.
    pub fn pass_oldest(&mut self) {
        let length = self.lengths.pop_front().expect("a batch in the ring");
        self.read = (self.read + length) % self.bytes.len();
    }
}

#[cfg(test)]
mod tests {
    use super::*;
    use crate::registers::{SRC_OVER, UNBLENDED};
    use crate::words::bytes;
    use crate::writer::WORKED;

    fn book(reset: u32) -> Book {
        let numbers = Numbers { ring: 128, memory: 65536, common: 16384 };
        let mut book = Book::set_up(numbers, reset, 128, &[0; 65536]).ok().unwrap();
        assert_eq!(book.open(16384, 12288), Ok(0));
        book
    }

    #[test]
    fn refusals() {
        let mut book = book(UNBLENDED);
        assert_eq!([book.open(16383, 1), book.open(28671, 9), book.open(65536, 1), book.open(50000, 0)], [Err(4); 4]);
        assert_eq!([book.submit(1, &[]), book.submit(0, &[]), book.submit(0, &[0; 6])], [Err(5), Err(6), Err(6)]);
        assert_eq!(book.run(), Err(9));
        assert_eq!((book.submit(0, &[0; 124]), book.submit(0, &[0; 8]), book.submit(0, &[0; 4])), (Ok(0), Err(8), Ok(1)));
        assert_eq!((book.pending(0), book.pending(1)), (Ok(2), Err(5)));
    }

    /// 13 and 14; a run goes on meanwhile, and a batch by pieces gets its ticket with its last byte.
    #[test]
    fn pieces() {
        let mut book = book(UNBLENDED);
        assert_eq!(book.open(28672, 64), Ok(1));
        assert_eq!(book.submit(1, &[0; 4]), Ok(0));
        assert_eq!(
            (book.begin(2, 8), book.begin(0, 6), book.begin(0, 128), book.begin(0, 8)),
            (Err(5), Err(6), Err(8), Ok(()))
        );
        assert_eq!((book.begin(0, 8), book.submit(1, &[])), (Err(13), Err(13)));
        assert_eq!((book.piece(1, &[]), book.piece(2, &[]), book.piece(0, &[0; 9])), (Err(14), Err(5), Err(14)));
        assert_eq!((book.piece(0, &[1; 5]), book.pending(0)), (Ok(Progress::Missing(3)), Ok(0)));
        assert_eq!(book.run().map(|done| done.ticket), Ok(0));
        assert_eq!(
            (book.run(), book.piece(0, &[]), book.piece(0, &[1; 3])),
            (Err(9), Ok(Progress::Missing(3)), Ok(Progress::Accepted(1)))
        );
        assert_eq!((book.pending(0), book.cancel(0), book.piece(0, &[])), (Ok(1), Err(14), Err(14)));
        assert_eq!(
            (book.begin(1, 4), book.cancel(0), book.cancel(1), book.submit(1, &[0; 4])),
            (Ok(()), Err(14), Ok(()), Ok(2))
        );
    }

    /// 18 for the client alone; the window's zeros, the lowest free id, and a window across an old border.
    #[test]
    fn closing() {
        let mut book = book(UNBLENDED);
        book.memory.fill(7);
        assert_eq!((book.open(28672, 64), book.open(28736, 64)), (Ok(1), Ok(2)));
        assert_eq!((book.submit(1, &[0; 4]), book.begin(0, 8)), (Ok(0), Ok(())));
        assert_eq!(
            [book.close(0), book.close(1), book.close(3), book.close(2), book.close(2)],
            [Err(18), Err(18), Err(5), Ok(()), Err(5)]
        );
        assert_eq!((book.memory[28735], book.memory[28736], book.memory[28799], book.memory[28800]), (7, 0, 0, 7));
        assert_eq!(book.run().map(|done| done.client), Ok(1));
        assert_eq!(
            (book.close(1), book.open(28700, 50), book.open(0x8000, 9), book.open(0x8008, 1)),
            (Ok(()), Ok(1), Ok(2), Err(4))
        );
        assert_eq!((book.cancel(0), book.close(0), book.pending(0)), (Ok(()), Ok(()), Err(5)));
        book.memory.pop();
        assert_eq!(book.close(9), Err(10));
    }

    #[test]
    fn worked_words() {
        let mut book = book(UNBLENDED);
        assert_eq!(book.submit(0, &bytes(&WORKED)), Ok(0));
        assert_eq!(book.run(), Ok(Completion { client: 0, ticket: 0, status: 0x00010001, fault: 0, place: 0 }));
        assert_eq!(book.memory[16384..16388], [0, 0, 255, 128]);
        assert_eq!(book.pending(0), Ok(0));
    }

    /// The worked words without 0x050, 0x060 and 0x090: drawn as they are by the old rule, 25 by the new one. What a batch writes to 0x090
    /// holds for that batch alone.
    #[test]
    fn by_either_rule() {
        let silent = bytes(&[&WORKED[..6], &WORKED[14..]].concat());
        let off = bytes(&[&WORKED[..6], &WORKED[12..]].concat());
        for (rule, first) in [(UNBLENDED, (0x00010001, 0, 0)), (SRC_OVER, (2, 25, 40)), (7, (2, 25, 40))] {
            let mut book = book(rule);
            let answered = [&silent, &off, &silent].map(|batch| {
                book.submit(0, batch).unwrap();
                book.run().map(|done| (done.status, done.fault, done.place)).unwrap()
            });
            assert_eq!(answered, [first, (0x00010001, 0, 0), first]);
        }
    }

    /// R1 of 01: ring 128, offset 120, length 24.
    #[test]
    fn ring_bytes() {
        let mut ring = RingBytes::new(&[9; 128]);
        assert!(!ring.copy_in(&[1; 120]));
        ring.pass_oldest();
        assert!(ring.copy_in(&[2; 24]));
        assert_eq!((ring.bytes[119], ring.bytes[120], ring.bytes[15], ring.bytes[16]), (1, 2, 2, 1));
    }
}
