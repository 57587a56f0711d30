//! Cases of the calls written in replay files. A case has a memory of its own, its bytes and its batches; in a file each gets a place in a client's window,
//! which is filled with those bytes first. Its common lies in the window with the rest.
use crate::pictures::Pictures;
use crate::trials::Agreed;
use independent::replay::{window_start, WINDOW};
use independent::ring;
use independent::sample_tasks::{bytes_drawn, file};
use independent::words::bytes;

/// The registers with an address: of the source, the destination and the output.
const ADDRESSES: [u32; 3] = [0x020, 0x060, 0x110];

/// How much was written.
#[derive(Clone, Copy, Default)]
pub struct Counts {
    pub files: u64,
    pub batches: u64,
    /// Batches on a memory that no window holds.
    pub left_out: u64,
}

/// Files that are written and compared, one after another.
pub struct LaidOut {
    pictures: Pictures,
    counts: Counts,
    /// How many of eleven batches are written, and how many were there.
    share: u64,
    seen: u64,
    /// The memory and the batch that came last.
    last: (Vec<u8>, Vec<u8>),
    /// Of the file that is being written.
    records: Vec<(u8, Vec<u8>)>,
    client: u32,
    taken: u32,
}

/// Batches of which a share is taken, evenly: no loop of a case has so many turns, or a multiple.
const ELEVEN: u64 = 11;

/// A batch of whole groups, all its surfaces moved by some bytes.
fn moved(batch: &[u8], by: u32) -> Vec<u8> {
    let mut words = ring::words(batch, 0, batch.len() as u64);
    let mut at = 0;
    while at < words.len() {
        let (first, count) = (words[at] >> 16, usize::from(words[at] as u16 / 4));
        for (offset, word) in (first..).step_by(4).zip(&mut words[at + 1..=at + count]) {
            if ADDRESSES.contains(&offset) {
                *word = word.wrapping_add(by);
            }
        }
        at += 1 + count;
    }
    bytes(&words)
}

impl LaidOut {
    pub fn new(pictures: Pictures) -> Self {
        let (counts, last, records) = (Counts::default(), (Vec::new(), Vec::new()), Vec::new());
        LaidOut { pictures, counts, share: ELEVEN, seen: 0, last, records, client: 0, taken: 0 }
    }

    /// From now on so many of eleven batches are written.
    pub fn take(&mut self, share: u64) {
        (self.share, self.seen) = (share, 0);
    }

    /// Whether a batch is one of the share, and not what came last: a case with common elsewhere is the same here.
    fn is_taken(&mut self, memory: &[u8], batch: &[u8]) -> bool {
        if self.last.0 == memory && self.last.1 == batch {
            return false;
        }
        self.last = (memory.to_vec(), batch.to_vec());
        self.seen += 1;
        self.seen * self.share % ELEVEN < self.share
    }

    pub fn counts(&self) -> Counts {
        self.counts
    }

    /// The next place of so many bytes. A file that has none left is compared, and another begun.
    fn place(&mut self, length: u32) -> Agreed<u32> {
        if self.taken + length > WINDOW {
            (self.client, self.taken) = (self.client + 1, 0);
        }
        if self.client == 4 {
            self.compare()?;
        }
        self.taken += length;
        Ok(window_start(self.client) + self.taken - length)
    }

    /// Writes a batch on a memory.
    pub fn add(&mut self, memory: &[u8], batch: &[u8]) -> Agreed {
        let length = memory.len() as u32;
        if length > WINDOW {
            self.counts.left_out += 1;
            return Ok(());
        }
        if !self.is_taken(memory, batch) {
            return Ok(());
        }
        let place = self.place(length)?;
        let client = self.client as u8;
        self.records.extend(bytes_drawn(place, memory).into_iter().map(|batch| (client, batch)));
        self.records.push((client, moved(batch, place)));
        self.counts.batches += 1;
        Ok(())
    }

    fn compare(&mut self) -> Agreed {
        let name = format!("file {} of the cases", self.counts.files);
        self.pictures.agree(&file(&self.records), &name)?;
        self.counts.files += 1;
        self.records.clear();
        (self.client, self.taken) = (0, 0);
        Ok(())
    }

    /// Compares the last file.
    pub fn finished(mut self) -> Agreed<Self> {
        if !self.records.is_empty() {
            self.compare()?;
        }
        Ok(self)
    }

    pub fn into_pictures(self) -> Pictures {
        self.pictures
    }
}
