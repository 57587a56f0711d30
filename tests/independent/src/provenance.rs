//! Who drew a byte, and why a batch faulted (02, request 10). Every record of a file is played; beside memory stands a second one
//! that says of each byte who drew it last.
use crate::batch::{self, Reading};
use crate::engine::Book;
use crate::registers::{Bank, Task, UNBLENDED};
use crate::replay::{opened, records, Record, MEMORY};
use crate::ring;
use std::collections::BTreeMap;

const MOST_RECORDS: usize = 1024;

/// The task that drew a byte: ticket, number in its batch, source mode.
#[derive(Clone, Copy, Debug, PartialEq)]
pub struct Writer {
    pub ticket: u32,
    pub task: usize,
    pub mode: u32,
}

/// All that can be asked of a file.
pub struct Answers {
    pub records: usize,
    /// Who drew each byte of memory.
    pub writers: Vec<Option<Writer>>,
    /// The answers of faulted batches by their tickets.
    pub faults: BTreeMap<u32, String>,
    /// How many tickets were given.
    pub tickets: u32,
}

/// The register that a word of a batch is for: its group is found by going from header to header.
fn register(words: &[u32], at: usize) -> u32 {
    let mut header = 0;
    loop {
        let count = (words[header] as u16 / 4) as usize;
        if at <= header + count {
            return (words[header] >> 16) + 4 * (at - header - 1) as u32;
        }
        header += 1 + count;
    }
}

/// The bytes that a task's pixels take, pixel by pixel.
fn bytes_drawn(task: &Task) -> impl Iterator<Item = usize> + '_ {
    let output = &task.output;
    let pixels = (0..output.height).flat_map(|y| (0..output.width).map(move |x| (x, y)));
    pixels.flat_map(|(x, y)| {
        let start = output.pixel_start(x, y) as usize;
        start..start + output.format.bytes
    })
}

impl Answers {
    pub fn of(file: &[u8]) -> Self {
        let (records, _) = records(file);
        let writers = vec![None; MEMORY as usize];
        let mut answers = Answers { records: records.len(), writers, faults: BTreeMap::new(), tickets: 0 };
        let mut book = opened();
        records.iter().for_each(|record| answers.play(&mut book, record));
        answers
    }

    fn play(&mut self, book: &mut Book, record: &Record) {
        if book.submit(record.client.into(), record.batch).is_err() {
            return;
        }
        let done = book.run().expect("a batch to run");
        self.tickets += 1;
        let words = ring::words(record.batch, 0, record.batch.len() as u64);
        let reading = batch::read(&words, &book.bounds(done.client as usize), &Bank::reset(UNBLENDED));
        self.draw(done.ticket, &reading);
        if done.fault != 0 {
            self.faults.insert(done.ticket, explained(&words, &reading, done.fault, done.place));
        }
    }

    fn draw(&mut self, ticket: u32, reading: &Reading) {
        for (number, task) in reading.tasks.iter().enumerate() {
            let writer = Writer { ticket, task: number, mode: task.mode };
            bytes_drawn(task).for_each(|at| self.writers[at] = Some(writer));
        }
    }

    /// `TICKET TASK MODE`, `not drawn` or `refused N`.
    pub fn touched(&self, address: u64) -> String {
        let Some(writer) = self.writers.get(usize::try_from(address).expect("a machine of 64 bits")) else {
            return "refused 16".into();
        };
        if self.records > MOST_RECORDS {
            return "refused 17".into();
        }
        writer.map_or("not drawn".into(), |by| format!("{} {} {}", by.ticket, by.task, by.mode))
    }

    /// `FAULT PLACE WORD`, for 24 also ` REGISTER HELD`, or `refused N`.
    pub fn fault(&self, ticket: u32) -> String {
        if self.records > MOST_RECORDS {
            return "refused 17".into();
        }
        self.faults.get(&ticket).cloned().unwrap_or("refused 29".into())
    }
}

/// The bank of a reading is the one before the word that was not written.
fn explained(words: &[u32], reading: &Reading, fault: u32, place: u32) -> String {
    let at = place as usize / 4;
    let mut text = format!("{fault} {place} {:08X}", words[at]);
    if fault == 24 {
        let offset = register(words, at);
        text.push_str(&format!(" {offset:03X} {:08X}", reading.last.word(offset)));
    }
    text
}

#[cfg(test)]
mod tests {
    use super::*;
    use crate::replay::record;
    use crate::words::bytes;
    use crate::writer::WORKED;

    fn file(batches: &[&[u32]]) -> Vec<u8> {
        let mut file = vec![1];
        batches.iter().for_each(|words| file.extend(record(0, &bytes(words))));
        file
    }

    /// The worked words draw eight bytes from 16,384 on, in colour mode.
    #[test]
    fn the_last_one_counts() {
        let twice = [WORKED, WORKED].concat();
        let answers = Answers::of(&file(&[&WORKED, &twice]));
        assert_eq!([answers.touched(16384), answers.touched(16391)], ["1 1 1", "1 1 1"]);
        assert_eq!([answers.touched(16383), answers.touched(16392)], ["not drawn", "not drawn"]);
        assert_eq!([answers.touched(65535), answers.touched(65536)], ["not drawn", "refused 16"]);
        assert_eq!([answers.fault(0), answers.fault(2)], ["refused 29", "refused 29"]);
    }

    /// A word that 0x010 does not take, in the group that wrote it before and in a later one.
    #[test]
    fn held_before_the_word() {
        let mut words = WORKED;
        words[1] = 7;
        let later = [&WORKED[..], &[0x0010_0004, 7]].concat();
        let answers = Answers::of(&file(&[&words, &later, &[0x0050_0008, 0, 0xFFFF_FFFF]]));
        assert_eq!(answers.fault(0), "24 4 00000007 010 00000000");
        assert_eq!(answers.fault(1), "24 84 00000007 010 00000005");
        assert_eq!(answers.fault(2), "24 8 FFFFFFFF 054 00000000");
        // the task before the fault stands, so ticket 1 answers both questions (02, request 5)
        assert_eq!(answers.touched(16384), "1 0 1");
    }

    #[test]
    fn records_count() {
        let many = |count: usize, more: &[u8]| {
            let mut file = vec![1];
            (0..count).for_each(|_| file.extend(record(9, &[])));
            file.extend(more);
            Answers::of(&file)
        };
        assert_eq!([many(1024, &[]).touched(0), many(1024, &[0]).fault(0)], ["not drawn", "refused 29"]);
        assert_eq!([many(1025, &[]).touched(0), many(1025, &[]).fault(0)], ["refused 17", "refused 17"]);
        assert_eq!(many(1025, &[]).touched(65536), "refused 16");
        assert_eq!([Answers::of(&[]).touched(0), Answers::of(&[2]).fault(0)], ["not drawn", "refused 29"]);
    }
}
