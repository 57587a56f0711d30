//! The engine record as bytes, from the header's words: 68 words of 32 bits, low byte first.
use crate::engine::Numbers;
use crate::queue::{Client, Ready, Record, Unfinished};
use crate::registers::{SRC_OVER, UNBLENDED};
use crate::words::read_le32;

/// Bytes of a record.
pub const LENGTH: usize = 272;

/// The first word of the four clients, and how many each takes.
const CLIENTS: usize = 8;
const CLIENT: usize = 4;

/// The first word of the eight slots, and how many each takes.
const SLOTS: usize = 24;
const SLOT: usize = 5;

/// The word of the reset rule.
const RESET: usize = 3;

/// The words of the unfinished batch.
const UNFINISHED: usize = 64;

/// Words of the head that must be zero.
const ZERO: [usize; 2] = [4, 7];

/// The words that say whether a client is open: 0 or 1.
const OPEN: [usize; 4] = [11, 15, 19, 23];

/// The record that bytes stand for, if they are one, valid or not.
pub fn read(bytes: &[u8]) -> Option<Record> {
    if bytes.len() != LENGTH {
        return None;
    }
    let word = |at: usize| read_le32(bytes, 4 * at).expect("one of the 68 words");
    let reset = word(RESET);
    let spare = ZERO.iter().all(|at| word(*at) == 0) && OPEN.iter().all(|at| word(*at) <= 1);
    if !spare || !matches!(reset, UNBLENDED | SRC_OVER) {
        return None;
    }
    let mut slots = [None; 8];
    for (i, slot) in slots.iter_mut().enumerate() {
        *slot = read_slot(std::array::from_fn(|k| word(SLOTS + SLOT * i + k)))?;
    }
    let client = |i: usize| {
        let at = CLIENTS + CLIENT * i;
        Client { start: word(at), length: word(at + 1), pending: word(at + 2), open: word(at + 3) == 1 }
    };
    let [ring, memory, common, read] = [0, 1, 2, 5].map(|at| u64::from(word(at)));
    let numbers = Numbers { ring, memory, common };
    let unfinished = read_unfinished(std::array::from_fn(|k| word(UNFINISHED + k)));
    Some(Record { numbers, reset, clients: std::array::from_fn(client), slots, read, next: word(6), unfinished })
}

/// A slot of its five words: 1 and its batch if it is ready, all zero if it is free. Nothing if they are neither.
fn read_slot(words: [u32; SLOT]) -> Option<Option<Ready>> {
    match words {
        [1, client, ticket, offset, length] => {
            Some(Some(Ready { client, ticket, offset: offset.into(), length: length.into() }))
        }
        [0, 0, 0, 0, 0] => Some(None),
        _ => None,
    }
}

/// The unfinished batch of its four words, none if all are zero. One of length 0 breaks a rule whatever the others say.
fn read_unfinished(words: [u32; 4]) -> Option<Unfinished> {
    let [client, slot, total, so_far] = words;
    let one = Unfinished { client, slot: slot.into(), total: total.into(), so_far: so_far.into() };
    (words != [0; 4]).then_some(one)
}

/// The bytes of a record whose numbers fit in words, as those of every valid record do.
pub fn written(record: &Record) -> Vec<u8> {
    let word = |n: u64| u32::try_from(n).expect("a number of 32 bits");
    let Numbers { ring, memory, common } = record.numbers;
    let lengths = [word(ring), word(memory), word(common)];
    let mut words = [&lengths[..], &[record.reset, 0, word(record.read), record.next, 0]].concat();
    words.extend(record.clients.iter().flat_map(|client| {
        let Client { start, length, pending, open } = *client;
        [start, length, pending, u32::from(open)]
    }));
    for slot in &record.slots {
        words.extend(
            slot.map_or([0; SLOT], |Ready { client, ticket, offset, length }| {
                [1, client, ticket, word(offset), word(length)]
            }),
        );
    }
    words.extend(
        record
            .unfinished
            .map_or([0; 4], |Unfinished { client, slot, total, so_far }| [client, word(slot), word(total), word(so_far)]),
    );
    words.iter().flat_map(|word| word.to_le_bytes()).collect()
}

#[cfg(test)]
mod tests {
    use super::*;
    use crate::queue::set_up;

    fn record() -> Record {
        let mut record = set_up(Numbers { ring: 256, memory: 4096, common: 1024 }, 5).unwrap();
        record.open(1024, 100).unwrap();
        record.open(2000, 8).unwrap();
        record.submit(&mut vec![0; 256], 1, &[1; 12]).unwrap();
        record
    }

    #[test]
    fn there_and_back() {
        let bytes = written(&record());
        assert_eq!(bytes.len(), LENGTH);
        assert_eq!(read(&bytes), Some(record()));
        assert_eq!((bytes[1], bytes[4 * RESET], bytes[4 * 12], bytes[4 * 24], bytes[4 * 28]), (1, 1, 208, 1, 12));
    }

    /// Words that must be zero, a client neither open nor not, a third reset rule, a tag that is none, a number in a free slot, another length.
    #[test]
    fn no_record() {
        for at in ZERO.into_iter().chain(OPEN).chain([RESET, 29, 30, 33]) {
            let mut bytes = written(&record());
            bytes[4 * at] = 2;
            assert_eq!(read(&bytes), None);
        }
        assert_eq!(read(&written(&record())[..271]), None);
    }
}
