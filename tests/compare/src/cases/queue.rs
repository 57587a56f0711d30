//! Set up, open, submit, run, pending and close on good records: each refusal at its edges and before the next, every free slot,
//! every offset, tickets across the wrap, every set of open clients.
use crate::bench;
use crate::trials::{Agreed, Trials};
use independent::calls::{Buffers, Call};
use independent::engine::Numbers;
use independent::queue::{Ready, Record, SLOTS};
use independent::record_bytes;

pub const NUMBERS: Numbers = Numbers { ring: 128, memory: 96, common: 16 };

/// Four windows, with bytes of nobody before, between and behind them.
pub const WINDOWS: [(u32, u32); 4] = [(18, 12), (30, 10), (44, 8), (52, 40)];

pub fn compare(trials: &mut Trials) -> Agreed {
    set_ups(trials)?;
    openings(trials)?;
    submits(trials)?;
    slots(trials)?;
    tickets(trials)?;
    closings(trials)?;
    lent_lengths(trials)
}

/// Numbers at and around every limit, 1 before 2; and buffers of every length up to past a record's, for a good set up and
/// for one that is refused.
fn set_ups(trials: &mut Trials) -> Agreed {
    let rings = [0, 1, 4, 127, 128, 129, 256, 32640, 32767, 32768, 32769, 32896, 65536, 1 << 31, 1 << 32, 1 << 40, u64::MAX];
    let memories = [0, 1, 2, 65536, 16777215, 16777216, 16777217, 1 << 31, 1 << 32, 1 << 40, u64::MAX - 1, u64::MAX];
    let mut buffers = Buffers { engine: vec![0x5A; record_bytes::LENGTH], ring: vec![], memory: vec![] };
    for ring in rings {
        for memory in memories {
            for common in memories {
                trials.try_call(&Call::SetUp(Numbers { ring, memory, common }, (ring ^ memory) as u32), &buffers)?;
            }
        }
    }
    for length in 0..=300 {
        buffers.engine = vec![0x5A; length];
        trials.try_call(&Call::SetUp(NUMBERS, 0), &buffers)?;
        trials.try_call(&Call::SetUp(Numbers { ring: 0, ..NUMBERS }, 1), &buffers)?;
    }
    Ok(())
}

/// Every window of a small memory, and windows at the edges of 32 bits, beside none to four open ones.
fn openings(trials: &mut Trials) -> Agreed {
    let top = u32::MAX;
    let edges = [(top, top), (top, 1), (1, top), (20, top), (top - 95, 96), (1 << 31, 1 << 31), (0, 0), (97, 0)];
    for open in 0..=4 {
        let buffers = bench::buffers(&bench::record(NUMBERS, &WINDOWS[..open], 0, 0));
        let all = (0..100).flat_map(|start| (0..100).map(move |length| (start, length)));
        for (start, length) in all.chain(edges) {
            trials.try_call(&Call::Open { start, length }, &buffers)?;
        }
    }
    for (memory, common) in [(0, 0), (1, 0), (1, 1)] {
        let buffers = bench::buffers(&bench::record(Numbers { memory, common, ..NUMBERS }, &[], 0, 0));
        for (start, length) in [(0, 0), (0, 1), (1, 0), (1, 1), (0, 2)] {
            trials.try_call(&Call::Open { start, length }, &buffers)?;
        }
    }
    Ok(())
}

/// A record with batches of these lengths waiting, of clients in turn, in the slots that `slot` says.
pub fn waiting(mut record: Record, lengths: &[u64], slot: impl Fn(usize) -> usize) -> Record {
    for (i, length) in lengths.iter().enumerate() {
        let client = (i % 4) as u32;
        let taken: u64 = lengths[..i].iter().sum();
        let offset = (record.read + taken) % record.numbers.ring;
        record.slots[slot(i)] = Some(Ready { client, ticket: record.next, offset, length: *length });
        record.next = record.next.wrapping_add(1);
        record.clients[client as usize].pending += 1;
    }
    record
}

/// A ring filled by every number of bytes, from every read offset: batches of every length, of every client and none.
fn submits(trials: &mut Trials) -> Agreed {
    let bytes: Vec<u8> = (1..=140).collect();
    for read in (0..128).step_by(4) {
        for filled in (0..=128).step_by(4) {
            let lengths: Vec<u64> = [filled].into_iter().filter(|length| *length > 0).collect();
            let record = bench::record(NUMBERS, &WINDOWS, read, 7);
            let buffers = bench::buffers(&waiting(record, &lengths, |_| 0));
            for length in 0..=132 {
                let batch = &bytes[..length];
                trials.try_call(&Call::Submit { client: length as u32 % 4, batch }, &buffers)?;
            }
            for client in [4, 5, 128, u32::MAX] {
                trials.try_call(&Call::Submit { client, batch: &bytes[..4] }, &buffers)?;
                trials.try_call(&Call::Submit { client, batch: &[] }, &buffers)?;
            }
            for client in [0, 1, 2, 3, 4, u32::MAX] {
                trials.try_call(&Call::Pending { client }, &buffers)?;
            }
            trials.try_call(&Call::Run, &buffers)?;
        }
    }
    Ok(())
}

/// Every set of taken slots, in every rotation of its order: the lowest free one is taken, and the oldest batch runs.
fn slots(trials: &mut Trials) -> Agreed {
    for taken in 0..1usize << SLOTS {
        let places: Vec<usize> = (0..SLOTS).filter(|slot| taken >> slot & 1 == 1).collect();
        for turn in 0..places.len().max(1) {
            let record = bench::record(NUMBERS, &WINDOWS, 120, u32::MAX - 3);
            let record = waiting(record, &vec![12; places.len()], |i| places[(i + turn) % places.len()]);
            let mut buffers = bench::buffers(&record);
            for client in 0..5 {
                trials.call(&Call::Pending { client }, &mut buffers)?;
            }
            for (client, length) in [(3, 8), (1, 36), (2, 40), (0, 4)] {
                trials.call(&Call::Submit { client, batch: &vec![client as u8; length] }, &mut buffers)?;
            }
            for _ in 0..=SLOTS {
                trials.call(&Call::Run, &mut buffers)?;
            }
        }
    }
    Ok(())
}

/// Every number of waiting batches with every next ticket near the wrap, then more batches and runs until none waits.
fn tickets(trials: &mut Trials) -> Agreed {
    for next in (0..12).map(|n| 0u32.wrapping_sub(n)).chain([1 << 31, 7]) {
        for count in 0..=SLOTS {
            let record = waiting(bench::record(NUMBERS, &WINDOWS, 124, next), &vec![8; count], |i| SLOTS - 1 - i);
            let mut buffers = bench::buffers(&record);
            for round in 0..12 {
                let batch = [round; 8];
                trials.call(&Call::Submit { client: u32::from(round) % 4, batch: &batch }, &mut buffers)?;
                trials.call(&Call::Pending { client: u32::from(round) % 4 }, &mut buffers)?;
                for _ in 0..round / 4 {
                    trials.call(&Call::Run, &mut buffers)?;
                }
            }
        }
    }
    Ok(())
}

/// Every set of open clients, each with a ready batch, an unfinished one, both or neither: every client closed, again, and a window opened across what it left.
fn closings(trials: &mut Trials) -> Agreed {
    for open in 0..16u32 {
        for (ready, unfinished) in (0..5).flat_map(|ready| (0..5).map(move |unfinished| (ready, unfinished))) {
            let mut buffers = bench::buffers(&bench::record(NUMBERS, &WINDOWS, 120, u32::MAX));
            for client in (0..4).filter(|client| open >> client & 1 == 0) {
                trials.call(&Call::Close { client }, &mut buffers)?;
            }
            trials.call(&Call::Submit { client: ready, batch: &[9; 12] }, &mut buffers)?;
            let ring = buffers.clone();
            trials.try_call(&Call::Begin { client: unfinished, total: 8 }, &ring)?;
            trials.call(&Call::Begin { client: unfinished, total: 8 }, &mut buffers)?;
            for client in [0, 1, 2, 3, 4, u32::MAX] {
                let mut after = buffers.clone();
                trials.call(&Call::Close { client }, &mut after)?;
                trials.try_call(&Call::Close { client }, &after)?;
                for (start, length) in [(20, 12), (28, 14), (29, 1), (30, 10), (38, 16), (60, 8), (92, 4)] {
                    trials.try_call(&Call::Open { start, length }, &after)?;
                }
                trials.call(&Call::Piece { client: unfinished, piece: &[1; 8] }, &mut after)?;
                trials.call(&Call::Run, &mut after)?;
                trials.call(&Call::Close { client: ready }, &mut after)?;
            }
        }
    }
    Ok(())
}

/// Rings and memories of every length up to past the set-up ones: 10 before all others.
fn lent_lengths(trials: &mut Trials) -> Agreed {
    let record = waiting(bench::record(NUMBERS, &WINDOWS, 0, 0), &[12, 8], |i| i);
    let good = bench::buffers(&record);
    for length in 0..=140 {
        let ring = Buffers { ring: vec![3; length], ..good.clone() };
        for (client, size) in [(0, 4), (9, 4), (0, 3), (0, 0), (0, 200)] {
            trials.try_call(&Call::Submit { client, batch: &vec![1; size] }, &ring)?;
        }
        trials.try_call(&Call::Run, &ring)?;
        let memory = Buffers { memory: vec![3; length], ..good.clone() };
        trials.try_call(&Call::Run, &memory)?;
        for client in [0, 3, 9] {
            trials.try_call(&Call::Close { client }, &memory)?;
            trials.try_call(&Call::Close { client }, &ring)?;
        }
    }
    let none = bench::buffers(&bench::record(NUMBERS, &[], 0, 0));
    trials.try_call(&Call::Run, &none)?;
    trials.try_call(&Call::Run, &Buffers { memory: vec![], ..none.clone() })?;
    trials.try_call(&Call::Submit { client: 0, batch: &[1; 4] }, &none).map(|_| ())
}
