//! Records that are none: each rule broken alone, every bit flipped, every word replaced, other lengths, random bytes. Each
//! call must say 11 and change nothing, or, where what was damaged is still a record, do what it does on any other.
use crate::bench;
use crate::trials::{Agreed, Trials};
use independent::calls::{Buffers, Call};
use independent::engine::Numbers;
use independent::queue::{Client, Ready, Record, Unfinished};
use independent::random::Random;
use independent::record_bytes;
use independent::registers::SRC_OVER;
use independent::words::{read_le32, replaced};

const NUMBERS: Numbers = Numbers { ring: 256, memory: 4096, common: 1024 };

/// Four windows that follow each other up to memory's end.
const WINDOWS: [(u32, u32); 4] = [(1024, 768), (1792, 768), (2560, 768), (3328, 768)];

pub fn compare(trials: &mut Trials) -> Agreed {
    let records = [waiting(), fresh(), full(), handing_over()];
    for record in &records {
        broken(trials, record)?;
        every_bit(trials, &bench::buffers(record))?;
        every_word(trials, &bench::buffers(record))?;
        other_lengths(trials, &bench::buffers(record))?;
    }
    random(trials, &records)
}

/// Every call that reads the record, on a copy.
fn all_calls(trials: &mut Trials, buffers: &Buffers) -> Agreed {
    let calls = [
        Call::Pending { client: 2 },
        Call::Pending { client: 3 },
        Call::Close { client: 1 },
        Call::Close { client: 2 },
        Call::Open { start: 4000, length: 1 },
        Call::Submit { client: 0, batch: &[] },
        Call::Submit { client: 0, batch: &[0; 4] },
        Call::Begin { client: 1, total: 4 },
        Call::Piece { client: 1, piece: &[7; 4] },
        Call::Cancel { client: 1 },
        Call::Run,
    ];
    for call in &calls {
        trials.try_call(call, buffers)?;
    }
    let other = Buffers { ring: vec![3; 128], ..buffers.clone() };
    trials.try_call(&Call::Submit { client: 0, batch: &[0; 4] }, &other)?;
    trials.try_call(&Call::Run, &other).map(|_| ())
}

fn fresh() -> Record {
    bench::record(NUMBERS, &WINDOWS[..3], 0, 0)
}

/// Three batches waiting, with the new reset rule, in slots out of order, the middle one in two parts.
fn waiting() -> Record {
    let mut record = bench::record(NUMBERS, &WINDOWS, 200, 41);
    record.reset = SRC_OVER;
    record.slots[6] = Some(Ready { client: 2, ticket: 38, offset: 200, length: 40 });
    record.slots[0] = Some(Ready { client: 0, ticket: 39, offset: 240, length: 100 });
    record.slots[3] = Some(Ready { client: 2, ticket: 40, offset: 84, length: 116 });
    record.clients[2].pending = 2;
    record.clients[0].pending = 1;
    record
}

/// Eight batches waiting, over the tickets' wrap, which fill the ring.
fn full() -> Record {
    let mut record = bench::record(NUMBERS, &WINDOWS, 252, 4);
    for i in 0..8 {
        let ticket = (i as u32).wrapping_sub(4);
        record.slots[i] = Some(Ready { client: i as u32 % 4, ticket, offset: (252 + 32 * i as u64) % 256, length: 32 });
        record.clients[i % 4].pending = 2;
    }
    record
}

/// The three batches, and eight bytes of a fourth, in the one slot between them that is lowest.
fn handing_over() -> Record {
    let mut record = waiting();
    set(&mut record, 3, |b| b.length = 88);
    record.unfinished = Some(Unfinished { client: 1, slot: 1, total: 28, so_far: 8 });
    record
}

type Damage = fn(&mut Record);

/// Each rule broken alone in the record of three batches, and in that with an unfinished one; in others some of these break no rule, or several.
const BREAKINGS: [Damage; 44] = [
    |_| (),
    |r| r.numbers.ring = 0,
    |r| r.numbers.ring = 32896,
    |r| r.numbers.ring = 260,
    |r| r.numbers.memory = 16777217,
    |r| r.numbers.memory = u64::from(u32::MAX),
    |r| r.numbers.common = 4097,
    |r| r.reset = 2,
    |r| r.clients[0].open = false,
    |r| r.clients[2].open = false,
    |r| r.clients[2].length = 0,
    |r| r.clients[3].length = 769,
    |r| r.clients[0].start = 1023,
    |r| r.clients[1].start -= 1,
    |r| r.clients[3] = Client { pending: 0, ..r.clients[0] },
    |r| r.read = 202,
    |r| r.read = 256,
    |r| r.read = 204,
    |r| set(r, 0, |b| b.offset = 244),
    |r| set(r, 3, |b| b.offset = 340),
    |r| set(r, 3, |b| b.length = 0),
    |r| set(r, 3, |b| b.length = 114),
    |r| set(r, 3, |b| b.length = 120),
    |r| set(r, 3, |b| b.length = u64::from(u32::MAX) - 3),
    |r| set(r, 3, |b| b.client = 4),
    |r| set(r, 3, |b| b.ticket = 39),
    |r| set(r, 6, |b| b.ticket = 37),
    |r| r.next = 42,
    |r| r.clients[1].pending = 1,
    |r| r.clients[2].pending = 1,
    |r| set(r, 6, |b| b.client = 1),
    |r| unfinished(r, |one| one.client = 4),
    |r| unfinished(r, |one| one.slot = 3),
    |r| unfinished(r, |one| one.slot = 8),
    |r| unfinished(r, |one| one.total = 0),
    |r| unfinished(r, |one| one.total = 26),
    |r| unfinished(r, |one| one.total = 32),
    |r| unfinished(r, |one| one.total = u64::from(u32::MAX) - 3),
    |r| unfinished(r, |one| one.so_far = 28),
    |r| unfinished(r, |one| one.so_far = u64::from(u32::MAX)),
    // Any slot that is free will do.
    |r| unfinished(r, |one| (one.slot, one.so_far) = (7, 27)),
    |r| {
        r.clients[2].open = false;
        r.clients[3].open = false;
    },
    // What a closed place holds is free.
    |r| {
        r.clients[3] = Client { start: u32::MAX, length: u32::MAX, pending: 77, open: false };
    },
    |r| r.clients[1] = Client { start: 1024, length: 0, pending: 8, open: false },
];

fn set(record: &mut Record, slot: usize, change: fn(&mut Ready)) {
    if let Some(ready) = &mut record.slots[slot] {
        change(ready);
    }
}

fn unfinished(record: &mut Record, change: fn(&mut Unfinished)) {
    if let Some(one) = &mut record.unfinished {
        change(one);
    }
}

/// The record damaged in each way, and in each two.
fn broken(trials: &mut Trials, good: &Record) -> Agreed {
    let buffers = bench::buffers(good);
    for one in BREAKINGS {
        for other in BREAKINGS {
            let mut record = good.clone();
            one(&mut record);
            other(&mut record);
            all_calls(trials, &Buffers { engine: record_bytes::written(&record), ..buffers.clone() })?;
        }
    }
    Ok(())
}

fn every_bit(trials: &mut Trials, good: &Buffers) -> Agreed {
    for bit in 0..8 * good.engine.len() {
        let mut damaged = good.clone();
        damaged.engine[bit / 8] ^= 1 << (bit % 8);
        all_calls(trials, &damaged)?;
    }
    Ok(())
}

/// Every word replaced by numbers at edges and by its neighbours.
fn every_word(trials: &mut Trials, good: &Buffers) -> Agreed {
    for at in (0..good.engine.len()).step_by(4) {
        let word = read_le32(&good.engine, at).expect("a word of the record");
        let near = [1u32, 4, 8, 128].into_iter().flat_map(|step| [word.wrapping_sub(step), word.wrapping_add(step)]);
        for other in near.chain([0, 1, 2, 3, 4, 5, 255, 256, 4096, 16777216, 1 << 31, u32::MAX - 3, u32::MAX]) {
            let engine = replaced(&good.engine, at, &other.to_le_bytes()).expect("a word of the record");
            all_calls(trials, &Buffers { engine, ..good.clone() })?;
        }
    }
    Ok(())
}

/// The record cut after every byte, and with bytes behind it.
fn other_lengths(trials: &mut Trials, good: &Buffers) -> Agreed {
    for length in 0..=300 {
        let mut engine = good.engine.clone();
        engine.resize(length, 0);
        all_calls(trials, &Buffers { engine, ..good.clone() })?;
    }
    Ok(())
}

/// Some words of a record replaced, or wholly random bytes.
pub fn damage(random: &mut Random, engine: &mut Vec<u8>) {
    match random.below(5) {
        0 => {
            let length = if random.one_in(2) { record_bytes::LENGTH } else { random.below(300) as usize };
            *engine = random.bytes(length);
        }
        1 => {
            let at = random.below(engine.len() as u32) as usize;
            engine[at] ^= 1 << random.below(8);
        }
        2 => engine.truncate(random.below(273) as usize),
        _ => {
            for _ in 0..1 + random.below(4) {
                let at = 4 * random.below(68) as usize;
                let old = read_le32(engine, at).expect("a word of the record");
                let edges = [0, 1, 2, 4, 8, old ^ 4, old.wrapping_add(4), old.wrapping_sub(1), old.wrapping_add(1)];
                let word = if random.one_in(4) { random.word() } else { random.pick(&edges) };
                *engine = replaced(engine, at, &word.to_le_bytes()).expect("a word of the record");
            }
        }
    }
}

fn random(trials: &mut Trials, records: &[Record]) -> Agreed {
    let random = &mut Random::new(0x5245_434F);
    let good: Vec<Buffers> = records.iter().map(bench::buffers).collect();
    for round in 0..30_000 {
        let mut damaged = good[round % good.len()].clone();
        damage(random, &mut damaged.engine);
        all_calls(trials, &damaged)?;
    }
    Ok(())
}
