//! Engines to try calls on: set up, with windows opened, as the independent program writes their records.
use independent::calls::Buffers;
use independent::engine::Numbers;
use independent::queue::{self, Record};
use independent::random::Random;
use independent::record_bytes;
use independent::registers::UNBLENDED;

/// A record with the old reset rule and some windows open, at a read offset and a next ticket.
pub fn record(numbers: Numbers, windows: &[(u32, u32)], read: u64, next: u32) -> Record {
    let mut record = queue::set_up(numbers, UNBLENDED).expect("allowed numbers");
    for (start, length) in windows {
        record.open(*start, *length).expect("an allowed window");
    }
    Record { read, next, ..record }
}

/// Buffers of that record's lengths, with bytes that look random in ring and memory.
pub fn buffers(record: &Record) -> Buffers {
    let mut random = Random::new(record.numbers.memory ^ 0x5EED);
    let mut bytes = |length: u64| random.bytes(length as usize);
    Buffers { engine: record_bytes::written(record), ring: bytes(record.numbers.ring), memory: bytes(record.numbers.memory) }
}

/// A bench for batches of client 0, whose window follows common and ends `beyond` bytes before memory's end.
pub fn bench(numbers: Numbers, beyond: u32) -> Buffers {
    let length = (numbers.memory - numbers.common) as u32 - beyond;
    buffers(&record(numbers, &[(numbers.common as u32, length)], 0, 0))
}

/// The same engine with a reset rule of its own number.
pub fn under(buffers: &Buffers, reset: u32) -> Buffers {
    let record = record_bytes::read(&buffers.engine).expect("a record");
    Buffers { engine: record_bytes::written(&Record { reset, ..record }), ..buffers.clone() }
}

/// The same engine with another read offset, which must be one of its ring's multiples of 4.
pub fn read_from(buffers: &Buffers, read: u64) -> Buffers {
    let record = record_bytes::read(&buffers.engine).expect("a record");
    Buffers { engine: record_bytes::written(&Record { read, ..record }), ..buffers.clone() }
}
