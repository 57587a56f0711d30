//! Random replay files of both editions: mostly whole, some with refused records, some damaged.
use crate::batch::Bounds;
use crate::made_batches;
use crate::random::Random;
use crate::registers::{SRC_OVER, UNBLENDED};
use crate::replay::{record, window_start, COMMON, WINDOW};
use crate::second;

/// What a client of the replay program may touch, or a part of it, so that its tasks meet one another.
fn bounds(random: &mut Random, client: u32) -> Bounds {
    let start = u64::from(window_start(client));
    let common = if random.one_in(2) { 256 } else { COMMON.into() };
    if random.one_in(4) {
        return Bounds { window: start..start + u64::from(WINDOW), common };
    }
    let part = start + u64::from(random.pick(&[0, 0, WINDOW - 600]));
    Bounds { window: part..part + 600, common }
}

/// A batch of the longest allowed length, or near it: tasks again and again, and what is left over.
fn long(random: &mut Random, bounds: &Bounds, reset: u32) -> Vec<u8> {
    let length = 32768 - random.pick(&[0, 0, 4, 128]);
    let batch = made_batches::batch(random, bounds, 200, reset);
    let mut bytes = batch.repeat(length / batch.len());
    if random.one_in(2) {
        bytes.resize(length, 0);
    }
    bytes
}

/// A client and a batch, some of which submit refuses.
fn submission(random: &mut Random, reset: u32) -> (u8, Vec<u8>) {
    let client = random.below(4);
    let bounds = bounds(random, client);
    let mut batch =
        if random.one_in(48) { long(random, &bounds, reset) } else { made_batches::batch(random, &bounds, 400, reset) };
    match random.below(24) {
        0 => batch.clear(),
        1 => batch.truncate(batch.len() - 1 - random.below(3) as usize),
        _ => (),
    }
    let client = if random.one_in(16) { random.pick(&[4, 7, 128, 255]) } else { client as u8 };
    (client, batch)
}

fn random_record(random: &mut Random) -> Vec<u8> {
    let (client, batch) = submission(random, UNBLENDED);
    record(client, &batch)
}

/// A score's bits: mostly good ones, and those at the limits.
fn score(random: &mut Random) -> u32 {
    match random.below(4) {
        0 => random.pick(&[0, 1, 0x3F80_0000, 0x3F7F_FFFF, 0x8000_0000, 0x0080_0000]),
        1 => random.pick(&[0x3F80_0001, 0x8000_0001, 0x7F80_0000, 0xFF80_0000, 0x7FC0_0000, 0x7F80_0001, 0xFFFF_FFFF, 0xBF80_0000]),
        _ => random.below(0x3F80_0001),
    }
}

/// The file of edition 2 of a number.
pub fn second_file(seed: u64, number: u64) -> Vec<u8> {
    let random = &mut Random::of_case(seed, number);
    let mut file = vec![2];
    for _ in 0..random.below(12) {
        let (client, batch) = submission(random, SRC_OVER);
        let score = score(random);
        file.extend(second::record(client, score, &batch));
    }
    if random.one_in(3) {
        damage(random, &mut file);
    }
    file
}

/// Changes of a whole file: its version, its end, a length, any byte, more bytes after it, nothing left.
fn damage(random: &mut Random, file: &mut Vec<u8>) {
    let at = random.below(file.len() as u32) as usize;
    match random.below(8) {
        0 => file[0] = random.pick(&[0, 1, 2, 3, 255]),
        1 | 2 => file.truncate(at),
        3 => file[at] = random.byte(),
        4 => file[at] ^= 1 << random.below(8),
        5 => file.extend(random.pick(&[0u32, 1, 4, 5, 32769, 32770, 32773, 32774, 0x0100_0000, u32::MAX]).to_be_bytes()),
        6 => {
            let count = 1 + random.below(9);
            file.extend(random.bytes(count as usize));
        }
        _ => file.clear(),
    }
}

/// The file of a number.
pub fn file(seed: u64, number: u64) -> Vec<u8> {
    let random = &mut Random::of_case(seed, number);
    let mut file = vec![1];
    for _ in 0..random.below(12) {
        file.extend(random_record(random));
    }
    if random.one_in(3) {
        damage(random, &mut file);
    }
    file
}
