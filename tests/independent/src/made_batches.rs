//! Random batches for a client: of tasks that pass, with one fault made somewhere, of few registers, damaged, or noise.
use crate::batch::Bounds;
use crate::made_tasks::{broken, good, steps, Fields};
use crate::random::Random;
use crate::registers::{offsets, Bank, Refusal, UNBLENDED};
use crate::ring;
use crate::words::bytes;
use crate::writer::{registers, shaded_registers, shaded_written, written, SHADED_GROUPS};

/// Words of a whole task, as the writer writes it in its longer form.
const WHOLE: usize = 25;

/// The groups that take one bank to another and end a task. Registers that stay are left out where they can be.
pub fn difference(before: &Bank, after: &Bank) -> Vec<u32> {
    let mut words = Vec::new();
    let mut last = None;
    for (first, count) in SHADED_GROUPS {
        let differ: Vec<u32> = (0..count).map(|k| first + 4 * k).filter(|at| before.word(*at) != after.word(*at)).collect();
        if let (Some(from), Some(to)) = (differ.first(), differ.last()) {
            last = Some(words.len());
            words.push(from << 16 | (to - from + 4));
            words.extend((*from..=*to).step_by(4).map(|at| after.word(at)));
        }
    }
    if last.is_none() {
        last = Some(0);
        words = vec![0x110 << 16 | 4, after.word(0x110)];
    }
    words[last.expect("a group")] |= 1;
    words
}

/// Tasks as one batch for a reset rule, each written whole or only where it differs from what the registers hold. It ends before a task
/// that would make it longer than `room` words, but has the first.
pub fn joined(random: &mut Random, tasks: &[Fields], room: usize, reset: u32) -> Vec<u32> {
    let mut bank = Bank::reset(reset);
    let mut words = Vec::new();
    for fields in tasks {
        // in the first form the steps stay what they are
        let kept = bank.task().steps;
        let steps = if random.one_in(2) { kept } else { steps(random) };
        let after = shaded_registers(fields, &steps).unwrap_or_else(|| Bank::reset(reset));
        let mut task = difference(&bank, &after);
        if words.len() + WHOLE <= room && random.one_in(3) {
            let first = steps == kept && random.one_in(2);
            let whole = if first { written(fields, 80) } else { shaded_written(fields, &steps, 100) };
            task = whole.map_or(task, |whole| ring::words(&whole, 0, whole.len() as u64));
        }
        if !words.is_empty() && words.len() + task.len() > room {
            break;
        }
        words.extend(task);
        bank = after;
    }
    words
}

/// Where the headers of a batch stand, as long as its groups lie in it.
fn headers(words: &[u32]) -> Vec<usize> {
    let mut at = 0;
    let mut all = Vec::new();
    while at < words.len() {
        all.push(at);
        at += 1 + (words[at] as u16 / 4) as usize;
    }
    all
}

/// Makes one of 20 to 24 in a good batch.
fn spoil(random: &mut Random, words: &mut Vec<u32>, fault: u32) {
    let headers = headers(words);
    let at = random.pick(&headers);
    match fault {
        20 => words[at] |= 1 << random.pick(&[1, 16, 17]),
        21 => spoil_length(random, words, at),
        22 => {
            let last = headers[headers.len() - 1];
            words[last] &= !1;
        }
        23 => {
            let offset = random
                .pick(&[0x00C, 0x024, 0x02C, 0x040, 0x04C, 0x05C, 0x064, 0x08C, 0x094, 0x10C, 0x114, 0, 0xFFFC, 0x10C]);
            let offset = if random.one_in(2) { random.pick(&offsets()) + 4 } else { offset };
            words[at] = words[at] & 0xFFFF | offset << 16;
        }
        _ => spoil_word(random, words, at),
    }
}

/// A length of 0, one past the batch's end, or the end cut off.
fn spoil_length(random: &mut Random, words: &mut Vec<u32>, at: usize) {
    let rest = (words.len() - at) as u32;
    match random.below(4) {
        0 => words[at] &= 0xFFFF_0003,
        1 => words[at] = words[at] & 0xFFFF_0003 | rest << 2,
        2 => words[at] |= 0xFFFC,
        _ => words.truncate(words.len() - 1),
    }
}

/// A bit or a code that the register of some word of a group does not allow.
fn spoil_word(random: &mut Random, words: &mut [u32], at: usize) {
    let count = u32::from(words[at] as u16 / 4);
    for _ in 0..24 {
        let k = random.below(count);
        let word = if random.one_in(4) { random.word() } else { words[at + 1 + k as usize] ^ 1 << random.below(32) };
        let offset = (words[at] >> 16) + 4 * k;
        if Bank::reset(UNBLENDED).write(offset, word) == Err(Refusal::Word) {
            words[at + 1 + k as usize] = word;
            return;
        }
    }
}

/// A batch of a few good tasks, the last of which may be made to break a rule.
fn tasks(random: &mut Random, bounds: &Bounds, room: usize, fault: Option<u32>, reset: u32) -> Vec<u32> {
    let most = random.pick(&[1, 1, 2, 3, 6]);
    let mut tasks: Vec<Fields> = (0..1 + random.below(most)).map(|_| good(random, bounds)).collect();
    if let Some(fault) = fault {
        let at = random.below(tasks.len() as u32) as usize;
        tasks[at] = broken(random, bounds, fault);
    }
    joined(random, &tasks, room, reset)
}

/// Groups that write only a few registers of a good task: what an earlier batch left must not make it whole.
fn few(random: &mut Random, bounds: &Bounds) -> Vec<u32> {
    let bank = registers(&good(random, bounds)).unwrap_or_else(|| Bank::reset(UNBLENDED));
    let mut words = Vec::new();
    let count = 1 + random.below(4);
    for k in 0..count {
        let offset = random.pick(&offsets());
        words.extend([offset << 16 | 4 | u32::from(k + 1 == count), bank.word(offset)]);
    }
    words
}

fn damaged(random: &mut Random, bounds: &Bounds, room: usize, reset: u32) -> Vec<u32> {
    let mut words = tasks(random, bounds, room, None, reset);
    for _ in 0..1 + random.below(4) {
        let at = random.below(words.len() as u32) as usize;
        words[at] = if random.one_in(4) { random.word() } else { words[at] ^ 1 << random.below(32) };
    }
    words
}

fn noise(random: &mut Random, room: usize) -> Vec<u32> {
    let header = |random: &mut Random| random.pick(&offsets()) << 16 | 4 * random.below(6) | random.below(2);
    let count = 1 + random.below(room.min(24) as u32);
    (0..count).map(|_| if random.one_in(2) { random.word() } else { header(random) }).collect()
}

/// A batch for a client, mostly of at most `room` bytes, made for a reset rule.
pub fn batch(random: &mut Random, bounds: &Bounds, room: usize, reset: u32) -> Vec<u8> {
    let room = (room / 4).max(1);
    let words = match random.below(32) {
        0..=14 => tasks(random, bounds, room, None, reset),
        15..=19 => {
            let mut words = tasks(random, bounds, room, None, reset);
            let fault = 20 + random.below(5);
            spoil(random, &mut words, fault);
            words
        }
        20..=25 => {
            let fault = 25 + random.below(4);
            tasks(random, bounds, room, Some(fault), reset)
        }
        26..=28 => few(random, bounds),
        29..=30 => damaged(random, bounds, room, reset),
        _ => noise(random, room),
    };
    bytes(&words)
}
