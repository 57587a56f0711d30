//! Every fault at every place of a batch, in a ring that it wraps in, and which of two faults is answered.
use super::rules::{passing, written};
use crate::bench::{bench, read_from, under};
use crate::trials::{Agreed, Trials};
use independent::calls::{Buffers, Call};
use independent::engine::Numbers;
use independent::random::Random;
use independent::registers;
use independent::writer::WORKED;

/// The client of the worked words has its window from 16,384 on, as in the replay program.
const NUMBERS: Numbers = Numbers { ring: 256, memory: 17408, common: 16384 };

/// What is put in the place of any word: headers of registers, of none, of no words and of too many; numbers at edges.
const OTHERS: [u32; 9] = [0x0100_0004, 0x0040_0004, 0x0000_0004, 0x0110_0000, 0x0110_FFFD, 0, 1, 0x0002_0001, u32::MAX];

pub fn compare(trials: &mut Trials) -> Agreed {
    let bench = bench(NUMBERS, 0);
    damaged(trials, &bench)?;
    cut(trials, &bench)?;
    two_faults(trials)?;
    generated(trials)
}

/// Two tasks with each word in turn changed in one bit, in two, in all, or wholly, from every offset of the ring's words.
fn damaged(trials: &mut Trials, bench: &Buffers) -> Agreed {
    let good = [WORKED, WORKED].concat();
    for at in 0..good.len() {
        let bench = read_from(bench, 4 * at as u64 + 96);
        let mut changed_to = |word: u32| {
            let mut words = good.clone();
            words[at] = word;
            trials.words(&bench, &words)
        };
        for one in 0..32 {
            for other in one..32 {
                changed_to(good[at] ^ 1 << one ^ if other > one { 1 << other } else { 0 })?;
            }
        }
        changed_to(!good[at])?;
        for word in OTHERS {
            changed_to(word)?;
        }
    }
    Ok(())
}

/// Two tasks cut after each byte, from every offset of the ring's words.
fn cut(trials: &mut Trials, bench: &Buffers) -> Agreed {
    let good = independent::words::bytes(&[WORKED, WORKED].concat());
    for read in (0..NUMBERS.ring).step_by(4) {
        let bench = read_from(bench, read);
        for length in 0..=good.len() {
            trials.batch(&bench, &good[..length])?;
        }
        let over = good.repeat(2);
        for length in [164, 253, 256, 257, 260] {
            trials.batch(&bench, &over[..length])?;
        }
    }
    Ok(())
}

/// The worked task made faulty in one way: a word's place and what stands there. 22 comes only at a batch's end.
const FAULTY: [&[(usize, u32)]; 9] = [
    &[],
    &[(6, 0x0050_000E)],
    &[(6, 0x0050_0000)],
    &[(10, 0x0064_0004)],
    &[(13, 0x0000_3300)],
    &[(1, 0x0000_0004)],
    &[(1, 0x0000_0015)],
    &[(19, 64)],
    &[(1, 0x0000_0001), (3, 8), (5, 0x0000_4000)],
];

fn faulty(way: &[(usize, u32)]) -> Vec<u32> {
    let mut words = WORKED.to_vec();
    way.iter().for_each(|(at, word)| words[*at] = *word);
    words
}

/// Four tasks, each faultless or faulty in each way; and some of these with the last one's end left out.
fn two_faults(trials: &mut Trials) -> Agreed {
    let bench = &bench(Numbers { ring: 512, ..NUMBERS }, 0);
    let tasks: Vec<Vec<u32>> = FAULTY.iter().map(|way| faulty(way)).collect();
    for number in 0..tasks.len().pow(4) {
        let picked = [number, number / 9, number / 81, number / 729].map(|n| &tasks[n % 9][..]);
        let mut words = picked.concat();
        trials.words(bench, &words)?;
        if number % 9 == number / 729 {
            words[78] &= !1;
            trials.words(bench, &words)?;
        }
    }
    Ok(())
}

/// Batches put together of groups that are mostly good, from any offset of the ring.
fn generated(trials: &mut Trials) -> Agreed {
    let random = &mut Random::new(0x4241_5443);
    for common in [192, 0, 600] {
        let numbers = Numbers { ring: 1024, memory: 1400, common };
        let bench = bench(numbers, 24);
        for _ in 0..10_000 {
            let bench = under(&read_from(&bench, 4 * u64::from(random.below(256))), random.below(2));
            let words = groups(random);
            let mut after = trials.words(&bench, &words)?;
            trials.call(&Call::Run, &mut after)?;
        }
    }
    Ok(())
}

/// Up to four tasks of one group a register, some registers changed, some left out, some task ends missing.
fn groups(random: &mut Random) -> Vec<u32> {
    let mut words = Vec::new();
    for _ in 0..1 + random.below(4) {
        let mut task = passing(64, 800);
        for _ in 0..random.below(4) {
            let at = random.below(14) as usize;
            task[at].1 = if random.one_in(3) { random.word() } else { task[at].1 ^ 8 << random.below(24) };
        }
        let kept = random.below(15).max(1) as usize;
        let mut groups = written(&task[14 - kept..]);
        let last = groups.len() - 8;
        groups[last] &= if random.one_in(8) { 0xFE } else { 0xFF };
        words.extend(independent::ring::words(&groups, 0, groups.len() as u64));
    }
    if random.one_in(6) {
        let at = random.below(words.len() as u32) as usize;
        words[at] = random.pick(&registers::offsets()) << 16 | random.below(64) << 2 | random.below(2);
    }
    words
}
