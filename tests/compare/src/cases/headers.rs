//! Headers and groups: every low half of a header, every run of registers, batches as long as the ring.
use super::rules::{passing, written};
use crate::bench::bench;
use crate::trials::{Agreed, Trials};
use independent::engine::Numbers;
use independent::words::bytes;

pub fn compare(trials: &mut Trials) -> Agreed {
    low_halves(trials)?;
    runs(trials)?;
    long(trials)
}

/// Every length, task end and bit 1, of a group of one register and in the middle of a batch.
fn low_halves(trials: &mut Trials) -> Agreed {
    let bench = bench(Numbers { ring: 128, memory: 32, common: 8 }, 0);
    for low in 0..0x1_0000 {
        trials.words(&bench, &[0x0054_0000 | low, 1, 8, 0x0060_0004, 5, 0x0090_0005, 0])?;
    }
    Ok(())
}

/// Groups of every length from every offset in and around the table.
fn runs(trials: &mut Trials) -> Agreed {
    let bench = bench(Numbers { ring: 128, memory: 32, common: 8 }, 0);
    for first in (0..0x128).step_by(4) {
        for count in 1..24 {
            let mut words = vec![0; 1 + count];
            words[0] = first << 16 | 4 * count as u32 | 1;
            trials.words(&bench, &words)?;
        }
    }
    Ok(())
}

/// As many tasks as a ring of 32,768 bytes holds; half as many groups that end none; one group too long; the longest group.
fn long(trials: &mut Trials) -> Agreed {
    let numbers = Numbers { ring: 32768, memory: 1024, common: 192 };
    let bench = bench(numbers, 24);
    let first = written(&passing(64, 600));
    let endings: [&[u32]; 5] = [
        &[0x001C_0005, 7],
        &[0x001C_0004, 7, 0x001C_0005, 7],
        &[0x001C_0004, 7],
        &[0x001C_FFFD, 7],
        &[0x0010_0001, 0x001C_0005, 7],
    ];
    for ending in endings {
        let room = numbers.ring as usize - first.len();
        let rest = bytes(ending);
        trials.batch(&bench, &[&first[..], &rest.repeat(room / rest.len())].concat())?;
    }
    let mut longest = vec![0; 8192];
    longest[0] = 0x0054_0000 | 4 * 8191 | 1;
    trials.words(&bench, &longest).map(|_| ())
}
