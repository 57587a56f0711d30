//! Every register offset with every bit, every code, and every two bits of a task's registers.
use super::rules::{passing, written};
use crate::bench::bench;
use crate::trials::{Agreed, Trials};
use independent::engine::Numbers;

/// A register is written by the only group of a batch. Fault 25 then shows what an allowed word does.
const SMALL: Numbers = Numbers { ring: 128, memory: 32, common: 8 };

pub fn compare(trials: &mut Trials) -> Agreed {
    offsets(trials)?;
    codes(trials)?;
    bits_of_tasks(trials)
}

/// Every offset that a header can name, with no bit set; every multiple of 4 with each bit set alone. Other offsets are 20.
fn offsets(trials: &mut Trials) -> Agreed {
    let bench = bench(SMALL, 0);
    for offset in 0..0x1_0000 {
        let header = offset << 16 | 5;
        trials.words(&bench, &[header, 0])?;
        for bit in (0..32).filter(|_| offset % 4 == 0) {
            trials.words(&bench, &[header, 1 << bit])?;
        }
    }
    Ok(())
}

/// Every code of formats, alpha modes, source modes and factors.
fn codes(trials: &mut Trials) -> Agreed {
    let bench = bench(SMALL, 0);
    for (offset, low, end) in
        [(0x010, 8, 128), (0x050, 8, 128), (0x100, 8, 128), (0x010, 22, 4), (0x050, 22, 4), (0x010, 2, 4), (0x090, 8, 64)]
    {
        for code in 0..end {
            trials.words(&bench, &[offset << 16 | 5, code << low])?;
        }
    }
    Ok(())
}

/// A blended task with one bit of its registers changed, and with two.
fn bits_of_tasks(trials: &mut Trials) -> Agreed {
    let numbers = Numbers { ring: 128, memory: 1024, common: 192 };
    let bench = bench(numbers, 24);
    let task = passing(64, 600);
    trials.batch(&bench, &written(&task))?;
    let bits = 32 * task.len();
    for one in 0..bits {
        for other in one..bits {
            let mut changed = task.clone();
            changed[one / 32].1 ^= 1 << (one % 32);
            if other != one {
                changed[other / 32].1 ^= 1 << (other % 32);
            }
            trials.batch(&bench, &written(&changed))?;
        }
    }
    Ok(())
}
