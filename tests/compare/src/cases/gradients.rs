//! Shaded sources (02, request 3): every start, steps at and about their limits, along x and along y, under every setting, in every format.
use crate::bench::bench;
use crate::trials::{Agreed, Trials};
use independent::engine::Numbers;
use independent::gradient::{Steps, STEP_BITS};
use independent::made_tasks::Fields;
use independent::pixel::FORMATS;
use independent::random::Random;
use independent::sample_tasks::{blended, shaded, Place};
use independent::writer::field::{FLIP_H, FLIP_V, SOURCE_ALPHA_MODE, SOURCE_GLOBAL_ALPHA, TURNS};
use independent::writer::{shaded_written, written};

/// In parts of 65,536, each way: the least, halves and wholes and what is about them, and the ends of the 25 bits.
const STEPS: [u32; 24] = [
    0,
    1,
    2,
    0x7FFF,
    0x8000,
    0x8001,
    0xFFFF,
    0x1_0000,
    0x1_0001,
    0xFF_0000,
    0x100_0000 - 2,
    0x100_0000 - 1,
    0x100_0000,
    0x100_0001,
    0x101_0000,
    0x1FE_FFFF,
    0x1FF_0000,
    0x1FF_0001,
    0x1FF_7FFF,
    0x1FF_8000,
    0x1FF_8001,
    0x1FF_FFFD,
    0x1FF_FFFE,
    0x1FF_FFFF,
];

pub fn compare(trials: &mut Trials) -> Agreed {
    levels(trials)?;
    settings(trials)?;
    long(trials)?;
    blends(trials)?;
    kept(trials)
}

/// A rectangle with 8 bytes more between rows than they need.
fn place(address: u32, (width, height): (u32, u32), format: usize) -> Place {
    let stride = (width * FORMATS[format].bytes as u32).next_multiple_of(8) + 8;
    Place { address, stride, width, height, format: FORMATS[format].code }
}

fn set(mut fields: Fields, setting: u32) -> Fields {
    (fields[TURNS], fields[FLIP_H], fields[FLIP_V]) = (setting % 4, setting >> 2 & 1, setting >> 3);
    fields
}

/// Every start of a channel with every step of the list, for nine places; each channel has another start.
fn levels(trials: &mut Trials) -> Agreed {
    let bench = bench(Numbers { ring: 128, memory: 300, common: 0 }, 0);
    for start in 0..256u32 {
        let colour = u32::from_be_bytes([start, start + 1, start + 64, start + 128].map(|level| level as u8));
        for (k, step) in STEPS.iter().enumerate() {
            let steps = [*step, STEPS[(k + 7) % 24], STEPS[(k + 13) % 24], STEPS[(k + 18) % 24]];
            trials.shaded_task(&bench, &shaded(place(4, (9, 1), 0), 2, colour), &steps)?;
        }
    }
    Ok(())
}

/// Both modes under every flip and turn, in every format, at small sizes: a turn is 26.
fn settings(trials: &mut Trials) -> Agreed {
    let bench = bench(Numbers { ring: 128, memory: 500, common: 0 }, 0);
    for number in 0..7 * 3 * 2 * 16 {
        let (sides, format, mode, setting) = (number % 7, number / 7 % 3, 2 + number / 21 % 2, number / 42);
        let sides = [(1, 1), (1, 9), (9, 1), (7, 3), (3, 7), (16, 2), (5, 5)][sides as usize];
        let task = set(shaded(place(5, sides, format as usize), mode, 0x8040_C010), setting);
        for steps in [[0x1FF_8000, 0x8_0000, 0x1F0_0000, 0x2_4000], [0x10_0000, 0x1FF_FFFF, 0x4000, 0x1C0_0000], [0; 4]] {
            trials.shaded_task(&bench, &task, &steps)?;
        }
    }
    Ok(())
}

/// Rows and columns as long as a side may be, and longer by one, with slow steps and with the greatest.
fn long(trials: &mut Trials) -> Agreed {
    let bench = bench(Numbers { ring: 128, memory: 70_000, common: 0 }, 0);
    for sides in [(4096, 1), (1, 4096), (4097, 1), (1, 4097), (64, 200)] {
        for number in 0..2 * 4 * 24 {
            let (mode, flips, step) = (2 + number % 2, number / 2 % 4, STEPS[number as usize / 8]);
            let steps = [step, 0x1FF_F001, 0x0FFF, STEPS[23 - number as usize / 8]];
            trials.shaded_task(&bench, &set(shaded(place(8, sides, 0), mode, 0x80FF_0080), flips << 2), &steps)?;
        }
    }
    Ok(())
}

/// Blended by some rules and every alpha mode: the shaded alpha is the pixel's.
fn blends(trials: &mut Trials) -> Agreed {
    let bench = bench(Numbers { ring: 128, memory: 600, common: 0 }, 0);
    let random = &mut Random::new(0x4752_4144);
    for number in 0..2000u32 {
        let rule = ["SRC_OVER", "NONE", "ADD", "XOR", "DST_IN"][number as usize % 5];
        let sides = (1 + random.below(9), 1 + random.below(6));
        let format = random.below(3) as usize;
        let mut task = blended(shaded(place(3, sides, format), 2 + number % 2, random.word()), rule);
        (task[SOURCE_ALPHA_MODE], task[SOURCE_GLOBAL_ALPHA]) = (random.below(3), random.below(256));
        let steps: Steps = std::array::from_fn(|_| random.below(0x40_0000).wrapping_sub(0x20_0000) & STEP_BITS);
        trials.shaded_task(&bench, &set(task, random.below(4) << 2), &steps)?;
    }
    Ok(())
}

/// The first form takes no steps: alone it stands for steps of zero, after the second form for that one's; so it does in the next batch again for zero.
fn kept(trials: &mut Trials) -> Agreed {
    let bench = bench(Numbers { ring: 256, memory: 400, common: 0 }, 0);
    for number in 0..2 * 24u32 {
        let steps = [STEPS[number as usize / 2], 0x8_0000, 0x1F8_0000, 0x1_8000];
        let task = |y: u32| shaded(place(y, (9, 2), 0), 2 + number % 2, 0x8040_C010);
        let first = written(&task(4), 80).expect("allowed fields");
        let second = shaded_written(&task(120), &steps, 100).expect("allowed fields");
        trials.task(&bench, &task(4))?;
        let after = trials.batch(&bench, &[&second[..], &first].concat())?;
        trials.batch(&after, &first)?;
        trials.batch(&bench, &[&first[..], &second].concat())?;
    }
    Ok(())
}
