//! Every flip and turn on small pictures, in every pair of formats; sizes that do not fit; long rows and columns.
use crate::bench::bench;
use crate::trials::{Agreed, Trials};
use independent::engine::Numbers;
use independent::pixel::FORMATS;
use independent::sample_tasks::{blended, copy, fill, Place, ARGB8888, RGB565};
use independent::writer::field::{FLIP_H, FLIP_V, TURNS};

/// A place with 8 bytes more between rows than they need.
fn place(address: u32, (width, height): (u32, u32), format: usize) -> Place {
    let stride = (width * FORMATS[format].bytes as u32).next_multiple_of(8) + 8;
    Place { address, stride, width, height, format: FORMATS[format].code }
}

fn turned(turns: u32, (width, height): (u32, u32)) -> (u32, u32) {
    if turns % 2 == 0 {
        (width, height)
    } else {
        (height, width)
    }
}

pub fn compare(trials: &mut Trials) -> Agreed {
    small(trials)?;
    rows(trials)?;
    sizes(trials)?;
    long(trials)?;
    solid(trials)
}

/// All sixteen settings on all pictures of up to 9 by 9, without blending and, in one pair of formats, with.
fn small(trials: &mut Trials) -> Agreed {
    let bench = bench(Numbers { ring: 128, memory: 1200, common: 500 }, 0);
    for number in 0..81 * 9 * 16 {
        let (sides, pair, setting) = ((1 + number % 9, 1 + number / 9 % 9), number / 81 % 9, number / 729);
        let (from, to) = (pair as usize / 3, pair as usize % 3);
        let turns = setting % 4;
        let output = place(500 + pair, turned(turns, sides), to);
        let task = copy(place(3, sides, from), output, turns, setting >> 2 & 1, setting >> 3);
        trials.task(&bench, &task)?;
        if pair == 0 {
            trials.task(&bench, &blended(task, "SRC_OVER"))?;
            trials.task(&bench, &blended(task, "XOR"))?;
        }
    }
    Ok(())
}

/// Rows of one format as they are, of every width up to 70, upside down and not: from common, and from the window before the output and after it.
fn rows(trials: &mut Trials) -> Agreed {
    let bench = bench(Numbers { ring: 128, memory: 4000, common: 1000 }, 0);
    for number in 0..70 * 3 * 2 * 3 {
        let (width, format, flip) = (1 + number % 70, number as usize / 70 % 3, number / 210 % 2);
        let address = [3, 1001, 3001][number as usize / 420];
        let task = copy(place(address, (width, 3), format), place(2001, (width, 3), format), 0, 0, flip);
        trials.task(&bench, &task)?;
    }
    Ok(())
}

/// Sources and outputs of every size up to 4 by 4 under every turn: 26 unless the output has the turned size.
fn sizes(trials: &mut Trials) -> Agreed {
    let bench = bench(Numbers { ring: 128, memory: 512, common: 128 }, 0);
    for number in 0..4 * 256 {
        let side = |n: u32| 1 + (number >> (2 * n) & 3);
        let (source, output) = ((side(0), side(1)), (side(2), side(3)));
        trials.task(&bench, &copy(place(0, source, 0), place(128, output, 0), number / 256, 0, 0))?;
    }
    Ok(())
}

/// Larger pictures, and rows and columns as long as a side may be, and longer by one.
fn long(trials: &mut Trials) -> Agreed {
    let bench = bench(Numbers { ring: 128, memory: 200_000, common: 80_000 }, 0);
    for sides in [(64, 32), (31, 33), (16, 9), (1, 1000), (4096, 1), (1, 4096), (4097, 1), (1, 4097), (0, 3), (3, 0)] {
        for setting in 0..16 {
            let turns = setting % 4;
            let output = place(80_000, turned(turns, sides), 2);
            trials.task(&bench, &copy(place(8, sides, 2), output, turns, setting >> 2 & 1, setting >> 3))?;
        }
    }
    Ok(())
}

/// A colour with every flip and turn: a flip changes nothing, and a turn is 26.
fn solid(trials: &mut Trials) -> Agreed {
    let bench = bench(Numbers { ring: 128, memory: 400, common: 0 }, 0);
    for format in [ARGB8888, 0x08, RGB565] {
        for sides in [(1, 1), (1, 9), (9, 1), (1, 7), (16, 2), (3, 5)] {
            let (width, height) = sides;
            for setting in 0..16 {
                let mut task = fill(Place { address: 5, stride: 72, width, height, format }, 0x8040_2010);
                (task[TURNS], task[FLIP_H], task[FLIP_V]) = (setting % 4, setting >> 2 & 1, setting >> 3);
                trials.task(&bench, &task)?;
            }
        }
    }
    Ok(())
}
