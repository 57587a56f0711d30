//! Every pair of factors on a grid of channels, every rule by name, every sum that a blend can come to, rows blended inside the window and tasks that are
//! nearly such, every mix of formats.
use crate::bench::bench;
use crate::trials::{Agreed, Trials};
use independent::engine::Numbers;
use independent::made_pixels::KINDS;
use independent::made_tasks::Fields;
use independent::pixel::{FORMATS, RULES};
use independent::sample_tasks::{blended, copy, Place, ARGB8888, RGB565, RGB888};
use independent::writer::field::{
    ADDRESS, DESTINATION, DESTINATION_ALPHA_MODE, DESTINATION_FACTOR, DESTINATION_GLOBAL_ALPHA, FLIP_H, FORMAT, OUTPUT,
    PREMULTIPLIED, SOURCE, SOURCE_ALPHA_MODE, SOURCE_FACTOR, SOURCE_GLOBAL_ALPHA, STRIDE, TURNS,
};

/// Levels of a channel at the edges and between.
const GRID: [u8; 12] = [0, 1, 2, 63, 64, 100, 127, 128, 191, 200, 254, 255];

/// Fewer of them.
pub const LEVELS: [u8; 7] = [0, 1, 100, 127, 128, 254, 255];

const SOURCE_ALPHA: u32 = 2;
const DESTINATION_ALPHA: u32 = 4;

pub fn compare(trials: &mut Trials) -> Agreed {
    pairs(trials)?;
    all_channels(trials)?;
    all_sums(trials)?;
    within_window(trials)?;
    nearly_within(trials)?;
    through_buffers(trials)?;
    formats(trials)
}

/// A task blended with its output by two factors.
fn by_factors(fields: Fields, source: u32, destination: u32) -> Fields {
    let mut fields = blended(fields, "SRC_OVER");
    (fields[SOURCE_FACTOR], fields[DESTINATION_FACTOR]) = (source, destination);
    fields
}

/// Source pixels blended with as many destination pixels, both ARGB8888, in rows of at most 256: the source in common, and in the window.
pub fn blend_pixels(trials: &mut Trials, source: &[u32], destination: &[u32], blended: impl Fn(Fields) -> Fields) -> Agreed {
    let width = source.len().min(256);
    let height = source.len().div_ceil(width);
    let stride = (4 * width).next_multiple_of(8);
    let half = stride * height;
    let place = |address| Place { address, stride: stride as u32, width: width as u32, height: height as u32, format: ARGB8888 };
    let task = blended(copy(place(0), place(half as u32), 0, 0, 0));
    for common in [half, 0] {
        let mut buffers = bench(Numbers { ring: 128, memory: 2 * half as u64, common: common as u64 }, 0);
        for (pixels, start) in [(source, 0), (destination, half)] {
            for (i, pixel) in pixels.iter().enumerate() {
                let at = start + i / width * stride + 4 * (i % width);
                buffers.memory[at..at + 4].copy_from_slice(&pixel.to_le_bytes());
            }
        }
        trials.task(&buffers, &task)?;
    }
    Ok(())
}

fn pixel(alpha: u8, red: u8, green: u8, blue: u8) -> u32 {
    u32::from_be_bytes([alpha, red, green, blue])
}

/// Every pair of factors, and every rule by name, with every source and destination alpha and channel of the grid.
fn pairs(trials: &mut Trials) -> Agreed {
    let (mut source, mut destination) = (Vec::new(), Vec::new());
    for sa in GRID {
        for da in GRID {
            for s in GRID {
                for (k, d) in GRID.into_iter().enumerate() {
                    source.push(pixel(sa, s, GRID[k], !s));
                    destination.push(pixel(da, d, s, d));
                }
            }
        }
    }
    for pair in 0..36 {
        blend_pixels(trials, &source, &destination, |fields| by_factors(fields, pair / 6, pair % 6))?;
    }
    for (name, _, _) in RULES {
        blend_pixels(trials, &source, &destination, |fields| blended(fields, name))?;
    }
    Ok(())
}

/// Every source channel with every destination channel, under factors at each of the levels.
fn all_channels(trials: &mut Trials) -> Agreed {
    for (fs, fd) in LEVELS.into_iter().flat_map(|fs| LEVELS.map(|fd| (fs, fd))) {
        let channels = || (0..=255).flat_map(|s: u8| (0..=255).map(move |d: u8| (s, d)));
        let source: Vec<u32> = channels().map(|(s, d)| pixel(fs, s, d, !s)).collect();
        let destination: Vec<u32> = channels().map(|(s, d)| pixel(fd, d, s, d)).collect();
        blend_pixels(trials, &source, &destination, |fields| by_factors(fields, SOURCE_ALPHA, DESTINATION_ALPHA))?;
    }
    Ok(())
}

/// Every sum of two products of bytes: with factors sa and da red becomes near(s x sa + d x da).
fn all_sums(trials: &mut Trials) -> Agreed {
    let mut products: Vec<Option<(u8, u8)>> = vec![None; 255 * 255 + 1];
    for a in 0..=255u8 {
        for b in a..=255 {
            products[usize::from(a) * usize::from(b)] = Some((a, b));
        }
    }
    let (mut source, mut destination) = (Vec::new(), Vec::new());
    for sum in 0..=2 * 255 * 255usize {
        let least = sum.saturating_sub(255 * 255);
        let split = (least..=sum.min(255 * 255)).find_map(|n| products[n].zip(products[sum - n]));
        if let Some(((s, sa), (d, da))) = split {
            source.push(pixel(sa, s, s, s));
            destination.push(pixel(da, d, d, d));
        }
    }
    trials.say(&format!("{:>12}  sums of two products of bytes, each blended to", source.len()));
    blend_pixels(trials, &source, &destination, |fields| by_factors(fields, SOURCE_ALPHA, DESTINATION_ALPHA))
}

/// Source and output in the window, rows of every width up to 70 under every rule: the source before the output and after it, upside down and not, all of
/// its pixels of one kind, and each four of another.
fn within_window(trials: &mut Trials) -> Agreed {
    for number in 0..70 * 2 * 2 * 5 {
        let (width, flip, kind) = (1 + number % 70, number / 70 % 2, number / 280);
        let address = [1001, 3001][number / 140 % 2];
        let stride = (4 * width).next_multiple_of(8) + 8;
        let mut buffers = bench(Numbers { ring: 128, memory: 4000, common: 1000 }, 0);
        for i in 0..3 * width {
            let at = address + i / width * stride + 4 * (i % width);
            let four = if kind < 4 { kind } else { (i % width / 4 + i / width) % 4 };
            let pixel = KINDS[four](buffers.memory[at..at + 4].try_into().expect("four bytes"));
            buffers.memory[at..at + 4].copy_from_slice(&pixel);
        }
        let place = |address| Place { address, stride: stride as u32, width: width as u32, height: 3, format: ARGB8888 };
        let task = copy(place(address as u32), place(2001), 0, 0, flip as u32);
        for (name, _, _) in RULES {
            trials.task(&buffers, &blended(task, name))?;
        }
    }
    Ok(())
}

/// What keeps rows from being blended inside the window, a thing at a time: fields that differ from those of a task whose rows are.
const DIFFERENCES: [&[(usize, u32)]; 17] = [
    &[],
    &[(SOURCE_ALPHA_MODE, 1), (SOURCE_GLOBAL_ALPHA, 100)],
    &[(SOURCE_ALPHA_MODE, 2), (SOURCE_GLOBAL_ALPHA, 100)],
    &[(DESTINATION_ALPHA_MODE, 1), (DESTINATION_GLOBAL_ALPHA, 100)],
    &[(DESTINATION_ALPHA_MODE, 2), (DESTINATION_GLOBAL_ALPHA, 100)],
    &[(PREMULTIPLIED, 1)],
    &[(FLIP_H, 1)],
    &[(TURNS, 1)],
    &[(TURNS, 2)],
    &[(TURNS, 3)],
    &[(SOURCE + FORMAT, RGB888)],
    &[(SOURCE + FORMAT, RGB565)],
    &[(OUTPUT + FORMAT, RGB888), (DESTINATION + FORMAT, RGB888)],
    &[(OUTPUT + FORMAT, RGB565), (DESTINATION + FORMAT, RGB565)],
    &[(DESTINATION + ADDRESS, 3001)],
    &[(DESTINATION + ADDRESS, 3001), (DESTINATION + STRIDE, 72)],
    &[(SOURCE + ADDRESS, 1)],
];

/// Source and output in the window but for one difference, under every rule, upside down and not.
fn nearly_within(trials: &mut Trials) -> Agreed {
    let buffers = bench(Numbers { ring: 128, memory: 4000, common: 1000 }, 0);
    for (number, difference) in (0..2 * 6).flat_map(|number| DIFFERENCES.map(|difference| (number, difference))) {
        let side = [1, 3, 4, 5, 9, 12][number / 2];
        let place = |address| Place { address, stride: 56, width: side, height: side, format: ARGB8888 };
        for (name, _, _) in RULES {
            let mut task = blended(copy(place(1001), place(2001), 0, 0, (number % 2) as u32), name);
            for (field, value) in difference {
                task[*field] = *value;
            }
            trials.task(&buffers, &task)?;
        }
    }
    Ok(())
}

/// Rows about the width up to which a task makes small buffers, and as wide as any, under every rule: the source in common, blended with the output and with a
/// destination beside it.
fn through_buffers(trials: &mut Trials) -> Agreed {
    for width in [255, 256, 257, 258, 4096u32] {
        let stride = (4 * width).next_multiple_of(8);
        let part = 2 * stride;
        let bench = bench(Numbers { ring: 128, memory: 3 * u64::from(part), common: part.into() }, 0);
        let place = |address| Place { address, stride, width, height: 2, format: ARGB8888 };
        for (name, _, _) in RULES {
            let mut task = blended(copy(place(0), place(part), 0, 0, 0), name);
            trials.task(&bench, &task)?;
            task[DESTINATION + ADDRESS] = 2 * part;
            trials.task(&bench, &task)?;
        }
    }
    Ok(())
}

/// Every pair of factors in every mix of formats of source, destination and output, turned; the destination is the output,
/// beside it, or in common.
fn formats(trials: &mut Trials) -> Agreed {
    let bench = bench(Numbers { ring: 128, memory: 2400, common: 800 }, 100);
    for number in 0..36 * 27 * 3 {
        let (pair, mix, kind) = (number % 36, number / 36 % 27, number / 972);
        let [source, output] = [mix % 3, mix / 9].map(|format| FORMATS[format as usize].code);
        let destination = if kind == 0 { output } else { FORMATS[(mix / 3 % 3) as usize].code };
        let turns = number % 4;
        let sides = if turns % 2 == 0 { (4, 3) } else { (3, 4) };
        let place = |address, (width, height), format| Place { address, stride: 24, width, height, format };
        let task = copy(place(40, (4, 3), source), place(1200, sides, output), turns, number % 2, number / 2 % 2);
        let mut task = by_factors(task, pair / 6, pair % 6);
        let address = [1200, 1700, 300][kind as usize];
        task[DESTINATION..DESTINATION + 5].copy_from_slice(&[sides.0, sides.1, 24, address, destination]);
        trials.task(&bench, &task)?;
    }
    Ok(())
}
