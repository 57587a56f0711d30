//! Rows that have a loop of their own (02, request 13): one colour over the output, and rules whose factors do not go by alpha. Every width up to 70, every
//! alpha mode, every alpha over every byte; and beside them tasks that differ in one thing and take another way.
use super::blends::{blend_pixels, LEVELS};
use crate::bench::bench;
use crate::trials::{Agreed, Trials};
use independent::engine::Numbers;
use independent::made_tasks::Fields;
use independent::sample_tasks::{blended, copy, fill, Place, ARGB8888, RGB565};
use independent::writer::field::{
    COLOUR, DESTINATION, DESTINATION_ALPHA_MODE, DESTINATION_GLOBAL_ALPHA, PREMULTIPLIED, SOURCE_ALPHA_MODE, SOURCE_GLOBAL_ALPHA,
    SOURCE_MODE,
};

/// Colours of no alpha, of all of it and between; some with channels over their alpha.
const COLOURS: [u32; 7] = [0, 0x00FF_FFFF, 0x8040_2010, 0xFF10_2030, 0x7FFF_0180, 0x01FE_80FF, 0xFE01_7F00];

pub fn compare(trials: &mut Trials) -> Agreed {
    widths(trials)?;
    every_alpha(trials)?;
    beside(trials)?;
    constant(trials)
}

fn place(address: u32, width: u32, format: u32) -> Place {
    Place { address, stride: 288, width, height: 3, format }
}

fn with_alphas(mut fields: Fields, source: (u32, u32), destination: (u32, u32)) -> Fields {
    (fields[SOURCE_ALPHA_MODE], fields[SOURCE_GLOBAL_ALPHA]) = source;
    (fields[DESTINATION_ALPHA_MODE], fields[DESTINATION_GLOBAL_ALPHA]) = destination;
    fields
}

/// Every width, by every two alpha modes, of colours that are premultiplied and not.
fn widths(trials: &mut Trials) -> Agreed {
    let bench = bench(Numbers { ring: 128, memory: 1400, common: 100 }, 0);
    for number in 0..70 * 9 * 2 {
        let (width, mode, other) = (1 + number % 70, number / 70 % 3, number / 210 % 3);
        for colour in COLOURS {
            let task = blended(fill(place(101, width, ARGB8888), colour), "SRC_OVER");
            let mut task = with_alphas(task, (mode, 0x90), (other, 0x5B));
            task[PREMULTIPLIED] = number / 630;
            trials.task(&bench, &task)?;
        }
    }
    Ok(())
}

/// Every alpha with channels at levels, over every byte.
fn every_alpha(trials: &mut Trials) -> Agreed {
    let pixels: Vec<u32> = (0..256).map(|n| (n * 7 % 256) << 24 | n << 16 | (255 - n) << 8 | n * 3 % 256).collect();
    for alpha in 0..=255 {
        for level in LEVELS {
            let colour = u32::from_be_bytes([alpha, level, !level, level / 2]);
            blend_pixels(trials, &pixels, &pixels, |fields| {
                let mut fields = blended(fields, "SRC_OVER");
                (fields[SOURCE_MODE], fields[COLOUR]) = (1, colour);
                fields
            })?;
        }
    }
    Ok(())
}

/// The destination beside the output, in common or in another format; a shaded source; another rule.
fn beside(trials: &mut Trials) -> Agreed {
    let bench = bench(Numbers { ring: 128, memory: 3000, common: 1000 }, 0);
    for number in 0..20 * 6 * 3 {
        let (width, kind, mode) = (1 + number % 20, number as usize / 20 % 6, number / 120);
        let rule = if kind == 5 { "XOR" } else { "SRC_OVER" };
        let mut task = blended(fill(place(1001, width, ARGB8888), 0x8040_2010), rule);
        let (address, format) = [(1001, ARGB8888), (2001, ARGB8888), (1, ARGB8888), (1, RGB565), (1001, ARGB8888), (1001, ARGB8888)][kind];
        task[DESTINATION..DESTINATION + 5].copy_from_slice(&[width, 3, 288, address, format]);
        if kind == 4 {
            task[SOURCE_MODE] = 2 + width % 2;
        }
        trials.task(&bench, &with_alphas(task, (mode, 0x90), (0, 0)))?;
    }
    Ok(())
}

/// CLEAR, SRC, DST and ADD on rows of every width, by every two alpha modes.
fn constant(trials: &mut Trials) -> Agreed {
    let bench = bench(Numbers { ring: 128, memory: 2000, common: 1000 }, 0);
    for number in 0..70 * 9 * 4 {
        let (width, mode, other) = (1 + number % 70, number / 70 % 3, number / 210 % 3);
        let rule = ["CLEAR", "SRC", "DST", "ADD"][number as usize / 630];
        let task = blended(copy(place(3, width, ARGB8888), place(1001, width, ARGB8888), 0, 0, 0), rule);
        trials.task(&bench, &with_alphas(task, (mode, 0x90), (other, 0x5B)))?;
    }
    Ok(())
}
