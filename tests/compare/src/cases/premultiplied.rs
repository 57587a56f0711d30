//! Premultiplied sources (02, request 12): every colour with every alpha, in every alpha mode, by rules that use either alpha; of pictures in every
//! format and of a colour; blending off, where the bit has no effect.
use super::blends::{blend_pixels, LEVELS};
use crate::bench::bench;
use crate::trials::{Agreed, Trials};
use independent::engine::Numbers;
use independent::made_tasks::Fields;
use independent::pixel::{FORMATS, RULES};
use independent::sample_tasks::{blended, copy, Place};
use independent::writer::field::{
    BLEND, COLOUR, DESTINATION_ALPHA_MODE, DESTINATION_GLOBAL_ALPHA, PREMULTIPLIED, SOURCE_ALPHA_MODE, SOURCE_GLOBAL_ALPHA,
    SOURCE_MODE,
};

pub fn compare(trials: &mut Trials) -> Agreed {
    every_colour(trials)?;
    modes(trials)?;
    colours(trials)?;
    formats(trials)
}

fn premultiplied(fields: Fields, rule: &str) -> Fields {
    let mut fields = blended(fields, rule);
    fields[PREMULTIPLIED] = 1;
    fields
}

/// Every alpha with every colour, as many over the alpha as not.
fn pixels() -> Vec<u32> {
    (0..0x1_0000u32).map(|n| (n >> 8) << 24 | (n & 255) << 16 | (255 - (n & 255)) << 8 | n >> 8).collect()
}

/// Destination pixels of every alpha, most of them with colours over it.
fn beneath() -> Vec<u32> {
    (0..0x1_0000u32).map(|n| (n * 7 % 256) << 24 | 0x0064_C800 | n % 256).collect()
}

/// Every rule by name, on every colour with every alpha.
fn every_colour(trials: &mut Trials) -> Agreed {
    for (name, _, _) in RULES {
        blend_pixels(trials, &pixels(), &beneath(), |fields| premultiplied(fields, name))?;
    }
    Ok(())
}

/// Every two alpha modes with global alphas at levels, blending on and off.
fn modes(trials: &mut Trials) -> Agreed {
    let (source, destination) = (pixels(), beneath());
    let (source, destination): (Vec<u32>, Vec<u32>) = source.into_iter().zip(destination).step_by(13).unzip();
    let globals = || LEVELS.into_iter().flat_map(|one| LEVELS.map(|other| (u32::from(one), u32::from(other))));
    for number in 0..9 * 2 {
        for (one, other) in globals() {
            blend_pixels(trials, &source, &destination, |fields| {
                let mut fields = premultiplied(fields, "XOR");
                (fields[SOURCE_ALPHA_MODE], fields[SOURCE_GLOBAL_ALPHA]) = (number % 3, one);
                (fields[DESTINATION_ALPHA_MODE], fields[DESTINATION_GLOBAL_ALPHA]) = (number / 3 % 3, other);
                fields[BLEND] = number / 9;
                fields
            })?;
        }
    }
    Ok(())
}

/// A colour of every alpha, in every alpha mode.
fn colours(trials: &mut Trials) -> Agreed {
    let destination: Vec<u32> = beneath().into_iter().take(64).collect();
    for number in 0..256 * 3 {
        blend_pixels(trials, &destination, &destination, |fields| {
            let mut fields = premultiplied(fields, "SRC_OVER");
            (fields[SOURCE_ALPHA_MODE], fields[SOURCE_GLOBAL_ALPHA]) = (number % 3, 0xC0);
            (fields[SOURCE_MODE], fields[COLOUR]) = (1, number / 3 << 24 | 0x0080_4001);
            fields
        })?;
    }
    Ok(())
}

/// Every two formats of source and output, turned and flipped.
fn formats(trials: &mut Trials) -> Agreed {
    let bench = bench(Numbers { ring: 128, memory: 2400, common: 800 }, 100);
    for number in 0..9 * 16u32 {
        let (mix, setting) = (number % 9, number / 9);
        let [source, output] = [mix % 3, mix / 3].map(|format| FORMATS[format as usize].code);
        let turns = setting % 4;
        let sides = if turns % 2 == 0 { (4, 3) } else { (3, 4) };
        let place = |address, (width, height), format| Place { address, stride: 24, width, height, format };
        let task = copy(place(40, (4, 3), source), place(1200, sides, output), turns, setting / 4 % 2, setting / 8);
        trials.task(&bench, &premultiplied(task, "SRC_ATOP"))?;
    }
    Ok(())
}
