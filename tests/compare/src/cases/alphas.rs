//! Alpha modes: every pixel alpha under every global alpha, of source and destination; blending off, where none is used.
use super::blends::{blend_pixels, LEVELS};
use crate::trials::{Agreed, Trials};
use independent::sample_tasks::blended;
use independent::writer::field::{
    BLEND, COLOUR, DESTINATION_ALPHA_MODE, DESTINATION_GLOBAL_ALPHA, SOURCE_ALPHA_MODE, SOURCE_GLOBAL_ALPHA, SOURCE_MODE,
};

pub fn compare(trials: &mut Trials) -> Agreed {
    every_alpha(trials)?;
    both(trials)
}

/// Every pixel alpha with every global alpha under every mode: of the source under SRC, of the destination under DST.
fn every_alpha(trials: &mut Trials) -> Agreed {
    let pixels: Vec<u32> = (0..256).map(|alpha| alpha << 24 | 0x0014_C8FF).collect();
    for mode in 0..3 {
        for global in 0..256 {
            blend_pixels(trials, &pixels, &pixels, |fields| {
                let mut fields = blended(fields, "SRC");
                (fields[SOURCE_ALPHA_MODE], fields[SOURCE_GLOBAL_ALPHA]) = (mode, global);
                fields
            })?;
            blend_pixels(trials, &pixels, &pixels, |fields| {
                let mut fields = blended(fields, "DST");
                (fields[DESTINATION_ALPHA_MODE], fields[DESTINATION_GLOBAL_ALPHA]) = (mode, global);
                fields
            })?;
        }
    }
    Ok(())
}

/// Every two modes with global alphas at levels, by a rule that uses both alphas; of pictures and of a colour; blending on
/// and off.
fn both(trials: &mut Trials) -> Agreed {
    let source: Vec<u32> = (0..256).map(|n| n << 24 | n << 16 | 0x9632).collect();
    let destination: Vec<u32> = (0..256).map(|n| (n * 7 % 256) << 24 | 0x0064_C800 | n).collect();
    let globals = || LEVELS.into_iter().flat_map(|one| LEVELS.map(|other| (u32::from(one), u32::from(other))));
    for number in 0..9 * 4 {
        let (source_mode, destination_mode, colour, blend) = (number % 3, number / 3 % 3, number / 9 % 2, number / 18);
        for (one, other) in globals() {
            blend_pixels(trials, &source, &destination, |fields| {
                let mut fields = blended(fields, "XOR");
                (fields[SOURCE_ALPHA_MODE], fields[SOURCE_GLOBAL_ALPHA]) = (source_mode, one);
                (fields[DESTINATION_ALPHA_MODE], fields[DESTINATION_GLOBAL_ALPHA]) = (destination_mode, other);
                (fields[SOURCE_MODE], fields[COLOUR], fields[BLEND]) = (colour, 0x8064_3219, blend);
                fields
            })?;
        }
    }
    Ok(())
}
