//! Pixels of every format read and written: all words of 565, every level of every channel, every bit.
use crate::bench::bench;
use crate::trials::{Agreed, Trials};
use independent::calls::Buffers;
use independent::engine::Numbers;
use independent::pixel::FORMATS;
use independent::random::Random;
use independent::sample_tasks::{blended, copy, fill, Place, ARGB8888, RGB565};

pub fn compare(trials: &mut Trials) -> Agreed {
    every_565(trials)?;
    every_level(trials)?;
    every_bit(trials)?;
    random_pictures(trials)?;
    colours(trials)
}

/// Common holds a picture, and the window has room for one in any format.
fn with_picture(picture: &[u8], pixels: u64) -> Buffers {
    let common = picture.len() as u64;
    let mut buffers = bench(Numbers { ring: 128, memory: common + 4 * pixels + 16, common }, 0);
    buffers.memory[..picture.len()].copy_from_slice(picture);
    buffers
}

/// A picture without gaps between its rows, which are a multiple of 8 bytes.
fn place(address: usize, sides: (u32, u32), format: usize) -> Place {
    let (width, height) = sides;
    let bytes = FORMATS[format].bytes as u32;
    Place { address: address as u32, stride: width * bytes, width, height, format: FORMATS[format].code }
}

/// A picture copied into every format, once without blending and once with the rule SRC.
fn into_each(trials: &mut Trials, picture: &[u8], sides: (u32, u32), format: usize) -> Agreed {
    let bench = with_picture(picture, u64::from(sides.0 * sides.1));
    for output in 0..3 {
        let task = copy(place(0, sides, format), place(picture.len(), sides, output), 0, 0, 0);
        trials.task(&bench, &task)?;
        trials.task(&bench, &blended(task, "SRC"))?;
    }
    Ok(())
}

/// All 65,536 words as a picture of 256 by 256; and from each format back.
fn every_565(trials: &mut Trials) -> Agreed {
    let words: Vec<u8> = (0..=u16::MAX).flat_map(u16::to_le_bytes).collect();
    into_each(trials, &words, (256, 256), 2)?;
    let bench = with_picture(&words, 65536);
    for wide in 0..2 {
        let there = copy(place(0, (256, 256), 2), place(words.len(), (256, 256), wide), 0, 0, 0);
        let memory = trials.task(&bench, &there)?.memory;
        let widened = &memory[words.len()..words.len() + 65536 * FORMATS[wide].bytes];
        let again = with_picture(widened, 65536);
        let back = copy(place(0, (256, 256), wide), place(widened.len(), (256, 256), 2), 0, 0, 0);
        let after = trials.task(&again, &back)?.memory;
        if after[widened.len()..widened.len() + words.len()] != words[..] {
            return Err("a word of 565 is another after being widened and narrowed".into());
        }
    }
    Ok(())
}

/// Every level of each channel, with the other channels at some levels.
fn every_level(trials: &mut Trials) -> Agreed {
    let mut pixels: Vec<u32> = Vec::new();
    for others in [0u32, 0x0101_0101, 0x6464_6464, 0x7F80_7F80, 0xFEFE_FEFE, 0xFFFF_FFFF] {
        for channel in 0..4 {
            pixels.extend((0..256).map(|level| others & !(0xFF << (8 * channel)) | level << (8 * channel)));
        }
    }
    let rows = pixels.len() as u32 / 256;
    for format in 0..3 {
        let bytes = FORMATS[format].bytes;
        let picture: Vec<u8> = pixels.iter().flat_map(|pixel| pixel.to_le_bytes().into_iter().take(bytes)).collect();
        into_each(trials, &picture, (256, rows), format)?;
    }
    Ok(())
}

/// Each bit of a pixel set alone, none and all, one pixel at a time.
fn every_bit(trials: &mut Trials) -> Agreed {
    for format in 0..3 {
        let bits = 8 * FORMATS[format].bytes as u32;
        for pixel in (0..bits).map(|bit| 1 << bit).chain([0, u32::MAX]) {
            let picture: Vec<u8> = pixel.to_le_bytes().repeat(8)[..8 * FORMATS[format].bytes].to_vec();
            into_each(trials, &picture, (8, 1), format)?;
        }
    }
    Ok(())
}

fn random_pictures(trials: &mut Trials) -> Agreed {
    let random = &mut Random::new(0x5049_5845);
    for format in 0..3 {
        for _ in 0..20 {
            let picture = random.bytes(64 * 64 * FORMATS[format].bytes);
            into_each(trials, &picture, (64, 64), format)?;
        }
    }
    Ok(())
}

/// Fills of every level of each channel in every format.
fn colours(trials: &mut Trials) -> Agreed {
    let bench = bench(Numbers { ring: 128, memory: 64, common: 0 }, 0);
    for format in [ARGB8888, 0x08, RGB565] {
        let output = Place { address: 8, stride: 16, width: 3, height: 2, format };
        for level in 0..256 {
            for channel in 0..4 {
                trials.task(&bench, &fill(output, 0x4321_8765 ^ level << (8 * channel)))?;
            }
        }
    }
    Ok(())
}
