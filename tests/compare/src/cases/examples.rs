//! The examples of the scope paper that a call can reach, each under its name there.
use super::blends::blend_pixels;
use crate::bench::{self, bench};
use crate::trials::{Agreed, Trials};
use independent::calls::{Buffers, Call};
use independent::engine::Numbers;
use independent::sample_tasks::{blended, copy, Place, ARGB8888, RGB565};
use independent::writer::{reset_with, WORKED};

/// The engine of the replay program, with one client.
const REPLAY: Numbers = Numbers { ring: 32768, memory: 65536, common: 16384 };

pub fn compare(trials: &mut Trials) -> Agreed {
    words(trials)?;
    ring(trials)?;
    span(trials)?;
    pixels(trials)
}

/// H1, H2, T1, the worked words from the encoder, and those with address 64; two good tasks and then 23 or 21 (02, request 5).
fn words(trials: &mut Trials) -> Agreed {
    let bench = bench(REPLAY, 36864);
    trials.words(&bench, &[0x0010_000C, 0x0000_0005, 0x0001_0002, 0x0000_0000])?;
    trials.words(&bench, &[0x0030_0011, 0, 0, 0, 0])?;
    trials.words(&bench, &[WORKED, WORKED, WORKED].concat())?;
    trials.words(&bench, &[&WORKED[..], &WORKED, &[0x0024_0005, 0]].concat())?;
    trials.words(&bench, &[&WORKED[..], &WORKED, &[0x0010_0014]].concat())?;
    let worked = [(0, 2), (1, 1), (7, 1), (8, 0x80FF_0000), (9, 1), (21, 2), (22, 1), (23, 8), (24, 16384)];
    trials.task(&bench, &reset_with(&worked))?;
    trials.task(&bench, &reset_with(&[&worked[..8], &[(24, 64)]].concat()))?;
    Ok(())
}

/// R1: ring 128, offset 120, length 24: bytes 120 to 127, 0 to 15.
fn ring(trials: &mut Trials) -> Agreed {
    let numbers = Numbers { ring: 128, memory: 64, common: 16 };
    let mut buffers = bench::read_from(&bench(numbers, 0), 120);
    let batch: Vec<u8> = (1..=24).collect();
    trials.call(&Call::Submit { client: 0, batch: &batch }, &mut buffers)?;
    trials.call(&Call::Run, &mut buffers).map(|_| ())
}

/// S1: the span of 4 by 3 ARGB8888 at 16, stride 24, is 16 to 79: windows that just hold it, and such as lack a byte of it.
fn span(trials: &mut Trials) -> Agreed {
    let numbers = Numbers { ring: 128, memory: 96, common: 0 };
    let output = Place { address: 16, stride: 24, width: 4, height: 3, format: ARGB8888 };
    for window in [(16, 64), (17, 63), (16, 63), (0, 96)] {
        let buffers = bench::buffers(&bench::record(numbers, &[window], 0, 0));
        trials.task(&buffers, &independent::sample_tasks::fill(output, 0xFF01_0203))?;
    }
    Ok(())
}

/// B1, B2, B3, M1, P1, F1, F2.
fn pixels(trials: &mut Trials) -> Agreed {
    let (s, d) = (0x80C8_C8C8, 0xFF64_6464);
    blend_pixels(trials, &[s], &[d], |fields| blended(fields, "SRC_OVER"))?;
    blend_pixels(trials, &[s], &[d], |fields| blended(fields, "NONE"))?;
    blend_pixels(trials, &[0xC8C8_C8C8], &[0x6464_6464], |fields| blended(fields, "ADD"))?;
    blend_pixels(trials, &[0x8001_0203], &[0], |fields| {
        let mut fields = blended(fields, "SRC");
        (fields[5], fields[6]) = (2, 64);
        fields
    })?;
    let small = bench(Numbers { ring: 128, memory: 64, common: 16 }, 0);
    let with = |bytes: &[u8]| {
        let mut memory = small.memory.clone();
        memory[..bytes.len()].copy_from_slice(bytes);
        Buffers { memory, ..small.clone() }
    };
    let pixel = |address, format| Place { address, stride: 8, width: 1, height: 1, format };
    let there = trials.task(&with(&[0x34, 0x12]), &copy(pixel(0, RGB565), pixel(16, ARGB8888), 0, 0, 0))?;
    let back = copy(pixel(16, ARGB8888), pixel(24, RGB565), 0, 0, 0);
    trials.task(&Buffers { memory: there.memory, ..small.clone() }, &back)?;
    let row = Place { address: 0, stride: 8, width: 2, height: 1, format: ARGB8888 };
    let column = Place { address: 16, stride: 8, width: 1, height: 2, format: ARGB8888 };
    for flip in 0..2 {
        trials.task(&with(b"ppppqqqq"), &copy(row, column, 1, flip, 0))?;
    }
    Ok(())
}
