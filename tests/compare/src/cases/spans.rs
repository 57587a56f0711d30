//! Spans at every address: in the window, in common, past memory's end, on one another.
use crate::bench::{self, bench};
use crate::trials::{Agreed, Trials};
use independent::engine::Numbers;
use independent::pixel::FORMATS;
use independent::random::Random;
use independent::sample_tasks::{blended, copy, fill, Place};
use independent::writer::field::{DESTINATION, SOURCE_FACTOR};

pub fn compare(trials: &mut Trials) -> Agreed {
    single_pixels(trials)?;
    edges(trials)?;
    meeting(trials)?;
    far(trials)
}

/// A pixel copied from every address to every address of a small memory and past its end, in every pair of formats.
fn single_pixels(trials: &mut Trials) -> Agreed {
    let pixel = |address, format: usize| Place { address, stride: 8, width: 1, height: 1, format: FORMATS[format].code };
    for memory in [3, 12, 24] {
        let numbers = Numbers { ring: 128, memory, common: memory / 3 };
        let bench = bench(numbers, memory as u32 / 12);
        for pair in 0..9 {
            for source in 0..memory as u32 + 2 {
                for output in 0..memory as u32 + 2 {
                    trials.task(&bench, &copy(pixel(source, pair / 3), pixel(output, pair % 3), 0, 0, 0))?;
                }
            }
        }
    }
    Ok(())
}

/// A rectangle at every address around the edges of common and of the window: filled, read, and blended with.
fn edges(trials: &mut Trials) -> Agreed {
    let numbers = Numbers { ring: 128, memory: 600, common: 100 };
    let bench = bench::buffers(&bench::record(numbers, &[(200, 300)], 0, 0));
    for format in &FORMATS {
        let place = |address| Place { address, stride: 24, width: 4, height: 3, format: format.code };
        for address in 0..600 {
            trials.task(&bench, &fill(place(address), 0x1234_5678))?;
            trials.task(&bench, &copy(place(address), place(420), 0, 0, 0))?;
            let mut apart = blended(fill(place(420), 0x8765_4321), "SRC_OVER");
            apart[DESTINATION + 3] = address;
            trials.task(&bench, &apart)?;
        }
    }
    Ok(())
}

/// Two rectangles of any formats at every distance: source and output, destination and output; equal strides and others.
fn meeting(trials: &mut Trials) -> Agreed {
    let bench = bench(Numbers { ring: 128, memory: 512, common: 0 }, 0);
    for pair in 0..9 {
        let code = |format: usize| FORMATS[format].code;
        let output = Place { address: 200, stride: 24, width: 4, height: 3, format: code(pair / 3) };
        for (stride, address) in (96..304).map(|address| (24, address)).chain((150..250).map(|address| (32, address))) {
            let other = Place { address, stride, format: code(pair % 3), ..output };
            trials.task(&bench, &copy(other, output, 0, 0, 0))?;
            let mut task = blended(fill(output, 0x40FF_8001), "XOR");
            task[DESTINATION..DESTINATION + 5].copy_from_slice(&[4, 3, stride, address, other.format]);
            trials.task(&bench, &task)?;
        }
    }
    Ok(())
}

/// Surfaces of any numbers, mostly far outside, and small ones that often meet.
fn far(trials: &mut Trials) -> Agreed {
    let bench = bench(Numbers { ring: 128, memory: 512, common: 128 }, 32);
    let random = &mut Random::new(0x5350_414E);
    for round in 0..60_000 {
        let [mut source, mut output] = [(); 2].map(|()| any_place(random, round % 2 == 0));
        if random.one_in(2) {
            (source.width, source.height) = (output.width, output.height);
        }
        if random.one_in(3) {
            output.stride = output.stride.next_multiple_of(8).min(0xFFF8);
        }
        let mut task = copy(source, output, random.below(4), 0, 0);
        if random.one_in(2) {
            task = blended(task, "DST_OVER");
            task[SOURCE_FACTOR] = random.below(6);
        }
        trials.task(&bench, &task)?;
    }
    for stride in [8, 24, 0xFFF8] {
        for address in [0, 16, 128, 16384, u32::MAX - 7, u32::MAX] {
            for (width, height) in
                [(1, 1), (4, 3), (17, 1), (4096, 4096), (4096, 1), (1, 4096), (0, 3), (3, 0), (8191, 8191)]
            {
                let place = Place { address, stride, width, height, format: 0 };
                trials.task(&bench, &fill(place, 1))?;
            }
        }
    }
    Ok(())
}

fn any_place(random: &mut Random, small: bool) -> Place {
    let format = random.pick(&[0, 1, 2]);
    let code = FORMATS[format].code;
    if small {
        let (width, height) = (1 + random.below(8), 1 + random.below(6));
        let stride = (width * FORMATS[format].bytes as u32).next_multiple_of(8);
        return Place { address: 100 + random.below(256), stride, width, height, format: code };
    }
    let [stride, width, height] = [65536, 8192, 8192].map(|end| random.below(end));
    Place { address: random.word(), stride, width, height, format: code }
}
