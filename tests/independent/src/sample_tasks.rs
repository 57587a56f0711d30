//! Tasks by hand, for the samples: rectangles filled and copied, with or without blending.
use crate::gradient::Steps;
use crate::made_tasks::{Fields, DESTINATION, OUTPUT, SOURCE};
use crate::pixel::{self, RULES};
use crate::replay::record;
use crate::words::{bytes, read_le32};
use crate::writer::{reset_with, shaded_written, written};

pub const ARGB8888: u32 = 0x00;
pub const RGB888: u32 = 0x08;
pub const RGB565: u32 = 0x0E;

/// A surface: where a rectangle lies in memory.
#[derive(Clone, Copy)]
pub struct Place {
    pub address: u32,
    pub stride: u32,
    pub width: u32,
    pub height: u32,
    pub format: u32,
}

impl Place {
    /// A part of a surface: x, y, width, height.
    pub fn part(self, x: u32, y: u32, width: u32, height: u32) -> Self {
        let bytes = pixel::format(self.format).expect("a format's code").bytes as u32;
        Place { address: self.address + self.stride * y + bytes * x, width, height, ..self }
    }

    /// Its fields, in the writer's order.
    pub fn fields(self) -> [u32; 5] {
        [self.width, self.height, self.stride, self.address, self.format]
    }
}

/// Sets the surface whose fields begin at `base`.
pub fn set(fields: &mut Fields, base: usize, place: Place) {
    fields[base..base + 5].copy_from_slice(&place.fields());
}

/// A rectangle of one colour.
pub fn fill(output: Place, colour: u32) -> Fields {
    let mut fields = reset_with(&[(SOURCE, output.width), (SOURCE + 1, output.height), (7, 1), (8, colour), (9, 1)]);
    set(&mut fields, OUTPUT, output);
    fields
}

/// A rectangle that is shaded, in source mode 2 or 3.
pub fn shaded(output: Place, mode: u32, colour: u32) -> Fields {
    let mut fields = fill(output, colour);
    fields[7] = mode;
    fields
}

/// A copy, after flips and quarter turns. The output's sides must be those of the turned source.
pub fn copy(source: Place, output: Place, turns: u32, horizontal: u32, vertical: u32) -> Fields {
    let mut fields = reset_with(&[(9, 1), (10, horizontal), (11, vertical), (12, turns)]);
    set(&mut fields, SOURCE, source);
    set(&mut fields, OUTPUT, output);
    fields
}

/// A task blended by a rule's name with what its output holds.
pub fn blended(mut fields: Fields, rule: &str) -> Fields {
    let (_, source, destination) = RULES[pixel::rule(rule) as usize];
    fields.copy_within(OUTPUT..OUTPUT + 5, DESTINATION);
    (fields[20], fields[26], fields[27], fields[28]) = (1, source.into(), destination.into(), 1);
    fields
}

/// Tasks as one batch, each in its 80 bytes.
pub fn batch(tasks: &[Fields]) -> Vec<u8> {
    tasks.iter().flat_map(|fields| written(fields, 80).expect("allowed fields")).collect()
}

/// Tasks with steps as one batch, each in its 100 bytes.
pub fn shaded_batch(tasks: &[(Fields, Steps)]) -> Vec<u8> {
    tasks.iter().flat_map(|(fields, steps)| shaded_written(fields, steps, 100).expect("allowed fields")).collect()
}

/// Batches of one client that write some bytes, four or more, from an address on: a pixel at a time, each of ARGB8888, and the last on those before it
/// where the bytes are no multiple of four.
pub fn bytes_drawn(address: u32, all: &[u8]) -> Vec<Vec<u8>> {
    let last = all.len() - 4;
    let places: Vec<usize> = (0..last).step_by(4).chain([last]).collect();
    let pixel = |at: &usize| (address + *at as u32, read_le32(all, *at).expect("four bytes"));
    places.chunks(DOTS).map(|places| dots(places.iter().map(pixel))).collect()
}

/// Single pixels in a batch of the longest length: all but the first are four words each.
const DOTS: usize = (32768 - 80) / 16;

/// Single pixels, each of an address and a colour. After the first a task writes these two registers alone.
fn dots(pixels: impl Iterator<Item = (u32, u32)>) -> Vec<u8> {
    let first = |address| Place { address, stride: 8, width: 1, height: 1, format: ARGB8888 };
    let task = |(number, (address, colour))| match number {
        0 => batch(&[fill(first(address), colour)]),
        _ => bytes(&[0x01C << 16 | 4, colour, 0x110 << 16 | 5, address]),
    };
    pixels.enumerate().flat_map(task).collect()
}

/// A replay file of some records.
pub fn file(records: &[(u8, Vec<u8>)]) -> Vec<u8> {
    let mut bytes = vec![1];
    records.iter().for_each(|(client, batch)| bytes.extend(record(*client, batch)));
    bytes
}

#[cfg(test)]
mod tests {
    use super::*;
    use crate::replay::{replayed, window_start, WINDOW};

    /// Any bytes, of every length from four on up to some, and of a whole window.
    #[test]
    fn bytes_are_drawn() {
        for length in (4..40).chain([WINDOW]) {
            let all: Vec<u8> = (0..length).map(|n| (n * 7 + n / 256 + 1) as u8).collect();
            let start = window_start(2) + WINDOW - length;
            let records: Vec<(u8, Vec<u8>)> = bytes_drawn(start, &all).into_iter().map(|batch| (2, batch)).collect();
            let (lines, memory) = replayed(&file(&records));
            assert!(lines.lines().all(|line| line.ends_with(" 0 0")), "{lines}");
            let mut expected = vec![0; memory.len()];
            expected[start as usize..(start + length) as usize].copy_from_slice(&all);
            assert!(memory == expected, "{length} bytes");
        }
    }
}
