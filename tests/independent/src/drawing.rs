//! A task drawn (01, "Pixels"): the output's pixels are gone through in order, and all of them are worked out from the memory
//! before the task.
use crate::batch::{self, Bounds, Reading};
use crate::gradient;
use crate::pixel::{self, Colour};
use crate::registers::{size, Bank, Task};
use crate::surface;
use crate::transform::{source_of, turned_size, Point};

/// The source's colour for an output pixel.
fn source(task: &Task, memory: &[u8], at: Point) -> Colour {
    let p = source_of(task.setting, size(&task.source), at).expect("an output pixel");
    match task.mode {
        0 => loaded(&task.source, memory, p),
        1 => task.colour,
        2 => gradient::colour(task.colour, task.steps, p.x as u32),
        _ => gradient::colour(task.colour, task.steps, p.y as u32),
    }
}

fn loaded(of: &surface::Surface, memory: &[u8], p: Point) -> Colour {
    surface::load(memory, of.pixel_start(p.x as u16, p.y as u16), of.format).expect("a pixel in memory")
}

/// The colour of an output pixel.
fn colour(task: &Task, memory: &[u8], at: Point) -> Colour {
    let source = source(task, memory, at);
    if !task.blend {
        return source;
    }
    let source = if task.premultiplied { pixel::unpremultiplied(source) } else { source };
    let alpha = |(mode, global): (u32, u8), c| pixel::with_alpha(mode, global, c).expect("an alpha mode");
    let destination = alpha(task.destination_alpha, loaded(&task.destination, memory, at));
    pixel::blend(task.factors.0, task.factors.1, alpha(task.source_alpha, source), destination).expect("two factors")
}

/// Draws a task that passes 25 to 28. The colours of all pixels are there before the first is written.
fn draw(task: &Task, memory: &mut [u8]) {
    let output = turned_size(0, size(&task.output));
    let pixels = (0..output.height).flat_map(|y| (0..output.width).map(move |x| Point { x, y }));
    let colours: Vec<(Point, Colour)> = pixels.map(|p| (p, colour(task, memory, p))).collect();
    for (p, colour) in colours {
        let at = task.output.pixel_start(p.x as u16, p.y as u16) as usize;
        let bytes = task.output.format.pack(colour).to_le_bytes();
        memory[at..at + task.output.format.bytes].copy_from_slice(&bytes[..task.output.format.bytes]);
    }
}

/// Memory after a batch that was read: the tasks before a fault stand (02, request 5).
pub fn drawn_reading(reading: &Reading, memory: &[u8]) -> Vec<u8> {
    let mut after = memory.to_vec();
    reading.tasks.iter().for_each(|task| draw(task, &mut after));
    after
}

/// Memory after a batch, by a reset rule. Status, fault and place beside it.
pub fn drawn_batch(words: &[u32], bounds: &Bounds, reset: u32, memory: &[u8]) -> ([u32; 3], Vec<u8>) {
    let reading = batch::read(words, bounds, &Bank::reset(reset));
    (reading.answer(), drawn_reading(&reading, memory))
}

#[cfg(test)]
mod tests {
    use super::*;
    use crate::registers::UNBLENDED;
    use crate::writer::WORKED;

    /// The worked words fill two pixels of half-clear red.
    #[test]
    fn worked_words() {
        let bounds = Bounds { window: 16384..28672, common: 16384 };
        let (answer, memory) = drawn_batch(&WORKED, &bounds, UNBLENDED, &[0; 65536]);
        assert_eq!(answer, [0x00010001, 0, 0]);
        assert_eq!(memory[16383..16393], [0, 0, 0, 255, 128, 0, 0, 255, 128, 0]);
        assert_eq!(memory.iter().filter(|byte| **byte != 0).count(), 4);
    }

    /// 02, request 5: two good tasks, then 23; and 21 after two good tasks. What they drew stands, and nothing after the fault is drawn.
    #[test]
    fn tasks_before_a_fault_stand() {
        let bounds = Bounds { window: 16384..28672, common: 16384 };
        let words = |last: &[u32]| [&WORKED[..], &[0x0110_0005, 0x5000], last].concat();
        let after = |last: &[u32]| drawn_batch(&words(last), &bounds, UNBLENDED, &[0; 65536]);
        let (answer, memory) = after(&[0x0024_0005, 0, 0x0110_0005, 0x6000]);
        assert_eq!(answer, [0x00020002, 23, 92]);
        assert_eq!(
            [&memory[16384..16388], &memory[0x5000..0x5004], &memory[0x6000..0x6004]].concat(),
            [0, 0, 255, 128, 0, 0, 255, 128, 0, 0, 0, 0]
        );
        assert_eq!(after(&[0x0010_0014]).0, [0x00020100, 21, 88]);
    }
}
