//! Two turns make one (02, request 8), by drawing: a picture drawn with one setting and that with another, and once with a
//! composed setting. What the last two must show is worked out by moving the picture's pixels twice; no table of settings is used.
use crate::engine::Numbers;
use crate::pixel::FORMATS;
use crate::play::{List, ANSWER};
use crate::random::Random;
use crate::registers::SRC_OVER;
use crate::sample_tasks::{batch, copy, Place};
use crate::transform::{moved, turned_size, Setting, Size};

const NUMBERS: Numbers = Numbers { ring: 256, memory: 2048, common: 0 };

/// Width and height of the pictures: one pixel, a row, a column, the square that distinguishes orientations, and others.
pub const SIDES: [(u64, u64); 6] = [(1, 1), (3, 1), (1, 4), (2, 2), (3, 2), (4, 5)];

/// A setting's bits in the source control word: 7 V flip, 6 H flip, 5:4 quarter turns.
pub fn bits(setting: Setting) -> u32 {
    u32::from(setting.vertical) << 7 | u32::from(setting.horizontal) << 6 | u32::from(setting.turns) << 4
}

/// Whether two settings are of one orientation: alike, or they differ in both flips and by two quarter turns.
pub fn same_orientation(a: Setting, b: Setting) -> bool {
    let flips = (a.horizontal != b.horizontal, a.vertical != b.vertical);
    match (a.turns + 4 - b.turns) % 4 {
        0 => flips == (false, false),
        2 => flips == (true, true),
        _ => false,
    }
}

/// A picture and the two settings it is drawn with.
#[derive(Clone, Copy)]
pub struct Drawing {
    pub first: Setting,
    pub second: Setting,
    pub size: Size,
    /// Which of the three formats.
    pub format: usize,
}

impl Drawing {
    fn place(&self, address: u32, size: Size) -> Place {
        let (width, height) = (size.width as u32, size.height as u32);
        let format = &FORMATS[self.format];
        let stride = (width * format.bytes as u32).next_multiple_of(8) + 8;
        Place { address, stride, width, height, format: format.code }
    }

    fn size_between(&self) -> Size {
        turned_size(self.first.turns, self.size)
    }

    fn size_after(&self) -> Size {
        turned_size(self.second.turns, self.size_between())
    }

    pub fn source(&self) -> Place {
        self.place(8, self.size)
    }

    /// The picture drawn with the first setting.
    pub fn between(&self) -> Place {
        self.place(512, self.size_between())
    }

    /// The one between drawn with the second setting.
    pub fn twice(&self) -> Place {
        self.place(1024, self.size_after())
    }

    /// The picture drawn with the composed setting.
    pub fn once(&self) -> Place {
        self.place(1536, self.size_after())
    }

    /// One batch of the three drawings, in a memory of random bytes.
    pub fn list(&self, composed: u32) -> List {
        let drawn = |from: Place, to: Place, bits: u32| copy(from, to, bits >> 4 & 3, bits >> 6 & 1, bits >> 7 & 1);
        let batch = batch(&[
            drawn(self.source(), self.between(), bits(self.first)),
            drawn(self.between(), self.twice(), bits(self.second)),
            drawn(self.source(), self.once(), composed),
        ]);
        let mut script =
            [vec![0, 0, 0, 0, 0, 0, 8, 0, 0, 1, 0], (batch.len() as u32).to_le_bytes().to_vec(), batch].concat();
        script.push(2);
        let mut random = Random::new(u64::from(bits(self.first) * 256 + bits(self.second)));
        let (ring, memory) = (vec![0; NUMBERS.ring as usize], random.bytes(NUMBERS.memory as usize));
        List { numbers: NUMBERS, reset: SRC_OVER, script, ring, memory, answers: vec![0; 4 * ANSWER] }
    }

    /// The pixels of a place in memory, as bytes, row by row.
    pub fn pixels(&self, place: Place, memory: &[u8]) -> Vec<Vec<u8>> {
        let bytes = FORMATS[self.format].bytes;
        let row = |y: u32| (place.address + y * place.stride) as usize;
        let at = |y: u32, x: u32| row(y) + x as usize * bytes;
        let all = (0..place.height).flat_map(|y| (0..place.width).map(move |x| (y, x)));
        all.map(|(y, x)| memory[at(y, x)..at(y, x) + bytes].to_vec()).collect()
    }

    /// The picture's pixels, moved by the first setting and then by the second.
    pub fn expected(&self, memory: &[u8]) -> Vec<Vec<u8>> {
        let pixels = self.pixels(self.source(), memory);
        let numbers: Vec<u8> = (0..pixels.len() as u8).collect();
        let twice = moved(self.second, self.size_between(), &moved(self.first, self.size, &numbers));
        twice.iter().map(|number| pixels[usize::from(*number)].clone()).collect()
    }
}

#[cfg(test)]
mod tests {
    use super::*;
    use crate::play::play;
    use crate::transform::settings;

    /// A picture of 2 by 2 different pixels is drawn alike exactly by settings of one orientation.
    #[test]
    fn eight_orientations() {
        let size = Size { width: 2, height: 2 };
        for (a, b) in settings().flat_map(|a| settings().map(move |b| (a, b))) {
            assert_eq!(moved(a, size, b"pqrs") == moved(b, size, b"pqrs"), same_orientation(a, b));
        }
    }

    /// The list draws what it is said to draw: a turn and then an H flip is the V flip and then that turn.
    #[test]
    fn as_listed() {
        let (turn, flip) = (
            Setting { turns: 1, horizontal: false, vertical: false },
            Setting { turns: 0, horizontal: true, vertical: false },
        );
        for (format, (width, height)) in (0..3).flat_map(|format| SIDES.map(|sides| (format, sides))) {
            let drawing = Drawing { first: turn, second: flip, size: Size { width, height }, format };
            let list = drawing.list(0x90);
            let played = play(&list);
            let expected = drawing.expected(&list.memory);
            assert_eq!(played.answers[3 * ANSWER + 12..3 * ANSWER + 16], [1, 0, 3, 0]);
            assert_eq!(drawing.pixels(drawing.twice(), &played.memory), expected);
            assert_eq!(drawing.pixels(drawing.once(), &played.memory), expected);
        }
    }
}
