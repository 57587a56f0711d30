//! Ranges of bytes, and rectangles of pixels in memory (01, "Faults of a taken batch" and "Pixels"; 02, request 7).
use crate::pixel::{Colour, Format};
use std::ops::Range;

/// A range of bytes, as the first and the one past the last.
pub type Run = Range<u64>;

/// The range of some bytes from a start on.
pub fn run(start: u32, length: u32) -> Run {
    let start = u64::from(start);
    start..start + u64::from(length)
}

/// Whether a range lies wholly in another: it begins and ends in it. (The papers have no empty ranges to judge; one counts as
/// inside where it stands between the other's ends.)
pub fn is_inside(run: &Run, other: &Run) -> bool {
    (other.start..=other.end).contains(&run.start) && (other.start..=other.end).contains(&run.end)
}

/// Whether two ranges share a byte: one of them has the other's first byte.
pub fn shares(run: &Run, other: &Run) -> bool {
    let empty = run.is_empty() || other.is_empty();
    !empty && (run.contains(&other.start) || other.contains(&run.start))
}

#[derive(Clone, Copy)]
pub struct Surface {
    pub address: u32,
    pub stride: u16,
    pub width: u16,
    pub height: u16,
    pub format: &'static Format,
}

impl Surface {
    /// Bytes of a row, without what the stride leaves between rows.
    pub fn row_length(&self) -> u64 {
        (0..self.width).map(|_| self.format.bytes as u64).sum()
    }

    /// The first byte of a row, reached row by row.
    fn row_start(&self, y: u16) -> u64 {
        (0..y).fold(u64::from(self.address), |at, _| at + u64::from(self.stride))
    }

    /// The first byte of a pixel, reached pixel by pixel.
    pub fn pixel_start(&self, x: u16, y: u16) -> u64 {
        (0..x).fold(self.row_start(y), |at, _| at + self.format.bytes as u64)
    }

    /// The rows as ranges of bytes, from the top.
    pub fn rows(&self) -> impl Iterator<Item = Run> {
        let length = self.row_length();
        let starts = (0..self.height).scan(u64::from(self.address), {
            let stride = u64::from(self.stride);
            move |next, _| {
                let start = *next;
                *next += stride;
                Some(start)
            }
        });
        starts.map(move |start| start..start + length)
    }

    /// From the first row's first byte to the last row's last. (A surface of no rows is never drawn, fault 25; it counts as
    /// one of one row.)
    pub fn span(&self) -> Run {
        let start = u64::from(self.address);
        start..self.rows().last().map_or(start + self.row_length(), |row| row.end)
    }

    /// Whether some row of one and some row of the other share a byte: each row is held against each.
    pub fn rows_meet(&self, other: &Surface) -> bool {
        self.rows().any(|row| other.rows().any(|another| shares(&row, &another)))
    }

    /// Whether two surfaces meet (02, request 7): by rows where the strides are equal, else by spans.
    pub fn meets(&self, other: &Surface) -> bool {
        if self.stride == other.stride {
            return self.rows_meet(other);
        }
        shares(&self.span(), &other.span())
    }
}

/// The stored pixel at an address, if it lies in memory.
fn fetch(memory: &[u8], at: u64, format: &Format) -> Option<u32> {
    let at = usize::try_from(at).ok()?;
    let bytes = memory.get(at..at.checked_add(format.bytes)?)?;
    let mut four = [0; 4];
    four[..format.bytes].copy_from_slice(bytes);
    Some(u32::from_le_bytes(four))
}

/// The colour of the pixel at an address.
pub fn load(memory: &[u8], at: u64, format: &Format) -> Option<Colour> {
    fetch(memory, at, format).map(|pixel| format.unpack(pixel))
}

#[cfg(test)]
mod tests {
    use super::*;
    use crate::pixel::{format, FORMATS};
    use std::collections::BTreeSet;

    /// S1 of 01: the span of 4 by 3 ARGB8888 at 16, stride 24, is 16 to 79.
    #[test]
    fn spans() {
        let surface = Surface { address: 16, stride: 24, width: 4, height: 3, format: &FORMATS[0] };
        assert_eq!(surface.span(), 16..80);
        assert_eq!(surface.pixel_start(3, 2), 76);
    }

    /// All bytes of all rows.
    fn bytes(surface: &Surface) -> BTreeSet<u64> {
        surface.rows().flatten().collect()
    }

    /// A byte lies in rows of both: of every two small surfaces of one stride, in either order.
    #[test]
    fn rows() {
        let shapes = (0..5u16).flat_map(|width| (0..4u16).map(move |height| (width, height)));
        let shapes: Vec<(u16, u16, usize)> = shapes.flat_map(|(w, h)| [(w, h, 2), (w, h, 1)]).collect();
        for stride in [0, 8, 16] {
            let at = |address, (width, height, format): (u16, u16, usize)| Surface {
                address,
                stride,
                width,
                height,
                format: &FORMATS[format],
            };
            for (address, shape) in (0..40).flat_map(|address| shapes.iter().map(move |shape| (address, *shape))) {
                for first in shapes.iter().step_by(3).map(|shape| at(8, *shape)) {
                    let second = at(address, shape);
                    let common = !bytes(&first).is_disjoint(&bytes(&second));
                    assert_eq!((first.meets(&second), second.meets(&first)), (common, common));
                }
            }
        }
    }

    /// Two columns of a page; a row across the line's end; one below the other; in lines of its own.
    #[test]
    fn columns() {
        let column = |address, stride| Surface { address, stride, width: 4, height: 3, format: &FORMATS[0] };
        let others = [(16, 64), (15, 64), (48, 64), (49, 64), (192, 64), (16, 72)];
        let met: Vec<bool> = others.iter().map(|(at, stride)| column(0, 64).meets(&column(*at, *stride))).collect();
        assert_eq!(met, [false, true, false, true, false, true]);
        assert!(shares(&column(0, 64).span(), &column(16, 64).span()));
    }

    #[test]
    fn runs() {
        assert!(shares(&run(0, 5), &run(4, 1)) && !shares(&run(0, 5), &run(5, 1)) && !shares(&run(2, 0), &run(0, 5)));
        assert!(is_inside(&run(1, 4), &run(0, 5)) && !is_inside(&run(1, 5), &run(0, 5)));
    }

    /// Bytes B, G, R, A; B, G, R; and 565 low byte first.
    #[test]
    fn bytes_in_memory() {
        assert_eq!(load(&[9, 4, 3, 2, 1], 1, format(0x00).unwrap()), Some([1, 2, 3, 4]));
        assert_eq!(load(&[9, 4, 3, 2, 1], 1, format(0x08).unwrap()), Some([255, 2, 3, 4]));
        assert_eq!(load(&[9, 0x34, 0x12], 1, format(0x0E).unwrap()), Some([255, 16, 69, 165]));
        assert_eq!(load(&[9, 0x34], 1, format(0x0E).unwrap()), None);
    }
}
