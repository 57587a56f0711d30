//! Shaded margins (02, request 3): a channel that starts at a level and goes by a step from place to place.
use crate::pixel::Colour;

/// The steps of A, R, G and B as register words.
pub type Steps = [u32; 4];

/// The bits that a step may have.
pub const STEP_BITS: u32 = 0x01FF_FFFF;

/// A step in parts of 65,536: 25 bits in two's complement.
fn signed(word: u32) -> i128 {
    let magnitude = i128::from(word & STEP_BITS);
    if word >> 24 & 1 == 1 {
        magnitude - (1 << 25)
    } else {
        magnitude
    }
}

/// The level i places along: the exact sum, rounded downward, held to a byte.
pub fn level(start: u8, step: u32, i: u32) -> u8 {
    let sum = i128::from(start) * 65536 + i128::from(i) * signed(step);
    sum.div_euclid(65536).clamp(0, 255) as u8
}

/// The colour i places along.
pub fn colour(start: Colour, steps: Steps, i: u32) -> Colour {
    std::array::from_fn(|channel| level(start[channel], steps[channel], i))
}

#[cfg(test)]
mod tests {
    use super::*;

    /// "A step of minus 1/65,536 takes a start of 10 to 9 at place 1."
    #[test]
    fn steps() {
        assert_eq!([level(10, 0x1FF_FFFF, 0), level(10, 0x1FF_FFFF, 1), level(0, 0x1FF_FFFF, 1)], [10, 9, 0]);
        assert_eq!([level(10, 0x8000, 1), level(10, 0x8000, 2), level(10, 0x1FF_8000, 3)], [10, 11, 8]);
        assert_eq!([level(0, 0x0FF_FFFF, 1), level(255, 0x100_0000, 1), level(128, 0x0FF_FFFF, 4095)], [255, 0, 255]);
    }
}
