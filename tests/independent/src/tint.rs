//! Scores and tints (02, request 1): the cover in whole numbers alone, from the bits of the score, and the 80 bytes of the tint's task.
use crate::made_tasks::{Fields, DESTINATION, OUTPUT, SOURCE};
use crate::pixel::near;
use crate::writer::written;

/// Bits of an f32's digits, with the leading one that is not stored.
const DIGITS: u32 = 24;
/// The least f32 above 0 is 2 to the power of -149.
const LEAST: u32 = 149;

/// A score's digits and its power of two, counted from the least f32's; nothing if the bits are no score. From 0 to 1, bits are in the
/// order of their values.
fn parts(bits: u32) -> Option<(u64, u32)> {
    let bits = if bits == (-0.0f32).to_bits() { 0 } else { bits };
    if bits > 1f32.to_bits() {
        return None;
    }
    let (power, digits) = (bits >> (DIGITS - 1), u64::from(bits) % (1 << (DIGITS - 1)));
    Some(if power == 0 { (digits, 0) } else { (digits + (1 << (DIGITS - 1)), power - 1) })
}

/// A number with all but its 24 highest bits rounded away: to the nearest, and to the even one of two.
fn rounded(n: u64) -> u64 {
    let dropped = (u64::BITS - n.leading_zeros()).saturating_sub(DIGITS);
    let (kept, rest) = (n >> dropped, n % (1 << dropped));
    let up = match (2 * rest).cmp(&(1 << dropped)) {
        std::cmp::Ordering::Less => false,
        std::cmp::Ordering::Equal => kept % 2 == 1,
        std::cmp::Ordering::Greater => true,
    };
    (kept + u64::from(up)) << dropped
}

/// The cover of a score that is given by its bits: 255 less the whole part of the product.
pub fn cover(bits: u32) -> Option<u8> {
    let (digits, power) = parts(bits)?;
    let product = rounded(255 * digits);
    let whole = product.checked_shr(LEAST - power).unwrap_or(0);
    Some(255 - u8::try_from(whole).expect("a score of at most 1"))
}

/// Red, green and blue.
pub type Tint = [u8; 3];

/// Width, height, stride, address and format.
pub type Rectangle = [u32; 5];

/// The fields of the tint's task, if there is a score.
pub fn fields(score: u32, tint: Tint, output: Rectangle) -> Option<Fields> {
    let cover = cover(score)?;
    let [red, green, blue] = tint.map(|t| near(u32::from(t) * u32::from(cover)) as u8);
    let mut fields = [0; 30];
    fields[SOURCE..SOURCE + 2].copy_from_slice(&output[..2]);
    fields[DESTINATION..DESTINATION + 5].copy_from_slice(&output);
    fields[OUTPUT..OUTPUT + 5].copy_from_slice(&output);
    // colour mode, the colour, source and destination enabled
    (fields[7], fields[8], fields[9], fields[20]) = (1, u32::from_be_bytes([cover, red, green, blue]), 1, 1);
    // SRC_OVER, blend on
    (fields[26], fields[27], fields[28]) = (1, 3, 1);
    Some(fields)
}

/// The 80 bytes, or the refusal's number: 15 before 24 and 12.
pub fn tinted(score: u32, tint: Tint, output: Rectangle, room: usize) -> Result<Vec<u8>, u32> {
    written(&fields(score, tint, output).ok_or(15u32)?, room)
}

#[cfg(test)]
mod tests {
    use super::*;

    /// 02's examples, and the edges.
    #[test]
    fn covers() {
        let of = |score: f32| cover(score.to_bits());
        assert_eq!([of(0.5), of(1.0), of(0.0), of(-0.0)], [Some(128), Some(0), Some(255), Some(255)]);
        assert_eq!([cover(0x3F7F_FFFF), cover(1)], [Some(1), Some(255)]);
        assert!([0x8000_0001, 0x3F80_0001, 0x7F80_0000, 0xFF80_0000, 0x7FC0_0000, 0x7F80_0001]
            .iter()
            .all(|bits| cover(*bits).is_none()));
    }

    /// Rust's own product and whole part, on every 1,001st score.
    #[test]
    fn as_rust_multiplies() {
        for bits in (0..=1f32.to_bits()).step_by(1001) {
            assert_eq!(cover(bits), Some(255 - (f32::from_bits(bits) * 255.0) as u8), "{bits:08X}");
        }
    }

    #[test]
    fn words() {
        let bytes = tinted(0.5f32.to_bits(), [255, 128, 0], [2, 1, 8, 16384, 0], 80).unwrap();
        let words: Vec<u32> = bytes.chunks_exact(4).map(|word| u32::from_le_bytes(word.try_into().unwrap())).collect();
        let expected = [
            0x0010_0014,
            0x0000_0005,
            0x0001_0002,
            0,
            0x8080_4000,
            0,
            0x0050_000C,
            0x0000_0001,
            0x0001_0002,
            8,
            0x0060_0004,
            16384,
            0x0090_0004,
            0x0000_0B01,
            0x0100_000C,
            0,
            0x0001_0002,
            8,
            0x0110_0005,
            16384,
        ];
        assert_eq!(words, expected);
        assert_eq!(tinted(0x7FC0_0000, [0; 3], [8192, 1, 8, 0, 1], 3), Err(15));
        assert_eq!(tinted(0, [0; 3], [8192, 1, 8, 0, 0], 3), Err(24));
        assert_eq!(tinted(0, [0; 3], [8191, 1, 8, 0, 0], 79), Err(12));
    }
}
