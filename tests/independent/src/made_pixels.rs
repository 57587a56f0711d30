//! Pixels that look random, and the kinds of them that a row may be drawn by.
use crate::random::Random;

/// What a pixel of ARGB8888 is made of one that looks random: left as it is, without alpha, empty, opaque.
pub const KINDS: [fn([u8; 4]) -> [u8; 4]; 4] =
    [|pixel| pixel, |[b, g, r, _]| [b, g, r, 0], |_| [0; 4], |[b, g, r, _]| [b, g, r, 255]];

/// So many pixels in runs of one kind each.
pub fn pixels(random: &mut Random, count: usize) -> Vec<u8> {
    let mut bytes = Vec::new();
    while bytes.len() < 4 * count {
        let kind = random.pick(&KINDS);
        for _ in 0..1 + random.below(24) {
            bytes.extend(kind(random.word().to_le_bytes()));
        }
    }
    bytes.truncate(4 * count);
    bytes
}
