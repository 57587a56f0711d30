//! Pixel formats and blending (01, "Pixels").

/// A colour's channels in the order A, R, G, B.
pub type Colour = [u8; 4];

pub struct Format {
    pub code: u32,
    pub bytes: usize,
    /// Bits of A, R, G, B; 0 where a channel is absent.
    pub widths: [u32; 4],
}

/// ARGB8888, RGB888 and RGB565.
pub static FORMATS: [Format; 3] = [
    Format { code: 0x00, bytes: 4, widths: [8, 8, 8, 8] },
    Format { code: 0x08, bytes: 3, widths: [0, 8, 8, 8] },
    Format { code: 0x0E, bytes: 2, widths: [0, 5, 6, 5] },
];

/// The format of a code.
pub fn format(code: u32) -> Option<&'static Format> {
    FORMATS.iter().find(|format| format.code == code)
}

impl Format {
    /// The colour of a stored pixel: channels are shifted off from its low end, blue first. An absent one reads as 255.
    pub fn unpack(&self, pixel: u32) -> Colour {
        let mut rest = u64::from(pixel);
        let mut colour = [0; 4];
        for channel in (0..4).rev() {
            let width = self.widths[channel];
            colour[channel] = if width == 0 { 255 } else { widened((rest & ((1 << width) - 1)) as u8, width) };
            rest >>= width;
        }
        colour
    }

    /// A colour as a stored pixel: channels are shifted in from the high end, alpha first.
    pub fn pack(&self, colour: Colour) -> u32 {
        let mut pixel: u64 = 0;
        for (value, width) in colour.iter().zip(self.widths) {
            pixel = pixel << width | u64::from(*value) >> (8 - width);
        }
        pixel as u32
    }
}

/// A channel made eight bits wide: its bits, then its highest once more.
fn widened(value: u8, width: u32) -> u8 {
    if width == 8 {
        return value;
    }
    value << (8 - width) | value >> (2 * width - 8)
}

/// The whole part of (n + 127) / 255: one more than that of n / 255 where the remainder is above 127.
pub fn near(n: u32) -> u32 {
    n / 255 + u32::from(n % 255 > 127)
}

/// A colour that was delivered multiplied by its alpha, divided by it (02, request 12). Nothing is left without alpha.
pub fn unpremultiplied(colour: Colour) -> Colour {
    let reciprocal = 16_711_680u64.checked_div(colour[0].into()).unwrap_or(0);
    let divided = |c: u8| u8::try_from((u64::from(c) * reciprocal + 32_768) >> 16).unwrap_or(255);
    [colour[0], divided(colour[1]), divided(colour[2]), divided(colour[3])]
}

/// A colour with its alpha under an alpha mode: 0 its own, 1 the global one, 2 the product.
pub fn with_alpha(mode: u32, global: u8, colour: Colour) -> Option<Colour> {
    let alpha = match mode {
        0 => colour[0],
        1 => global,
        2 => near(u32::from(colour[0]) * u32::from(global)) as u8,
        _ => return None,
    };
    Some([alpha, colour[1], colour[2], colour[3]])
}

/// The factor of a code for a source alpha and a destination alpha.
pub fn factor(code: u32, sa: u8, da: u8) -> Option<u8> {
    [0, 255, sa, !sa, da, !da].get(code as usize).copied()
}

/// The rules by name, with the codes of their two factors, in the order of 01 (which is that of 000's list).
pub const RULES: [(&str, u8, u8); 14] = [
    ("NONE", 2, 3),
    ("CLEAR", 0, 0),
    ("SRC", 1, 0),
    ("DST", 0, 1),
    ("SRC_OVER", 1, 3),
    ("DST_OVER", 5, 1),
    ("SRC_IN", 4, 0),
    ("DST_IN", 0, 2),
    ("SRC_OUT", 5, 0),
    ("DST_OUT", 0, 3),
    ("SRC_ATOP", 4, 3),
    ("DST_ATOP", 5, 2),
    ("XOR", 5, 3),
    ("ADD", 1, 1),
];

/// The place of a rule in the list.
pub fn rule(name: &str) -> u8 {
    RULES.iter().position(|rule| rule.0 == name).expect("a rule's name") as u8
}

/// One channel of a source and a destination under two factors.
fn blend_channel(s: u8, fs: u8, d: u8, fd: u8) -> u8 {
    let sum = u32::from(s) * u32::from(fs) + u32::from(d) * u32::from(fd);
    u8::try_from(near(sum)).unwrap_or(255)
}

/// A source colour blended with a destination colour by two factor codes.
pub fn blend(source_code: u8, destination_code: u8, s: Colour, d: Colour) -> Option<Colour> {
    let fs = factor(source_code.into(), s[0], d[0])?;
    let fd = factor(destination_code.into(), s[0], d[0])?;
    Some(std::array::from_fn(|channel| blend_channel(s[channel], fs, d[channel], fd)))
}

#[cfg(test)]
mod tests {
    use super::*;

    fn by_name(name: &str, s: Colour, d: Colour) -> Colour {
        let (_, source, destination) = RULES[rule(name) as usize];
        blend(source, destination, s, d).unwrap()
    }

    /// B1, B2, B3 of 01.
    #[test]
    fn blended() {
        let (s, d) = ([128, 200, 200, 200], [255, 100, 100, 100]);
        assert_eq!(by_name("SRC_OVER", s, d), [255, 250, 250, 250]);
        assert_eq!(by_name("NONE", s, d), [191, 150, 150, 150]);
        assert_eq!(by_name("ADD", [200; 4], [100; 4]), [255; 4]);
    }

    /// M1 of 01.
    #[test]
    fn mixed() {
        assert_eq!(with_alpha(2, 64, [128, 1, 2, 3]), Some([32, 1, 2, 3]));
        assert_eq!(with_alpha(3, 64, [128, 1, 2, 3]), None);
    }

    /// 02, request 12: its example, and how near a colour that an alpha was multiplied into comes.
    #[test]
    fn divided() {
        assert_eq!(unpremultiplied([128, 64, 0, 128]), [128, 128, 0, 255]);
        assert_eq!(unpremultiplied([0, 64, 0, 255]), [0; 4]);
        assert_eq!(unpremultiplied([1, 2, 1, 0]), [1, 255, 255, 0]);
        assert!((0..=255).all(|c| unpremultiplied([255, c, c, c]) == [255, c, c, c]));
        for (a, c) in (1..=255u8).flat_map(|a| (0..=a).map(move |c| (a, c))) {
            let [_, new, ..] = unpremultiplied([a, c, c, c]).map(i32::from);
            assert!((new * i32::from(a) - 255 * i32::from(c)).abs() < i32::from(a));
        }
    }

    /// P1 of 01, and that each 565 word survives being a colour.
    #[test]
    fn rgb565() {
        let format = format(0x0E).unwrap();
        assert_eq!(format.unpack(0x1234), [255, 16, 69, 165]);
        assert!((0..=0xFFFF).all(|word| format.pack(format.unpack(word)) == word));
    }

    /// Widening and near as 01 words them.
    #[test]
    fn formulas() {
        assert!((0..32u8).all(|r| u32::from(widened(r, 5)) == u32::from(r) * 8 + u32::from(r) / 4));
        assert!((0..64u8).all(|g| u32::from(widened(g, 6)) == u32::from(g) * 4 + u32::from(g) / 16));
        assert!((0..=2 * 255 * 255).all(|n| near(n) == (n + 127) / 255));
    }
}
