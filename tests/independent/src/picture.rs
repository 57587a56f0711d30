//! A rectangle of memory as a picture (PPM, P6): R, G, B of each pixel. Alpha is not looked at.
use crate::pixel::{self, Format};
use crate::surface;

/// A rectangle as the program's words name it.
pub struct Rectangle {
    pub address: u64,
    pub stride: u64,
    pub width: u64,
    pub height: u64,
    pub format: &'static Format,
}

/// The words of all 65,536 bytes: each two are a pixel, and no two words of 565 look the same.
pub const ALL_OF_MEMORY: [&str; 5] = ["0", "512", "256", "128", "RGB565"];

/// The picture of all of memory.
pub fn of_memory(memory: &[u8]) -> Vec<u8> {
    let rectangle = Rectangle::of_words(&ALL_OF_MEMORY.map(String::from)).expect("the words of a rectangle");
    rectangle.picture(memory).expect("memory of a replay file")
}

/// A number, in decimal or after 0x in hex.
pub fn number(word: &str) -> Option<u64> {
    match word.strip_prefix("0x") {
        Some(digits) => u64::from_str_radix(digits, 16).ok(),
        None => word.parse().ok(),
    }
}

/// A format by its name or by its code.
pub fn format(word: &str) -> Option<&'static Format> {
    match word.to_ascii_uppercase().as_str() {
        "ARGB8888" => pixel::format(0x00),
        "RGB888" => pixel::format(0x08),
        "RGB565" => pixel::format(0x0E),
        _ => pixel::format(number(word)?.try_into().ok()?),
    }
}

impl Rectangle {
    /// ADDRESS STRIDE WIDTH HEIGHT FORMAT.
    pub fn of_words(words: &[String]) -> Option<Self> {
        let [address, stride, width, height, code] = words else { return None };
        let (address, stride) = (number(address)?, number(stride)?);
        Some(Rectangle { address, stride, width: number(width)?, height: number(height)?, format: format(code)? })
    }

    /// The picture, if the rectangle lies in memory.
    pub fn picture(&self, memory: &[u8]) -> Option<Vec<u8>> {
        let mut bytes = format!("P6\n{} {}\n255\n", self.width, self.height).into_bytes();
        for y in 0..self.height {
            let row = self.address.checked_add(self.stride.checked_mul(y)?)?;
            for x in 0..self.width {
                let at = row.checked_add(x * self.format.bytes as u64)?;
                let [_, red, green, blue] = surface::load(memory, at, self.format)?;
                bytes.extend([red, green, blue]);
            }
        }
        Some(bytes)
    }
}

/// The address that words name: ADDRESS, or the first byte of a pixel, ADDRESS STRIDE FORMAT X Y.
pub fn byte_of_words(words: &[String]) -> Option<u64> {
    match words {
        [address] => number(address),
        [address, stride, code, x, y] => {
            let row = number(address)?.checked_add(number(stride)?.checked_mul(number(y)?)?)?;
            row.checked_add(number(x)?.checked_mul(format(code)?.bytes as u64)?)
        }
        _ => None,
    }
}

#[cfg(test)]
mod tests {
    use super::*;

    fn picture(words: &str, memory: &[u8]) -> Option<Vec<u8>> {
        let words: Vec<String> = words.split(' ').map(String::from).collect();
        Rectangle::of_words(&words)?.picture(memory)
    }

    /// Every pixel of all of memory is of other bytes, in their order, and every word of 565 has a look of its own.
    #[test]
    fn all_bytes_are_seen() {
        let looks = |words: std::ops::Range<u32>| {
            let memory: Vec<u8> = words.flat_map(|word| (word as u16).to_le_bytes()).collect();
            of_memory(&memory)["P6\n256 128\n255\n".len()..].chunks(3).map(<[u8]>::to_vec).collect::<Vec<Vec<u8>>>()
        };
        let all = [looks(0..32768), looks(32768..65536)].concat();
        assert_eq!(all.len(), 65536);
        assert_eq!(all.iter().collect::<std::collections::BTreeSet<_>>().len(), 65536);
    }

    #[test]
    fn two_pixels() {
        let memory = [0, 3, 2, 1, 9, 6, 5, 4, 8];
        assert_eq!(picture("1 4 1 2 0x00", &memory), Some(b"P6\n1 2\n255\n\x01\x02\x03\x04\x05\x06".to_vec()));
        assert_eq!(picture("1 4 2 1 ARGB8888", &memory), Some(b"P6\n2 1\n255\n\x01\x02\x03\x04\x05\x06".to_vec()));
        assert_eq!(picture("2 4 1 2 argb8888", &memory), None);
        assert_eq!(picture("0 8 1 1 5", &memory), None);
    }
}
