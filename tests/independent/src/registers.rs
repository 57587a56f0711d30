//! The registers (01, "Groups and registers"; 02, request 3): which words each takes, and the task that their words describe.
use crate::gradient::{Steps, STEP_BITS};
use crate::pixel::{self, Colour, Format};
use crate::surface::Surface;
use crate::transform::{Setting, Size};
use std::collections::BTreeMap;

/// A rule on the code in some bits of a register.
#[derive(Clone, Copy)]
enum Code {
    AlphaMode,
    Format,
    SourceFactor,
    DestinationFactor,
}

/// A row of the table: offsets, the bits that may be set, and the codes that are looked at.
struct Row {
    offsets: &'static [u32],
    bits: u32,
    codes: &'static [Code],
}

const TABLE: [Row; 8] = [
    Row { offsets: &[0x010], bits: 0xFFC0_7FFD, codes: &[Code::AlphaMode, Code::Format] },
    Row { offsets: &[0x050], bits: 0xFFC0_7F01, codes: &[Code::AlphaMode, Code::Format] },
    Row { offsets: &[0x014, 0x054, 0x104], bits: 0x1FFF_1FFF, codes: &[] },
    Row { offsets: &[0x018, 0x058, 0x108], bits: 0x0000_FFFF, codes: &[] },
    Row { offsets: &[0x01C, 0x020, 0x060, 0x110], bits: 0xFFFF_FFFF, codes: &[] },
    Row { offsets: &[0x030, 0x034, 0x038, 0x03C], bits: STEP_BITS, codes: &[] },
    Row { offsets: &[0x090], bits: 0x0002_3F01, codes: &[Code::SourceFactor, Code::DestinationFactor] },
    Row { offsets: &[0x100], bits: 0x0000_7F00, codes: &[Code::Format] },
];

/// All writable offsets, from the lowest.
pub fn offsets() -> Vec<u32> {
    let mut all: Vec<u32> = TABLE.iter().flat_map(|row| row.offsets.iter().copied()).collect();
    all.sort_unstable();
    all
}

/// The bits that may be set in the register at an offset; none where there is no register.
pub fn allowed_bits(offset: u32) -> u32 {
    TABLE.iter().find(|row| row.offsets.contains(&offset)).map_or(0, |row| row.bits)
}

fn is_allowed(code: Code, word: u32) -> bool {
    match code {
        Code::AlphaMode => word >> 22 & 3 <= 2,
        Code::Format => pixel::format(word >> 8 & 0x7F).is_some(),
        Code::SourceFactor => word >> 11 & 7 <= 5,
        Code::DestinationFactor => word >> 8 & 7 <= 5,
    }
}

/// Why a word is not written.
#[derive(Clone, Copy, Debug, PartialEq)]
pub enum Refusal {
    /// 23: no writable register stands there.
    Offset,
    /// 24: a bit or a code is not allowed.
    Word,
}

/// The two reset rules as numbers (02, request 2). Every other number stands for the second.
pub const UNBLENDED: u32 = 0;
pub const SRC_OVER: u32 = 1;

/// The registers' words by their offsets. What is not there is 0.
#[derive(Clone, Debug, PartialEq)]
pub struct Bank(BTreeMap<u32, u32>);

impl Bank {
    /// Reset is 0, but 0x090 resets to 0x00001300 by the old rule, and to 0x00000B01 by the new one.
    pub fn reset(rule: u32) -> Self {
        Bank(BTreeMap::from([(0x090, if rule == UNBLENDED { 0x0000_1300 } else { 0x0000_0B01 })]))
    }

    pub fn word(&self, offset: u32) -> u32 {
        self.0.get(&offset).copied().unwrap_or(0)
    }

    pub fn write(&mut self, offset: u32, word: u32) -> Result<(), Refusal> {
        let row = TABLE.iter().find(|row| row.offsets.contains(&offset)).ok_or(Refusal::Offset)?;
        if word & !row.bits != 0 || !row.codes.iter().all(|code| is_allowed(*code, word)) {
            return Err(Refusal::Word);
        }
        self.0.insert(offset, word);
        Ok(())
    }

    /// The surface whose registers stand from `base` on.
    fn surface(&self, base: u32) -> Surface {
        let size = self.word(base + 4);
        Surface {
            address: self.word(base + 16),
            stride: self.word(base + 8) as u16,
            width: size as u16 & 0x1FFF,
            height: (size >> 16) as u16 & 0x1FFF,
            format: format_of(self.word(base)),
        }
    }

    pub fn task(&self) -> Task {
        let (control, destination, blending) = (self.word(0x010), self.word(0x050), self.word(0x090));
        Task {
            source: self.surface(0x010),
            mode: control >> 2 & 3,
            colour: self.word(0x01C).to_be_bytes(),
            steps: [0x030, 0x034, 0x038, 0x03C].map(|offset| self.word(offset)),
            setting: Setting {
                turns: (control >> 4 & 3) as u8,
                horizontal: control >> 6 & 1 == 1,
                vertical: control >> 7 & 1 == 1,
            },
            source_enabled: control & 1 == 1,
            source_alpha: (control >> 22 & 3, (control >> 24) as u8),
            destination: self.surface(0x050),
            destination_enabled: destination & 1 == 1,
            destination_alpha: (destination >> 22 & 3, (destination >> 24) as u8),
            output: self.surface(0x100),
            blend: blending & 1 == 1,
            factors: ((blending >> 11 & 7) as u8, (blending >> 8 & 7) as u8),
            premultiplied: blending >> 17 & 1 == 1,
        }
    }
}

/// The format of a control word. A code that is none, which no batch can write, counts as 0x00.
fn format_of(control: u32) -> &'static Format {
    pixel::format(control >> 8 & 0x7F).unwrap_or(&pixel::FORMATS[0])
}

#[derive(Clone, Copy)]
pub struct Task {
    pub source: Surface,
    /// 0 buffer, 1 colour, 2 shaded along x, 3 shaded along y.
    pub mode: u32,
    pub colour: Colour,
    pub steps: Steps,
    pub setting: Setting,
    pub source_enabled: bool,
    /// Alpha mode and global alpha.
    pub source_alpha: (u32, u8),
    pub destination: Surface,
    pub destination_enabled: bool,
    pub destination_alpha: (u32, u8),
    pub output: Surface,
    pub blend: bool,
    /// Codes of the source's factor and the destination's.
    pub factors: (u8, u8),
    /// The source's colours were multiplied by their alphas.
    pub premultiplied: bool,
}

impl Task {
    /// Whether its source lies in memory.
    pub fn has_buffer(&self) -> bool {
        self.mode == 0
    }
}

pub fn size(surface: &Surface) -> Size {
    Size { width: surface.width.into(), height: surface.height.into() }
}

#[cfg(test)]
mod tests {
    use super::*;

    #[test]
    fn words_are_refused() {
        let mut bank = Bank::reset(UNBLENDED);
        assert_eq!(bank.write(0x024, 0), Err(Refusal::Offset));
        assert_eq!(bank.write(0x040, 0), Err(Refusal::Offset));
        assert_eq!(bank.write(0x030, 0x0200_0000), Err(Refusal::Word));
        assert_eq!(bank.write(0x014, 0x2000), Err(Refusal::Word));
        assert_eq!(bank.write(0x100, 0x100), Err(Refusal::Word));
        assert_eq!(bank.write(0x090, 0x3000), Err(Refusal::Word));
        assert_eq!(bank.write(0x090, 0x0001_0B01), Err(Refusal::Word));
        assert_eq!(bank, Bank::reset(UNBLENDED));
        assert_eq!(bank.write(0x090, 0x0B01), Ok(()));
        assert!(bank.task().blend && bank.task().factors == (1, 3) && !bank.task().premultiplied);
        assert_eq!([bank.clone(), bank.clone()], [Bank::reset(SRC_OVER), Bank::reset(u32::MAX)]);
        assert_eq!(bank.write(0x090, 0x0002_0B01), Ok(()));
        assert!(bank.task().premultiplied && bank.task().factors == (1, 3));
    }

    #[test]
    fn eighteen_registers() {
        assert_eq!(offsets().len(), 18);
    }
}
