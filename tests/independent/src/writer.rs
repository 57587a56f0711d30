//! The task writer (01, "Writer and replay"; 02, request 3): a task's fields as the 80 bytes of one task, or with steps as 100.
use crate::gradient::Steps;
use crate::registers::{Bank, UNBLENDED};

/// Each field's register, its lowest bit and its width, in the order in which fields are given.
pub const FIELDS: [(u32, u32, u32); 30] = [
    // source: width, height, stride, address, format
    (0x014, 0, 13),
    (0x014, 16, 13),
    (0x018, 0, 16),
    (0x020, 0, 32),
    (0x010, 8, 7),
    // source: alpha mode, global alpha, mode, colour, enable
    (0x010, 22, 2),
    (0x010, 24, 8),
    (0x010, 2, 2),
    (0x01C, 0, 32),
    (0x010, 0, 1),
    // source: H flip, V flip, quarter turns
    (0x010, 6, 1),
    (0x010, 7, 1),
    (0x010, 4, 2),
    // destination: width, height, stride, address, format
    (0x054, 0, 13),
    (0x054, 16, 13),
    (0x058, 0, 16),
    (0x060, 0, 32),
    (0x050, 8, 7),
    // destination: alpha mode, global alpha, enable
    (0x050, 22, 2),
    (0x050, 24, 8),
    (0x050, 0, 1),
    // output: width, height, stride, address, format
    (0x104, 0, 13),
    (0x104, 16, 13),
    (0x108, 0, 16),
    (0x110, 0, 32),
    (0x100, 8, 7),
    // blending: source factor, destination factor, on, premultiplied
    (0x090, 11, 3),
    (0x090, 8, 3),
    (0x090, 0, 1),
    (0x090, 17, 1),
];

/// Places in that order.
pub mod field {
    /// The first field of each surface: width, height, stride, address and format stand in this order from there on.
    pub const SOURCE: usize = 0;
    pub const DESTINATION: usize = 13;
    pub const OUTPUT: usize = 21;

    pub const WIDTH: usize = 0;
    pub const HEIGHT: usize = 1;
    pub const STRIDE: usize = 2;
    pub const ADDRESS: usize = 3;
    pub const FORMAT: usize = 4;

    pub const SOURCE_ALPHA_MODE: usize = 5;
    pub const SOURCE_GLOBAL_ALPHA: usize = 6;
    pub const SOURCE_MODE: usize = 7;
    pub const COLOUR: usize = 8;
    pub const SOURCE_ENABLE: usize = 9;
    pub const FLIP_H: usize = 10;
    pub const FLIP_V: usize = 11;
    pub const TURNS: usize = 12;
    pub const DESTINATION_ALPHA_MODE: usize = 18;
    pub const DESTINATION_GLOBAL_ALPHA: usize = 19;
    pub const DESTINATION_ENABLE: usize = 20;
    pub const SOURCE_FACTOR: usize = 26;
    pub const DESTINATION_FACTOR: usize = 27;
    pub const BLEND: usize = 28;
    pub const PREMULTIPLIED: usize = 29;
}

/// The groups of a task: the first register's offset and how many follow. The last one ends the task.
pub const GROUPS: [(u32, u32); 6] = [(0x010, 5), (0x050, 3), (0x060, 1), (0x090, 1), (0x100, 3), (0x110, 1)];

/// The groups of the second form: that of the steps comes right after the first.
pub const SHADED_GROUPS: [(u32, u32); 7] =
    [(0x010, 5), (0x030, 4), (0x050, 3), (0x060, 1), (0x090, 1), (0x100, 3), (0x110, 1)];

/// The worked words of 01: colour 0x80FF0000, 2 by 1, at 16384, stride 8, rest at reset.
pub const WORKED: [u32; 20] = [
    0x00100014, 0x00000005, 0x00010002, 0x00000000, 0x80FF0000, 0x00000000, 0x0050000C, 0x00000000, 0x00000000, 0x00000000,
    0x00600004, 0x00000000, 0x00900004, 0x00001300, 0x0100000C, 0x00000000, 0x00010002, 0x00000008, 0x01100005, 0x00004000,
];

/// What a task's registers hold, if every field fits its bits and its register's rule.
pub fn registers(fields: &[u32; 30]) -> Option<Bank> {
    let mut bank = Bank::reset(UNBLENDED);
    for (offset, words) in gathered(fields)? {
        bank.write(offset, words).ok()?;
    }
    Some(bank)
}

/// The same with steps.
pub fn shaded_registers(fields: &[u32; 30], steps: &Steps) -> Option<Bank> {
    let mut bank = registers(fields)?;
    for (k, step) in steps.iter().enumerate() {
        bank.write(0x030 + 4 * k as u32, *step).ok()?;
    }
    Some(bank)
}

/// Each register's word put together of its fields.
fn gathered(fields: &[u32; 30]) -> Option<Vec<(u32, u32)>> {
    let mut words: Vec<(u32, u32)> = crate::registers::offsets().into_iter().map(|offset| (offset, 0)).collect();
    for ((offset, low, width), field) in FIELDS.iter().zip(fields) {
        if u64::from(*field) >= 1 << width {
            return None;
        }
        let word = words.iter_mut().find(|(at, _)| at == offset).expect("a register of the table");
        word.1 |= field << low;
    }
    Some(words)
}

/// The 80 bytes, or the refusal's number.
pub fn written(fields: &[u32; 30], room: usize) -> Result<Vec<u8>, u32> {
    let bank = registers(fields).ok_or(24u32)?;
    if room < 80 {
        return Err(12);
    }
    Ok(in_groups(&bank, &GROUPS))
}

/// The 100 bytes of the second form, or the refusal's number.
pub fn shaded_written(fields: &[u32; 30], steps: &Steps, room: usize) -> Result<Vec<u8>, u32> {
    let bank = shaded_registers(fields, steps).ok_or(24u32)?;
    if room < 100 {
        return Err(12);
    }
    Ok(in_groups(&bank, &SHADED_GROUPS))
}

/// The registers of a bank in groups.
fn in_groups(bank: &Bank, groups: &[(u32, u32)]) -> Vec<u8> {
    let mut bytes = Vec::new();
    for (i, (offset, count)) in groups.iter().enumerate() {
        let end = u32::from(i + 1 == groups.len());
        bytes.extend((offset << 16 | 4 * count | end).to_le_bytes());
        bytes.extend((0..*count).flat_map(|k| bank.word(offset + 4 * k).to_le_bytes()));
    }
    bytes
}

/// The fields of a task with everything but the given ones as at reset by the old rule.
pub fn reset_with(changes: &[(usize, u32)]) -> [u32; 30] {
    let mut fields = [0; 30];
    fields[26] = 2;
    fields[27] = 3;
    for (at, value) in changes {
        fields[*at] = *value;
    }
    fields
}

#[cfg(test)]
mod tests {
    use super::*;
    use crate::words::bytes;

    #[test]
    fn worked_words() {
        let fields = reset_with(&[(0, 2), (1, 1), (7, 1), (8, 0x80FF0000), (9, 1), (21, 2), (22, 1), (23, 8), (24, 16384)]);
        assert_eq!(written(&fields, 80), Ok(bytes(&WORKED)));
        assert_eq!(written(&fields, 79), Err(12));
        assert_eq!(written(&reset_with(&[(0, 8192)]), 0), Err(24));
        assert_eq!(written(&reset_with(&[(4, 1)]), 100), Err(24));
        assert!(written(&reset_with(&[(2, 7)]), 100).is_ok());
    }

    /// The group of the steps stands at bytes 24 to 43, and the rest is as in the first form.
    #[test]
    fn second_form() {
        let fields = reset_with(&[(0, 2), (1, 1), (7, 2), (8, 0x80FF0000), (9, 1), (21, 2), (22, 1), (23, 8), (24, 16384)]);
        let (first, second) =
            (written(&fields, 80).unwrap(), shaded_written(&fields, &[1, 2, 3, 0x01FF_FFFF], 100).unwrap());
        assert_eq!([&second[..24], &second[44..]].concat(), first);
        assert_eq!(second[24..44], bytes(&[0x0030_0010, 1, 2, 3, 0x01FF_FFFF]));
        assert_eq!(shaded_written(&fields, &[0; 4], 99), Err(12));
        assert_eq!(shaded_written(&fields, &[0, 0, 0, 0x0200_0000], 0), Err(24));
    }
}
