//! The replay files of the samples, one function each.
use crate::made_batches::difference;
use crate::made_tasks::Fields;
use crate::pixel::RULES;
use crate::registers::{Bank, UNBLENDED};
use crate::replay::{record, window_start};
use crate::sample_tasks::{batch, blended, copy, file, fill, Place, ARGB8888, RGB565, RGB888};
use crate::words::bytes;
use crate::writer::{registers, WORKED};

fn worked_with(changes: &[(usize, u32)]) -> Vec<u32> {
    let mut words = WORKED.to_vec();
    changes.iter().for_each(|(at, word)| words[*at] = *word);
    words
}

pub fn hello() -> Vec<u8> {
    file(&[(0, bytes(&WORKED))])
}

pub fn outside() -> Vec<u8> {
    file(&[(0, bytes(&worked_with(&[(19, 64)])))])
}

pub fn bad_version() -> Vec<u8> {
    [vec![2], record(0, &bytes(&WORKED))].concat()
}

pub fn bad_record() -> Vec<u8> {
    [hello(), vec![0, 0, 0, 0, 9]].concat()
}

/// A surface in client 0's window, from its start on.
fn sheet(width: u32, height: u32) -> Place {
    Place { address: window_start(0), stride: 4 * width.next_multiple_of(2), width, height, format: ARGB8888 }
}

pub fn blend() -> Vec<u8> {
    let sheet = sheet(16, 8);
    file(&[(0, batch(&[fill(sheet, 0xFF20_60C0), blended(fill(sheet.part(4, 2, 8, 4), 0x8080_4000), "SRC_OVER")]))])
}

pub fn rules() -> Vec<u8> {
    let sheet = Place { stride: 256, ..sheet(64, 20) };
    let mut records = vec![(0, batch(&[fill(sheet, 0xFF00_0000)]))];
    for (i, (name, ..)) in RULES.iter().enumerate() {
        let cell = sheet.part(9 * (i as u32 % 7), 10 * (i as u32 / 7), 8, 8);
        let before = [fill(cell, 0), fill(cell.part(0, 0, 6, 6), 0xC020_40C0)];
        let drawn = blended(fill(cell.part(2, 2, 6, 6), 0x90F0_9020), name);
        records.push((0, batch(&[before[0], before[1], drawn])));
    }
    file(&records)
}

pub fn turn() -> Vec<u8> {
    let sheet = sheet(64, 28);
    let letter = sheet.part(1, 1, 4, 6);
    let mut tasks = vec![fill(sheet, 0xFFFF_FFFF), fill(letter.part(0, 0, 1, 6), 0xFFC0_3030)];
    tasks.push(fill(letter.part(0, 0, 4, 1), 0xFF30_30C0));
    tasks.push(fill(letter.part(0, 2, 3, 1), 0xFF30_9030));
    for setting in 0..16u32 {
        let (turns, flips) = (setting % 4, setting / 4);
        let (w, h) = if turns % 2 == 0 { (4, 6) } else { (6, 4) };
        let (x, y) = (1 + 8 * (setting % 8), 10 + 9 * (setting / 8));
        tasks.push(copy(letter, sheet.part(x, y, w, h), turns, flips % 2, flips / 2));
    }
    file(&[(0, batch(&tasks))])
}

pub fn formats() -> Vec<u8> {
    let first = sheet(16, 8);
    let at = |offset, stride, format| Place { address: first.address + offset, stride, format, ..first };
    let (rgb888, rgb565, back) = (at(1024, 48, RGB888), at(2048, 32, RGB565), at(3072, 64, ARGB8888));
    let bar =
        |x: u32| fill(first.part(x, 0, 1, 8), (x * 17) << 24 | (255 - 15 * x) << 16 | (9 * x + 64) << 8 | (x * 16 + 5));
    let tasks: Vec<Fields> = (0..16).map(bar).collect();
    let copies = [copy(first, rgb888, 0, 0, 0), copy(first, rgb565, 0, 0, 0), copy(rgb565, back, 0, 0, 0)];
    file(&[(0, batch(&tasks)), (0, batch(&copies))])
}

pub fn four_clients() -> Vec<u8> {
    let at = |desk: u32| Place { address: window_start(desk), ..sheet(8, 2) };
    let mut records: Vec<(u8, Vec<u8>)> =
        (0..4).map(|desk| (desk as u8, batch(&[fill(at(desk), 0xFF00_0000 | 0x40 << (8 * (desk % 3)))]))).collect();
    records.push((1, batch(&[fill(at(0), 0xFFFF_FFFF)])));
    records.push((1, batch(&[copy(at(0), at(1), 0, 0, 0)])));
    file(&records)
}

/// The words that take the registers from reset to a task's, or from one task's to the next one's.
fn change(before: Option<&Fields>, after: &Fields) -> Vec<u32> {
    let bank = |fields: &Fields| registers(fields).expect("allowed fields");
    difference(&before.map_or_else(|| Bank::reset(UNBLENDED), bank), &bank(after))
}

pub fn left_over() -> Vec<u8> {
    let sheet = sheet(8, 2);
    let narrow = Place { stride: 32, format: RGB565, ..sheet };
    let mixed = blended(fill(narrow, 0x80FF_8000), "ADD");
    let plain = fill(sheet.part(0, 0, 4, 2), 0xFF20_A040);
    let next = fill(sheet.part(4, 0, 4, 2), 0xFF20_A040);
    let both = [change(None, &plain), change(Some(&plain), &next)].concat();
    let alone = change(Some(&plain), &next);
    file(&[(0, bytes(&change(None, &mixed))), (0, bytes(&both)), (0, bytes(&alone))])
}

pub fn refused() -> Vec<u8> {
    let worked = bytes(&WORKED);
    file(&[(0, vec![]), (1, worked[..5].to_vec()), (7, worked.clone()), (7, vec![]), (0, worked)])
}

pub fn faults() -> Vec<u8> {
    let spoilt: [&[(usize, u32)]; 6] = [
        &[(0, 0x0010_0016)],
        &[(18, 0x0110_0009)],
        &[(18, 0x0110_0004)],
        &[(6, 0x0054_000C)],
        &[(1, 0x0000_0007)],
        &[(1, 0x0000_0004)],
    ];
    let sizes: [&[(usize, u32)]; 2] = [&[(16, 0x0001_0003), (17, 16)], &[(19, 28668)]];
    let mut records: Vec<(u8, Vec<u8>)> =
        spoilt.iter().chain(&sizes).map(|changes| (0, bytes(&worked_with(changes)))).collect();
    let sheet = sheet(8, 4);
    records.push((0, batch(&[copy(sheet.part(0, 0, 8, 3), sheet.part(0, 1, 8, 3), 0, 0, 0)])));
    file(&records)
}

pub fn cut() -> Vec<u8> {
    let whole = file(&[(0, bytes(&WORKED)), (1, bytes(&WORKED))]);
    whole[..whole.len() - 7].to_vec()
}

/// Two good tasks and then 23; two and then 21; one, one that reaches past the window, and one after that.
pub fn before_a_fault() -> Vec<u8> {
    let sheet = sheet(16, 8);
    let beyond = Place { address: window_start(1) - 4, ..sheet };
    let then = |tasks: &[Fields], words: &[u32]| (0, [batch(tasks), bytes(words)].concat());
    file(&[
        then(&[fill(sheet, 0xFFE0_4040), fill(sheet.part(4, 2, 8, 4), 0xFF40_E040)], &[0x0024_0005, 0]),
        then(&[fill(sheet.part(0, 0, 2, 8), 0xFF40_40E0), fill(sheet.part(14, 0, 2, 8), 0xFF40_40E0)], &[0x0010_0014]),
        then(&[fill(sheet.part(6, 3, 4, 2), 0xFFE0_E040), fill(beyond, 0xFF00_0000), fill(sheet, 0xFF00_0000)], &[]),
    ])
}

/// Two batches of 20,000 bytes in a ring of 32,768: the second goes on at byte 0. Each task sets a pixel of its own.
pub fn wrapped() -> Vec<u8> {
    let sheet = Place { stride: 256, ..sheet(64, 8) };
    let pixel = |i: u32| fill(sheet.part(i % 64, i / 64, 1, 1), 0xFF00_0000 | (i * 0x01_0A4F) % 0x0100_0000);
    let pixels = |from: u32| batch(&(from..from + 250).map(pixel).collect::<Vec<Fields>>());
    file(&[(0, pixels(0)), (0, pixels(250))])
}
