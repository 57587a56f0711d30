//! A file of edition 2: the same tasks as a file of edition 1 would have, blended unless told otherwise, and records with bad scores.
use crate::replay::window_start;
use crate::sample_tasks::{batch, fill, Place, ARGB8888};
use crate::second::record;
use crate::words::bytes;
use crate::writer::WORKED;

/// A page, and a tint by a good score, one without a word for blending, so that the reset's is taken; bad scores between them, a refused record,
/// a fault after a good task, and a record that is cut.
pub fn scored() -> Vec<u8> {
    let page = Place { address: window_start(0), stride: 64, width: 16, height: 8, format: ARGB8888 };
    let whole = batch(&[fill(page, 0xFF20_60C0)]);
    // The worked words without the group of 0x090: blending is what it is at reset, and the destination has no size.
    let unsaid = [&WORKED[..12], &WORKED[14..]].concat();
    let with_destination = |words: &[u32]| {
        let mut words = words.to_vec();
        words[7..10].copy_from_slice(&[0x0000_0001, 0x0001_0002, 0x0000_0008]);
        words[11] = 0x0000_4000;
        words
    };
    let mut file = vec![2];
    let mut add = |client: u8, score: u32, batch: &[u8]| file.extend(record(client, score, batch));
    add(0, 0x3F00_0000, &whole);
    add(0, 0x7FC0_0000, &whole);
    add(9, 0xBF80_0000, &whole);
    add(9, 0x3F80_0000, &whole);
    add(0, 0x8000_0000, &bytes(&unsaid));
    add(0, 0x0000_0000, &bytes(&with_destination(&unsaid)));
    add(0, 0x3F80_0001, &whole);
    add(0, 0x3F80_0000, &[]);
    let own = batch(&[fill(Place { address: window_start(1), ..page }, 0xFF40_E040)]);
    add(1, 0x3E80_0000, &[own, bytes(&[0x0024_0005, 0])].concat());
    add(2, 0x0000_0001, &bytes(&WORKED));
    file.truncate(file.len() - 3);
    file
}
