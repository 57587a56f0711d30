//! The samples `page`, a page of 64 by 48 pixels, which fills the first client's window, and `lost_tint`, an entry of it.
use crate::made_tasks::Fields;
use crate::replay::window_start;
use crate::ring;
use crate::sample_tasks::{batch, blended, copy, file, fill, Place, ARGB8888};
use crate::words::bytes;

const PAPER: u32 = 0xFFFA_F6EC;
const INK: u32 = 0xFF3A_3A44;
const STRIP: u32 = 0xFF24_5A9C;

pub fn page() -> Place {
    Place { address: window_start(0), stride: 256, width: 64, height: 48, format: ARGB8888 }
}

/// Paper, a strip over the top with three buttons and a title.
fn top() -> Vec<Fields> {
    let mut tasks = vec![fill(page(), PAPER), fill(page().part(0, 0, 64, 7), STRIP)];
    for (i, colour) in [0xFFE0_5545, 0xFFE8_B93A, 0xFF5F_B65A].into_iter().enumerate() {
        tasks.push(fill(page().part(3 + 5 * i as u32, 2, 3, 3), colour));
    }
    tasks.push(fill(page().part(24, 3, 22, 1), 0xFFFF_FFFF));
    tasks
}

/// Words of a line of text, as bars: where each starts and how long it is.
const WORDS: [&[(u32, u32)]; 7] = [
    &[(3, 6), (10, 3), (14, 9), (24, 5)],
    &[(3, 3), (7, 8), (16, 4), (21, 8)],
    &[(3, 10), (14, 5), (20, 7)],
    &[(3, 4), (8, 7), (16, 11)],
    &[(3, 8), (12, 3), (16, 6), (23, 5)],
    &[(3, 5), (9, 9), (19, 8)],
    &[(3, 7), (11, 4)],
];

fn text() -> Vec<Fields> {
    let line = |(i, words): (usize, &&[(u32, u32)])| {
        let y = 11 + 4 * i as u32;
        words.iter().map(move |(x, length)| fill(page().part(*x, y, *length, 2), INK)).collect::<Vec<Fields>>()
    };
    WORDS.iter().enumerate().flat_map(line).collect()
}

/// A sky of eight bands in a frame, and under it the same bands upside down, as in water.
fn picture() -> Vec<Fields> {
    let mut tasks = vec![fill(page().part(34, 10, 28, 22), INK)];
    for band in 0..8u32 {
        let colour = 0xFF00_0000 | (0x38 + 24 * band) << 16 | (0x68 + 12 * band) << 8 | (0xC8 - 14 * band);
        tasks.push(fill(page().part(35, 11 + band, 26, 1), colour));
    }
    tasks.push(fill(page().part(50, 13, 5, 4), 0xFFFF_F2B0));
    tasks.push(copy(page().part(35, 11, 26, 8), page().part(35, 20, 26, 8), 0, 0, 1));
    tasks.push(blended(fill(page().part(35, 20, 26, 8), 0x6000_2040), "SRC_OVER"));
    tasks.push(fill(page().part(35, 28, 26, 3), PAPER));
    tasks.push(fill(page().part(37, 29, 14, 1), INK));
    tasks
}

/// Tints over the text and the lower corner; the bottom strip is the top one after two quarter turns.
fn tints() -> Vec<Fields> {
    vec![
        blended(fill(page().part(2, 18, 28, 4), 0x8080_7000), "SRC_OVER"),
        blended(fill(page().part(2, 30, 28, 4), 0x5030_5010), "SRC_OVER"),
        blended(fill(page().part(0, 7, 64, 2), 0x4000_0000), "SRC_OVER"),
        copy(page().part(0, 0, 64, 7), page().part(0, 41, 64, 7), 2, 0, 0),
        blended(fill(page().part(0, 41, 64, 7), 0x6000_0000), "SRC_OVER"),
    ]
}

pub fn replay() -> Vec<u8> {
    file(&[(0, batch(&top())), (0, batch(&text())), (0, batch(&picture())), (0, batch(&tints()))])
}

/// An entry of the page is written and tinted. It is then written anew, without its tint. The batch that was to tint it again
/// faults: 0x090 was to be 0x00000B01, SRC_OVER, and is given a code that no factor has.
pub fn lost_tint() -> Vec<u8> {
    let entry = page().part(2, 4, 28, 4);
    let written = |words: &[(u32, u32)]| -> Vec<Fields> {
        let word = |(x, length): &(u32, u32)| fill(page().part(*x, 5, *length, 2), INK);
        std::iter::once(fill(entry, PAPER)).chain(words.iter().map(word)).collect()
    };
    let tint = batch(&[blended(fill(entry, 0x8080_7000), "SRC_OVER")]);
    let mut spoilt = ring::words(&tint, 0, tint.len() as u64);
    spoilt[13] = 0x0000_3B01;
    let first = [vec![fill(page().part(0, 0, 64, 12), PAPER)], written(WORDS[0])].concat();
    file(&[(0, batch(&first)), (0, tint), (0, batch(&written(WORDS[1]))), (0, bytes(&spoilt))])
}
