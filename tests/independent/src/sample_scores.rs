//! The sample `scores`: a page of handwriting whose words carry the reader's scores. The less sure the reader is of a word, the stronger its tint.
use crate::made_tasks::Fields;
use crate::sample_page::page;
use crate::sample_tasks::{batch, file, fill, Place};
use crate::tint;

const PAPER: u32 = 0xFFFA_F6EC;
const INK: u32 = 0xFF3A_3A44;
const DOUBT: tint::Tint = [0xF0, 0x70, 0x10];

/// The words of each line: where one starts, how long it is, and the reader's score.
const WORDS: [&[(u32, u32, f32)]; 7] = [
    &[(4, 8, 0.98), (14, 5, 0.95), (21, 13, 0.31), (36, 9, 0.99), (47, 12, 0.90)],
    &[(4, 12, 0.88), (18, 6, 1.0), (26, 10, 0.97), (38, 4, 0.12), (44, 14, 0.93)],
    &[(4, 5, 0.99), (11, 15, 0.50), (28, 8, 0.94), (38, 11, 0.96), (51, 7, 0.66)],
    &[(4, 10, 0.75), (16, 4, 0.99), (22, 14, 0.05), (38, 6, 0.92), (46, 13, 0.99)],
    &[(4, 6, 0.97), (12, 9, 0.91), (23, 12, 0.99), (37, 10, 0.42), (49, 6, 1.0)],
    &[(4, 14, 0.22), (20, 7, 0.96), (29, 5, 0.83), (36, 12, 0.99), (50, 9, 0.58)],
    &[(4, 9, 0.99), (15, 12, 0.94), (29, 6, 0.0)],
];

fn word(line: usize, x: u32, length: u32) -> Place {
    page().part(x, 4 + 5 * line as u32, length, 3)
}

fn written() -> Vec<Fields> {
    let mut tasks = vec![fill(page(), PAPER)];
    for (line, words) in WORDS.iter().enumerate() {
        tasks.extend(words.iter().map(|(x, length, _)| fill(word(line, *x, *length).part(0, 1, *length, 1), INK)));
    }
    tasks
}

fn tinted(place: Place, score: f32) -> Fields {
    tint::fields(score.to_bits(), DOUBT, place.fields()).expect("a score")
}

fn scored() -> Vec<Fields> {
    let line = |(line, words): (usize, &&[(u32, u32, f32)])| {
        words.iter().map(move |(x, length, score)| tinted(word(line, *x, *length), *score)).collect::<Vec<Fields>>()
    };
    WORDS.iter().enumerate().flat_map(line).collect()
}

/// The scores from 0 to 1 in 14 steps, as a scale along the foot of the page.
fn scale() -> Vec<Fields> {
    (0..15u32).map(|step| tinted(page().part(2 + 4 * step, 42, 4, 4), step as f32 / 14.0)).collect()
}

pub fn replay() -> Vec<u8> {
    file(&[(0, batch(&written())), (0, batch(&scored())), (0, batch(&scale()))])
}
