//! The sample `scan`: a stamp whose colours the scanner has multiplied by their alphas, laid on a page three times (02, request 12).
use crate::made_tasks::Fields;
use crate::pixel::near;
use crate::sample_page::page;
use crate::sample_tasks::{batch, blended, copy, file, fill, Place};
use crate::writer::field::PREMULTIPLIED;

const PAPER: u32 = 0xFFFA_F6EC;
const INK: u32 = 0xFF3A_3A44;
const STAMP: [u8; 3] = [0xD8, 0x28, 0x48];
const COLUMNS: u32 = 30;

/// The stamp as it is delivered: at the top of the page, clear on the left and solid on the right.
fn stamp() -> Place {
    page().part(2, 2, 2 * COLUMNS, 8)
}

fn delivered(alpha: u8) -> u32 {
    let multiplied = |c: u8| near(u32::from(c) * u32::from(alpha));
    STAMP.iter().fold(u32::from(alpha), |word, c| word << 8 | multiplied(*c))
}

fn page_and_stamp() -> Vec<Fields> {
    let column = |x: u32| fill(stamp().part(2 * x, 0, 2, 8), delivered((255 * x / (COLUMNS - 1)) as u8));
    let line = |y: u32| fill(page().part(0, y, 64, 1), INK);
    [fill(page(), PAPER)].into_iter().chain((12..48).step_by(3).map(line)).chain((0..COLUMNS).map(column)).collect()
}

/// By NONE, which multiplies by alpha, as it is and divided; and by SRC_OVER, which takes it as delivered.
fn laid() -> [Fields; 3] {
    let place = |y: u32| page().part(2, y, 2 * COLUMNS, 8);
    let once = |y: u32, rule: &str| blended(copy(stamp(), place(y), 0, 0, 0), rule);
    let mut divided = once(26, "NONE");
    divided[PREMULTIPLIED] = 1;
    [once(14, "NONE"), divided, once(38, "SRC_OVER")]
}

pub fn replay() -> Vec<u8> {
    file(&[(0, batch(&page_and_stamp())), (0, batch(&laid()))])
}
