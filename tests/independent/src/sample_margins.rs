//! The sample `margins`: a page whose margins are shaded (02, request 3), along x at its sides and along y at its head and foot.
use crate::gradient::Steps;
use crate::made_tasks::Fields;
use crate::sample_page::page;
use crate::sample_tasks::{batch, blended, file, fill, shaded, shaded_batch, Place};
use crate::writer::field::{FLIP_H, FLIP_V};

const PAPER: u32 = 0xFFFA_F6EC;
const INK: u32 = 0xFF3A_3A44;
const ALONG_X: u32 = 2;
const ALONG_Y: u32 = 3;

/// From one colour to another in a number of places: the steps of A, R, G and B.
fn steps(from: u32, to: u32, places: i64) -> Steps {
    let (from, to) = (from.to_be_bytes(), to.to_be_bytes());
    std::array::from_fn(|k| ((i64::from(to[k]) - i64::from(from[k])) * 65536 / places) as u32 & 0x01FF_FFFF)
}

fn flipped(mut fields: Fields, flip: usize) -> Fields {
    fields[flip] = 1;
    fields
}

/// A margin from a colour to the paper's, and the same flipped on the other side of the page.
fn pair(mode: u32, near: Place, far: Place, colour: u32, places: i64) -> [(Fields, Steps); 2] {
    let (along, flip) = (steps(colour, PAPER, places), if mode == ALONG_X { FLIP_H } else { FLIP_V });
    [(shaded(near, mode, colour), along), (flipped(shaded(far, mode, colour), flip), along)]
}

/// Paper and lines of text.
fn written() -> Vec<Fields> {
    let mut tasks = vec![fill(page(), PAPER)];
    tasks.extend((0..6).map(|line| fill(page().part(14, 13 + 4 * line, 36 - 5 * (line % 3), 1), INK)));
    tasks
}

fn margins() -> Vec<(Fields, Steps)> {
    let side = |x| page().part(x, 0, 12, 48);
    let edge = |y| page().part(12, y, 40, 10);
    let mut tasks = pair(ALONG_X, side(0), side(52), 0xFF24_5A9C, 12).to_vec();
    tasks.extend(pair(ALONG_Y, edge(0), edge(38), 0xFFB0_4820, 10));
    tasks
}

/// A fade that is blended: its alpha goes from all to none. The first form after it has its steps, and so goes on with them.
fn faded() -> Vec<u8> {
    let fade = blended(shaded(page().part(14, 16, 36, 7), ALONG_X, 0xC0F0_7010), "NONE");
    let again = blended(shaded(page().part(14, 25, 36, 7), ALONG_X, 0xC010_7030), "NONE");
    [shaded_batch(&[(fade, steps(0xC000_0000, 0, 36))]), batch(&[again])].concat()
}

pub fn replay() -> Vec<u8> {
    file(&[(0, batch(&written())), (0, shaded_batch(&margins())), (0, faded())])
}
