//! The sample `columns`: a page of two columns (02, request 7). Strips go from the left column to the right one of the same page;
//! their spans meet, their rows do not.
use crate::made_tasks::{Fields, DESTINATION};
use crate::sample_page::page;
use crate::sample_tasks::{batch, blended, copy, file, fill, set, Place};

/// A strip of the left column, from line y on.
fn left(y: u32, height: u32) -> Place {
    page().part(2, y, 28, height)
}

/// The right column begins 32 pixels on.
fn right(y: u32, height: u32) -> Place {
    page().part(34, y, 28, height)
}

/// Paper, a line between the columns, and in the left one a strip of bars with a tinted end.
fn drawn_left() -> Vec<Fields> {
    let mut tasks = vec![fill(page(), 0xFFFA_F6EC), fill(page().part(31, 2, 2, 44), 0xFF24_5A9C)];
    for i in 0..4u32 {
        let colour = 0xFF00_0000 | (0x30 + 40 * i) << 16 | (0xC0 - 32 * i) << 8 | 0x60;
        tasks.push(fill(left(4 + 3 * i, 2).part(0, 0, 10 + 6 * i, 2), colour));
    }
    tasks.push(blended(fill(left(4, 11).part(20, 0, 8, 11), 0x6000_2040), "SRC_OVER"));
    tasks
}

/// The strip of the left column, tinted, into the right one: what is blended with lies in the other column.
fn tinted() -> Fields {
    let mut fields = blended(fill(right(30, 11), 0x8080_4000), "SRC_OVER");
    set(&mut fields, DESTINATION, left(4, 11));
    fields
}

/// The last batch is faulty: from its place on, the strip's rows run over the page's edge into the next lines, on the source.
pub fn replay() -> Vec<u8> {
    let (strip, edge) = (left(4, 11), page().part(37, 4, 28, 11));
    let copies = [copy(strip, right(4, 11), 0, 0, 0), copy(strip, right(17, 11), 2, 0, 0), tinted()];
    let across = [copy(page().part(0, 4, 28, 11), edge, 0, 0, 0)];
    file(&[(0, batch(&drawn_left())), (0, batch(&copies)), (0, batch(&across))])
}
