//! Random tasks for a client: such as pass all rules, and such as are meant to break one of 25 to 28. Fields are numbered as
//! in the writer's list.
use crate::batch::{judge, Bounds};
use crate::gradient::{Steps, STEP_BITS};
use crate::pixel::{format, FORMATS, RULES};
use crate::random::Random;
use crate::surface::Run;
use crate::writer::field::{
    ADDRESS, BLEND, DESTINATION_ENABLE, FORMAT, HEIGHT, PREMULTIPLIED, SOURCE_ENABLE, SOURCE_MODE, STRIDE, TURNS, WIDTH,
};
pub use crate::writer::field::{DESTINATION, OUTPUT, SOURCE};
use crate::writer::{registers, reset_with};

pub type Fields = [u32; 30];

/// Width and height.
pub type Sides = (u32, u32);

/// Bytes of a surface from its first to its last.
fn span(sides: Sides, stride: u32, format: usize) -> u32 {
    stride * (sides.1 - 1) + sides.0 * FORMATS[format].bytes as u32
}

/// A place for a surface in a range of bytes, often at one of its ends. Where there is no room it starts at the range's start.
fn placed(random: &mut Random, run: &Run, sides: Sides) -> [u32; 5] {
    let format = random.below(3) as usize;
    let stride = (sides.0 * FORMATS[format].bytes as u32).div_ceil(8) * 8 + 8 * random.pick(&[0, 0, 1, 3]);
    let room = (run.end - run.start) as u32;
    let slack = room.saturating_sub(span(sides, stride, format));
    let offset = match random.below(4) {
        0 => 0,
        1 => slack,
        _ => random.below(slack + 1),
    };
    [sides.0, sides.1, stride, run.start as u32 + offset, FORMATS[format].code]
}

/// Where a surface that is read may lie.
fn readable(random: &mut Random, bounds: &Bounds) -> Run {
    if bounds.common >= 16 && random.one_in(2) {
        return 0..bounds.common;
    }
    bounds.window.clone()
}

fn set(fields: &mut Fields, base: usize, surface: [u32; 5]) {
    fields[base..base + 5].copy_from_slice(&surface);
}

/// Bytes of a row of the surface whose fields begin at `base`.
fn row_length(fields: &Fields, base: usize) -> u32 {
    fields[base + WIDTH] * format(fields[base + FORMAT]).map_or(4, |format| format.bytes as u32)
}

/// Puts what is read at `base` and the output on one page (02, request 7): with one stride, so that they lie in two columns, one
/// below the other, across the end of a line, or on one another. Now and then their strides differ after all.
fn on_one_page(random: &mut Random, window: &Run, fields: &mut Fields, base: usize) {
    let (first, second) = if random.one_in(2) { (base, OUTPUT) } else { (OUTPUT, base) };
    let (a, b) = (row_length(fields, first), row_length(fields, second));
    let stride = random.pick(&[a.max(b), a + b, a + b, a + b + 8, 2 * (a + b)]).next_multiple_of(8).max(8);
    (fields[first + STRIDE], fields[second + STRIDE]) = (stride, stride);
    let any = (random.below(fields[first + HEIGHT] + 1), random.below(stride));
    let down = random.pick(&[0, 0, 1, any.0]);
    let across = random.pick(&[a, a.saturating_sub(1), stride.saturating_sub(b), stride.saturating_sub(b) + 1, any.1]);
    let offset = stride * down + across;
    let bytes = |at: usize| stride * fields[at + HEIGHT].saturating_sub(1) + row_length(fields, at);
    let taken = bytes(first).max(offset + bytes(second));
    let slack = ((window.end - window.start) as u32).saturating_sub(taken);
    fields[first + ADDRESS] = window.start as u32 + random.below(slack + 1);
    fields[second + ADDRESS] = fields[first + ADDRESS] + offset;
    if random.one_in(5) {
        fields[base + STRIDE] += 8;
    }
}

/// A task that passes more often than not.
fn attempt(random: &mut Random, bounds: &Bounds, longest: Sides) -> Fields {
    let (w, h) = (1 + random.below(longest.0), 1 + random.below(longest.1));
    let is_colour = random.one_in(3);
    let mode = if is_colour { 1 + random.below(3) } else { 0 };
    let turns = if is_colour { 0 } else { random.below(4) };
    let turned = if turns % 2 == 0 { (w, h) } else { (h, w) };
    let source = if is_colour { [w, h, 0, 0, 0] } else { placed_readable(random, bounds, (w, h)) };
    let output = placed(random, &bounds.window, turned);
    let blends = random.one_in(2);
    let colour = if is_colour { random.word() } else { 0 };
    let mut fields = reset_with(&[(SOURCE_MODE, mode), (8, colour), (SOURCE_ENABLE, 1), (TURNS, turns)]);
    set(&mut fields, SOURCE, source);
    set(&mut fields, OUTPUT, output);
    (fields[10], fields[11]) = (random.below(2), random.below(2));
    if !is_colour && random.one_in(3) {
        on_one_page(random, &bounds.window, &mut fields, SOURCE);
    }
    if blends || random.one_in(6) {
        set_destination(random, bounds, &mut fields, turned);
        (fields[DESTINATION_ENABLE], fields[BLEND]) = (1, blends.into());
        blending(random, &mut fields);
    }
    fields
}

/// A destination: the output itself, on one page with it, or anywhere.
fn set_destination(random: &mut Random, bounds: &Bounds, fields: &mut Fields, sides: Sides) {
    let place = random.below(4);
    if place < 2 {
        fields.copy_within(OUTPUT..OUTPUT + 5, DESTINATION);
        return;
    }
    let destination = placed_readable(random, bounds, sides);
    set(fields, DESTINATION, destination);
    if place == 2 {
        on_one_page(random, &bounds.window, fields, DESTINATION);
    }
}

fn placed_readable(random: &mut Random, bounds: &Bounds, sides: Sides) -> [u32; 5] {
    let run = readable(random, bounds);
    placed(random, &run, sides)
}

/// Alpha modes, global alphas and factors, by a rule's name or any two; a source that is premultiplied or not.
fn blending(random: &mut Random, fields: &mut Fields) {
    for mode in [5, 18] {
        fields[mode] = random.below(3);
        fields[mode + 1] = random.below(256);
    }
    let (_, source, destination) = random.pick(&RULES);
    (fields[26], fields[27]) =
        if random.one_in(2) { (source.into(), destination.into()) } else { (random.below(6), random.below(6)) };
    fields[PREMULTIPLIED] = random.one_in(3).into();
}

/// Steps: none, such as go from end to end in a few places either way, at the limits, or any.
pub fn steps(random: &mut Random) -> Steps {
    let kind = random.below(4);
    std::array::from_fn(|_| match kind {
        0 => 0,
        1 => random.below(0x80_0000).wrapping_sub(0x40_0000) & STEP_BITS,
        2 => random.pick(&[1, 0x8000, 0x1_0000, 0x0FF_FFFF, 0x100_0000, 0x1FF_0000, 0x1FF_8000, 0x1FF_FFFF]),
        _ => random.word() & STEP_BITS,
    })
}

/// Whether a task of these fields passes 24 to 28.
fn passes(fields: &Fields, bounds: &Bounds) -> bool {
    registers(fields).is_some_and(|bank| judge(&bank.task(), bounds).is_none())
}

/// A task that passes, if one is found in a few attempts, the later of them at smaller ones.
pub fn good(random: &mut Random, bounds: &Bounds) -> Fields {
    good_up_to(random, bounds, (7, 5))
}

/// The same, the first attempts at sides up to these.
pub fn good_up_to(random: &mut Random, bounds: &Bounds, longest: Sides) -> Fields {
    let mut fields = attempt(random, bounds, longest);
    for sides in [longest, (4, 4), (4, 3), (3, 3), (2, 3), (2, 2), (2, 1), (1, 1), (1, 1), (1, 1)] {
        if passes(&fields, bounds) {
            break;
        }
        fields = attempt(random, bounds, sides);
    }
    fields
}

/// A task made to break the rule of a fault, 25 to 28.
pub fn broken(random: &mut Random, bounds: &Bounds, fault: u32) -> Fields {
    let mut fields = good(random, bounds);
    match fault {
        25 => break_surface(random, &mut fields),
        26 => break_sizes(random, &mut fields),
        27 => break_place(random, bounds, &mut fields),
        _ => break_apart(random, bounds, &mut fields),
    }
    fields
}

fn break_surface(random: &mut Random, fields: &mut Fields) {
    let base = random.pick(&[SOURCE, DESTINATION, OUTPUT, OUTPUT]);
    match random.below(6) {
        0 => fields[base + WIDTH] = random.pick(&[0, 4096, 4097, 8191]),
        1 => fields[base + HEIGHT] = random.pick(&[0, 4096, 4097, 8191]),
        2 => fields[base + STRIDE] |= 1 << random.below(3),
        3 => fields[base + STRIDE] = fields[base + STRIDE].saturating_sub(8),
        4 => fields[SOURCE_ENABLE] = 0,
        _ => (fields[BLEND], fields[DESTINATION_ENABLE]) = (1, 0),
    }
}

fn break_sizes(random: &mut Random, fields: &mut Fields) {
    match random.below(4) {
        0 => (fields[SOURCE_MODE], fields[TURNS]) = (1 + random.below(3), 1 + random.below(3)),
        1 => fields[OUTPUT + HEIGHT] += 1,
        2 => fields[SOURCE + random.below(2) as usize] += 1,
        _ => {
            fields.copy_within(OUTPUT..OUTPUT + 5, DESTINATION);
            fields[DESTINATION + HEIGHT] += 1 + random.below(3);
            (fields[BLEND], fields[DESTINATION_ENABLE]) = (1, 1);
        }
    }
}

/// An address at or past an edge of what the client may touch.
fn break_place(random: &mut Random, bounds: &Bounds, fields: &mut Fields) {
    let base = random.pick(&[SOURCE, DESTINATION, OUTPUT, OUTPUT]);
    let (start, end) = (bounds.window.start as u32, bounds.window.end as u32);
    let edges = [start, end, bounds.common as u32, u32::MAX, 0, fields[base + ADDRESS]];
    let edge = random.pick(&edges);
    let step = random.pick(&[0, 1, 2, 4, 8, 40]);
    fields[base + ADDRESS] = if random.one_in(2) { edge.wrapping_sub(step) } else { edge.wrapping_add(step) };
}

/// The source, or the destination, on a part of the output, or on one page with it.
fn break_apart(random: &mut Random, bounds: &Bounds, fields: &mut Fields) {
    let base = random.pick(&[SOURCE, DESTINATION]);
    let format = fields[base + FORMAT];
    fields.copy_within(OUTPUT..OUTPUT + 5, base);
    (fields[SOURCE_MODE], fields[TURNS]) = (u32::from(base == DESTINATION), 0);
    fields[SOURCE + WIDTH] = fields[OUTPUT + WIDTH];
    fields[SOURCE + HEIGHT] = fields[OUTPUT + HEIGHT];
    let step = random.pick(&[0, 1, 2, 3, 4, 8, 24]);
    fields[base + ADDRESS] =
        if random.one_in(2) { fields[base + ADDRESS].wrapping_sub(step) } else { fields[base + ADDRESS] + step };
    if random.one_in(4) {
        fields[base + FORMAT] = format;
    }
    if random.one_in(2) {
        on_one_page(random, &bounds.window, fields, base);
    }
    if random.one_in(4) {
        fields[base + STRIDE] += 8;
    }
    fields[BLEND] = u32::from(base == DESTINATION);
    fields[DESTINATION_ENABLE] = fields[BLEND];
}

#[cfg(test)]
mod tests {
    use super::*;

    /// Most tasks pass, and each fault comes often where it is meant.
    #[test]
    fn as_meant() {
        let bounds = Bounds { window: 700..1900, common: 512 };
        let mut random = Random::new(5);
        assert!((0..1000).filter(|_| passes(&good(&mut random, &bounds), &bounds)).count() > 990);
        for fault in 25..29 {
            let task =
                |random: &mut Random| registers(&broken(random, &bounds, fault)).map(|bank| judge(&bank.task(), &bounds));
            let met = (0..1000).filter(|_| task(&mut random) == Some(Some(fault))).count();
            assert!(met > 300, "{fault}: {met}");
        }
    }
}
