//! Random replay files of edition 1 that draw: each window is filled with pixels, and over them come batches of tasks as wide as a row's loops have parts,
//! in all settings. What is read lies in the window or in common, which no client of a replay file can write: there all is zero.
use crate::batch::Bounds;
use crate::made_batches::joined;
use crate::made_pixels::pixels;
use crate::made_tasks::{good_up_to, Fields, Sides};
use crate::random::Random;
use crate::registers::UNBLENDED;
use crate::replay::{window_start, COMMON, WINDOW};
use crate::sample_tasks::{bytes_drawn, file as file_of};
use crate::words::bytes;

/// Sides of the tasks, at most.
pub const LONGEST: Sides = (70, 5);

/// Parts of a window. Each has a batch of its own, so that little of what is drawn is drawn over.
const PARTS: u32 = 3;
const PART: u32 = WINDOW / PARTS;

/// A few tasks in a part of the window, as one batch.
fn batch_from(random: &mut Random, start: u32) -> Vec<u8> {
    let bounds = Bounds { window: start.into()..u64::from(start + PART), common: COMMON.into() };
    let tasks: Vec<Fields> = (0..1 + random.below(4)).map(|_| good_up_to(random, &bounds, LONGEST)).collect();
    bytes(&joined(random, &tasks, 400, UNBLENDED))
}

/// The batches of a client.
fn batches(random: &mut Random, client: u32) -> Vec<Vec<u8>> {
    let start = window_start(client);
    let mut batches = bytes_drawn(start, &pixels(random, WINDOW as usize / 4));
    batches.extend((0..PARTS).map(|part| batch_from(random, start + PART * part)));
    batches
}

/// The file of a number.
pub fn file(seed: u64, number: u64) -> Vec<u8> {
    let random = &mut Random::of_case(seed, number);
    let of_client = |client: u32| batches(random, client).into_iter().map(move |batch| (client as u8, batch));
    file_of(&(0..4).flat_map(of_client).collect::<Vec<(u8, Vec<u8>)>>())
}
