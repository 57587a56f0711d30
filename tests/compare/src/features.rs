//! What tasks differ in, and how often each of it came.
use crate::trials::Agreed;
use independent::drawn_files::LONGEST;
use independent::pixel::FORMATS;
use independent::registers::Task;
use independent::replay::COMMON;
use independent::surface::Surface;
use std::collections::BTreeMap;

/// A thing that tasks differ in: its name, how many there are of it, and which a task has, if any.
type Feature = (&'static str, usize, fn(&Task) -> Option<u32>);

const FEATURES: [Feature; 11] = [
    ("widths of the output", LONGEST.0 as usize, |task| Some(task.output.width.into())),
    ("widths of the output, blended", LONGEST.0 as usize, |task| task.blend.then_some(task.output.width.into())),
    ("pairs of factors", 36, |task| task.blend.then(|| pair(task))),
    ("pairs of factors with the source premultiplied", 36, |task| (task.blend && task.premultiplied).then(|| pair(task))),
    ("alpha modes of source and destination, premultiplied or not", 18, |task| task.blend.then(|| alphas(task))),
    ("global alphas of a source that has one", 256, |task| global(task.blend, task.source_alpha)),
    ("global alphas of a destination that has one", 256, |task| global(task.blend, task.destination_alpha)),
    ("formats of source and output, unblended", 9, |task| (task.has_buffer() && !task.blend).then(|| formats(task) % 9)),
    ("formats of source, output and destination, blended", 27, |task| {
        (task.has_buffer() && task.blend).then(|| formats(task))
    }),
    ("flips and turns, blended or not", 32, |task| task.has_buffer().then(|| setting(task))),
    ("sources and destinations by where they are", 20, |task| Some(places(task))),
];

fn pair(task: &Task) -> u32 {
    u32::from(6 * task.factors.0 + task.factors.1)
}

fn alphas(task: &Task) -> u32 {
    6 * task.source_alpha.0 + 2 * task.destination_alpha.0 + u32::from(task.premultiplied)
}

fn global(blend: bool, (mode, alpha): (u32, u8)) -> Option<u32> {
    (blend && mode != 0).then_some(alpha.into())
}

fn formats(task: &Task) -> u32 {
    let number =
        |surface: &Surface| FORMATS.iter().position(|format| format.code == surface.format.code).expect("a format") as u32;
    number(&task.source) + 3 * number(&task.output) + 9 * number(&task.destination)
}

fn setting(task: &Task) -> u32 {
    let [horizontal, vertical, blend] = [task.setting.horizontal, task.setting.vertical, task.blend].map(u32::from);
    u32::from(task.setting.turns) + 4 * horizontal + 8 * vertical + 16 * blend
}

/// Sources in common, in the window, of a colour, shaded along x and along y; destinations that are not there, are the output, lie elsewhere in the window,
/// and in common.
fn places(task: &Task) -> u32 {
    let in_common = |surface: &Surface| surface.address < COMMON;
    let source = if task.has_buffer() { u32::from(in_common(&task.source)) } else { 1 + task.mode };
    let destination = match &task.destination {
        _ if !task.blend => 0,
        there if there.address == task.output.address => 1,
        there if !in_common(there) => 2,
        _ => 3,
    };
    5 * destination + source
}

/// How often each came.
#[derive(Default)]
pub struct Features([BTreeMap<u32, u64>; FEATURES.len()]);

impl Features {
    pub fn add(&mut self, task: &Task) {
        for ((.., of), came) in FEATURES.iter().zip(&mut self.0) {
            if let Some(which) = of(task) {
                *came.entry(which).or_default() += 1;
            }
        }
    }

    /// Whether all came, each at least so often as is printed.
    pub fn all_came(&self) -> Agreed {
        for ((name, many, _), came) in FEATURES.iter().zip(&self.0) {
            println!("{:>12}  tasks with each of {many} {name}, at least", came.values().min().unwrap_or(&0));
            if came.len() != *many {
                return Err(format!("{} of the {many} {name} came", came.len()));
            }
        }
        Ok(())
    }
}
