//! A batch read and judged (01, "Groups and registers" and "Faults of a taken batch"; 02, requests 5 and 7). A batch is taken apart into groups
//! first; the groups are then gone through in order.
use crate::registers::{size, Bank, Refusal, Task};
use crate::surface::{is_inside, Run, Surface};
use crate::transform::turned_size;

/// What a client may touch: its window, and as many bytes of common from address 0 on.
#[derive(Clone)]
pub struct Bounds {
    pub window: Run,
    pub common: u64,
}

#[derive(Clone, Copy, Debug, PartialEq)]
pub struct Fault {
    pub number: u32,
    pub place: u32,
}

impl Fault {
    /// 21 and 22 are errors of length, all others of a command.
    pub fn status(self) -> u32 {
        if self.number == 21 || self.number == 22 {
            0x0000_0100
        } else {
            0x0000_0002
        }
    }
}

/// The tasks in order, the fault that ended the reading, if one did, and the registers there. Tasks before a fault are listed too.
pub struct Reading {
    pub tasks: Vec<Task>,
    pub fault: Option<Fault>,
    pub last: Bank,
}

impl Reading {
    /// Status, fault number and place as run answers them. The upper half of the status is the number of tasks, before a fault too; the
    /// finish bit is clear then (02, request 5).
    pub fn answer(&self) -> [u32; 3] {
        let tasks = self.tasks.len() as u32 * 65536;
        match self.fault {
            Some(fault) => [tasks + fault.status(), fault.number, fault.place],
            None => [tasks + 1, 0, 0],
        }
    }

    /// The tasks that rule 28 was asked about.
    pub fn asked(&self) -> Vec<Task> {
        let met = self.fault.filter(|fault| fault.number == 28).map(|_| self.last.task());
        self.tasks.iter().copied().chain(met).collect()
    }
}

/// One group of a batch: its header and the words after it.
struct Group<'a> {
    place: u32,
    offset: u32,
    words: &'a [u32],
    ends_task: bool,
}

/// The group at a place of the batch, or the number of the fault of its header.
fn group(words: &[u32], at: usize) -> Result<Group<'_>, u32> {
    let header = words[at];
    if [1, 16, 17].iter().any(|bit| header >> bit & 1 == 1) {
        return Err(20);
    }
    let count = (header as u16 / 4) as usize;
    let follow = &words[at + 1..];
    if count == 0 || count > follow.len() {
        return Err(21);
    }
    Ok(Group { place: 4 * at as u32, offset: header >> 16, words: &follow[..count], ends_task: header & 1 == 1 })
}

/// Writes a group's words. A fault is placed at its word.
fn write(group: &Group, bank: &mut Bank) -> Result<(), Fault> {
    for (i, word) in group.words.iter().enumerate() {
        let i = i as u32;
        bank.write(group.offset + 4 * i, *word).map_err(|refusal| Fault {
            number: if refusal == Refusal::Offset { 23 } else { 24 },
            place: group.place + 4 + 4 * i,
        })?;
    }
    Ok(())
}

/// Reads a batch from a starting bank.
pub fn read(words: &[u32], bounds: &Bounds, start: &Bank) -> Reading {
    let mut reading = Reading { tasks: Vec::new(), fault: None, last: start.clone() };
    reading.fault = read_into(words, bounds, &mut reading).err();
    reading
}

fn read_into(words: &[u32], bounds: &Bounds, reading: &mut Reading) -> Result<(), Fault> {
    let mut at = 0;
    let mut open = None;
    while at < words.len() {
        let group = group(words, at).map_err(|number| Fault { number, place: 4 * at as u32 })?;
        write(&group, &mut reading.last)?;
        open = Some(group.place);
        if group.ends_task {
            let task = reading.last.task();
            if let Some(number) = judge(&task, bounds) {
                return Err(Fault { number, place: group.place });
            }
            reading.tasks.push(task);
            open = None;
        }
        at += 1 + group.words.len();
    }
    open.map_or(Ok(()), |place| Err(Fault { number: 22, place }))
}

fn has_bad_sides(surface: &Surface) -> bool {
    ![surface.width, surface.height].iter().all(|side| (1..=4096).contains(side))
}

fn has_bad_stride(surface: &Surface) -> bool {
    surface.stride % 8 != 0 || u64::from(surface.stride) < surface.row_length()
}

fn is_readable(surface: &Surface, bounds: &Bounds) -> bool {
    is_inside(&surface.span(), &bounds.window) || is_inside(&surface.span(), &(0..bounds.common))
}

/// What a task reads from memory: a source in a buffer, and the destination while it blends.
fn read_surfaces(task: &Task) -> [Option<&Surface>; 2] {
    [task.has_buffer().then_some(&task.source), task.blend.then_some(&task.destination)]
}

fn breaks_25(task: &Task) -> bool {
    let [buffer, destination] = read_surfaces(task);
    let with_sides = [Some(&task.source), Some(&task.output), destination];
    let in_memory = [buffer, Some(&task.output), destination];
    with_sides.iter().flatten().any(|s| has_bad_sides(s))
        || in_memory.iter().flatten().any(|s| has_bad_stride(s))
        || !task.source_enabled
        || task.blend && !task.destination_enabled
}

fn breaks_26(task: &Task) -> bool {
    !task.has_buffer() && task.setting.turns != 0
        || size(&task.output) != turned_size(task.setting.turns, size(&task.source))
        || task.blend && size(&task.destination) != size(&task.output)
}

fn breaks_27(task: &Task, bounds: &Bounds) -> bool {
    !is_inside(&task.output.span(), &bounds.window) || read_surfaces(task).iter().flatten().any(|s| !is_readable(s, bounds))
}

fn breaks_28(task: &Task) -> bool {
    let output = &task.output;
    let equal = |d: &Surface| (d.address, d.stride, d.format.code) == (output.address, output.stride, output.format.code);
    let [buffer, destination] = read_surfaces(task);
    buffer.is_some_and(|s| s.meets(output)) || destination.is_some_and(|d| d.meets(output) && !equal(d))
}

/// The number of the first of 25 to 28 that a task breaks. 28 is asked last, so that it goes through the rows only of surfaces
/// that lie in memory.
pub fn judge(task: &Task, bounds: &Bounds) -> Option<u32> {
    let rules: [&dyn Fn() -> bool; 4] =
        [&|| breaks_25(task), &|| breaks_26(task), &|| breaks_27(task, bounds), &|| breaks_28(task)];
    rules.iter().position(|broken| broken()).map(|rule| 25 + rule as u32)
}

#[cfg(test)]
mod tests {
    use super::*;
    use crate::registers::UNBLENDED;
    use crate::writer::WORKED;

    /// The worked words are one task of a desk with this window.
    fn bounds() -> Bounds {
        Bounds { window: 16384..28672, common: 16384 }
    }

    #[test]
    fn worked_words() {
        assert_eq!(read(&WORKED, &bounds(), &Bank::reset(UNBLENDED)).answer(), [0x00010001, 0, 0]);
        let mut words = WORKED;
        words[19] = 64;
        assert_eq!(read(&words, &bounds(), &Bank::reset(UNBLENDED)).answer(), [0x00000002, 27, 72]);
    }

    #[test]
    fn three_tasks() {
        let words = [WORKED, WORKED, WORKED].concat();
        assert_eq!(read(&words, &bounds(), &Bank::reset(UNBLENDED)).answer(), [0x00030001, 0, 0]);
    }

    #[test]
    fn half_written() {
        assert_eq!(read(&WORKED[..18], &bounds(), &Bank::reset(UNBLENDED)).answer(), [0x00000100, 22, 56]);
        assert_eq!(read(&WORKED[..19], &bounds(), &Bank::reset(UNBLENDED)).answer(), [0x00000100, 21, 72]);
    }
}
