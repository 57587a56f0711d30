//! The month's tally (02, request 14): every file is played, and what its batches drew is counted.
use crate::batch;
use crate::engine::Book;
use crate::registers::{Bank, SRC_OVER, UNBLENDED};
use crate::replay::{self, opened_with};
use crate::ring;
use crate::second::{self, Scored};

pub const COUNTS: usize = 14;

/// The names of the counts, in order.
pub fn names() -> [String; COUNTS] {
    std::array::from_fn(|k| match k {
        0 => "batches".into(),
        1 => "tasks".into(),
        2 => "output_pixels".into(),
        3 => "blended_pixels".into(),
        13 => "records_without_score".into(),
        _ => format!("fault_{}", 16 + k),
    })
}

/// Numbers without a limit that files of this size could reach.
pub type Counts = [u128; COUNTS];

/// Submits a record and, if it is accepted, runs it and counts.
fn run(book: &mut Book, reset: u32, client: u8, batch: &[u8], counts: &mut Counts) {
    if book.submit(client.into(), batch).is_err() {
        return;
    }
    let done = book.run().expect("a batch to run");
    let words = ring::words(batch, 0, batch.len() as u64);
    let reading = batch::read(&words, &book.bounds(done.client as usize), &Bank::reset(reset));
    let drawn = (done.status >> 16) as usize;
    counts[0] += 1;
    counts[1] += drawn as u128;
    for task in &reading.tasks[..drawn] {
        let pixels = u128::from(task.output.width) * u128::from(task.output.height);
        counts[2] += pixels;
        counts[3] += if task.blend { pixels } else { 0 };
    }
    if (20..=28).contains(&done.fault) {
        counts[done.fault as usize - 16] += 1;
    }
}

/// What a file adds to each count.
pub fn of_file(file: &[u8]) -> Counts {
    let mut counts = [0; COUNTS];
    if file.first() == Some(&2) {
        let mut book = opened_with(SRC_OVER);
        for record in second::records(file).0 {
            if let Scored::Good { client, batch } = record {
                run(&mut book, SRC_OVER, client, batch, &mut counts);
            }
        }
        return counts;
    }
    let mut book = opened_with(UNBLENDED);
    for record in replay::records(file).0 {
        counts[13] += 1;
        run(&mut book, UNBLENDED, record.client, record.batch, &mut counts);
    }
    counts
}

/// The totals, or those before a file that would take one over 64 bits; and whether one did.
pub fn add(totals: [u64; COUNTS], added: &Counts) -> ([u64; COUNTS], bool) {
    let mut after = [0; COUNTS];
    for k in 0..COUNTS {
        match u64::try_from(u128::from(totals[k]) + added[k]) {
            Ok(sum) => after[k] = sum,
            Err(_) => return (totals, true),
        }
    }
    (after, false)
}

/// What is printed of some totals.
pub fn printed(totals: &[u64; COUNTS], refused: bool) -> String {
    let lines: String = names().iter().zip(totals).map(|(name, count)| format!("{name} {count}\n")).collect();
    lines + if refused { "refused 19\n" } else { "" }
}

/// What is printed of some files, from some totals on.
pub fn tallied<'a>(start: [u64; COUNTS], files: impl IntoIterator<Item = &'a [u8]>) -> String {
    let mut totals = start;
    for file in files {
        let (after, refused) = add(totals, &of_file(file));
        totals = after;
        if refused {
            return printed(&totals, true);
        }
    }
    printed(&totals, false)
}

/// The counts that a text prints, if it is nothing else: fourteen lines, each with its own name, one space and a number as it is printed.
pub fn parsed(text: &str) -> Option<[u64; COUNTS]> {
    let mut totals = [0; COUNTS];
    let mut rest = text;
    for (name, total) in names().iter().zip(&mut totals) {
        let (line, after) = rest.split_once('\n')?;
        let digits = line.strip_prefix(name.as_str())?.strip_prefix(' ')?;
        let plain = digits == "0" || !digits.starts_with('0');
        if !plain || digits.is_empty() || !digits.bytes().all(|byte| byte.is_ascii_digit()) {
            return None;
        }
        *total = digits.parse().ok()?;
        rest = after;
    }
    rest.is_empty().then_some(totals)
}

/// What is printed of some files, from the totals on that a text prints; nothing if it is no text of totals.
pub fn continued<'a>(text: &[u8], files: impl IntoIterator<Item = &'a [u8]>) -> Option<String> {
    let start = std::str::from_utf8(text).ok().and_then(parsed)?;
    Some(tallied(start, files))
}

/// What a terminal shows while files are added to the totals that a text prints: how many are done, in one line, and then what is printed. A terminal
/// ends its lines with a carriage return too.
pub fn shown(text: &[u8], files: &[Vec<u8>]) -> Option<String> {
    let printed = continued(text, files.iter().map(Vec::as_slice))?;
    let done = (1..=files.len()).take_while(|&k| continued(text, files[..k].iter().map(Vec::as_slice)).is_some_and(|part| !part.ends_with("refused 19\n")));
    let progress: String = done.map(|k| format!("{k} of {} files{}", files.len(), if k == files.len() { '\n' } else { '\r' })).collect();
    Some((progress + &printed).replace('\n', "\r\n"))
}

/// What is printed of the texts of some lots, added from zero on, and which of them are no totals: these add nothing.
pub fn added(lots: &[Vec<u8>]) -> (String, Vec<usize>) {
    let mut totals = [0; COUNTS];
    let mut bad = vec![];
    for (k, lot) in lots.iter().enumerate() {
        let Some(other) = std::str::from_utf8(lot).ok().and_then(parsed) else {
            bad.push(k);
            continue;
        };
        let (after, refused) = add(totals, &other.map(u128::from));
        totals = after;
        if refused {
            return (printed(&totals, true), bad);
        }
    }
    (printed(&totals, false), bad)
}

#[cfg(test)]
mod tests {
    use super::*;
    use crate::sample_files;

    #[test]
    fn samples() {
        let refused = sample_files::refused();
        assert_eq!(of_file(&refused), [1, 1, 2, 0, 0, 0, 0, 0, 0, 0, 0, 0, 0, 5]);
        let faults = of_file(&sample_files::faults());
        assert_eq!(faults[4..13], [1; 9]);
        assert_eq!([faults[0], faults[13]], [9, 9]);
        let before = of_file(&sample_files::before_a_fault());
        assert_eq!([before[0], before[1]], [3, 5]);
        assert_eq!(of_file(&[]), [0; COUNTS]);
        assert_eq!(of_file(&[3, 0, 0, 0, 1, 0]), [0; COUNTS]);
    }

    #[test]
    fn lots() {
        let mut totals = [7; COUNTS];
        totals[3] = u64::MAX;
        let text = printed(&totals, false);
        assert_eq!(parsed(&text), Some(totals));
        assert_eq!(parsed(&printed(&totals, true)), None);
        assert_eq!(parsed(&text.replace("tasks 7", "tasks 07")), None);
        assert_eq!(parsed(&text.replace("18446744073709551615", "18446744073709551616")), None);
        let twice = added(&[text.clone().into_bytes(), text.clone().into_bytes()]);
        assert_eq!(twice, (printed(&totals, true), vec![]));
        assert_eq!(added(&[b"x".to_vec(), text.clone().into_bytes()]), (text, vec![0]));
    }

    #[test]
    fn too_large() {
        let mut start = [0; COUNTS];
        start[13] = u64::MAX;
        let hello = sample_files::hello();
        assert_eq!(add(start, &of_file(&hello)), (start, true));
        assert_eq!(continued(printed(&start, false).as_bytes(), [hello.as_slice()]), Some(printed(&start, true)));
        start[13] -= 1;
        assert_eq!(add(start, &of_file(&hello)).0[13], u64::MAX);
        assert_eq!(continued(b"batches 1\n", [hello.as_slice()]), None);
    }
}
