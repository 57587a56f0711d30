//! Who drew a byte, and why a batch faulted: what the two programs print, and what the independent program says.
use independent::provenance::Answers;
use independent::random::Random;
use independent::replay::{record, window_start, MEMORY};
use independent::sample_tasks::{batch, blended, fill, Place, ARGB8888, RGB565, RGB888};
use independent::{replay_files, sample_files};
use std::collections::BTreeMap;
use std::io::Result;
use std::path::{Path, PathBuf};
use std::process::Command;

/// The two programs, a file that they are asked about, and how often each kind of answer came.
pub struct Asking {
    touched: String,
    fault: String,
    file: PathBuf,
    tally: BTreeMap<String, u64>,
}

/// What a program prints of some words. What it says on standard error is no answer.
fn printed(program: &str, file: &Path, words: &[String]) -> Result<String> {
    let output = Command::new(program).arg(file).args(words).output()?;
    Ok(String::from_utf8_lossy(&[output.stdout, output.stderr].concat()).into_owned())
}

/// An answer without its numbers.
fn kind(answer: &str) -> String {
    let words: Vec<&str> = answer.split(' ').collect();
    match words.as_slice() {
        ["refused", number] => format!("refusal {number}"),
        ["not", "drawn"] => "not drawn".into(),
        [_, _, mode @ ("0" | "1")] => format!("drawn in mode {mode}"),
        [fault, ..] => format!("fault {fault}"),
        [] => "nothing".into(),
    }
}

impl Asking {
    fn agrees(&mut self, program: &str, words: &[String], expected: &str, name: &str) -> Result<bool> {
        let found = printed(program, &self.file, words)?;
        *self.tally.entry(kind(expected)).or_default() += 1;
        if found == format!("{expected}\n") {
            return Ok(true);
        }
        println!("{name}, {program} {}: expected {expected}, found {found}", words.join(" "));
        Ok(false)
    }

    /// Whether both programs agree on a file, asked for some bytes and tickets.
    fn file(&mut self, bytes: &[u8], name: &str, addresses: &[u64], tickets: &[u32]) -> Result<bool> {
        std::fs::write(&self.file, bytes)?;
        let answers = Answers::of(bytes);
        let (touched, fault) = (self.touched.clone(), self.fault.clone());
        for address in addresses {
            if !self.agrees(&touched, &[address.to_string()], &answers.touched(*address), name)? {
                return Ok(false);
            }
        }
        for ticket in tickets {
            if !self.agrees(&fault, &[ticket.to_string()], &answers.fault(*ticket), name)? {
                return Ok(false);
            }
        }
        Ok(true)
    }

    /// Whether `touched` agrees on a pixel of a page.
    fn pixel(&mut self, bytes: &[u8], page: &Place, format: &str, size: u64, at: (u64, u64)) -> Result<bool> {
        let (x, y) = at;
        let byte = u64::from(page.address) + u64::from(page.stride) * y + size * x;
        let words = [u64::from(page.address), u64::from(page.stride)].map(|n| n.to_string());
        let words = [&words[..], &[format.into(), x.to_string(), y.to_string()]].concat();
        let touched = self.touched.clone();
        self.agrees(&touched, &words, &Answers::of(bytes).touched(byte), "a pixel")
    }
}

/// Bytes at which another answer begins, and those before them: the edges of rows.
fn edges(bytes: &[u8]) -> Vec<u64> {
    let writers = Answers::of(bytes).writers;
    let edge = |at: &usize| writers[*at] != writers[at - 1];
    (1..writers.len()).filter(edge).flat_map(|at| [at as u64 - 1, at as u64]).collect()
}

/// So many of some things, evenly spread.
fn some<T: Copy>(all: &[T], most: usize) -> Vec<T> {
    all.iter().copied().step_by(all.len().div_ceil(most).max(1)).collect()
}

/// Every ticket that was given and two more, or some of them.
fn tickets(bytes: &[u8], most: usize) -> Vec<u32> {
    some(&(0..Answers::of(bytes).tickets + 2).collect::<Vec<u32>>(), most)
}

const ENDS: [u64; 4] = [0, MEMORY as u64 - 1, MEMORY as u64, u32::MAX as u64];

/// Three small pages with padding, one in each format, on one another's edges; the last task is drawn over all of them.
fn small_pages() -> (Vec<u8>, Vec<Place>) {
    let page = |offset, stride, format| Place { address: window_start(1) + offset, stride, width: 3, height: 3, format };
    let pages = vec![page(8, 24, ARGB8888), page(88, 16, RGB888), page(144, 8, RGB565)];
    let over = Place { address: window_start(1) + 20, stride: 40, width: 2, height: 4, format: ARGB8888 };
    let tasks: Vec<_> = pages.iter().map(|place| fill(*place, 0xFF10_2030)).collect();
    let kept = blended(fill(over, 0x8040_2010), "DST");
    let file = [vec![1], record(1, &batch(&tasks)), record(7, &batch(&tasks)), record(1, &batch(&[kept]))].concat();
    (file, pages)
}

/// Every byte of three small pages and around them, and pixels of theirs.
fn small(asking: &mut Asking) -> Result<bool> {
    let (file, pages) = small_pages();
    let start = u64::from(window_start(1));
    let every: Vec<u64> = (start - 2..start + 200).collect();
    if !asking.file(&file, "small pages", &every, &tickets(&file, 8))? {
        return Ok(false);
    }
    for (page, (format, size)) in pages.iter().zip([("ARGB8888", 4), ("rgb888", 3), ("Rgb565", 2)]) {
        for at in [(0, 0), (2, 0), (3, 0), (1, 2), (2, 2), (0, 3), (4095, 4095)] {
            if !asking.pixel(&file, page, format, size, at)? {
                return Ok(false);
            }
        }
    }
    Ok(true)
}

/// So many records, of which one in three is refused, and some bytes more.
fn many(count: usize, more: &[u8]) -> Vec<u8> {
    let drawn = sample_files::hello();
    let mut file = drawn.clone();
    for i in 1..count {
        match i % 3 {
            0 => file.extend(record(4, &[0; 4])),
            1 => file.extend(record(0, &[0; 4])),
            _ => file.extend(&drawn[1..]),
        }
    }
    file.extend(more);
    file
}

/// 1,024 records and one more, with a cut or a bad record behind; no record at all.
fn ends(asking: &mut Asking) -> Result<bool> {
    let files: [(&str, Vec<u8>); 10] = [
        ("1,023 records", many(1023, &[])),
        ("1,024 records", many(1024, &[])),
        ("1,024 records and a cut length", many(1024, &[0, 0])),
        ("1,024 records and a cut one", many(1024, &[0, 0, 0, 9, 0])),
        ("1,024 records and a bad one", many(1024, &[0, 0, 0, 0, 0])),
        ("1,025 records", many(1025, &[])),
        ("1,100 records and a cut one", many(1100, &[0])),
        ("a bad version", sample_files::bad_version()),
        ("an empty file", Vec::new()),
        ("a version alone", vec![1]),
    ];
    for (name, file) in files {
        let addresses = [&ENDS[..], &[16383, 16384, 16391, 16392]].concat();
        let last = Answers::of(&file).tickets;
        let asked = [0, 1, 2, 3, last.saturating_sub(2), last.saturating_sub(1), last, last + 1, u32::MAX];
        if !asking.file(&file, name, &addresses, &asked)? {
            return Ok(false);
        }
    }
    Ok(true)
}

/// Random and damaged files: some edges of rows, a byte anywhere, some tickets.
fn random(asking: &mut Asking, count: u64, seed: u64) -> Result<bool> {
    for number in 0..count {
        let file = replay_files::file(seed, number);
        let random = &mut Random::of_case(seed, number);
        let mut addresses = some(&edges(&file), 3);
        addresses.push(u64::from(random.below(MEMORY + 2)));
        if !asking.file(&file, &format!("file {number} of seed {seed}"), &addresses, &tickets(&file, 3))? {
            return Ok(false);
        }
    }
    Ok(true)
}

/// Every sample of a folder: edges of rows, ends of memory, every ticket.
fn samples(asking: &mut Asking, folder: &str) -> Result<bool> {
    let mut paths: Vec<PathBuf> = std::fs::read_dir(folder)?.map(|entry| Ok(entry?.path())).collect::<Result<_>>()?;
    paths.retain(|path| path.extension().is_some_and(|end| end == "replay"));
    paths.sort();
    for path in paths {
        let file = std::fs::read(&path)?;
        let addresses = [&ENDS[..], &some(&edges(&file), 24)].concat();
        if !asking.file(&file, &path.display().to_string(), &addresses, &tickets(&file, 24))? {
            return Ok(false);
        }
    }
    Ok(true)
}

/// Whether the two programs answer what they should, of the samples in a folder and of so many random files of a seed.
pub fn compare(count: u64, seed: u64, folder: &str, programs: [&str; 2]) -> Result<bool> {
    let file = std::env::temp_dir().join(format!("provenance-{}.replay", std::process::id()));
    let [touched, fault] = programs.map(String::from);
    let asking = &mut Asking { touched, fault, file, tally: BTreeMap::new() };
    let agrees = samples(asking, folder)? && small(asking)? && ends(asking)? && random(asking, count, seed)?;
    std::fs::remove_file(&asking.file)?;
    if agrees {
        asking.tally.iter().for_each(|(kind, times)| println!("{times:>12}  {kind}"));
        println!("{} questions, {count} random files of seed {seed}: all agree", asking.tally.values().sum::<u64>());
    }
    Ok(agrees)
}
