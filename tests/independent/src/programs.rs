//! What the programs that people use are run on in the gate: a replay file of each edition with its lines, a picture of another's memory, the
//! two questions of a lost tint, and the counts of a few files.
use crate::picture::{byte_of_words, Rectangle};
use crate::provenance::Answers;
use crate::{month, replay, sample_files, sample_page, sample_second, second};
use std::io::{Error, Result};
use std::path::Path;

/// The arguments of `picture`: the file, and address, stride, width, height and format of the rectangle.
const PICTURED: [&str; 6] = ["formats.replay", "18432", "32", "16", "8", "rgb565"];

/// Several samples as one file: the version byte of the first, and the records of all.
fn several() -> Vec<u8> {
    let files = [
        sample_files::faults(),
        sample_files::refused(),
        sample_files::four_clients(),
        sample_files::rules(),
        sample_files::left_over(),
        sample_files::turn(),
        sample_files::cut(),
    ];
    let mut joined = vec![1];
    for file in files {
        joined.extend(&file[1..]);
    }
    joined
}

fn write_replay(dir: &Path) -> Result<()> {
    std::fs::create_dir_all(dir)?;
    let file = several();
    std::fs::write(dir.join("stdin"), &file)?;
    std::fs::write(dir.join("stdout"), replay::replayed(&file).0)
}

fn write_replay2(dir: &Path) -> Result<()> {
    std::fs::create_dir_all(dir)?;
    let file = sample_second::scored();
    std::fs::write(dir.join("stdin"), &file)?;
    std::fs::write(dir.join("stdout"), second::played(&file).0)
}

/// The files that are counted, of both editions, two of them damaged.
fn counted() -> [(&'static str, Vec<u8>); 6] {
    [
        ("faults.replay", sample_files::faults()),
        ("refused.replay", sample_files::refused()),
        ("before_a_fault.replay", sample_files::before_a_fault()),
        ("scored.replay2", sample_second::scored()),
        ("cut_record.replay", sample_files::cut()),
        ("bad_version.replay", vec![3]),
    ]
}

fn write_tally(dir: &Path) -> Result<()> {
    std::fs::create_dir_all(dir.join("data"))?;
    let files = counted();
    for (name, file) in &files {
        std::fs::write(dir.join("data").join(name), file)?;
    }
    let names: Vec<&str> = files.iter().map(|(name, _)| *name).collect();
    std::fs::write(dir.join("args"), names.join("\n") + "\n")?;
    let counts = month::tallied([0; month::COUNTS], files.iter().map(|(_, file)| file.as_slice()));
    std::fs::write(dir.join("stdout"), counts)
}

/// The arguments of `touched`: the file, address, stride and format of the page, and a pixel of it.
const TOUCHED: [&str; 6] = ["lost_tint.replay", "16384", "256", "argb8888", "10", "4"];

/// The arguments of `fault`: the file, and a ticket.
const FAULT: [&str; 2] = ["lost_tint.replay", "3"];

/// Writes what a program is run with: its arguments, the file that the first of them names, and what it is to print.
fn write_program(dir: &Path, words: &[&str], file: &[u8], printed: &[u8]) -> Result<()> {
    std::fs::create_dir_all(dir.join("data"))?;
    std::fs::write(dir.join("args"), words.join("\n") + "\n")?;
    std::fs::write(dir.join("data").join(words[0]), file)?;
    std::fs::write(dir.join("stdout"), printed)
}

fn write_picture(dir: &Path) -> Result<()> {
    let file = sample_files::formats();
    let words = PICTURED.map(String::from);
    let rectangle = Rectangle::of_words(&words[1..]).ok_or_else(|| Error::other("no rectangle"))?;
    let picture = rectangle.picture(&replay::replayed(&file).1).ok_or_else(|| Error::other("outside memory"))?;
    write_program(dir, &PICTURED, &file, &picture)
}

fn write_touched(dir: &Path) -> Result<()> {
    let file = sample_page::lost_tint();
    let words = TOUCHED.map(String::from);
    let address = byte_of_words(&words[1..]).ok_or_else(|| Error::other("no pixel"))?;
    write_program(dir, &TOUCHED, &file, format!("{}\n", Answers::of(&file).touched(address)).as_bytes())
}

fn write_fault(dir: &Path) -> Result<()> {
    let file = sample_page::lost_tint();
    let ticket = FAULT[1].parse().map_err(Error::other)?;
    write_program(dir, &FAULT, &file, format!("{}\n", Answers::of(&file).fault(ticket)).as_bytes())
}

/// Writes the files of these program crates below a folder.
pub fn write(dir: &Path) -> Result<()> {
    write_replay(&dir.join("replay_main"))?;
    write_replay2(&dir.join("replay2_main"))?;
    write_tally(&dir.join("tally_main"))?;
    write_picture(&dir.join("picture"))?;
    write_touched(&dir.join("touched"))?;
    write_fault(&dir.join("fault"))
}
