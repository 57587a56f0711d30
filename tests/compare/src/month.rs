//! Edition 2 and the month's tally: what the two programs print of random and damaged files of both editions, and what the independent program says.
use crate::replays;
use independent::random::Random;
use independent::{month, replay_files, second};
use std::io::Result;
use std::path::{Path, PathBuf};
use std::process::Command;

/// Whether a program prints what it should of so many random files of edition 2 of a seed.
pub fn replays2(count: u64, seed: u64, program: &[&str]) -> Result<bool> {
    replays::compare_files(count, seed, program, replay_files::second_file, second::played)
}

/// What the tally prints of some files. What it says on standard error is no count.
fn printed(program: &str, folder: &Path, lot: &[Vec<u8>]) -> Result<String> {
    let paths: Vec<PathBuf> = (0..lot.len()).map(|k| folder.join(format!("{k}.replay"))).collect();
    for (path, file) in paths.iter().zip(lot) {
        std::fs::write(path, file)?;
    }
    let output = Command::new(program).args(&paths).output()?;
    Ok(String::from_utf8_lossy(&[output.stdout, output.stderr].concat()).into_owned())
}

fn agrees(program: &str, folder: &Path, lot: &[Vec<u8>], name: &str) -> Result<bool> {
    let expected = month::tallied([0; month::COUNTS], lot.iter().map(Vec::as_slice));
    let found = printed(program, folder, lot)?;
    if found == expected {
        return Ok(true);
    }
    println!("{name} differs\nexpected:\n{expected}found:\n{found}");
    Ok(false)
}

/// A lot of files of both editions.
pub fn lot(seed: u64, number: u64) -> Vec<Vec<u8>> {
    let random = &mut Random::of_case(seed ^ 0x7A11, number);
    let count = 1 + random.below(8);
    (0..u64::from(count))
        .map(|k| {
            let case = number * 8 + k;
            if random.one_in(2) { replay_files::second_file(seed, case) } else { replay_files::file(seed, case) }
        })
        .collect()
}

/// Totals of a lot as they are printed: small, near the largest number, or anything; and some that are no totals.
pub fn lot_text(random: &mut Random) -> Vec<u8> {
    let mut totals = [0u64; month::COUNTS];
    let near = random.one_in(3);
    for total in &mut totals {
        *total = match random.below(if near { 4 } else { 3 }) {
            0 => 0,
            1 => u64::from(random.below(1000)),
            2 => u64::from(random.below(u32::MAX)) << random.below(32),
            _ => u64::MAX - u64::from(random.below(3)),
        };
    }
    let mut text = month::printed(&totals, random.one_in(12)).into_bytes();
    if random.one_in(4) {
        damage(&mut text, random);
    }
    text
}

/// One change of a text, after which it may still be that of totals.
pub fn damage(text: &mut Vec<u8>, random: &mut Random) {
    let place = random.below(text.len() as u32) as usize;
    match random.below(6) {
        0 => text.truncate(place),
        1 => text[place] = random.below(256) as u8,
        2 => text.insert(place, b'0' + random.below(10) as u8),
        3 => drop(text.remove(place)),
        4 => text.extend_from_slice(&[b"\n".as_slice(), b" ", b"0", b"refused 19\n", &[b'0'; 4096]][random.below(5) as usize]),
        _ => text.insert(place, [b' ', b'\n', b'\r', 0][random.below(4) as usize]),
    }
}

/// What `tally --add` prints of some texts, and what it says on standard error.
fn added(program: &str, folder: &Path, lots: &[Vec<u8>]) -> Result<(String, String)> {
    let paths: Vec<PathBuf> = (0..lots.len()).map(|k| folder.join(format!("{k}.totals"))).collect();
    for (path, text) in paths.iter().zip(lots) {
        std::fs::write(path, text)?;
    }
    let output = Command::new(program).arg("--add").args(&paths).output()?;
    Ok((String::from_utf8_lossy(&output.stdout).into_owned(), String::from_utf8_lossy(&output.stderr).into_owned()))
}

/// Whether the sum of some texts is what it should be, and what is no totals is reported by its name and nothing else is.
fn adds(program: &str, folder: &Path, lots: &[Vec<u8>], name: &str) -> Result<bool> {
    let (expected, bad) = month::added(lots);
    let said: String = bad.iter().map(|k| format!("{} does not hold printed totals\n", folder.join(format!("{k}.totals")).display())).collect();
    let found = added(program, folder, lots)?;
    if found == (expected.clone(), said.clone()) {
        return Ok(true);
    }
    println!("{name} differs\nexpected:\n{expected}{said}found:\n{}{}", found.0, found.1);
    Ok(false)
}

/// Whether two lots, tallied apart by the program and added by it, are the lots together. Of one file the first half is empty, and its totals are zeros.
fn apart(program: &str, folder: &Path, files: &[Vec<u8>], number: u64) -> Result<bool> {
    let (one, two) = files.split_at(files.len() / 2);
    let mut texts = Vec::new();
    for lot in [one, two] {
        texts.push(if lot.is_empty() { month::printed(&[0; month::COUNTS], false).into_bytes() } else { printed(program, folder, lot)?.into_bytes() });
    }
    let together = month::tallied([0; month::COUNTS], files.iter().map(Vec::as_slice));
    let found = added(program, folder, &texts)?;
    if found == (together.clone(), String::new()) {
        return Ok(true);
    }
    println!("lot {number}, in two, differs\nexpected:\n{together}found:\n{}{}", found.0, found.1);
    Ok(false)
}

/// Whether the tally adds printed totals as it should, of so many random lots of a seed: of files, in two, and of texts.
pub fn lots(count: u64, seed: u64, program: &str) -> Result<bool> {
    let folder = std::env::temp_dir().join(format!("lots-{}", std::process::id()));
    std::fs::create_dir_all(&folder)?;
    let (mut agreed, mut refused, mut bad) = (true, 0, 0);
    for number in 0..count {
        let random = &mut Random::of_case(seed ^ 0x107, number);
        let texts: Vec<Vec<u8>> = (0..1 + random.below(5)).map(|_| lot_text(random)).collect();
        let (expected, wrong) = month::added(&texts);
        refused += u32::from(expected.ends_with("refused 19\n"));
        bad += wrong.len();
        agreed = adds(program, &folder, &texts, &format!("texts {number} of seed {seed}"))? && apart(program, &folder, &lot(seed, number), number)?;
        if !agreed {
            break;
        }
    }
    std::fs::remove_dir_all(&folder)?;
    if agreed {
        println!("{count} sums of printed totals of seed {seed}, {refused} of them refused, {bad} texts that are no totals, and {count} lots in two: all agree");
    }
    Ok(agreed)
}

/// Whether the tally counts what it should of so many random lots of a seed, and of each lot the other way round.
pub fn compare(count: u64, seed: u64, program: &str) -> Result<bool> {
    let folder = std::env::temp_dir().join(format!("tally-{}", std::process::id()));
    std::fs::create_dir_all(&folder)?;
    let mut all = [0u128; month::COUNTS];
    let mut agreed = true;
    for number in 0..count {
        let mut files = lot(seed, number);
        files.iter().for_each(|file| month::of_file(file).iter().zip(&mut all).for_each(|(n, sum)| *sum += n));
        agreed = agrees(program, &folder, &files, &format!("lot {number} of seed {seed}"))?;
        files.reverse();
        agreed = agreed && agrees(program, &folder, &files, &format!("lot {number} of seed {seed}, backwards"))?;
        if !agreed {
            break;
        }
    }
    std::fs::remove_dir_all(&folder)?;
    if agreed {
        month::names().iter().zip(all).for_each(|(name, n)| println!("{n:>12}  {name}"));
        println!("{count} lots of seed {seed}, forwards and backwards: all agree");
    }
    Ok(agreed)
}
