//! The tally from totals that are handed in, `tally --from TOTALS FILE..`: random ones, ones at which a file just fits or is too much in each of the
//! counts, and texts that are no totals. What the program prints and reports is held to what the independent program says.
use crate::month::{damage, lot, lot_text};
use independent::month::{self, COUNTS};
use independent::random::Random;
use independent::{sample_files, sample_second};
use std::io::{Error, Result};
use std::path::{Path, PathBuf};
use std::process::Command;

/// A text that is handed in, and the files that are added to its totals.
struct Start {
    text: Vec<u8>,
    files: Vec<Vec<u8>>,
}

/// Puts a file that adds to a count among the others, if none of them does.
fn with_adder(files: &mut Vec<Vec<u8>>, k: usize, random: &mut Random) {
    if files.iter().any(|file| month::of_file(file)[k] > 0) {
        return;
    }
    let samples = [sample_files::faults(), sample_second::scored(), sample_files::before_a_fault(), sample_files::blend()];
    let adder = samples.into_iter().find(|file| month::of_file(file)[k] > 0).expect("a sample for every count");
    files.insert(random.below(files.len() as u32 + 1) as usize, adder);
}

/// Totals at which one of the files takes a count to the largest number: the last that adds to it just fits, or one of them is too much.
fn at_the_edge(mut files: Vec<Vec<u8>>, k: usize, too_much: bool, random: &mut Random) -> Start {
    with_adder(&mut files, k, random);
    let added: Vec<u64> = files.iter().map(|file| month::of_file(file)[k] as u64).collect();
    let adding: Vec<usize> = (0..files.len()).filter(|&j| added[j] > 0).collect();
    let chosen = if too_much { adding[random.below(adding.len() as u32) as usize] } else { adding[adding.len() - 1] };
    let sum: u64 = added[..=chosen].iter().sum();
    let over = if too_much { 1 + u64::from(random.below(added[chosen].min(1000) as u32)) } else { 0 };
    let mut totals: [u64; COUNTS] = std::array::from_fn(|_| u64::from(random.below(1000)));
    totals[k] = u64::MAX - sum + over;
    Start { text: month::printed(&totals, false).into_bytes(), files }
}

/// The four kinds of starts in turn, those at the edge for one count after another.
fn start(number: u64, seed: u64) -> Start {
    let random = &mut Random::of_case(seed ^ 0xF20A, number);
    let files = lot(seed, number);
    let k = (number / 4) as usize % COUNTS;
    match number % 4 {
        0 => at_the_edge(files, k, true, random),
        1 => at_the_edge(files, k, false, random),
        2 => Start { text: lot_text(random), files },
        _ => {
            let mut text = lot_text(random);
            damage(&mut text, random);
            Start { text, files }
        }
    }
}

/// What the program prints, and what it says on standard error. The last file that it is handed is not there: it is reported where it is reached.
fn found(program: &str, folder: &Path, start: &Start) -> Result<(String, String)> {
    std::fs::write(folder.join("totals"), &start.text)?;
    let mut paths: Vec<PathBuf> = (0..start.files.len()).map(|k| folder.join(format!("{k}.replay"))).collect();
    for (path, file) in paths.iter().zip(&start.files) {
        std::fs::write(path, file)?;
    }
    paths.push(folder.join("missing"));
    let output = Command::new(program).arg("--from").arg(folder.join("totals")).args(&paths).output()?;
    Ok((String::from_utf8_lossy(&output.stdout).into_owned(), String::from_utf8_lossy(&output.stderr).into_owned()))
}

/// The same of the independent program: what is no totals is reported and nothing is read after it, nor is anything after a file that was too much.
fn expected(folder: &Path, start: &Start) -> (String, String) {
    match month::continued(&start.text, start.files.iter().map(Vec::as_slice)) {
        None => (String::new(), format!("{} does not hold printed totals\n", folder.join("totals").display())),
        Some(printed) if printed.ends_with("refused 19\n") => (printed, String::new()),
        Some(printed) => (printed, format!("{}: No such file or directory\n", folder.join("missing").display())),
    }
}

/// Whether the tally goes on from totals as it should, of so many random starts of a seed.
pub fn compare(count: u64, seed: u64, program: &str) -> Result<bool> {
    let folder = std::env::temp_dir().join(format!("starts-{}", std::process::id()));
    std::fs::create_dir_all(&folder)?;
    let (mut agreed, mut refused, mut bad) = (true, [0; 4], 0);
    for number in 0..count {
        let start = start(number, seed);
        let (expected, found) = (expected(&folder, &start), found(program, &folder, &start)?);
        refused[(number % 4) as usize] += u64::from(expected.1.is_empty());
        bad += u32::from(expected.0.is_empty());
        agreed = found == expected;
        if !agreed {
            println!("start {number} of seed {seed} differs\nexpected:\n{}{}found:\n{}{}", expected.0, expected.1, found.0, found.1);
            break;
        }
    }
    std::fs::remove_dir_all(&folder)?;
    if agreed && (refused[0], refused[1]) != (count.div_ceil(4), 0) {
        return Err(Error::other("a start at the edge is none"));
    }
    if agreed {
        let (all, counts) = (refused.iter().sum::<u64>(), count.div_ceil(4).min(COUNTS as u64));
        println!("{count} tallies of seed {seed} from totals handed in, at the edge of {counts} counts, {all} of them refused, {bad} texts that are no totals: all agree");
    }
    Ok(agreed)
}
