//! Replay files read by a program and by the independent program.
use independent::engine::Book;
use independent::registers::Task;
use independent::replay::played;
use independent::replay_files;
use independent::tally::Tally;
use std::io::{Error, Read, Result, Write};
use std::process::{Command, Stdio};

/// What a program, a path and the words after it, prints of a file on its standard input. It may end before it has read all.
fn printed(program: &[&str], file: &[u8]) -> Result<Vec<u8>> {
    let (path, words) = program.split_first().ok_or_else(|| Error::other("no PROGRAM"))?;
    let mut child = Command::new(path).args(words).stdin(Stdio::piped()).stdout(Stdio::piped()).spawn()?;
    let mut input = child.stdin.take().expect("a piped standard input");
    let mut output = child.stdout.take().expect("a piped standard output");
    let mut lines = Vec::new();
    std::thread::scope(|scope| {
        // A program that has seen enough closes its input; that is no failure.
        scope.spawn(move || input.write_all(file).ok());
        output.read_to_end(&mut lines)
    })?;
    let status = child.wait()?;
    status.code().map(|_| lines).ok_or_else(|| Error::other(format!("{path} was ended by a signal")))
}

/// The lines of a file and the book after it, as the independent program plays it.
type Played = fn(&[u8]) -> (String, Book);

/// Compares one file, and answers its lines, and the tasks that rule 28 was asked about, if they agree.
fn agreed(program: &[&str], file: &[u8], name: &str, played: Played) -> Result<Option<(String, Vec<Task>)>> {
    let (expected, book) = played(file);
    let found = printed(program, file)?;
    if found == expected.as_bytes() {
        return Ok(Some((expected, book.asked)));
    }
    println!("{name} differs\nexpected:\n{expected}found:\n{}", String::from_utf8_lossy(&found));
    Ok(None)
}

/// What a line says, without its numbers.
fn kind(line: &str) -> String {
    let words: Vec<&str> = line.split(' ').collect();
    match words.as_slice() {
        [_, "-", "-", number, _] => format!("refusal {number}"),
        [_, _, _, "0", _] => "faultless".into(),
        [_, _, _, fault, _] => format!("fault {fault}"),
        _ => line.into(),
    }
}

/// Whether a program prints what it should of so many random files of edition 1 of a seed.
pub fn compare(count: u64, seed: u64, program: &[&str]) -> Result<bool> {
    compare_files(count, seed, program, replay_files::file, played)
}

/// Whether a program prints what it should of so many files of a seed.
pub fn compare_files(count: u64, seed: u64, program: &[&str], made: fn(u64, u64) -> Vec<u8>, played: Played) -> Result<bool> {
    let mut tally = Tally::default();
    for number in 0..count {
        let file = made(seed, number);
        let agreed = agreed(program, &file, &format!("file {number} of seed {seed}"), played)?;
        let Some((lines, asked)) = agreed else { return Ok(false) };
        lines.lines().for_each(|line| tally.add(kind(line), 1));
        tally.add_pairs(&asked);
    }
    tally.print();
    println!("{count} replay files of seed {seed}: all agree");
    Ok(true)
}

/// Whether a program prints what it should of a file cut at every byte, and of the whole file.
pub fn cuts(path: &str, program: &[&str]) -> Result<bool> {
    cuts_of(path, program, played)
}

/// The same of a file that is played so.
pub fn cuts_of(path: &str, program: &[&str], played: Played) -> Result<bool> {
    let file = std::fs::read(path)?;
    for length in 0..=file.len() {
        if agreed(program, &file[..length], &format!("{path} cut after {length} bytes"), played)?.is_none() {
            return Ok(false);
        }
    }
    println!("{path} cut after each of its {} bytes: all agree", file.len());
    Ok(true)
}
