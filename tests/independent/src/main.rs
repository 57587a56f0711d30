//! The independent program: writes what the program crates read in the gate and what they must print, plays random lists of
//! calls, and reads replay files.
//!
//! independent all DIR                writes that of each program crate, in DIR/NAME
//! independent samples DIR            writes sample replay files with their lines into DIR
//! independent --count COUNT SEED     plays COUNT random lists and prints what came how often
//! independent replay [FILE]          prints the lines of a replay file, or of standard input
//! independent replay2 [FILE]         the same of edition 2
//! independent tally FILE..           prints the counts of replay files of both editions
//! independent tally --from TOTALS FILE..
//!                                    the same, from the totals on that are printed in the file TOTALS
//! independent tally --shown TOTALS FILE..
//!                                    what a terminal shows of that, with how many files are done
//! independent picture FILE ADDRESS STRIDE WIDTH HEIGHT FORMAT
//!                                    writes a rectangle of the memory after a replay as a picture (PPM)
//! independent touched FILE ADDRESS [STRIDE FORMAT X Y]
//!                                    who drew a byte last, or the first byte of a pixel
//! independent fault FILE TICKET      why a batch faulted
//! independent tables                 prints registers, blend modes, faults and refusals, a line each
//! independent tables manual FILE     prints the same as it stands in docs/REGISTERS.md
//! independent tables header FILE     and in the header for C
use independent::picture::{byte_of_words, number, Rectangle};
use independent::provenance::Answers;
use independent::tally::Tally;
use independent::{documents, month, play, programs, replay, samples, scripts, second, tables};
use std::io::{Error, Read, Result, Write};
use std::path::Path;
use std::process::ExitCode;

fn count(count: &str, seed: &str) -> Result<()> {
    let number = |word: &str| word.parse::<u64>().map_err(Error::other);
    let (count, seed) = (number(count)?, number(seed)?);
    let mut tally = Tally::default();
    for number in 0..count {
        let list = scripts::list(seed, number);
        tally.add_list(&list, &play::play(&list));
    }
    tally.print();
    Ok(())
}

/// The bytes of a file, or of standard input.
fn input(file: Option<&String>) -> Result<Vec<u8>> {
    let mut bytes = Vec::new();
    match file {
        Some(file) => bytes = std::fs::read(file)?,
        None => {
            std::io::stdin().read_to_end(&mut bytes)?;
        }
    }
    Ok(bytes)
}

fn picture(file: &String, words: &[String]) -> Result<()> {
    let rectangle = Rectangle::of_words(words).ok_or_else(|| Error::other("not ADDRESS STRIDE WIDTH HEIGHT FORMAT"))?;
    let (_, memory) = replay::replayed(&input(Some(file))?);
    let picture = rectangle.picture(&memory).ok_or_else(|| Error::other("the rectangle does not lie in memory"))?;
    std::io::stdout().write_all(&picture)
}

fn touched(file: &String, words: &[String]) -> Result<()> {
    let address = byte_of_words(words).ok_or_else(|| Error::other("not ADDRESS, nor ADDRESS STRIDE FORMAT X Y"))?;
    println!("{}", Answers::of(&input(Some(file))?).touched(address));
    Ok(())
}

fn fault(file: &String, ticket: &str) -> Result<()> {
    let ticket = number(ticket).and_then(|n| n.try_into().ok()).ok_or_else(|| Error::other("TICKET is no number"))?;
    println!("{}", Answers::of(&input(Some(file))?).fault(ticket));
    Ok(())
}

fn read_all(files: &[String]) -> Result<Vec<Vec<u8>>> {
    files.iter().map(std::fs::read).collect()
}

/// What is printed, if the totals that it starts from are some.
fn write_counts(printed: Option<String>) -> Result<()> {
    let printed = printed.ok_or_else(|| Error::other("TOTALS holds no printed totals"))?;
    std::io::stdout().write_all(printed.as_bytes())
}

fn tally(start: &[u8], files: &[String]) -> Result<()> {
    write_counts(month::continued(start, read_all(files)?.iter().map(Vec::as_slice)))
}

fn print_lines(lines: &[String]) -> Result<()> {
    lines.iter().try_for_each(|line| writeln!(std::io::stdout(), "{line}"))
}

fn done(words: &[String]) -> Result<()> {
    let plain: Vec<&str> = words.iter().map(String::as_str).collect();
    match plain.as_slice() {
        ["--count", lists, seed] => count(lists, seed),
        ["replay"] | ["replay", _] => std::io::stdout().write_all(replay::replayed(&input(words.get(1))?).0.as_bytes()),
        ["replay2"] | ["replay2", _] => std::io::stdout().write_all(second::played(&input(words.get(1))?).0.as_bytes()),
        ["tally", "--from", totals, _, ..] => tally(&std::fs::read(totals)?, &words[3..]),
        ["tally", "--shown", totals, _, ..] => write_counts(month::shown(&std::fs::read(totals)?, &read_all(&words[3..])?)),
        ["tally", _, ..] => tally(month::printed(&[0; month::COUNTS], false).as_bytes(), &words[1..]),
        ["picture", _, ..] => picture(&words[1], &words[2..]),
        ["touched", _, ..] => touched(&words[1], &words[2..]),
        ["fault", _, ticket] => fault(&words[1], ticket),
        ["samples", dir] => samples::write(Path::new(dir)),
        ["tables"] => print_lines(&tables::lines()),
        ["tables", "manual", file] => print_lines(&documents::manual(&std::fs::read_to_string(file)?)),
        ["tables", "header", file] => print_lines(&documents::header(&std::fs::read_to_string(file)?)),
        ["all", dir] => programs::write(Path::new(dir)),
        _ => Err(Error::other(
            "usage: all DIR | samples DIR | --count COUNT SEED | replay [FILE] | replay2 [FILE] | tally [--from TOTALS] FILE.. | tally --shown TOTALS FILE.. | picture FILE .. | touched FILE .. | fault FILE TICKET | tables ..",
        )),
    }
}

fn main() -> ExitCode {
    let words: Vec<String> = std::env::args().skip(1).collect();
    match done(&words) {
        Ok(()) => ExitCode::SUCCESS,
        Err(error) => {
            eprintln!("independent: {error}");
            ExitCode::FAILURE
        }
    }
}
