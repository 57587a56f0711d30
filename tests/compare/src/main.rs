//! Compares the engine with the independent program. A difference ends it with status 1.
//!
//! compare calls                                  every case of the calls one at a time, by the static library
//! compare lists COUNT SEED                       random lists of calls, played by the static library
//! compare orders COUNT SEED                      random pairs of orders of the same batches, likewise
//! compare pages                                  two surfaces at every place about each other, by the static library
//! compare settings                               every two settings composed by the static library, held to pictures
//! compare tints COUNT SEED                       tints at all limits and random ones, encoded by the static library
//! compare fuzz SECONDS SEED                      random and damaged input of every kind, until the time is over
//! compare replays COUNT SEED PROGRAM [WORD ..]   random replay files, on PROGRAM's standard input
//! compare cuts FILE PROGRAM [WORD ..]            a replay file cut at every byte
//! compare replays2 COUNT SEED PROGRAM [WORD ..]  random replay files of edition 2, likewise
//! compare cuts2 FILE PROGRAM [WORD ..]           one of edition 2 cut at every byte
//! compare tally COUNT SEED PROGRAM               lots of random files of both editions, counted by PROGRAM
//! compare lots COUNT SEED PROGRAM                printed totals added by PROGRAM --add, and lots in two
//! compare starts COUNT SEED PROGRAM              random files added by PROGRAM --from to totals that are handed in
//! compare pictures COUNT SEED SAMPLES PICTURE    all of memory after replay files, by the slow engine and by the fast one
//! compare provenance COUNT SEED SAMPLES TOUCHED FAULT
//!                                                who drew a byte and why a batch faulted, asked of two programs
mod bench;
mod cases;
mod features;
mod fuzz;
mod laid_out;
mod lent;
mod linked;
mod lists;
mod month;
mod orders;
mod pictures;
mod provenance;
mod replays;
mod settings;
mod starts;
mod tints;
mod trials;

use std::io::{Error, Result};
use std::process::ExitCode;

fn number(word: &str) -> Result<u64> {
    word.parse().map_err(|_| Error::other(format!("{word} is no number")))
}

/// Whether all agrees.
fn compared(words: &[&str]) -> Result<bool> {
    match words {
        ["calls"] => Ok(cases::compare()),
        ["lists", count, seed] => Ok(lists::compare(number(count)?, number(seed)?)),
        ["orders", count, seed] => Ok(orders::compare(number(count)?, number(seed)?)),
        ["pages"] => Ok(lists::pages()),
        ["settings"] => Ok(settings::compare()),
        ["tints", count, seed] => Ok(tints::compare(number(count)?, number(seed)?)),
        ["fuzz", seconds, seed] => Ok(fuzz::compare(number(seconds)?, number(seed)?)),
        ["replays", count, seed, program @ ..] => replays::compare(number(count)?, number(seed)?, program),
        ["cuts", file, program @ ..] => replays::cuts(file, program),
        ["replays2", count, seed, program @ ..] => month::replays2(number(count)?, number(seed)?, program),
        ["cuts2", file, program @ ..] => replays::cuts_of(file, program, independent::second::played),
        ["tally", count, seed, program] => month::compare(number(count)?, number(seed)?, program),
        ["lots", count, seed, program] => month::lots(number(count)?, number(seed)?, program),
        ["starts", count, seed, program] => starts::compare(number(count)?, number(seed)?, program),
        ["pictures", count, seed, samples, picture] => pictures::compare(number(count)?, number(seed)?, samples, picture),
        ["provenance", count, seed, samples, touched, fault] => {
            provenance::compare(number(count)?, number(seed)?, samples, [touched, fault])
        }
        _ => Err(Error::other(
            "usage: calls | lists COUNT SEED | orders COUNT SEED | pages | settings | tints COUNT SEED | fuzz SECONDS SEED \
             | replays COUNT SEED PROGRAM | cuts FILE PROGRAM | replays2 .. | cuts2 .. | tally COUNT SEED PROGRAM \
             | lots COUNT SEED PROGRAM | starts COUNT SEED PROGRAM | pictures COUNT SEED SAMPLES PICTURE | provenance COUNT SEED SAMPLES TOUCHED FAULT",
        )),
    }
}

fn main() -> ExitCode {
    let words: Vec<String> = std::env::args().skip(1).collect();
    match compared(&words.iter().map(String::as_str).collect::<Vec<&str>>()) {
        Ok(true) => ExitCode::SUCCESS,
        Ok(false) => ExitCode::FAILURE,
        Err(error) => {
            eprintln!("compare: {error}");
            ExitCode::FAILURE
        }
    }
}
