//! What the two engines draw (02, request 13): pictures of all of memory after replay files, by the program `picture` with --slow and without, and by the
//! independent program.
use crate::cases;
use crate::features::Features;
use crate::laid_out::LaidOut;
use crate::trials::{difference, Agreed};
use independent::picture::{of_memory, ALL_OF_MEMORY};
use independent::registers::Task;
use independent::replay::played;
use independent::{drawn_files, replay_files};
use std::io::Result;
use std::path::{Path, PathBuf};
use std::process::Command;

/// The program, and the file that it is run on.
pub struct Pictures {
    program: String,
    file: PathBuf,
    /// Of each engine.
    count: u64,
}

impl Pictures {
    /// What the program writes of all of memory, after some words. What it says on standard error is a difference.
    fn written(&self, words: &[&str]) -> Agreed<Vec<u8>> {
        let run = Command::new(&self.program).args(words).arg(&self.file).args(ALL_OF_MEMORY).output();
        let output = run.map_err(|error| format!("{}: {error}", self.program))?;
        match String::from_utf8_lossy(&output.stderr) {
            said if said.is_empty() => Ok(output.stdout),
            said => Err(format!("{} {words:?}: {said}", self.program)),
        }
    }

    /// Whether an engine's picture is the one expected.
    fn agrees(&self, words: &[&str], engine: &str, expected: &[u8]) -> Agreed {
        let found = self.written(words)?;
        if found == expected {
            return Ok(());
        }
        let lengths = format!("{} bytes of a picture expected, {} found", expected.len(), found.len());
        Err(format!("{engine} engine: {}", difference("picture", expected, &found).unwrap_or(lengths)))
    }

    /// Compares what both engines leave after a file of edition 1, and answers the tasks of it that rule 28 was asked about.
    pub fn agree(&mut self, file: &[u8], name: &str) -> Agreed<Vec<Task>> {
        let book = played(file).1;
        let expected = of_memory(&book.memory);
        std::fs::write(&self.file, file).map_err(|error| format!("{}: {error}", self.file.display()))?;
        self.agrees(&["--slow"], "slow", &expected)
            .and_then(|()| self.agrees(&[], "fast", &expected))
            .map_err(|differs| format!("{name}: {differs}"))?;
        self.count += 1;
        Ok(book.asked)
    }
}

/// The samples of a folder.
fn samples(pictures: &mut Pictures, folder: &Path) -> Agreed {
    let failed = |error: std::io::Error| format!("{}: {error}", folder.display());
    let entries = std::fs::read_dir(folder).and_then(Iterator::collect::<Result<Vec<_>>>).map_err(failed)?;
    let mut paths: Vec<PathBuf> = entries.iter().map(std::fs::DirEntry::path).collect();
    paths.retain(|path| path.extension().is_some_and(|end| end == "replay"));
    paths.sort();
    for path in &paths {
        pictures.agree(&std::fs::read(path).map_err(failed)?, &path.display().to_string())?;
    }
    println!("{:>12}  samples", paths.len());
    Ok(())
}

/// Random files that draw, in which every kind of task must come.
fn drawn(pictures: &mut Pictures, count: u64, seed: u64) -> Agreed {
    let mut features = Features::default();
    for number in 0..count {
        let tasks = pictures.agree(&drawn_files::file(seed, number), &format!("drawn file {number} of seed {seed}"))?;
        tasks.iter().for_each(|task| features.add(task));
    }
    features.all_came()
}

/// Random files with refusals, faults and damages.
fn any(pictures: &mut Pictures, count: u64, seed: u64) -> Agreed {
    for number in 0..count {
        pictures.agree(&replay_files::file(seed, number), &format!("file {number} of seed {seed}"))?;
    }
    println!("{count:>12}  random files, some damaged");
    Ok(())
}

fn all_agree(mut pictures: Pictures, count: u64, seed: u64, folder: &Path) -> Agreed<u64> {
    samples(&mut pictures, folder)?;
    drawn(&mut pictures, count, seed)?;
    any(&mut pictures, count, seed)?;
    let files = cases::drawn_in_files(LaidOut::new(pictures))?;
    println!("{:>12}  batches on more memory than a window has left out", files.counts().left_out);
    Ok(files.into_pictures().count)
}

/// Whether both engines leave the memory that they should: after the samples of a folder, so many random files that draw, as many random ones of all kinds,
/// and the cases of the calls.
pub fn compare(count: u64, seed: u64, folder: &str, program: &str) -> Result<bool> {
    let file = std::env::temp_dir().join(format!("pictures-{}.replay", std::process::id()));
    let pictures = Pictures { program: program.into(), file: file.clone(), count: 0 };
    let agreed = all_agree(pictures, count, seed, Path::new(folder));
    std::fs::remove_file(&file)?;
    if let Err(differs) = &agreed {
        println!("{differs}");
    }
    if let Ok(files) = &agreed {
        println!("all of memory after {files} replay files, seed {seed}, by the slow engine and by the fast one: all agree");
    }
    Ok(agreed.is_ok())
}
