//! Small replay files, each of which shows one thing, with the lines that they print and a list of what they show.
use crate::replay::replayed;
use crate::second::played;
use crate::{sample_columns, sample_files as files, sample_margins, sample_page, sample_scan, sample_scores, sample_second};
use std::path::Path;

pub struct Sample {
    name: &'static str,
    shows: &'static str,
    /// Words with which to look at the memory it leaves.
    pictures: &'static [&'static str],
    file: fn() -> Vec<u8>,
}

const fn sample(
    name: &'static str,
    pictures: &'static [&'static str],
    file: fn() -> Vec<u8>,
    shows: &'static str,
) -> Sample {
    Sample { name, shows, pictures, file }
}

/// The samples in the order in which to look at them.
pub const SAMPLES: [Sample; 21] = [
    sample("hello", &["16384 8 2 1 ARGB8888"], files::hello, "01's worked words: two pixels of one colour by client 0"),
    sample("outside", &[], files::outside, "the same with address 64: fault 27 at byte 72, and nothing is drawn"),
    sample("blend", &["16384 64 16 8 ARGB8888"], files::blend, "a half-clear colour by SRC_OVER over a fill"),
    sample(
        "rules",
        &["16384 256 63 20 ARGB8888"],
        files::rules,
        "the fourteen rules, orange drawn over blue, in the order of 01's names",
    ),
    sample(
        "turn",
        &["16384 256 64 28 ARGB8888"],
        files::turn,
        "a letter F, and its four turns: plain, H flip; V flip, both",
    ),
    sample("formats", FORMATS, files::formats, "bars in ARGB8888, copied to RGB888 and RGB565, and from there back"),
    sample(
        "four_clients",
        &[],
        files::four_clients,
        "each client draws; client 1 then may neither draw in 0's window nor read it",
    ),
    sample(
        "left_over_registers",
        LEFT_OVER,
        files::left_over,
        "registers start at reset in every batch, and stay from task to task",
    ),
    sample(
        "before_a_fault",
        &["16384 64 16 8 ARGB8888"],
        files::before_a_fault,
        "two good tasks and then 23, two and then 21, one before a faulty one: the tasks before a fault stand, and those after it are not drawn",
    ),
    sample(
        "wrapped",
        &["16384 256 64 8 ARGB8888"],
        files::wrapped,
        "a batch that goes on at byte 0 of the ring; each of its tasks sets a pixel of its own",
    ),
    sample("refused", &[], files::refused, "refused submits: 6 for lengths 0 and 5; 5 for client 7, also where both hold"),
    sample("faults", &[], files::faults, "one of each fault, 20 to 28"),
    sample("bad_version", &[], files::bad_version, "a first byte that is not 1"),
    sample("bad_record", &[], files::bad_record, "a length of 0 after a whole record"),
    sample("cut_record", &[], files::cut, "a record of which only a part is there"),
    sample(
        "page",
        &["16384 256 64 48 ARGB8888"],
        sample_page::replay,
        "a page in four batches: strips, text, a picture, tints",
    ),
    sample(
        "columns",
        &["16384 256 64 48 ARGB8888"],
        sample_columns::replay,
        "strips copied from the left column of a page to the right; one that runs over the edge onto its source: 28",
    ),
    sample(
        "scores",
        &["16384 256 64 48 ARGB8888"],
        sample_scores::replay,
        "a page whose words carry the reader's scores: the less sure of a word, the stronger its tint; at the foot the scores from 0 to 1",
    ),
    sample(
        "margins",
        &["16384 256 64 48 ARGB8888"],
        sample_margins::replay,
        "a page with shaded margins, along x at its sides and along y at head and foot, one of each two flipped; two fades that are blended",
    ),
    sample(
        "lost_tint",
        &["16384 256 64 12 ARGB8888"],
        sample_page::lost_tint,
        "an entry tinted, then written anew; the batch that was to tint it again faults",
    ),
    sample(
        "scan",
        &["16384 256 64 48 ARGB8888"],
        sample_scan::replay,
        "a stamp that was scanned with its colours multiplied by alpha; laid by NONE as it is, too dark; by NONE divided first; and by SRC_OVER, as the second",
    ),
];

const FORMATS: &[&str] =
    &["16384 64 16 8 ARGB8888", "17408 48 16 8 RGB888", "18432 32 16 8 RGB565", "19456 64 16 8 ARGB8888"];
const LEFT_OVER: &[&str] = &["16384 32 8 2 ARGB8888"];

/// One line a sample, and how to look at it.
fn list() -> String {
    let mut text = String::from(HEADING);
    for Sample { name, shows, pictures, .. } in &SAMPLES {
        let pictures: Vec<String> = pictures.iter().map(|words| format!("`{words}`")).collect();
        let look = if pictures.is_empty() { String::new() } else { format!(" (picture: {})", pictures.join(", ")) };
        text.push_str(&format!("- `{name}.replay`: {shows}{look}\n"));
    }
    text.push_str(SECOND);
    text
}

/// The sample of edition 2.
const SECOND: &str = "
Of edition 2, for `./replay2`:

- `scored.replay2`: good and bad scores, a refused record, a batch that blends because of its reset, a fault after a task that stands, a record that is cut
";

const HEADING: &str = "\
# Samples

Replay files that the independent program writes (`independent samples DIR`), each with the lines that it prints. Where one
draws something to look at, there are the words for `picture FILE ADDRESS STRIDE WIDTH HEIGHT FORMAT`.

";

/// Writes all samples, their lines and the list into a folder.
pub fn write(dir: &Path) -> std::io::Result<()> {
    std::fs::create_dir_all(dir)?;
    for Sample { name, file, .. } in &SAMPLES {
        let file = file();
        std::fs::write(dir.join(format!("{name}.replay")), &file)?;
        std::fs::write(dir.join(format!("{name}.lines")), replayed(&file).0)?;
    }
    let scored = sample_second::scored();
    std::fs::write(dir.join("scored.replay2"), &scored)?;
    std::fs::write(dir.join("scored.lines2"), played(&scored).0)?;
    std::fs::write(dir.join("README.md"), list())
}

#[cfg(test)]
mod tests {
    use super::*;

    fn lines(name: &str) -> String {
        replayed(&(SAMPLES.iter().find(|sample| sample.name == name).unwrap().file)()).0
    }

    #[test]
    fn each_fault_once() {
        let all = lines("faults");
        let numbers: Vec<&str> = all.lines().map(|line| line.split(' ').nth(3).unwrap()).collect();
        assert_eq!(numbers, ["20", "21", "22", "23", "24", "25", "26", "27", "28"]);
    }

    #[test]
    fn faultless() {
        assert_eq!(lines("before_a_fault"), "0 0 00020002 23 164\n0 1 00020100 21 160\n0 2 00010002 27 152\n");
        for name in ["hello", "wrapped", "blend", "rules", "turn", "formats", "page", "scores", "scan", "margins"] {
            assert!(lines(name).lines().all(|line| line.contains("0001 0 0")), "{name}: {}", lines(name));
        }
        assert_eq!(lines("left_over_registers"), "0 0 00010001 0 0\n0 1 00020001 0 0\n0 2 00000002 25 0\n");
        assert_eq!(lines("refused"), "0 - - 6 0\n1 - - 6 0\n7 - - 5 0\n7 - - 5 0\n0 0 00010001 0 0\n");
        assert_eq!(lines("columns"), "0 0 00070001 0 0\n0 1 00030001 0 0\n0 2 00000002 28 72\n");
        assert_eq!(lines("cut_record"), "0 0 00010001 0 0\ncut record\n");
    }
}
