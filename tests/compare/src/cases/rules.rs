//! The rules of a task, 25 to 28, at their edges.
use crate::bench::bench;
use crate::trials::{Agreed, Trials};
use independent::engine::Numbers;
use independent::words::bytes;

/// The registers of a task that passes: a blit of 8 by 2 from a source address, blended with its own output.
pub fn passing(source: u32, output: u32) -> Vec<(u32, u32)> {
    vec![
        (0x010, 0x0000_0001),
        (0x014, 0x0002_0008),
        (0x018, 32),
        (0x01C, 0x80FF_0000),
        (0x020, source),
        (0x050, 0x0000_0001),
        (0x054, 0x0002_0008),
        (0x058, 40),
        (0x060, output),
        (0x090, 0x0000_0B01),
        (0x100, 0),
        (0x104, 0x0002_0008),
        (0x108, 40),
        (0x110, output),
    ]
}

/// A batch that writes some registers, one group each, the last the task end.
pub fn written(registers: &[(u32, u32)]) -> Vec<u8> {
    let last = registers.len() - 1;
    let group = |(i, (offset, word)): (usize, &(u32, u32))| [offset << 16 | 4 | u32::from(i == last), *word];
    bytes(&registers.iter().enumerate().flat_map(group).collect::<Vec<u32>>())
}

/// The client's window is 16,384 to 28,671, as in the replay program, and the output is in its middle.
const OUTPUT: u32 = 20000;

/// What lies at and past each edge of 25 to 28, by register.
const EDGES: [(usize, &[u32]); 14] = [
    (0, &[0, 0x05, 0x11, 0x21, 0x31, 0x15, 0xC1, 0x0801, 0x0E01]),
    (1, &[0, 0x0002_0000, 0x0000_0008, 0x1000_0008, 0x1001_0008, 0x0002_1000, 0x0002_1001, 0x0008_0002]),
    (2, &[0, 8, 24, 31, 33, 40, 0xFFF8]),
    (3, &[0]),
    (4, &[0, 16320, 16321, 16384, 19935, 19936, 19937, 20000, 20039, 20072, 20073, 28608, 28609, 0xFFFF_FFF8]),
    (5, &[0, 0x0801, 0x0E01]),
    (6, &[0, 0x0002_0007, 0x0003_0008]),
    (7, &[0, 32, 48, 41]),
    (8, &[0, 19928, 19999, 20001, 20072, 16383, 28600, 28672, 0xFFFF_FFFF]),
    (9, &[0, 0x1300, 0x1301, 0x2D01]),
    (10, &[0x0800, 0x0E00]),
    (11, &[0, 0x0002_0007, 0x0008_0002, 0x0001_0008]),
    (12, &[0, 8, 31, 36, 48]),
    (13, &[0, 16383, 16384, 28600, 28601, 28672, 128, 0xFFFF_FFFF]),
];

/// Every register of a passing task changed alone to each of its edges, every two, and every three.
pub fn compare(trials: &mut Trials) -> Agreed {
    let bench = bench(Numbers { ring: 128, memory: 28800, common: 16384 }, 128);
    let edges: Vec<(usize, u32)> = EDGES.iter().flat_map(|(at, words)| words.iter().map(move |word| (*at, *word))).collect();
    let mut changed_to = |edges: &[(usize, u32)]| {
        let mut task = passing(64, OUTPUT);
        edges.iter().for_each(|(at, word)| task[*at].1 = *word);
        trials.batch(&bench, &written(&task))
    };
    changed_to(&[])?;
    for (i, one) in edges.iter().enumerate() {
        changed_to(&[*one])?;
        for (j, two) in edges.iter().enumerate().skip(i + 1).filter(|(_, two)| two.0 != one.0) {
            changed_to(&[*one, *two])?;
            for three in edges.iter().skip(j + 1).filter(|three| three.0 != two.0) {
                changed_to(&[*one, *two, *three])?;
            }
        }
    }
    Ok(())
}
