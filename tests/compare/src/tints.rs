//! Tints encoded by the engine and by the independent program, over scores of all kinds, rectangles at the limits of their fields and buffers of
//! all lengths.
use crate::lent::GUARDS;
use crate::linked;
use independent::random::Random;
use independent::tint::{tinted, Rectangle, Tint};
use std::collections::BTreeMap;

/// What the call is handed. A buffer holds the bytes that it is filled with before.
pub struct Case {
    pub score: u32,
    pub tint: Tint,
    pub output: Rectangle,
    pub buffer: Vec<u8>,
}

const GOOD: Rectangle = [64, 48, 256, 16384, 0x00];

/// Numbers at and around what a field of so many bits holds.
fn around(bits: u32) -> Vec<u32> {
    let end = 1u64 << bits;
    [0, 1, 2, end / 2, end - 2, end - 1, end, end + 1, 0xFFFF_FFFF]
        .into_iter()
        .filter_map(|n| u32::try_from(n).ok())
        .collect()
}

/// Every k/255 and the f32s around it; zeros, subnormals, ones, infinities and NaNs of either sign.
fn scores() -> Vec<u32> {
    let mut bits: Vec<u32> = (0..=255u8)
        .flat_map(|k| (0..9).map(move |near| ((f32::from(k) / 255.0).to_bits() + near).wrapping_sub(4)))
        .collect();
    for power in 0..=0xFF {
        bits.extend(
            [0, 1, 2, 0x3F_FFFF, 0x40_0000, 0x40_0001, 0x55_5555, 0x7F_FFFE, 0x7F_FFFF].map(|digits| power << 23 | digits),
        );
    }
    let negative: Vec<u32> = bits.iter().map(|bits| bits | 1 << 31).collect();
    [bits, negative].concat()
}

/// Rectangles with one field at or around its limits, and with every code of a format.
fn rectangles() -> Vec<Rectangle> {
    let with = |at: usize, value: u32| std::array::from_fn(|field| if field == at { value } else { GOOD[field] });
    let fields = [(0, 13), (1, 13), (2, 16), (3, 32), (4, 7)];
    let limits = fields.into_iter().flat_map(|(at, bits)| around(bits).into_iter().map(move |value| with(at, value)));
    limits.chain((0..=0x1FF).map(|code| with(4, code))).collect()
}

/// A case in which what is not asked about is random.
fn case(random: &mut Random, score: u32, output: Rectangle, room: usize) -> Case {
    let [_, red, green, blue] = random.word().to_be_bytes();
    Case { score, tint: [red, green, blue], output, buffer: random.bytes(room) }
}

/// A random field: often allowed, sometimes at a limit, sometimes anything.
fn field(random: &mut Random, bits: u32) -> u32 {
    match random.below(8) {
        0 => random.pick(&around(bits)),
        1 => random.word(),
        _ => random.word() >> (32 - bits),
    }
}

fn random_case(random: &mut Random) -> Case {
    let score = if random.one_in(2) { random.word() } else { random.below(0x3F80_0002) };
    let format = if random.one_in(8) { field(random, 7) } else { random.pick(&[0x00, 0x08, 0x0E]) };
    let output = [field(random, 13), field(random, 13), field(random, 16), random.word(), format];
    let room = random.pick(&[0, 1, 79, 80, 80, 80, 81, 84, 128]);
    case(random, score, output, room)
}

/// The cases that are tried whatever the count: all scores, all rectangles and all lengths, with a good and a bad one of the others.
fn fixed(random: &mut Random) -> Vec<Case> {
    let mut cases: Vec<Case> = scores().into_iter().map(|score| case(random, score, GOOD, 80)).collect();
    for output in rectangles() {
        for (score, room) in [(0x3F00_0000, 80), (0x3F00_0000, 79), (0x7FC0_0000, 80), (0xFF80_0001, 3)] {
            cases.push(case(random, score, output, room));
        }
    }
    for room in 0..=200 {
        cases.extend([GOOD, [8192, 0, 0, 0, 1]].map(|output| case(random, 0x3E80_0000, output, room)));
    }
    // every coverage with every value of a channel
    for k in 0..=255u8 {
        let score = (f32::from(k) / 255.0).to_bits();
        cases.extend((0..=255).map(|t| Case { tint: [t, !t, t ^ 0x55], ..case(random, score, GOOD, 80) }));
    }
    cases
}

/// Whether a case agrees; the answer's number is counted.
fn agrees(case: &Case, tally: &mut BTreeMap<u32, u64>) -> bool {
    let mut expected = case.buffer.clone();
    let number = match tinted(case.score, case.tint, case.output, case.buffer.len()) {
        Ok(bytes) => {
            expected[..bytes.len()].copy_from_slice(&bytes);
            0
        }
        Err(number) => number,
    };
    *tally.entry(number).or_default() += 1;
    let found = linked::encode_tint(case, GUARDS);
    if found.as_ref() == Some(&(number, expected.clone())) {
        return true;
    }
    println!(
        "score {:08X}, tint {:?}, rectangle {:?}, {} bytes lent",
        case.score,
        case.tint,
        case.output,
        case.buffer.len()
    );
    println!("expected {number}: {expected:02X?}");
    match found {
        Some((number, bytes)) => println!("found {number}: {bytes:02X?}"),
        None => println!("bytes outside the lent buffer were changed"),
    }
    false
}

/// Whether the fixed cases and so many random ones of a seed agree.
pub fn compare(count: u64, seed: u64) -> bool {
    let mut tally = BTreeMap::new();
    if !fixed(&mut Random::new(seed)).iter().all(|case| agrees(case, &mut tally)) {
        return false;
    }
    for number in 0..count {
        if !agrees(&random_case(&mut Random::of_case(seed, number)), &mut tally) {
            println!("case {number} of seed {seed} differs");
            return false;
        }
    }
    tally.iter().for_each(|(number, times)| println!("{times:>12}  answer {number}"));
    println!("tints at all limits, and {count} of seed {seed}: all agree");
    true
}
