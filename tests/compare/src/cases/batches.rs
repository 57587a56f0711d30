//! Batches of several tasks: later ones read what earlier ones drew, and a fault in the last draws none.
use crate::bench::bench;
use crate::trials::{Agreed, Trials};
use independent::engine::Numbers;
use independent::made_tasks::Fields;
use independent::pixel::FORMATS;
use independent::random::Random;
use independent::sample_tasks::{batch, blended, copy, Place};
use independent::writer::field::{DESTINATION_FACTOR, SOURCE_FACTOR};

/// Where the first task reads, where it draws, and where the next one copies that to.
const SOURCE: u32 = 40;
const OUTPUT: u32 = 1200;
const OTHER: u32 = 1700;

/// Memory is 2,400 bytes: 800 of common, then the window; the last 100 belong to nobody.
const NUMBERS: Numbers = Numbers { ring: 512, memory: 2400, common: 800 };
const NOBODY: u32 = 100;

pub fn compare(trials: &mut Trials) -> Agreed {
    let bench = bench(NUMBERS, NOBODY);
    let random = &mut Random::new(0x5441_534B);
    for round in 0..10_000 {
        let format = random.pick(&FORMATS.each_ref().map(|format| format.code));
        let count = 1 + random.below(3);
        let mut tasks: Vec<Fields> = (0..count).map(|step| task(random, step, format)).collect();
        if round % 4 == 3 {
            let place = |address| Place { address, stride: 32, width: 6, height: 4, format };
            tasks.push(copy(place(SOURCE), place(2290 + random.below(200)), 0, 0, 0));
        }
        trials.batch(&bench, &batch(&tasks))?;
    }
    Ok(())
}

/// From common to the output and from there on, in turn, blended half of the time with what lies there.
fn task(random: &mut Random, step: u32, format: u32) -> Fields {
    let (from, to) = if step % 2 == 0 { (SOURCE + 8 * random.below(20), OUTPUT) } else { (OUTPUT, OTHER) };
    let (width, height, turns) = (1 + random.below(6), 1 + random.below(4), random.below(4));
    let (turned_width, turned_height) = if turns % 2 == 0 { (width, height) } else { (height, width) };
    let source = Place { address: from, stride: 32, width, height, format };
    let output = Place { address: to, stride: 32, width: turned_width, height: turned_height, format };
    let mut fields = copy(source, output, turns, random.below(2), random.below(2));
    if random.one_in(2) {
        fields = blended(fields, "SRC_OVER");
        (fields[SOURCE_FACTOR], fields[DESTINATION_FACTOR]) = (random.below(6), random.below(6));
    }
    fields
}
