//! The two reset rules (02, request 2): batches that leave registers as they are at reset, on engines set up with numbers that stand for either.
use crate::trials::{Agreed, Trials};
use independent::calls::{Buffers, Call};
use independent::engine::Numbers;
use independent::ring;
use independent::sample_tasks::{blended, fill, Place, ARGB8888};
use independent::words::bytes;
use independent::writer::{written, GROUPS};

const NUMBERS: Numbers = Numbers { ring: 256, memory: 256, common: 64 };

/// Numbers for a rule: 0 is the old one, any other the new one.
const RULES: [u32; 7] = [0, 1, 2, 0x0100, 0x0B01, 0x8000_0000, u32::MAX];

pub fn compare(trials: &mut Trials) -> Agreed {
    for rule in RULES {
        for left_out in 0..1 << GROUPS.len() {
            let mut buffers = set_up(trials, rule)?;
            for batch in batches(left_out) {
                trials.call(&Call::Submit { client: 0, batch: &batch }, &mut buffers)?;
                trials.call(&Call::Run, &mut buffers)?;
            }
        }
    }
    Ok(())
}

fn set_up(trials: &mut Trials, rule: u32) -> Agreed<Buffers> {
    let memory = (0..=255).collect();
    let mut buffers = Buffers { engine: vec![0x5A; 272], ring: vec![0; 256], memory };
    trials.call(&Call::SetUp(NUMBERS, rule), &mut buffers)?;
    trials.call(&Call::Open { start: 64, length: 192 }, &mut buffers)?;
    Ok(buffers)
}

/// A task without some of its groups, first unblended and then blended: alone, after a whole one in the same batch, and alone again, so that what a
/// batch has written is seen to be gone.
fn batches(left_out: usize) -> Vec<Vec<u8>> {
    let page = Place { address: 64, stride: 16, width: 3, height: 2, format: ARGB8888 };
    let plain = fill(page, 0x8040_20C0);
    let tasks = [plain, blended(plain, "SRC_OVER"), blended(plain, "ADD")];
    let whole = tasks.map(|fields| ring::words(&written(&fields, 80).expect("allowed fields"), 0, 80));
    let short = whole.each_ref().map(|words| without(words, left_out));
    let alone = |task: &[u32]| bytes(task);
    let pairs = whole.iter().flat_map(|first| short.iter().map(move |second| bytes(&[&first[..], second].concat())));
    let singles = short.iter().map(|task| alone(task));
    pairs.flat_map(|pair| [pair, alone(&short[1])]).chain(singles).filter(|batch| !batch.is_empty()).collect()
}

/// The words of a whole task without the groups whose bits are set; what is then the last group ends the task.
fn without(task: &[u32], left_out: usize) -> Vec<u32> {
    let (mut kept, mut at, mut last) = (Vec::new(), 0, None);
    for (group, (_, count)) in GROUPS.iter().enumerate() {
        let end = at + 1 + *count as usize;
        if left_out >> group & 1 == 0 {
            last = Some(kept.len());
            kept.extend_from_slice(&task[at..end]);
        }
        at = end;
    }
    if let Some(last) = last {
        kept[last] |= 1;
    }
    kept
}
