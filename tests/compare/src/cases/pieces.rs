//! Batches handed over by pieces (02, 6): begin, piece and cancel at their edges, every cutting of a small batch beside the whole
//! submit, runs and other calls meanwhile, hand-overs that are cancelled, tickets across the wrap.
use super::queue::{waiting, NUMBERS, WINDOWS};
use crate::bench;
use crate::trials::{Agreed, Trials};
use independent::calls::{Buffers, Call};
use independent::queue::{Unfinished, SLOTS};

/// As many bytes as any batch of these cases has, and some more.
const BYTES: [u8; 140] = {
    let mut bytes = [0; 140];
    let mut at = 0;
    while at < bytes.len() {
        bytes[at] = at as u8 + 1;
        at += 1;
    }
    bytes
};

pub fn compare(trials: &mut Trials) -> Agreed {
    begins(trials)?;
    hand_overs(trials)?;
    cuttings(trials)?;
    meanwhile(trials)?;
    cancelled(trials)?;
    tickets(trials)?;
    lent_lengths(trials)
}

fn begin(client: u32, total: usize) -> Call<'static> {
    Call::Begin { client, total: total as u64 }
}

fn piece(client: u32, piece: &[u8]) -> Call<'_> {
    Call::Piece { client, piece }
}

/// An engine with so many batches of 8 bytes waiting, in its last slots.
fn engine(read: u64, next: u32, count: usize) -> Buffers {
    bench::buffers(&waiting(bench::record(NUMBERS, &WINDOWS, read, next), &vec![8; count], |i| SLOTS - 1 - i))
}

/// Begins of every length, of every client and none, beside a ring filled by every number of bytes and by every number of batches.
fn begins(trials: &mut Trials) -> Agreed {
    for read in [0, 64, 124] {
        for filled in (0..=128).step_by(4) {
            let lengths: Vec<u64> = [filled].into_iter().filter(|length| *length > 0).collect();
            let record = bench::record(NUMBERS, &WINDOWS, read, 7);
            let buffers = bench::buffers(&waiting(record, &lengths, |_| 0));
            for total in (0..=132).chain([1 << 31, 1 << 32, 1 << 40, usize::MAX - 3, usize::MAX]) {
                trials.try_call(&begin(total as u32 % 4, total), &buffers)?;
            }
            for client in [4, 5, 128, u32::MAX] {
                trials.try_call(&begin(client, 4), &buffers)?;
                trials.try_call(&begin(client, 0), &buffers)?;
            }
        }
        for count in 0..=SLOTS {
            for total in [0, 2, 4, 64, 68, 128, 132] {
                trials.try_call(&begin(1, total), &engine(read, 7, count))?;
            }
        }
    }
    Ok(())
}

/// A hand-over of client 2 with every number of bytes so far: pieces of every length, of every client and none, and every other call.
fn hand_overs(trials: &mut Trials) -> Agreed {
    for (read, total) in [(0, 4), (60, 8), (124, 12), (0, 128), (124, 128), (100, 64)] {
        for so_far in 0..total {
            let mut record = bench::record(NUMBERS, &WINDOWS[..3], read, 7);
            record.unfinished = Some(Unfinished { client: 2, slot: so_far % SLOTS as u64, total, so_far });
            let buffers = bench::buffers(&record);
            for length in (0..=(total - so_far) as usize + 3).chain([140]) {
                trials.try_call(&piece(2, &BYTES[..length]), &buffers)?;
            }
            for client in [0, 1, 2, 3, 4, u32::MAX] {
                trials.try_call(&piece(client, &[]), &buffers)?;
                trials.try_call(&piece(client, &[9]), &buffers)?;
                trials.try_call(&Call::Cancel { client }, &buffers)?;
                trials.try_call(&Call::Pending { client }, &buffers)?;
                trials.try_call(&begin(client, 4), &buffers)?;
                trials.try_call(&begin(client, 3), &buffers)?;
                trials.try_call(&Call::Submit { client, batch: &[9; 4] }, &buffers)?;
                trials.try_call(&Call::Submit { client, batch: &[] }, &buffers)?;
            }
            trials.try_call(&Call::Open { start: 52, length: 40 }, &buffers)?;
            trials.try_call(&Call::Run, &buffers)?;
        }
    }
    Ok(())
}

/// Every cutting of a batch of 8 bytes, some with empty pieces, from every read offset: record, ring, memory and ticket are those of the whole
/// submit.
fn cuttings(trials: &mut Trials) -> Agreed {
    let batch = &BYTES[..8];
    for read in (0..128).step_by(4) {
        for count in [0, 3, 7] {
            let before = engine(read, u32::MAX, count);
            let mut whole = before.clone();
            let ticket = trials.call(&Call::Submit { client: 3, batch }, &mut whole)?.values[0];
            for cuts in 0..1u32 << 7 {
                let mut cut = before.clone();
                trials.call(&begin(3, batch.len()), &mut cut)?;
                let answered = handed_over(trials, &mut cut, batch, cuts)?;
                if cut != whole || answered != [1, ticket] {
                    return Err(format!(
                        "from {read}, cut as {cuts:07b}: {answered:?} and other buffers than by the whole submit"
                    ));
                }
            }
        }
    }
    Ok(())
}

/// Hands a batch of client 3 over in pieces: bit k cuts it behind byte k. With odd cuttings an empty piece goes before each. What the last piece
/// answers.
fn handed_over(trials: &mut Trials, buffers: &mut Buffers, batch: &[u8], cuts: u32) -> Agreed<[u32; 2]> {
    let (mut from, mut answered) = (0, [0; 2]);
    for to in (1..=batch.len()).filter(|to| *to == batch.len() || cuts >> (to - 1) & 1 == 1) {
        if cuts & 1 == 1 {
            trials.call(&piece(3, &[]), buffers)?;
        }
        let answer = trials.call(&piece(3, &batch[from..to]), buffers)?;
        (from, answered) = (to, [answer.values[0], answer.values[1]]);
    }
    Ok(answered)
}

/// Runs while a batch is handed over, as many as there are and one more, at every byte of it; then its rest, other batches, and runs until none
/// waits.
fn meanwhile(trials: &mut Trials) -> Agreed {
    for count in 0..SLOTS {
        for runs in 0..=count + 1 {
            for so_far in 0..8 {
                let mut buffers = engine(108, 7, count);
                trials.call(&begin(1, 8), &mut buffers)?;
                trials.call(&piece(1, &BYTES[..so_far]), &mut buffers)?;
                for _ in 0..runs {
                    trials.call(&Call::Run, &mut buffers)?;
                }
                trials.call(&Call::Submit { client: 0, batch: &[9; 4] }, &mut buffers)?;
                trials.call(&Call::Pending { client: 1 }, &mut buffers)?;
                trials.call(&piece(1, &BYTES[so_far..8]), &mut buffers)?;
                trials.call(&Call::Pending { client: 1 }, &mut buffers)?;
                trials.call(&piece(1, &[]), &mut buffers)?;
                trials.call(&Call::Submit { client: 0, batch: &[9; 4] }, &mut buffers)?;
                for _ in 0..=SLOTS {
                    trials.call(&Call::Run, &mut buffers)?;
                }
            }
        }
    }
    Ok(())
}

/// Hand-overs cancelled after every byte, by another client first; then a submit and another hand-over, which start where it did.
fn cancelled(trials: &mut Trials) -> Agreed {
    for read in (96..128).step_by(4) {
        for count in 0..SLOTS {
            for so_far in 0..24 {
                let mut buffers = engine(read, 7, count);
                trials.call(&begin(2, 24), &mut buffers)?;
                trials.call(&piece(2, &BYTES[..so_far]), &mut buffers)?;
                for client in [1, 2, 2] {
                    trials.call(&Call::Cancel { client }, &mut buffers)?;
                }
                trials.call(&piece(2, &BYTES[so_far..24]), &mut buffers)?;
                trials.call(&Call::Submit { client: 1, batch: &[9; 8] }, &mut buffers)?;
                trials.call(&begin(0, 4), &mut buffers)?;
                trials.call(&piece(0, &[5; 4]), &mut buffers)?;
                trials.call(&Call::Run, &mut buffers)?;
            }
        }
    }
    Ok(())
}

/// Batches by pieces with every next ticket near the wrap.
fn tickets(trials: &mut Trials) -> Agreed {
    for next in (0..12).map(|n| 0u32.wrapping_sub(n)).chain([1 << 31, 7]) {
        let mut buffers = engine(124, next, 2);
        for round in 0..12u8 {
            let client = u32::from(round) % 4;
            trials.call(&begin(client, 8), &mut buffers)?;
            trials.call(&piece(client, &[round; 5]), &mut buffers)?;
            trials.call(&piece(client, &[round; 3]), &mut buffers)?;
            trials.call(&Call::Run, &mut buffers)?;
        }
    }
    Ok(())
}

/// Rings of every length up to past the set-up one: 10 before all others. Cancel is lent none.
fn lent_lengths(trials: &mut Trials) -> Agreed {
    let none = engine(0, 0, 2);
    let mut open = none.clone();
    trials.call(&begin(0, 8), &mut open)?;
    for length in 0..=140 {
        for good in [&none, &open] {
            let ring = Buffers { ring: vec![3; length], ..good.clone() };
            for (client, size) in [(0, 4), (9, 4), (0, 3), (0, 0), (1, 4), (0, 12)] {
                trials.try_call(&begin(client, size), &ring)?;
                trials.try_call(&piece(client, &BYTES[..size]), &ring)?;
                trials.try_call(&Call::Cancel { client }, &ring)?;
            }
        }
    }
    Ok(())
}
