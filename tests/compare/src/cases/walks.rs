//! Random lists of calls made one at a time, each on the record that the last one left, some of them on a damaged copy. What
//! they leave must be what the list leaves when it is played at once.
use super::records::damage;
use crate::linked;
use crate::trials::{Agreed, Trials};
use independent::calls::{Answer, Buffers, Call};
use independent::play::{self, Calls, List, ANSWER};
use independent::random::Random;
use independent::record_bytes;
use independent::scripts;

const LISTS: u64 = 12_000;

pub fn compare(trials: &mut Trials) -> Agreed {
    let random = &mut Random::new(0x5741_4C4B);
    for number in 0..LISTS {
        walk(trials, &scripts::list(7, number), random).map_err(|differs| format!("list {number}: {differs}"))?;
    }
    Ok(())
}

/// A call of a list as a call by itself.
fn alone(call: play::Call) -> Call {
    match call {
        play::Call::Open { start, length } => Call::Open { start, length },
        play::Call::Submit { client, batch } => Call::Submit { client: client.into(), batch },
        play::Call::Run => Call::Run,
        play::Call::Pending { client } => Call::Pending { client: client.into() },
        play::Call::Begin { client, total } => Call::Begin { client: client.into(), total: total.into() },
        play::Call::Piece { client, piece } => Call::Piece { client: client.into(), piece },
        play::Call::Cancel { client } => Call::Cancel { client: client.into() },
        play::Call::Close { client } => Call::Close { client: client.into() },
    }
}

/// The calls of a list one at a time, now and then one on a damaged record between them, then the list at once.
pub fn walk(trials: &mut Trials, list: &List, random: &mut Random) -> Agreed {
    let engine = random.bytes(record_bytes::LENGTH);
    let mut buffers = Buffers { engine, ring: list.ring.clone(), memory: list.memory.clone() };
    let set_up = trials.call(&Call::SetUp(list.numbers, list.reset), &mut buffers)?;
    let mut answers = vec![set_up];
    for call in Calls(&list.script).take_while(|_| set_up.number == 0) {
        let call = alone(call);
        if random.one_in(6) {
            let mut damaged = buffers.clone();
            damage(random, &mut damaged.engine);
            trials.call(&call, &mut damaged)?;
        }
        answers.push(trials.call(&call, &mut buffers)?);
    }
    at_once(trials, list, &answers, &buffers)
}

/// The list played at once, with room for all answers.
fn at_once(trials: &Trials, list: &List, answers: &[Answer], buffers: &Buffers) -> Agreed {
    let list = &List { answers: vec![0; ANSWER * answers.len()], ..list.clone() };
    let words = |answer: &Answer| [&[answer.number], &answer.values[..]].concat();
    let expected = independent::words::bytes(&answers.iter().flat_map(words).collect::<Vec<u32>>());
    let Some(played) = linked::play(list, trials.guards) else { return Err("played outside the lent buffers".into()) };
    let same = played.written == expected.len()
        && played.answers[..played.written] == expected
        && (played.ring, played.memory) == (buffers.ring.clone(), buffers.memory.clone());
    same.then_some(()).ok_or_else(|| "played at once it leaves something else than one call at a time".into())
}
