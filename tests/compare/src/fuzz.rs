//! Random and damaged input of every kind, until a time is over: records, rings, memories, scripts, batches, fields, replay
//! files. All of it is tried twice, in buffers between guards and in heap blocks of their own, which valgrind watches.
use crate::cases::{any_fields, damage, walk};
use crate::lent::{ALONE, GUARDS};
use crate::lists;
use crate::trials::{Agreed, Trials};
use independent::calls::{Answer, Buffers, Call};
use independent::engine::Numbers;
use independent::made_tasks::steps;
use independent::play::List;
use independent::random::Random;
use independent::registers::UNBLENDED;
use independent::replay::{self, COMMON, MEMORY, RING, WINDOW};
use independent::{replay_files, scripts};
use std::time::{Duration, Instant};

/// What one round tries.
type Kind = fn(&mut Trials, &mut Random, u64) -> Agreed;

const KINDS: [(&str, Kind); 6] = [
    ("list", whole_list),
    ("damaged script", damaged_script),
    ("walk", one_at_a_time),
    ("noise", noise),
    ("fields", fields),
    ("replay file", replay_file),
];

/// Whether all of a seed agrees that is tried in so many seconds.
pub fn compare(seconds: u64, seed: u64) -> bool {
    let end = Instant::now() + Duration::from_secs(seconds);
    let mut both = [Trials::new(GUARDS), Trials::new(ALONE)];
    let mut rounds = 0;
    while Instant::now() < end {
        let (name, kind) = KINDS[(rounds % KINDS.len() as u64) as usize];
        for trials in &mut both {
            let random = &mut Random::of_case(seed, rounds);
            if let Err(differs) = kind(trials, random, rounds) {
                println!("round {rounds} of seed {seed} ({name}) differs:\n  {differs}");
                return false;
            }
        }
        rounds += 1;
    }
    both[0].print();
    println!("{rounds} rounds of seed {seed}, each twice: all agree");
    true
}

/// A list that no other test plays: a seed of its own.
fn list(random: &mut Random, round: u64) -> List {
    scripts::list(random.word().into(), round)
}

fn whole_list(trials: &mut Trials, random: &mut Random, round: u64) -> Agreed {
    lists::agreed(&list(random, round), trials.guards).map(|_| ())
}

/// A list with bytes of its script changed, cut off or put in, or with a script of random bytes or of a replay file.
fn damaged_script(trials: &mut Trials, random: &mut Random, round: u64) -> Agreed {
    let mut list = list(random, round);
    for _ in 0..1 + random.below(4) {
        let at = random.below(list.script.len() as u32 + 1) as usize;
        match random.below(8) {
            0 => list.script.truncate(at),
            1 => list.script.insert(at, random.below(5) as u8),
            2 => list.script = random.bytes(at),
            3 => list.script = replay_files::file(random.word().into(), round),
            _ if at < list.script.len() => list.script[at] ^= 1 << random.below(8),
            _ => list.script.extend([2, 3, 0]),
        }
    }
    lists::agreed(&list, trials.guards).map(|_| ())
}

fn one_at_a_time(trials: &mut Trials, random: &mut Random, round: u64) -> Agreed {
    let list = list(random, round);
    walk(trials, &list, random)
}

/// Calls of any numbers on buffers of any lengths and any bytes, the record sometimes a good one.
fn noise(trials: &mut Trials, random: &mut Random, _: u64) -> Agreed {
    let mut some = |most: u32| {
        let length = random.below(most);
        random.bytes(length as usize)
    };
    let mut buffers = Buffers { engine: some(400), ring: some(600), memory: some(600) };
    let batch = some(200);
    if random.one_in(2) {
        buffers.engine = vec![0; 272];
        let (ring, memory) = (buffers.ring.len() as u64 / 128 * 128, buffers.memory.len() as u64);
        buffers.ring.truncate(ring as usize);
        let numbers = Numbers { ring, memory, common: memory / 4 };
        trials.call(&Call::SetUp(numbers, scripts::reset(random)), &mut buffers)?;
        trials.call(&Call::Open { start: memory as u32 / 2, length: memory as u32 / 4 }, &mut buffers)?;
    }
    for _ in 0..8 {
        if random.one_in(8) && buffers.engine.len() == 272 {
            damage(random, &mut buffers.engine);
        }
        let small = |random: &mut Random| if random.one_in(3) { random.word() } else { random.below(5) };
        let call = match random.below(12) {
            0 => Call::Open { start: random.below(700), length: random.below(300) },
            1 => Call::Pending { client: small(random) },
            2..=4 => Call::Submit { client: small(random), batch: &batch[..batch.len() / 4 * 4] },
            5 => Call::Submit { client: 0, batch: &batch },
            6 => Call::Begin { client: small(random) % 2, total: u64::from(small(random)) * 4 },
            7 | 8 => Call::Piece { client: 0, piece: &batch[..batch.len().min(random.below(24) as usize)] },
            9 => Call::Cancel { client: small(random) % 2 },
            _ => Call::Run,
        };
        trials.call(&call, &mut buffers)?;
    }
    Ok(())
}

fn fields(trials: &mut Trials, random: &mut Random, _: u64) -> Agreed {
    for _ in 0..8 {
        let fields = any_fields(random);
        let length = random.below(160);
        let buffer = random.bytes(length as usize);
        trials.encode(&fields, &buffer)?;
        trials.encode_shaded(&fields, &steps(random), &buffer)?;
    }
    Ok(())
}

/// A replay file, whole or damaged, as the replay program runs it: its records submitted and run, its lines compared too.
fn replay_file(trials: &mut Trials, random: &mut Random, round: u64) -> Agreed {
    let file = replay_files::file(random.word().into(), round);
    let (engine, ring, memory) = (vec![0; 272], vec![0; RING as usize], vec![0; MEMORY as usize]);
    let mut buffers = Buffers { engine, ring, memory };
    let numbers = Numbers { ring: RING, memory: MEMORY.into(), common: COMMON.into() };
    trials.call(&Call::SetUp(numbers, UNBLENDED), &mut buffers)?;
    for client in 0..4 {
        trials.call(&Call::Open { start: replay::window_start(client), length: WINDOW }, &mut buffers)?;
    }
    let (records, ending) = replay::records(&file);
    let mut lines = String::new();
    for record in records {
        let client = record.client.into();
        let answered = trials.call(&Call::Submit { client, batch: record.batch }, &mut buffers)?;
        lines += &match answered.number {
            0 => completion_line(trials.call(&Call::Run, &mut buffers)?),
            number => format!("{client} - - {number} 0\n"),
        };
    }
    lines.extend(ending.map(|ending| format!("{ending}\n")));
    let expected = replay::replayed(&file);
    let same = (lines, buffers.memory) == expected;
    same.then_some(()).ok_or_else(|| "other lines or another memory than a replay's".into())
}

fn completion_line(answer: Answer) -> String {
    let [client, ticket, status, fault, place] = answer.values;
    format!("{client} {ticket} {status:08X} {fault} {place}\n")
}
