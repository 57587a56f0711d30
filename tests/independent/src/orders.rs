//! Pairs of random lists that hand in the same batches in two orders (02, 9): both open the same windows in the same order,
//! each client's batches come in one and the same sequence, every batch is accepted, and all are run. When windows are opened,
//! when runs come and how the clients' batches are mixed is each list's own.
use crate::batch::Bounds;
use crate::engine::Numbers;
use crate::made_batches;
use crate::play::{Call, Calls, List, Played, ANSWER};
use crate::random::Random;
use crate::scripts;
use crate::words::read_le32;
use std::collections::VecDeque;
use std::ops::Range;

const CLIENTS: usize = 4;
const MOST_WAITING: usize = 8;

/// What both lists of a pair hand in: each client's window, and its batches in their sequence.
struct Client {
    window: Range<u32>,
    batches: Vec<Vec<u8>>,
}

/// A script while it is written.
#[derive(Default)]
struct Script {
    bytes: Vec<u8>,
    calls: usize,
    /// The lengths of the batches that wait.
    waiting: VecDeque<usize>,
    opened: usize,
    /// How many of each client's batches are handed in.
    submitted: [usize; CLIENTS],
}

impl Script {
    fn call(&mut self, opcode: u8, parts: &[&[u8]]) {
        self.bytes.push(opcode);
        parts.iter().for_each(|part| self.bytes.extend_from_slice(part));
        self.calls += 1;
    }

    fn open(&mut self, client: &Client) {
        let (start, length) = (client.window.start, client.window.end - client.window.start);
        self.call(0, &[&start.to_le_bytes(), &length.to_le_bytes()]);
        self.opened += 1;
    }

    /// With nothing waiting it is refused, and that changes nothing.
    fn run(&mut self) {
        self.call(2, &[]);
        self.waiting.pop_front();
    }

    /// The client's next batch, after as many runs as it takes to be accepted.
    fn submit(&mut self, id: usize, client: &Client, ring: usize) {
        let batch = &client.batches[self.submitted[id]];
        while self.waiting.len() == MOST_WAITING || self.waiting.iter().sum::<usize>() + batch.len() > ring {
            self.run();
        }
        self.call(1, &[&[id as u8], &(batch.len() as u32).to_le_bytes(), batch]);
        self.waiting.push_back(batch.len());
        self.submitted[id] += 1;
    }

    /// The clients that are open and have batches left.
    fn ready(&self, clients: &[Client]) -> Vec<usize> {
        (0..self.opened).filter(|id| self.submitted[*id] < clients[*id].batches.len()).collect()
    }
}

/// One of the orders: at each step a window is opened, some client's next batch handed in, or a call put between.
fn script(random: &mut Random, clients: &[Client], ring: usize) -> Script {
    let mut script = Script::default();
    let (opens, runs) = (random.pick(&[1, 4, 16]), random.pick(&[1, 4, 8]));
    loop {
        let ready = script.ready(clients);
        let closed = script.opened < clients.len();
        if ready.is_empty() && !closed {
            break;
        }
        if closed && (ready.is_empty() || random.below(16) < opens) {
            script.open(&clients[script.opened]);
        } else if random.below(16) < runs {
            script.run();
        } else if random.one_in(8) {
            let client = random.below(CLIENTS as u32) as u8;
            script.call(3, &[&[client]]);
        } else {
            let id = random.pick(&ready);
            script.submit(id, &clients[id], ring);
        }
    }
    while !script.waiting.is_empty() {
        script.run();
    }
    script
}

/// Set-up numbers: a short ring, so that batches lie across its end and are let in late.
fn numbers(random: &mut Random) -> Numbers {
    let ring = random.pick(&[128, 256, 384, 640, 1024]);
    let memory = 1024 + random.below(2049);
    let common = random.pick(&[0, 256, memory / 3]);
    Numbers { ring, memory: memory.into(), common: common.into() }
}

/// Up to four clients. Their windows touch one another or leave a gap; batches are good, faulty, damaged or noise.
fn clients(random: &mut Random, numbers: &Numbers, reset: u32) -> Vec<Client> {
    let count = random.pick(&[2, 2, 3, 3, 4, 4, 4, 1]);
    let share = (numbers.memory - numbers.common) as u32 / count;
    let client = |id: u32, random: &mut Random| {
        let start = numbers.common as u32 + id * share;
        let window = start..start + share - random.pick(&[0, 0, 1, share / 4]);
        let bounds = Bounds { window: window.start.into()..window.end.into(), common: numbers.common };
        let batches = (0..random.below(6)).map(|_| batch(random, &bounds, numbers.ring as usize, reset)).collect();
        Client { window, batches }
    };
    (0..count).map(|id| client(id, random)).collect()
}

/// A batch of a length that is accepted.
fn batch(random: &mut Random, bounds: &Bounds, ring: usize, reset: u32) -> Vec<u8> {
    let room = ring / random.pick(&[1, 2, 3]);
    let mut batch = made_batches::batch(random, bounds, room, reset);
    batch.truncate(ring);
    if batch.is_empty() {
        batch.extend([0; 4]);
    }
    batch
}

/// The pair of a number, on the same ring and memory.
pub fn pair(seed: u64, number: u64) -> [List; 2] {
    let random = &mut Random::of_case(seed, number);
    let numbers = numbers(random);
    let reset = scripts::reset(random);
    let clients = clients(random, &numbers, reset);
    let (ring, memory) = (random.bytes(numbers.ring as usize), random.bytes(numbers.memory as usize));
    [(), ()].map(|_| {
        let Script { bytes, calls, .. } = script(random, &clients, numbers.ring as usize);
        let answers = random.bytes(ANSWER * (calls + 1));
        List { numbers, reset, script: bytes, ring: ring.clone(), memory: memory.clone(), answers }
    })
}

/// What does not hang on the order: memory, and each client's completions (status, fault, place), in their sequence.
#[derive(Debug, PartialEq)]
pub struct Outcome {
    pub memory: Vec<u8>,
    pub completions: [Vec<[u32; 3]>; CLIENTS],
}

/// The clients of the completions, in the order in which they came.
pub fn turns(list: &List, played: &Played) -> Vec<usize> {
    runs(list, played).iter().map(|words| words[1] as usize).collect()
}

/// The answers of runs that were not refused, as words.
fn runs(list: &List, played: &Played) -> Vec<[u32; 6]> {
    let answers = played.answers[..played.written].chunks_exact(ANSWER).skip(1);
    let words = |answer: &[u8]| [0, 4, 8, 12, 16, 20].map(|at| read_le32(answer, at).expect("a whole answer"));
    let runs = Calls(&list.script).zip(answers).filter(|(call, _)| matches!(call, Call::Run));
    runs.map(|(_, answer)| words(answer)).filter(|words| words[0] == 0).collect()
}

pub fn outcome(list: &List, played: &Played) -> Outcome {
    let mut completions: [Vec<[u32; 3]>; CLIENTS] = Default::default();
    for [_, client, _, status, fault, place] in runs(list, played) {
        completions[client as usize].push([status, fault, place]);
    }
    Outcome { memory: played.memory.clone(), completions }
}

#[cfg(test)]
mod tests {
    use super::*;
    use crate::play::play;

    /// The windows that are opened, and each client's batches.
    fn handed_in(list: &List) -> (Vec<(u32, u32)>, [Vec<Vec<u8>>; CLIENTS]) {
        let (mut windows, mut batches) = (Vec::new(), <[Vec<Vec<u8>>; CLIENTS]>::default());
        for call in Calls(&list.script) {
            match call {
                Call::Open { start, length } => windows.push((start, length)),
                Call::Submit { client, batch } => batches[client as usize].push(batch.to_vec()),
                _ => (),
            }
        }
        (windows, batches)
    }

    /// Whether every open and submit was accepted.
    fn all_accepted(list: &List, played: &Played) -> bool {
        let answers = played.answers.chunks_exact(ANSWER).map(|answer| read_le32(answer, 0).unwrap());
        let mut calls = Calls(&list.script).zip(answers.skip(1));
        calls.all(|(call, number)| number == 0 || matches!(call, Call::Run | Call::Pending { .. }))
    }

    #[test]
    fn pairs_hand_in_the_same() {
        for number in 0..200 {
            let pair = pair(7, number);
            let (windows, batches) = handed_in(&pair[0]);
            assert_eq!((&windows, &batches), (&handed_in(&pair[1]).0, &handed_in(&pair[1]).1));
            for list in &pair {
                let played = play(list);
                assert!(all_accepted(list, &played));
                let counts = outcome(list, &played).completions.map(|completions| completions.len());
                assert_eq!(counts, batches.each_ref().map(Vec::len));
            }
        }
    }

    #[test]
    fn same_outcome() {
        for number in 0..200 {
            let pair = pair(8, number);
            let [first, second] = pair.each_ref().map(|list| outcome(list, &play(list)));
            assert_eq!(first, second);
        }
    }
}
