//! Random lists of calls, with all that they are played on. On the way a book is given every call, but draws nothing: it says which
//! windows are open, so that batches fit them, and which clients can be closed.
use crate::engine::{Book, Numbers};
use crate::made_batches;
use crate::play::{List, ANSWER};
use crate::random::Random;
use crate::registers::{SRC_OVER, UNBLENDED};

/// How the calls of a list are mixed: of 16, how many submits and runs; the rest are pendings and opens. And into how many
/// parts the ring's length is divided for a batch's room.
struct Mix {
    submits: u32,
    runs: u32,
    parts: u32,
}

const MIXES: [Mix; 5] = [
    Mix { submits: 8, runs: 6, parts: 1 },
    Mix { submits: 8, runs: 6, parts: 2 },
    Mix { submits: 10, runs: 4, parts: 2 },
    Mix { submits: 11, runs: 3, parts: 8 },
    Mix { submits: 6, runs: 8, parts: 3 },
];

/// A script while it is written.
struct Script<'a> {
    random: &'a mut Random,
    bytes: Vec<u8>,
    calls: usize,
    book: Book,
    numbers: Numbers,
    reset: u32,
    /// The borders of windows that were closed.
    borders: Vec<u32>,
}

impl Script<'_> {
    fn call(&mut self, opcode: u8, parts: &[&[u8]]) {
        self.bytes.push(opcode);
        parts.iter().for_each(|part| self.bytes.extend_from_slice(part));
        self.calls += 1;
    }

    fn open(&mut self) {
        let reuse = !self.borders.is_empty() && !self.random.one_in(4);
        let (start, length) = match (self.random.one_in(4), reuse) {
            (true, _) => self.odd_window(),
            (false, true) => self.reused_window(),
            (false, false) => self.free_window(),
        };
        // Refusals change nothing in the book, so its answer is not needed.
        let _ = self.book.open(start, length);
        self.call(0, &[&start.to_le_bytes(), &length.to_le_bytes()]);
    }

    /// A window that touches the last one, or common, or leaves a gap.
    fn free_window(&mut self) -> (u32, u32) {
        let start = self.book.windows().iter().map(|window| window.end).max().unwrap_or(self.numbers.common) as u32;
        let room = (self.numbers.memory as u32).saturating_sub(start);
        let left = 4u32.saturating_sub(self.book.windows().len() as u32).max(1);
        let gap = if self.random.one_in(3) { self.random.below(room / 8 + 1) } else { 0 };
        let share = (room - gap) / left;
        let length = if self.random.one_in(4) { share / 2 + self.random.below(share + 1) / 2 } else { share };
        (start + gap, length)
    }

    /// A window across or at the border of one that was closed, as far as the open ones leave room.
    fn reused_window(&mut self) -> (u32, u32) {
        let border = self.random.pick(&self.borders.clone());
        let open = self.book.windows();
        let low = open.iter().map(|window| window.end as u32).filter(|end| *end <= border).max();
        let high = open.iter().map(|window| window.start as u32).filter(|start| *start >= border).min();
        let low = low.unwrap_or(0).max(self.numbers.common as u32).min(border);
        let high = high.unwrap_or(self.numbers.memory as u32).max(border);
        let start = border - self.random.below(border - low + 1);
        (start, (border - start) + self.random.below(high - border + 1))
    }

    /// A window at an edge: empty, past memory's end, on a byte of common or of another window.
    fn odd_window(&mut self) -> (u32, u32) {
        let (memory, common) = (self.numbers.memory as u32, self.numbers.common as u32);
        let count = self.book.windows().len() as u32;
        let taken = if count == 0 { 0..8 } else { self.book.windows()[self.random.below(count) as usize].clone() };
        let (start, end) = (taken.start as u32, taken.end as u32);
        match self.random.below(8) {
            0 => (end, 0),
            1 => (memory.wrapping_sub(4), 5),
            2 => (common.wrapping_sub(1), 9),
            3 => (end - 1, 8),
            4 => (start.saturating_sub(7), 8),
            5 => (self.random.word(), self.random.word()),
            6 => (u32::MAX - self.random.below(3), self.random.below(5)),
            _ => (self.random.below(memory.saturating_add(9)), self.random.below(64)),
        }
    }

    fn submit(&mut self, parts: u32) {
        let open = self.book.clients();
        let known = !open.is_empty() && !self.random.one_in(24);
        let client = if known { self.random.pick(&open) as u8 } else { self.unknown_client() };
        let known = open.contains(&client.into());
        let bounds = if known { self.book.bounds(client.into()) } else { no_bounds() };
        let room = self.numbers.ring as usize / self.random.pick(&[1, parts as usize]);
        // Now and then a batch is made for the other reset rule: 0x090 is forgotten, or written where it need not be.
        let reset = if self.random.one_in(8) { 1 - self.reset.min(1) } else { self.reset };
        let batch = made_batches::batch(self.random, &bounds, room, reset);
        let batch = self.with_odd_length(batch);
        if self.random.one_in(4) {
            return self.hand_over(client, &batch);
        }
        let _ = self.book.submit(client.into(), &batch);
        self.call(1, &[&[client], &(batch.len() as u32).to_le_bytes(), &batch]);
    }

    fn run(&mut self) {
        self.book.skip();
        self.call(2, &[]);
    }

    fn cancel(&mut self, client: u8) {
        let _ = self.book.cancel(client.into());
        self.call(6, &[&[client]]);
    }

    /// A client that can be closed, or any; what it leaves is used again.
    fn close(&mut self) {
        let open = self.book.clients();
        let client =
            if open.is_empty() || self.random.one_in(8) { self.unknown_client() } else { self.random.pick(&open) as u8 };
        if let Ok(window) = self.book.vacate(client.into()) {
            self.borders.extend([window.start as u32, window.end as u32]);
        }
        self.call(7, &[&[client]]);
    }

    /// The batch by pieces, zero ones too, with other calls between: now and then too long, another client's, cancelled or abandoned.
    fn hand_over(&mut self, client: u8, batch: &[u8]) {
        if self.random.one_in(3) {
            // One that this client abandoned ends here.
            self.cancel(client);
        }
        let _ = self.book.begin(client.into(), batch.len() as u64);
        self.call(4, &[&[client], &(batch.len() as u32).to_le_bytes()]);
        let mut rest = batch;
        while !rest.is_empty() {
            match self.random.below(24) {
                0 => return self.cancel(client),
                1 => return,
                2 => self.run(),
                3 => self.pending(),
                4 => self.piece(client, &vec![7; rest.len() + 1]),
                5 => self.piece(client.wrapping_add(1), &rest[..1]),
                6 => self.cancel(client.wrapping_add(1)),
                7 => self.close(),
                _ => {
                    let taken = self.random.below(rest.len() as u32 + 1) as usize;
                    let taken = if self.random.one_in(3) { rest.len() } else { taken };
                    self.piece(client, &rest[..taken]);
                    rest = &rest[taken..];
                }
            }
        }
    }

    fn piece(&mut self, client: u8, piece: &[u8]) {
        let _ = self.book.piece(client.into(), piece);
        self.call(5, &[&[client], &(piece.len() as u32).to_le_bytes(), piece]);
    }

    fn unknown_client(&mut self) -> u8 {
        self.random.pick(&[1, 2, 3, 4, 5, 128, 255])
    }

    /// Sometimes no bytes, no multiple of 4, over the ring's length, or as long as the ring.
    fn with_odd_length(&mut self, mut batch: Vec<u8>) -> Vec<u8> {
        let ring = self.numbers.ring as usize;
        match self.random.below(40) {
            0 => batch.clear(),
            1 => batch.resize(batch.len() + 1 + self.random.below(3) as usize, 0),
            2 => batch.resize(ring + self.random.pick(&[1, 4, 4, 128]), 1),
            3 => batch.resize(ring, 0),
            _ => (),
        }
        batch
    }

    fn pending(&mut self) {
        let client = if self.random.one_in(4) { self.unknown_client() } else { self.random.below(4) as u8 };
        self.call(3, &[&[client]]);
    }

    /// One call of a mix.
    fn next(&mut self, mix: &Mix) {
        let n = self.random.below(16);
        if n < mix.submits {
            self.submit(mix.parts);
        } else if n < mix.submits + mix.runs {
            self.run();
        } else if self.random.one_in(3) {
            self.open();
        } else if self.random.one_in(3) {
            self.close();
        } else {
            self.pending();
        }
    }

    /// The end is sometimes no call, or a call cut short.
    fn end(&mut self) {
        match self.random.below(16) {
            0 => {
                let unknown = self.random.pick(&[8, 9, 128, 255]);
                self.bytes.extend([unknown, 2, 2]);
            }
            1 => {
                let kept = self.random.below(self.bytes.len() as u32 + 1);
                self.bytes.truncate(kept as usize);
            }
            2 => {
                let length = self.random.pick(&[5, 4096, u32::MAX]).to_le_bytes();
                self.bytes.extend([1, 0]);
                self.bytes.extend(length);
                self.bytes.extend([0; 4]);
            }
            _ => (),
        }
    }
}

/// Where a client that isn't open might draw.
fn no_bounds() -> crate::batch::Bounds {
    crate::batch::Bounds { window: 64..256, common: 64 }
}

/// Set-up numbers that are mostly allowed.
fn numbers(random: &mut Random) -> Numbers {
    let ring = match random.below(32) {
        0..=16 => 128 * (1 + random.below(3)),
        17..=25 => random.pick(&[512, 640, 1024]),
        26..=28 => random.pick(&[1024, 2048, 4096]),
        29 => random.pick(&[32640, 32768, 1024]),
        30 => random.pick(&[128, 128, 0, 100, 32896]),
        _ => random.pick(&[128, 256, 32772, 4]),
    };
    let memory = match random.below(24) {
        0 => random.below(64),
        1 => random.pick(&[65536, 16384, 16384, 0]),
        _ => 256 + random.below(3841),
    };
    let common = match random.below(24) {
        0..=5 => 0,
        6 => memory,
        7 => memory + random.below(3),
        _ => random.below(memory / 2 + 1),
    };
    let memory =
        if random.one_in(48) { random.pick(&[16777215, 16777216, 16777217, 1 << 40, u64::MAX]) } else { memory.into() };
    Numbers { ring: ring.into(), memory, common: common.into() }
}

/// A reset rule, half of the time the old one; the new one is any other number.
pub fn reset(random: &mut Random) -> u32 {
    let any = random.word();
    random.pick(&[UNBLENDED, UNBLENDED, UNBLENDED, SRC_OVER, SRC_OVER, any.max(1)])
}

/// Bytes to lend: as many as the set-up number says, or, once in 32 times, some others. Long ones are not lent.
fn lent(random: &mut Random, number: u64) -> Vec<u8> {
    let length = number.min(65536) as u32;
    let other = [0, 1, length / 2, length.saturating_sub(1), length + 1, length + 128];
    let length = if random.one_in(32) { random.pick(&other) } else { length };
    random.bytes(length as usize)
}

/// The answers' buffer: room for all and some more, or, once in eight times, for fewer.
fn buffer(random: &mut Random, calls: usize) -> Vec<u8> {
    let all = ANSWER * (calls + 1);
    let length = match random.below(32) {
        0 => random.below(ANSWER as u32 + 1),
        1..=3 => random.below(all as u32),
        4..=9 => all as u32,
        _ => all as u32 + random.below(40),
    };
    random.bytes(length as usize)
}

/// The list of a number, of 1 to about 60 calls.
pub fn list(seed: u64, number: u64) -> List {
    let random = &mut Random::of_case(seed, number);
    let numbers = numbers(random);
    let (ring, memory) = (lent(random, numbers.ring), lent(random, numbers.memory));
    let allowed = Numbers { ring: 128, memory: 4096, common: 256 };
    // A refused set up plays nothing; its script is then one for other numbers.
    let known = if Book::set_up(numbers, 0, 0, &[]).is_ok() { numbers } else { allowed };
    let reset = reset(random);
    let book = Book::set_up(known, reset, known.ring as usize, &[]).ok().expect("allowed numbers");
    let mix = &MIXES[random.below(5) as usize];
    let most = random.pick(&[4, 20, 40, 60]);
    let (opens, calls) = (random.pick(&[0, 1, 1, 2, 2, 3, 3, 4, 4, 5, 5, 6]), 1 + random.below(most));
    let mut script = Script { random, bytes: Vec::new(), calls: 0, book, numbers: known, reset, borders: Vec::new() };
    for _ in 0..opens {
        script.open();
    }
    for _ in 0..calls {
        script.next(mix);
    }
    script.end();
    let Script { bytes, calls, random, .. } = script;
    List { numbers, reset, script: bytes, ring, memory, answers: buffer(random, calls) }
}
