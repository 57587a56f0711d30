//! A list of calls played on the book. A list is bytes, numbers little-endian, nothing between them: 0 open (start, length:
//! a word each); 1 submit (client: a byte; length: a word; as many bytes); 2 run; 3 pending (client: a byte); 4 begin
//! (client: a byte; total: a word); 5 piece (as submit); 6 cancel (client: a byte); 7 close (client: a byte). An unknown call, or one cut short, ends the list. Every answer is six words: the refusal's number or 0, then what the call
//! answers, then zeros; the first is set up's own. A call whose answer has no room is not played.
use crate::engine::{Book, Numbers, Progress, Refusal, RingBytes};
use crate::registers::Task;
use crate::words::read_le32;

/// Bytes of an answer.
pub const ANSWER: usize = 24;

pub enum Call<'a> {
    Open { start: u32, length: u32 },
    Submit { client: u8, batch: &'a [u8] },
    Run,
    Pending { client: u8 },
    Begin { client: u8, total: u32 },
    Piece { client: u8, piece: &'a [u8] },
    Cancel { client: u8 },
    Close { client: u8 },
}

/// The calls of a script, until it ends, is cut short or names an unknown call.
pub struct Calls<'a>(pub &'a [u8]);

impl<'a> Calls<'a> {
    /// The call at the start and how many bytes it takes.
    fn first(&self) -> Option<(Call<'a>, usize)> {
        let bytes = self.0;
        match bytes.first()? {
            0 => Some((Call::Open { start: read_le32(bytes, 1)?, length: read_le32(bytes, 5)? }, 9)),
            1 => {
                let end = 6 + read_le32(bytes, 2)? as usize;
                Some((Call::Submit { client: bytes[1], batch: bytes.get(6..end)? }, end))
            }
            2 => Some((Call::Run, 1)),
            3 => Some((Call::Pending { client: *bytes.get(1)? }, 2)),
            4 => Some((Call::Begin { total: read_le32(bytes, 2)?, client: bytes[1] }, 6)),
            5 => {
                let end = 6 + read_le32(bytes, 2)? as usize;
                Some((Call::Piece { client: bytes[1], piece: bytes.get(6..end)? }, end))
            }
            6 => Some((Call::Cancel { client: *bytes.get(1)? }, 2)),
            7 => Some((Call::Close { client: *bytes.get(1)? }, 2)),
            _ => None,
        }
    }
}

impl<'a> Iterator for Calls<'a> {
    type Item = Call<'a>;

    fn next(&mut self) -> Option<Call<'a>> {
        let (call, taken) = self.first()?;
        self.0 = &self.0[taken..];
        Some(call)
    }
}

/// A list with all that it is played on.
#[derive(Clone)]
pub struct List {
    pub numbers: Numbers,
    /// The reset rule, as any number.
    pub reset: u32,
    pub script: Vec<u8>,
    pub ring: Vec<u8>,
    pub memory: Vec<u8>,
    /// The answers' buffer before.
    pub answers: Vec<u8>,
}

/// What a list leaves.
#[derive(Default)]
pub struct Played {
    /// Bytes of answers written.
    pub written: usize,
    pub answers: Vec<u8>,
    pub ring: Vec<u8>,
    pub memory: Vec<u8>,
    /// How many accepted batches went on at the ring's byte 0.
    pub wraps: usize,
    /// The tasks that rule 28 was asked about.
    pub asked: Vec<Task>,
}

impl Played {
    fn has_room(&self) -> bool {
        self.answers.len() - self.written >= ANSWER
    }

    fn answer(&mut self, answer: Result<[u32; 5], Refusal>) {
        let (number, rest) = match answer {
            Ok(numbers) => (0, numbers),
            Err(number) => (number, [0; 5]),
        };
        let bytes: Vec<u8> = std::iter::once(number).chain(rest).flat_map(u32::to_le_bytes).collect();
        self.answers[self.written..self.written + ANSWER].copy_from_slice(&bytes);
        self.written += ANSWER;
    }
}

/// One call on the book and on the ring's bytes beside it.
fn called(call: Call, book: &mut Book, ring: &mut RingBytes, wraps: &mut usize) -> Result<[u32; 5], Refusal> {
    let alone = |number| [number, 0, 0, 0, 0];
    match call {
        Call::Open { start, length } => book.open(start, length).map(alone),
        Call::Submit { client, batch } => {
            let ticket = book.submit(client.into(), batch)?;
            *wraps += usize::from(ring.copy_in(batch));
            Ok(alone(ticket))
        }
        Call::Run => {
            let done = book.run()?;
            ring.pass_oldest();
            Ok([done.client, done.ticket, done.status, done.fault, done.place])
        }
        Call::Pending { client } => book.pending(client.into()).map(alone),
        Call::Begin { client, total } => book.begin(client.into(), total.into()).map(|()| [0; 5]),
        Call::Piece { client, piece } => {
            let progress = book.piece(client.into(), piece)?;
            *wraps += usize::from(ring.copy_piece(piece));
            Ok(match progress {
                Progress::Missing(bytes) => [0, bytes, 0, 0, 0],
                Progress::Accepted(ticket) => {
                    ring.finish();
                    [1, ticket, 0, 0, 0]
                }
            })
        }
        Call::Cancel { client } => {
            book.cancel(client.into())?;
            ring.cancel();
            Ok([0; 5])
        }
        Call::Close { client } => book.close(client.into()).map(|()| [0; 5]),
    }
}

pub fn play(list: &List) -> Played {
    let (answers, memory) = (list.answers.clone(), list.memory.clone());
    let mut played = Played { written: 0, answers, ring: list.ring.clone(), memory, wraps: 0, asked: Vec::new() };
    if !played.has_room() {
        return played;
    }
    let set_up = Book::set_up(list.numbers, list.reset, list.ring.len(), &list.memory);
    played.answer(set_up.as_ref().map(|_| [0; 5]).map_err(|number| *number));
    let Ok(mut book) = set_up else { return played };
    let mut ring = RingBytes::new(&list.ring);
    let mut calls = Calls(&list.script);
    while played.has_room() {
        let Some(call) = calls.next() else { break };
        let answer = called(call, &mut book, &mut ring, &mut played.wraps);
        played.answer(answer);
    }
    played.ring = ring.bytes;
    played.memory = book.memory;
    played.asked = book.asked;
    played
}

#[cfg(test)]
mod tests {
    use super::*;
    use crate::registers::SRC_OVER;

    fn list(script: &[u8], room: usize) -> List {
        let numbers = Numbers { ring: 128, memory: 256, common: 64 };
        let (script, answers) = (script.to_vec(), vec![7; room]);
        List { numbers, reset: SRC_OVER, script, ring: vec![1; 128], memory: vec![2; 256], answers }
    }

    #[test]
    fn every_call() {
        let script = [0, 64, 0, 0, 0, 64, 0, 0, 0, 1, 0, 4, 0, 0, 0, 9, 9, 9, 9, 3, 0, 2, 2, 3, 4, 77, 2];
        let played = play(&list(&script, 200));
        assert_eq!(played.written, 7 * ANSWER);
        let word = |answer: usize, at: usize| read_le32(&played.answers, answer * ANSWER + 4 * at).unwrap();
        assert_eq!((word(0, 0), word(1, 0), word(2, 1), word(3, 1)), (0, 0, 0, 1));
        assert_eq!((4..7).map(|answer| word(answer, 0)).collect::<Vec<_>>(), [0, 9, 5]);
        assert_eq!((word(4, 3), word(4, 4), word(4, 5)), (2, 20, 0));
        assert_eq!((played.answers[168], played.ring[3], played.ring[4]), (7, 9, 1));
    }

    #[test]
    fn no_room() {
        assert_eq!(play(&list(&[2, 2], 23)).written, 0);
        assert_eq!(play(&list(&[2, 2], 71)).written, 48);
        let refused = List { numbers: Numbers { ring: 0, memory: 0, common: 0 }, ..list(&[2, 2], 100) };
        assert_eq!((play(&refused).written, play(&refused).answers[0]), (24, 1));
    }
}
