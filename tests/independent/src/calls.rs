//! The engine's calls one at a time, as the header words them: the engine record is bytes that the caller lends, and so are
//! the ring and the memory. A refused call changes none of them.
use crate::engine::{Completion, Numbers, Progress, Refusal};
use crate::queue::{self, Record};
use crate::record_bytes;

/// The buffers that a caller keeps between calls.
#[derive(Clone, Debug, PartialEq)]
pub struct Buffers {
    pub engine: Vec<u8>,
    pub ring: Vec<u8>,
    pub memory: Vec<u8>,
}

/// Set up is handed the reset rule beside its numbers, as any number.
#[derive(Clone, Copy, Debug)]
pub enum Call<'a> {
    SetUp(Numbers, u32),
    Open { start: u32, length: u32 },
    Submit { client: u32, batch: &'a [u8] },
    Run,
    Pending { client: u32 },
    Begin { client: u32, total: u64 },
    Piece { client: u32, piece: &'a [u8] },
    Cancel { client: u32 },
    Close { client: u32 },
}

/// The refusal's number or 0, and what else is handed out: zeros behind what the call answers, and by a refused one.
#[derive(Clone, Copy, Debug, PartialEq)]
pub struct Answer {
    pub number: u32,
    pub values: [u32; 5],
}

impl Answer {
    fn of(answered: Result<[u32; 5], Refusal>) -> Self {
        match answered {
            Ok(values) => Answer { number: 0, values },
            Err(number) => Answer { number, values: [0; 5] },
        }
    }

    /// Of a call that answers one number.
    fn of_one(answered: Result<u32, Refusal>) -> Self {
        Answer::of(answered.map(|value| [value, 0, 0, 0, 0]))
    }
}

/// One call on lent buffers.
pub fn call(call: &Call, buffers: &mut Buffers) -> Answer {
    if let Call::SetUp(numbers, reset) = call {
        return Answer::of_one(set_up(*numbers, *reset, &mut buffers.engine));
    }
    let Some(mut record) = record_bytes::read(&buffers.engine) else { return Answer::of(Err(11)) };
    let answer = on_record(call, &mut record, buffers);
    if answer.number == 0 {
        buffers.engine = record_bytes::written(&record);
    }
    answer
}

/// A buffer that no record fits in is refused first.
fn set_up(numbers: Numbers, reset: u32, engine: &mut Vec<u8>) -> Result<u32, Refusal> {
    if engine.len() != record_bytes::LENGTH {
        return Err(11);
    }
    *engine = record_bytes::written(&queue::set_up(numbers, reset)?);
    Ok(0)
}

fn on_record(call: &Call, record: &mut Record, buffers: &mut Buffers) -> Answer {
    match *call {
        Call::SetUp(..) => unreachable!("set up reads no record"),
        Call::Open { start, length } => Answer::of_one(record.open(start, length)),
        Call::Submit { client, batch } => Answer::of_one(record.submit(&mut buffers.ring, client, batch)),
        Call::Pending { client } => Answer::of_one(record.pending(client)),
        Call::Begin { client, total } => Answer::of_one(record.begin(&buffers.ring, client, total).map(|()| 0)),
        Call::Piece { client, piece } => {
            Answer::of(record.piece(&mut buffers.ring, client, piece).map(|progress| match progress {
                Progress::Missing(bytes) => [0, bytes, 0, 0, 0],
                Progress::Accepted(ticket) => [1, ticket, 0, 0, 0],
            }))
        }
        Call::Cancel { client } => Answer::of_one(record.cancel(client).map(|()| 0)),
        Call::Close { client } => Answer::of_one(record.close(&mut buffers.memory, client).map(|()| 0)),
        Call::Run => {
            let answered = record.run(&buffers.ring, &mut buffers.memory);
            Answer::of(
                answered.map(|Completion { client, ticket, status, fault, place }| [client, ticket, status, fault, place]),
            )
        }
    }
}

#[cfg(test)]
mod tests {
    use super::*;

    #[test]
    fn every_call() {
        let mut buffers = Buffers { engine: vec![7; 272], ring: vec![1; 128], memory: vec![2; 256] };
        let numbers = Numbers { ring: 128, memory: 256, common: 64 };
        let mut answered = |asked: &Call| call(asked, &mut buffers);
        assert_eq!(answered(&Call::Pending { client: 0 }).number, 11);
        assert_eq!(answered(&Call::SetUp(numbers, 1)).number, 0);
        assert_eq!(answered(&Call::Open { start: 64, length: 64 }), Answer { number: 0, values: [0; 5] });
        assert_eq!(answered(&Call::Submit { client: 0, batch: &[9; 4] }).number, 0);
        assert_eq!(answered(&Call::Pending { client: 0 }).values, [1, 0, 0, 0, 0]);
        assert_eq!(answered(&Call::Run).values, [0, 0, 2, 20, 0]);
        assert_eq!(answered(&Call::Run), Answer { number: 9, values: [0; 5] });
        assert_eq!(buffers.ring[..5], [9, 9, 9, 9, 1]);
    }

    #[test]
    fn lengths() {
        let mut short = Buffers { engine: vec![0; 271], ring: vec![], memory: vec![] };
        let numbers = Numbers { ring: 0, memory: 0, common: 0 };
        assert_eq!(call(&Call::SetUp(numbers, 1), &mut short).number, 11);
        assert_eq!(short.engine, vec![0; 271]);
    }
}
