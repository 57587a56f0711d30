//! Calls made by the engine and by the independent program on the same buffers, counted until the first difference.
use crate::laid_out::LaidOut;
use crate::linked;
use independent::calls::{self, Answer, Buffers, Call};
use independent::gradient::Steps;
use independent::made_tasks::Fields;
use independent::tally::Tally;
use independent::writer;

/// What is left of a comparison: nothing to say, or what differs.
pub type Agreed<T = ()> = Result<T, String>;

pub const OUTSIDE: &str = "bytes outside the lent buffers were changed";

pub struct Trials {
    /// As `Lent` takes it.
    pub guards: usize,
    pub count: u64,
    tally: Tally,
    /// Where batches are written instead of being handed to the engine's calls, if they are.
    files: Option<LaidOut>,
}

/// The first byte in which two buffers of one length differ.
pub fn difference(name: &str, expected: &[u8], found: &[u8]) -> Option<String> {
    let at = expected.iter().zip(found).position(|(a, b)| a != b)?;
    Some(format!("{name} byte {at}: {} expected, {} found", expected[at], found[at]))
}

impl Trials {
    pub fn new(guards: usize) -> Self {
        Trials { guards, count: 0, tally: Tally::default(), files: None }
    }

    /// Batches are written in replay files, and those compared. The static library is not needed.
    pub fn in_files(files: LaidOut) -> Self {
        Trials { files: Some(files), ..Trials::new(0) }
    }

    /// Compares what is written and not compared yet, and answers the files.
    pub fn written(self) -> Agreed<Option<LaidOut>> {
        self.files.map(LaidOut::finished).transpose()
    }

    fn counted(&mut self, what: &str, number: u32, fault: u32) {
        self.count += 1;
        self.tally.add(
            match (number, fault) {
                (0, 0) => format!("{what}: done"),
                (0, _) => format!("{what}: fault {fault}"),
                _ => format!("{what}: refusal {number:2}"),
            },
            1,
        );
    }

    /// Makes a call on buffers, which are then as it leaves them.
    pub fn call(&mut self, asked: &Call, buffers: &mut Buffers) -> Agreed<Answer> {
        let mut found_buffers = buffers.clone();
        let found = linked::call(asked, &mut found_buffers, self.guards);
        let before = buffers.engine.clone();
        let expected = calls::call(asked, buffers);
        if found != Some(expected) || found_buffers != *buffers {
            let parts = [
                Some(format!("{asked:02X?}\n  on the record {before:02X?}")),
                found.map_or(Some(OUTSIDE.into()), |found| {
                    (found != expected).then(|| format!("{expected:08X?} expected, {found:08X?} found"))
                }),
                difference("record", &buffers.engine, &found_buffers.engine),
                difference("ring", &buffers.ring, &found_buffers.ring),
                difference("memory", &buffers.memory, &found_buffers.memory),
            ];
            return Err(parts.into_iter().flatten().collect::<Vec<String>>().join("\n  "));
        }
        self.counted(name(asked), expected.number, expected.values[3]);
        Ok(expected)
    }

    /// Makes a call on buffers that stay as they are.
    pub fn try_call(&mut self, asked: &Call, buffers: &Buffers) -> Agreed<Answer> {
        self.call(asked, &mut buffers.clone())
    }

    /// Submits a batch for client 0 and runs it, on buffers that stay as they are. Answers the buffers after it.
    pub fn batch(&mut self, buffers: &Buffers, batch: &[u8]) -> Agreed<Buffers> {
        let mut after = buffers.clone();
        if let Some(files) = &mut self.files {
            self.count += 1;
            files.add(&buffers.memory, batch)?;
            return Ok(after);
        }
        self.call(&Call::Submit { client: 0, batch }, &mut after)?;
        self.call(&Call::Run, &mut after)?;
        Ok(after)
    }

    pub fn words(&mut self, buffers: &Buffers, words: &[u32]) -> Agreed<Buffers> {
        self.batch(buffers, &words.iter().flat_map(|word| word.to_le_bytes()).collect::<Vec<u8>>())
    }

    /// Encodes a task by both, and answers its bytes if it is not refused.
    pub fn encode(&mut self, fields: &Fields, buffer: &[u8]) -> Agreed<Option<Vec<u8>>> {
        let expected = writer::written(fields, buffer.len());
        if self.files.is_some() {
            return Ok(expected.ok());
        }
        let found = linked::encode(fields, buffer, self.guards);
        self.encoded("encode", format!("{fields:?}"), expected, found, buffer)
    }

    /// The same in the second form, with steps.
    pub fn encode_shaded(&mut self, fields: &Fields, steps: &Steps, buffer: &[u8]) -> Agreed<Option<Vec<u8>>> {
        let expected = writer::shaded_written(fields, steps, buffer.len());
        if self.files.is_some() {
            return Ok(expected.ok());
        }
        let found = linked::encode_shaded(fields, steps, buffer, self.guards);
        self.encoded("encode shaded", format!("{fields:?} {steps:?}"), expected, found, buffer)
    }

    /// What was expected and what was found of a task that both encoded in a buffer.
    fn encoded(
        &mut self,
        what: &str,
        of: String,
        expected: Result<Vec<u8>, u32>,
        found: Option<(u32, Vec<u8>)>,
        buffer: &[u8],
    ) -> Agreed<Option<Vec<u8>>> {
        let number = *expected.as_ref().err().unwrap_or(&0);
        let mut after = buffer.to_vec();
        if let Ok(bytes) = &expected {
            after[..bytes.len()].copy_from_slice(bytes);
        }
        if found.as_ref() != Some(&(number, after)) {
            let found = found.map_or(OUTSIDE.into(), |(number, _)| format!("{number} found"));
            return Err(format!("{what} {of} in {} bytes: {number} expected, {found}, or other bytes", buffer.len()));
        }
        self.counted(what, number, 0);
        Ok(expected.ok())
    }

    /// Encodes a task and draws it, on buffers that stay as they are.
    pub fn task(&mut self, buffers: &Buffers, fields: &Fields) -> Agreed<Buffers> {
        let batch = self.encode(fields, &[0; 80])?.ok_or_else(|| format!("{fields:?} are no allowed fields"))?;
        self.batch(buffers, &batch)
    }

    /// The same with steps.
    pub fn shaded_task(&mut self, buffers: &Buffers, fields: &Fields, steps: &Steps) -> Agreed<Buffers> {
        let batch = self.encode_shaded(fields, steps, &[0; 100])?;
        self.batch(buffers, &batch.ok_or_else(|| format!("{fields:?} {steps:?} are no allowed fields"))?)
    }

    /// Prints a line on what is tried, unless it may be left out.
    pub fn say(&self, line: &str) {
        if self.files.is_none() {
            println!("{line}");
        }
    }

    /// Prints what came how often.
    pub fn print(&self) {
        self.tally.print();
    }
}

fn name(call: &Call) -> &'static str {
    match call {
        Call::SetUp(..) => "set up",
        Call::Open { .. } => "open",
        Call::Submit { .. } => "submit",
        Call::Run => "run",
        Call::Pending { .. } => "pending",
        Call::Begin { .. } => "begin",
        Call::Piece { .. } => "piece",
        Call::Cancel { .. } => "cancel",
        Call::Close { .. } => "close",
    }
}
