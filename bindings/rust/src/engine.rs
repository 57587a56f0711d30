//! An engine with its record, ring and memory.
use crate::answer::{Completion, Progress, Refusal};
use crate::library::{self, CompletionFields, ProgressFields};

/// How many bytes an engine record has.
pub const ENGINE_SIZE: usize = 272;

/// What register 0x090, blending, holds at the start of every batch. No call changes an engine's rule.
///
/// ```
/// use wenditsal::{Engine, Fault, Refusal, ResetRule, Setup};
///
/// // A pixel of one colour, in a batch that leaves blending and destination alone.
/// let words = [0x0010_0010, 5, 0x0001_0001, 0, 0x80FF_0000, 0x0100_000C, 0, 0x0001_0001, 8, 0x0110_0005, 0];
/// let batch: Vec<u8> = words.into_iter().flat_map(u32::to_le_bytes).collect();
/// let fault = |reset| {
///     let mut engine = Engine::new(Setup { ring: 128, memory: 64, common: 0, reset })?;
///     let client = engine.open(0, 64)?;
///     engine.submit(client, &batch)?;
///     engine.run().map(|done| done.fault)
/// };
/// assert_eq!(fault(ResetRule::Unblended), Ok(None));
/// // It blends, and there is no destination.
/// assert_eq!(fault(ResetRule::SrcOver), Ok(Some(Fault::BadSurface)));
/// ```
#[derive(Clone, Copy, Debug, PartialEq, Eq, Hash)]
pub enum ResetRule {
    /// 0x00001300: blending is off until a batch turns it on. For what was written for it, as replay files of version 1.
    Unblended = 0,
    /// 0x00000B01: tasks blend by SRC_OVER until their batch writes the register. For new engines.
    SrcOver = 1,
}

/// What an engine is set up with: lengths in bytes, and the reset rule.
#[derive(Clone, Copy, Debug, PartialEq, Eq, Hash)]
pub struct Setup {
    /// The ring, through which batches go: a multiple of 128, up to 32,768.
    pub ring: usize,
    /// The memory that is drawn into, up to 16,777,216.
    pub memory: usize,
    /// The first part of memory, which every client may read and none may draw in.
    pub common: usize,
    /// What register 0x090 is at the start of every batch.
    pub reset: ResetRule,
}

/// An engine, with all that it works on. It may be sent to another thread, cloned, and saved by its parts.
///
/// No call panics, whatever it is handed: what cannot be done is refused, and then nothing has changed.
#[derive(Clone, Debug, PartialEq, Eq)]
pub struct Engine {
    // A valid record, and ring and memory of its lengths: every call that is accepted leaves it so.
    record: [u8; ENGINE_SIZE],
    ring: Vec<u8>,
    memory: Vec<u8>,
}

impl Engine {
    /// Sets up an engine whose ring and memory are zeros.
    ///
    /// ```
    /// use wenditsal::{Engine, Refusal, ResetRule, Setup};
    ///
    /// let engine = Engine::new(Setup { ring: 128, memory: 1024, common: 0, reset: ResetRule::SrcOver })?;
    /// assert_eq!(engine.memory(), [0; 1024]);
    ///
    /// let odd = Engine::new(Setup { ring: 100, memory: 1024, common: 0, reset: ResetRule::SrcOver });
    /// assert_eq!(odd, Err(Refusal::RingLength));
    /// let huge = Engine::new(Setup { ring: 128, memory: usize::MAX, common: 0, reset: ResetRule::SrcOver });
    /// assert_eq!(huge, Err(Refusal::MemoryLength));
    /// # Ok::<(), Refusal>(())
    /// ```
    ///
    /// # Errors
    /// [`Refusal::RingLength`], [`Refusal::MemoryLength`].
    pub fn new(setup: Setup) -> Result<Engine, Refusal> {
        let mut record = [0; ENGINE_SIZE];
        // Refused before anything is allocated, so that no length is too large to ask for.
        Refusal::check(library::set_up(&mut record, setup.ring, setup.memory, setup.common, setup.reset as u32))?;
        Ok(Engine { record, ring: vec![0; setup.ring], memory: vec![0; setup.memory] })
    }

    /// Opens a client with a window in memory: `length` bytes from `start` on. Answers its id, the lowest that is free.
    ///
    /// ```
    /// # use wenditsal::{Engine, Refusal, ResetRule, Setup};
    /// # let mut engine = Engine::new(Setup { ring: 128, memory: 1024, common: 256, reset: ResetRule::SrcOver })?;
    /// assert_eq!(engine.open(256, 512), Ok(0));
    /// assert_eq!(engine.open(700, 100), Err(Refusal::BadWindow));
    /// assert_eq!(engine.open(768, 256), Ok(1));
    /// # Ok::<(), Refusal>(())
    /// ```
    ///
    /// # Errors
    /// [`Refusal::FourClients`], [`Refusal::BadWindow`].
    pub fn open(&mut self, start: u32, length: u32) -> Result<u32, Refusal> {
        let mut client = 0;
        Refusal::check(library::open(&mut self.record, start, length, &mut client))?;
        Ok(client)
    }

    /// Copies a client's batch into the ring and makes it ready. Answers its ticket. What the batch says is looked at only when
    /// it is run.
    ///
    /// ```
    /// # use wenditsal::{Engine, Refusal, ResetRule, Setup};
    /// # let mut engine = Engine::new(Setup { ring: 128, memory: 1024, common: 0, reset: ResetRule::SrcOver })?;
    /// let client = engine.open(0, 1024)?;
    /// assert_eq!(engine.submit(client, &[0; 80]), Ok(0));
    /// assert_eq!(engine.submit(client, &[0; 80]), Err(Refusal::NoRoom));
    /// assert_eq!(engine.submit(client, &[0; 48]), Ok(1));
    /// assert_eq!(engine.submit(client, &[]), Err(Refusal::BatchLength));
    /// assert_eq!(engine.submit(7, &[0; 4]), Err(Refusal::NoClient));
    /// # Ok::<(), Refusal>(())
    /// ```
    ///
    /// # Errors
    /// [`Refusal::NoClient`], [`Refusal::HandOverOpen`], [`Refusal::BatchLength`], [`Refusal::NoSlot`], [`Refusal::NoRoom`]. The
    /// last two pass when batches are run.
    pub fn submit(&mut self, client: u32, batch: &[u8]) -> Result<u32, Refusal> {
        let mut ticket = 0;
        Refusal::check(library::submit(&mut self.record, &mut self.ring, client, batch, &mut ticket))?;
        Ok(ticket)
    }

    /// Begins a batch of `total` bytes that the client hands over by pieces. It holds its slot and its room in the ring from now on.
    ///
    /// ```
    /// # use wenditsal::{Engine, Progress, Refusal, ResetRule, Setup};
    /// # let mut engine = Engine::new(Setup { ring: 128, memory: 1024, common: 0, reset: ResetRule::SrcOver })?;
    /// let client = engine.open(0, 1024)?;
    /// engine.begin(client, 80)?;
    /// assert_eq!(engine.submit(client, &[0; 4]), Err(Refusal::HandOverOpen));
    /// assert_eq!(engine.piece(client, &[0; 81]), Err(Refusal::NoHandOver));
    /// assert_eq!(engine.piece(client, &[0; 77]), Ok(Progress::Missing(3)));
    /// assert_eq!(engine.piece(client, &[]), Ok(Progress::Missing(3)));
    /// assert_eq!(engine.piece(client, &[0; 3]), Ok(Progress::Ready(0)));
    /// assert_eq!(engine.cancel(client), Err(Refusal::NoHandOver));
    /// # Ok::<(), Refusal>(())
    /// ```
    ///
    /// # Errors
    /// As [`submit`](Engine::submit).
    pub fn begin(&mut self, client: u32, total: usize) -> Result<(), Refusal> {
        Refusal::check(library::begin(&mut self.record, &self.ring, client, total))
    }

    /// Copies the next piece of the client's batch into the ring. The piece that brings the last byte makes the batch ready.
    ///
    /// # Errors
    /// [`Refusal::NoClient`], [`Refusal::NoHandOver`].
    pub fn piece(&mut self, client: u32, piece: &[u8]) -> Result<Progress, Refusal> {
        let mut progress = ProgressFields::default();
        Refusal::check(library::piece(&mut self.record, &mut self.ring, client, piece, &mut progress))?;
        Ok(if progress.last == 0 { Progress::Missing(progress.value) } else { Progress::Ready(progress.value) })
    }

    /// Drops the client's unfinished batch and frees what it held.
    ///
    /// # Errors
    /// [`Refusal::NoClient`], [`Refusal::NoHandOver`].
    pub fn cancel(&mut self, client: u32) -> Result<(), Refusal> {
        Refusal::check(library::cancel(&mut self.record, client))
    }

    /// Takes the oldest batch, judges it and draws its tasks, those before a fault too. A faulty batch is no refusal.
    ///
    /// ```
    /// # use wenditsal::{Engine, Fault, Refusal, ResetRule, Setup};
    /// # let mut engine = Engine::new(Setup { ring: 128, memory: 1024, common: 0, reset: ResetRule::SrcOver })?;
    /// let client = engine.open(0, 1024)?;
    /// let ticket = engine.submit(client, &[0; 8])?;
    /// let done = engine.run()?;
    /// assert_eq!((done.client, done.ticket), (client, ticket));
    /// assert_eq!((done.fault, done.place), (Some(Fault::GroupLength), 0));
    /// assert_eq!(engine.run(), Err(Refusal::NothingReady));
    /// # Ok::<(), Refusal>(())
    /// ```
    ///
    /// # Errors
    /// [`Refusal::NothingReady`].
    pub fn run(&mut self) -> Result<Completion, Refusal> {
        let mut answered = CompletionFields::default();
        Refusal::check(library::run(&mut self.record, &self.ring, &mut self.memory, &mut answered))?;
        Ok(answered.into())
    }

    /// How many batches of a client are ready.
    ///
    /// ```
    /// # use wenditsal::{Engine, Refusal, ResetRule, Setup};
    /// # let mut engine = Engine::new(Setup { ring: 128, memory: 1024, common: 0, reset: ResetRule::SrcOver })?;
    /// let client = engine.open(0, 1024)?;
    /// assert_eq!(engine.pending(client), Ok(0));
    /// engine.submit(client, &[0; 8])?;
    /// assert_eq!(engine.pending(client), Ok(1));
    /// assert_eq!(engine.pending(client + 1), Err(Refusal::NoClient));
    /// # Ok::<(), Refusal>(())
    /// ```
    ///
    /// # Errors
    /// [`Refusal::NoClient`].
    pub fn pending(&self, client: u32) -> Result<u32, Refusal> {
        let mut count = 0;
        Refusal::check(library::pending(&self.record, client, &mut count))?;
        Ok(count)
    }

    /// Closes a client: its window is filled with zeros, and its id and its window are free for the next opening.
    ///
    /// ```
    /// # use wenditsal::{Engine, Refusal, ResetRule, Setup};
    /// # let mut engine = Engine::new(Setup { ring: 128, memory: 1024, common: 0, reset: ResetRule::SrcOver })?;
    /// let (one, other) = (engine.open(0, 512)?, engine.open(512, 512)?);
    /// engine.memory_mut().fill(7);
    /// engine.submit(one, &[0; 8])?;
    /// assert_eq!(engine.close(one), Err(Refusal::ClientBusy));
    /// engine.run()?;
    /// engine.close(one)?;
    /// assert_eq!((engine.memory()[511], engine.memory()[512]), (0, 7));
    /// assert_eq!(engine.close(one), Err(Refusal::NoClient));
    /// engine.close(other)?;
    /// assert_eq!(engine.open(256, 512), Ok(0));
    /// # Ok::<(), Refusal>(())
    /// ```
    ///
    /// # Errors
    /// [`Refusal::NoClient`], [`Refusal::ClientBusy`].
    pub fn close(&mut self, client: u32) -> Result<(), Refusal> {
        Refusal::check(library::close(&mut self.record, &mut self.memory, client))
    }

    /// The memory that is drawn into.
    pub fn memory(&self) -> &[u8] {
        &self.memory
    }

    /// The memory, to be written by the server itself: its common part above all. No engine rule looks at it.
    ///
    /// ```
    /// # use wenditsal::{Engine, Refusal, ResetRule, Setup};
    /// # let mut engine = Engine::new(Setup { ring: 128, memory: 1024, common: 256, reset: ResetRule::SrcOver })?;
    /// engine.memory_mut()[..256].fill(0xFF);
    /// # Ok::<(), Refusal>(())
    /// ```
    pub fn memory_mut(&mut self) -> &mut [u8] {
        &mut self.memory
    }

    /// The ring's bytes.
    pub fn ring(&self) -> &[u8] {
        &self.ring
    }

    /// The engine record's bytes, in the layout that the header gives.
    pub fn record(&self) -> &[u8; ENGINE_SIZE] {
        &self.record
    }

    /// The engine's record, ring and memory, to be saved.
    pub fn into_parts(self) -> ([u8; ENGINE_SIZE], Vec<u8>, Vec<u8>) {
        (self.record, self.ring, self.memory)
    }

    /// An engine from what was saved. Any bytes may be handed in.
    ///
    /// ```
    /// # use wenditsal::{Engine, Refusal, ResetRule, Setup, ENGINE_SIZE};
    /// # let mut engine = Engine::new(Setup { ring: 128, memory: 1024, common: 0, reset: ResetRule::SrcOver })?;
    /// let client = engine.open(0, 1024)?;
    /// engine.submit(client, &[0; 8])?;
    /// let (record, ring, memory) = engine.clone().into_parts();
    ///
    /// let again = Engine::from_parts(record, ring.clone(), memory.clone())?;
    /// assert_eq!(again, engine);
    ///
    /// assert_eq!(Engine::from_parts([0xA5; ENGINE_SIZE], ring, memory.clone()), Err(Refusal::BadEngine));
    /// assert_eq!(Engine::from_parts(record, vec![0; 256], memory), Err(Refusal::OtherLength));
    /// # Ok::<(), Refusal>(())
    /// ```
    ///
    /// # Errors
    /// [`Refusal::BadEngine`], [`Refusal::OtherLength`].
    pub fn from_parts(record: [u8; ENGINE_SIZE], ring: Vec<u8>, memory: Vec<u8>) -> Result<Engine, Refusal> {
        let mut count = 0;
        let number = library::pending(&record, 0, &mut count);
        // A record without clients is a good one.
        if number != 0 && number != Refusal::NoClient.number() {
            Refusal::check(number)?;
        }
        let [r0, r1, r2, r3, m0, m1, m2, m3, ..] = record;
        let lengths = [u32::from_le_bytes([r0, r1, r2, r3]), u32::from_le_bytes([m0, m1, m2, m3])];
        if lengths.map(|length| length as usize) != [ring.len(), memory.len()] {
            return Err(Refusal::OtherLength);
        }
        Ok(Engine { record, ring, memory })
    }
}
