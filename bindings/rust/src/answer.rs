//! What calls answer: refusals by name, and run's completion with its fault by name.
use crate::library::CompletionFields;
use std::fmt;

/// Why a call was refused. A refused call changes nothing.
#[derive(Clone, Copy, Debug, PartialEq, Eq, Hash)]
#[non_exhaustive]
pub enum Refusal {
    /// 1, by set up: the ring length is 0, over 32,768, or no multiple of 128.
    RingLength,
    /// 2, by set up: the memory length is over 16,777,216, or the common length over the memory length.
    MemoryLength,
    /// 3, by open: four clients are open.
    FourClients,
    /// 4, by open: the window is empty, past memory's end, or shares a byte with common or another window.
    BadWindow,
    /// 5, by submit, begin, piece, cancel, pending and close: there is no such client.
    NoClient,
    /// 6, by submit and begin: the batch's length is 0, no multiple of 4, or over the ring length.
    BatchLength,
    /// 7, by submit and begin: no slot is free, eight batches are ready.
    NoSlot,
    /// 8, by submit and begin: the ring has fewer free bytes than the batch.
    NoRoom,
    /// 9, by run: no batch is ready.
    NothingReady,
    /// 10, by [`Engine::from_parts`](crate::Engine::from_parts): ring or memory is not of the length that was set up.
    OtherLength,
    /// 11, by [`Engine::from_parts`](crate::Engine::from_parts): the bytes are no engine record, or one that breaks a rule.
    BadEngine,
    /// 12, by the library's encoder: a buffer under 80 bytes, or 100 with steps. [`Task::encode`](crate::Task::encode) never lends one.
    ShortBuffer,
    /// 13, by submit and begin: a batch is being handed over by pieces.
    HandOverOpen,
    /// 14, by piece and cancel: this client hands over no batch, or the piece is longer than what is left of it.
    NoHandOver,
    /// 15, by [`encode_tint`](crate::encode_tint): the score is NaN or outside 0 to 1.
    BadScore,
    /// 18, by close: a batch of the client is ready, or it is handing one over by pieces.
    ClientBusy,
    /// 24, by [`Task::encode`](crate::Task::encode): a field that its register's rule forbids.
    ForbiddenField,
    /// A number that this version of the package has no name for.
    Other(u32),
}

/// Every refusal that has a name, by its number.
const REFUSALS: [(u32, Refusal); 17] = [
    (1, Refusal::RingLength),
    (2, Refusal::MemoryLength),
    (3, Refusal::FourClients),
    (4, Refusal::BadWindow),
    (5, Refusal::NoClient),
    (6, Refusal::BatchLength),
    (7, Refusal::NoSlot),
    (8, Refusal::NoRoom),
    (9, Refusal::NothingReady),
    (10, Refusal::OtherLength),
    (11, Refusal::BadEngine),
    (12, Refusal::ShortBuffer),
    (13, Refusal::HandOverOpen),
    (14, Refusal::NoHandOver),
    (15, Refusal::BadScore),
    (18, Refusal::ClientBusy),
    (24, Refusal::ForbiddenField),
];

impl Refusal {
    /// The number that the library returns.
    ///
    /// ```
    /// assert_eq!(wenditsal::Refusal::NothingReady.number(), 9);
    /// ```
    pub fn number(self) -> u32 {
        match self {
            Refusal::Other(number) => number,
            named => REFUSALS.iter().find(|row| row.1 == named).map_or(0, |row| row.0),
        }
    }

    /// What the library returned: 0 if the call was accepted.
    pub(crate) fn check(number: u32) -> Result<(), Refusal> {
        if number == 0 {
            return Ok(());
        }
        let named = REFUSALS.iter().find(|row| row.0 == number);
        Err(named.map_or(Refusal::Other(number), |row| row.1))
    }

    fn reason(self) -> &'static str {
        match self {
            Refusal::RingLength => "the ring length is 0, over 32,768, or no multiple of 128",
            Refusal::MemoryLength => "the memory length is over 16,777,216, or the common length over it",
            Refusal::FourClients => "four clients are open",
            Refusal::BadWindow => "the window is empty, past memory's end, or shares a byte with common or another window",
            Refusal::NoClient => "no such client",
            Refusal::BatchLength => "the batch's length is 0, no multiple of 4, or over the ring length",
            Refusal::NoSlot => "no free slot: eight batches are ready",
            Refusal::NoRoom => "fewer free bytes in the ring than the batch has",
            Refusal::NothingReady => "no batch is ready",
            Refusal::OtherLength => "ring or memory is not of the length that was set up",
            Refusal::BadEngine => "no engine record, or one that breaks a rule",
            Refusal::ShortBuffer => "a buffer under 80 bytes, or 100 with steps",
            Refusal::HandOverOpen => "a batch is being handed over by pieces",
            Refusal::NoHandOver => "this client hands over no batch, or the piece is longer than what is left of it",
            Refusal::BadScore => "the score is NaN or outside 0 to 1",
            Refusal::ClientBusy => "a batch of the client is ready, or it is handing one over by pieces",
            Refusal::ForbiddenField => "a field that its register's rule forbids",
            Refusal::Other(_) => "a reason without a name here",
        }
    }
}

impl fmt::Display for Refusal {
    fn fmt(&self, f: &mut fmt::Formatter<'_>) -> fmt::Result {
        write!(f, "refused with {}: {}", self.number(), self.reason())
    }
}

impl std::error::Error for Refusal {}

/// What a piece of a batch answers.
#[derive(Clone, Copy, Debug, PartialEq, Eq, Hash)]
pub enum Progress {
    /// So many bytes are still to come.
    Missing(u32),
    /// It was the last: the batch is ready, with this ticket.
    Ready(u32),
}

/// Why a batch that was run ended before its end: the tasks before the fault are drawn, no others.
#[derive(Clone, Copy, Debug, PartialEq, Eq, Hash)]
#[non_exhaustive]
pub enum Fault {
    /// 20: header bit 1, 16 or 17 is set.
    ReservedBits,
    /// 21: a group's length is 0, or reaches past the batch's end.
    GroupLength,
    /// 22: the last group does not end a task.
    OpenTask,
    /// 23: the offset is not that of a writable register.
    NotWritable,
    /// 24: a bit or a code that the register does not allow.
    Forbidden,
    /// 25: a surface's side or stride is wrong, or a surface that is needed is disabled.
    BadSurface,
    /// 26: sizes do not go together, or a turn where the source is no buffer.
    SizeMismatch,
    /// 27: a span not wholly in the client's window, or, for what is read, wholly in common.
    OutOfBounds,
    /// 28: the output meets what is read.
    Overlap,
    /// A number that this version of the package has no name for.
    Other(u32),
}

/// Every fault that has a name, by its number.
const FAULTS: [(u32, Fault); 9] = [
    (20, Fault::ReservedBits),
    (21, Fault::GroupLength),
    (22, Fault::OpenTask),
    (23, Fault::NotWritable),
    (24, Fault::Forbidden),
    (25, Fault::BadSurface),
    (26, Fault::SizeMismatch),
    (27, Fault::OutOfBounds),
    (28, Fault::Overlap),
];

impl Fault {
    /// The number that the library returns.
    ///
    /// ```
    /// assert_eq!(wenditsal::Fault::OutOfBounds.number(), 27);
    /// ```
    pub fn number(self) -> u32 {
        match self {
            Fault::Other(number) => number,
            named => FAULTS.iter().find(|row| row.1 == named).map_or(0, |row| row.0),
        }
    }

    fn of(number: u32) -> Option<Fault> {
        if number == 0 {
            return None;
        }
        let named = FAULTS.iter().find(|row| row.0 == number);
        Some(named.map_or(Fault::Other(number), |row| row.1))
    }
}

impl fmt::Display for Fault {
    fn fmt(&self, f: &mut fmt::Formatter<'_>) -> fmt::Result {
        write!(f, "fault {}", self.number())
    }
}

/// A batch that was run.
#[derive(Clone, Copy, Debug, PartialEq, Eq, Hash)]
pub struct Completion {
    /// Whose batch it was.
    pub client: u32,
    /// The ticket that submit answered.
    pub ticket: u32,
    /// The status word: tasks x 65,536 + 1 for a faultless batch, tasks x 65,536 + the fault's status for a faulty one.
    pub status: u32,
    /// Nothing for a batch that was drawn whole.
    pub fault: Option<Fault>,
    /// Where in the batch the fault lies, in bytes; 0 without a fault.
    pub place: u32,
}

impl Completion {
    /// How many tasks the status word counts: those that were drawn.
    ///
    /// ```
    /// # use wenditsal::Completion;
    /// let done = Completion { client: 0, ticket: 5, status: 0x0003_0001, fault: None, place: 0 };
    /// assert_eq!(done.tasks(), 3);
    /// ```
    pub fn tasks(&self) -> u32 {
        self.status >> 16
    }
}

impl From<CompletionFields> for Completion {
    fn from(answered: CompletionFields) -> Self {
        let CompletionFields { client, ticket, status, fault, place } = answered;
        Completion { client, ticket, status, fault: Fault::of(fault), place }
    }
}
