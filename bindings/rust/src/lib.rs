//! The Wenditsal 2D engine: up to four clients hand it batches of register commands through one ring, and it draws them into
//! one memory. What the engine does is proved; this package is the thin, safe face of its static library.
//!
//! An [`Engine`] owns its record, its ring and its memory. A [`Task`] makes the bytes of a batch.
//!
//! ```
//! use wenditsal::{Engine, Fault, Format, Refusal, ResetRule, Setup, Surface, Task};
//!
//! # fn main() -> Result<(), Refusal> {
//! let mut engine = Engine::new(Setup { ring: 4096, memory: 65536, common: 16384, reset: ResetRule::SrcOver })?;
//! let client = engine.open(16384, 12288)?;
//!
//! // A red rectangle, at the start of the client's window.
//! let page = Surface { width: 2, height: 1, stride: 8, address: 16384, format: Format::Argb8888 };
//! let batch = Task::fill(0x80FF_0000, page).encode()?;
//!
//! // Submit now, run later.
//! let ticket = engine.submit(client, &batch)?;
//! assert_eq!(engine.pending(client), Ok(1));
//! assert_eq!(&engine.memory()[16384..16392], &[0; 8]);
//!
//! let done = engine.run()?;
//! assert_eq!((done.client, done.ticket, done.fault), (client, ticket, None));
//! assert_eq!(&engine.memory()[16384..16392], &[0, 0, 0xFF, 0x80, 0, 0, 0xFF, 0x80]);
//!
//! // A batch that draws outside its client's window is accepted, and faulty when it is run.
//! let outside = Task::fill(0x80FF_0000, Surface { address: 64, ..page }).encode()?;
//! engine.submit(client, &outside)?;
//! let done = engine.run()?;
//! assert_eq!((done.fault, done.place), (Some(Fault::OutOfBounds), 72));
//!
//! // A refused call changes nothing.
//! assert_eq!(engine.run(), Err(Refusal::NothingReady));
//! # Ok(())
//! # }
//! ```
//!
//! The header `crates/wenditsal/include/wenditsal.h` has the tables of registers, refusals and faults, and the layout of the
//! record.
#![deny(unsafe_code)]
#![warn(missing_docs)]

mod answer;
mod engine;
mod library;
mod task;

pub use answer::{Completion, Fault, Progress, Refusal};
pub use engine::{Engine, ResetRule, Setup, ENGINE_SIZE};
pub use task::{
    encode_tint, Alpha, AlphaMode, Blending, Destination, Factor, Format, Rule, Source, SourceMode, Steps, Surface, Task,
    Transform, Turn, SHADED_TASK_SIZE, TASK_SIZE,
};
