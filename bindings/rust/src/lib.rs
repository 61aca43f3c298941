#![doc = include_str!("../README.md")]
//!
//! ## Run jobs on a board
//!
//! Turns serve the four queues one after the other, and a job makes at most one evaluation in each of its own. Its
//! record comes out with the last turn of its kind's span, counted in the turns of its queue, whatever its data: a
//! critical point, span 150, alone in queue 0 of a fresh board, with the 597th turn. [`Board::quote`] says so before
//! the job is submitted.
//!
//! ```
//! use peng_robinson_board::{answer, Blend, Board, Component, Kind, Refusal, Request};
//!
//! let propane = Blend::pure(Component::new(369.83, 4.248e6, 0.1523));
//! let request = Request::critical_point(&propane, 0, None, None)?;
//! let mut board = Board::new();
//! let quoted = board.quote(0, request.kind())?;
//! let ticket = board.submit(0, &request)?;
//! assert_eq!(board.look(0), Err(Refusal::NoRunningJob));
//!
//! let mut turns = 0;
//! let record = loop {
//!     turns += 1;
//!     if let Some(record) = board.turn()? {
//!         break record;
//!     }
//! };
//! assert_eq!(turns, 4 * (Kind::CriticalPoint.span() - 1) + 1);
//! assert_eq!(turns, quoted);
//! assert_eq!(record.ticket(), ticket);
//!
//! // the sealed part is the one that `answer` gives without a board
//! let sealed = record.sealed();
//! assert_eq!(sealed, answer(&request)?);
//! let [temperature, _density, _] = sealed.outcome()?;
//! assert!((temperature - 369.83).abs() < 0.1);
//! # Ok::<(), Refusal>(())
//! ```
#![deny(unsafe_code)]
#![deny(clippy::indexing_slicing, clippy::unwrap_used, clippy::expect_used, clippy::panic)]
#![warn(missing_docs)]

mod binary;
mod blend;
mod board;
#[allow(unsafe_code)]
mod declarations;
mod kind;
mod record;
mod refusal;
mod request;
pub mod units;

pub use binary::BinaryCriticalPoint;
pub use blend::{Blend, Component};
pub use board::{Board, Look, Ticket};
pub use kind::Kind;
pub use record::{answer, answer_block, Record, Sealed};
pub use refusal::Refusal;
pub use request::{Conditions, DensityInitialization, Phase, Request};

/// The bytes of a board.
pub const BOARD_BYTES: usize = 24_584;
/// The bytes of a request block.
pub const BLOCK_BYTES: usize = 640;
/// The bytes of a record.
pub const RECORD_BYTES: usize = 64;
/// The bytes of a request: kind, number of components, block.
pub const REQUEST_BYTES: usize = 2 + BLOCK_BYTES;
/// The queues of a board, numbered from 0.
pub const QUEUES: u64 = 4;
