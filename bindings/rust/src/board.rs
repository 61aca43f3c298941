//! The board of four queues and its four calls.

use crate::declarations;
use crate::refusal::accepted;
use crate::{Record, Refusal, Request, BOARD_BYTES, RECORD_BYTES};
use std::fmt;

/// The ticket of an accepted job: tickets count the accepted jobs of each queue from 0, modulo 2^64.
#[derive(Clone, Copy, Debug, PartialEq, Eq, Hash, PartialOrd, Ord)]
pub struct Ticket {
    /// The queue, 0 to 3.
    pub queue: u64,
    /// The number in this queue.
    pub number: u64,
}

/// What a look shows of the running job of a queue.
#[derive(Clone, Copy, Debug, Default, PartialEq)]
pub struct Look {
    /// The evaluations made so far.
    pub evaluations: u64,
    /// The density of the latest one, 1/Å³, in kinds 8 and 9 the sum of the partial densities; +0 before any.
    pub density: f64,
}

/// A board: four queues of up to eight jobs each. Its state is its 24,584 bytes and nothing else.
///
/// `Debug` does not show the bytes, which hold the blocks of all suppliers.
#[derive(Clone, PartialEq, Eq)]
pub struct Board {
    bytes: Vec<u8>,
}

impl Board {
    /// A fresh board: zero bytes.
    pub fn new() -> Board {
        Board { bytes: vec![0; BOARD_BYTES] }
    }

    /// A board of any bytes. Where they are not 24,584, or a number stored in them is out of its range, every call is
    /// [`Refusal::Board`] (6).
    pub fn from_bytes(bytes: Vec<u8>) -> Board {
        Board { bytes }
    }

    /// The bytes.
    pub fn as_bytes(&self) -> &[u8] {
        &self.bytes
    }

    /// The bytes, for keeping.
    pub fn into_bytes(self) -> Vec<u8> {
        self.bytes
    }

    /// Adds a job to a queue and answers its ticket.
    ///
    /// Refused, in this order, with nothing changed: [`Refusal::Board`] (6), [`Queue`](Refusal::Queue) (1),
    /// [`Kind`](Refusal::Kind) (2), [`Components`](Refusal::Components) (3), [`QueueFull`](Refusal::QueueFull) (4).
    /// The data are looked at by the turn that takes the job in, and refused in its record.
    pub fn submit(&mut self, queue: u64, request: &Request) -> Result<Ticket, Refusal> {
        self.submit_block(queue, request.kind(), request.components(), request.block())
    }

    /// [`submit`](Board::submit) over plain numbers and bytes. A block of another length than 640 is
    /// [`Refusal::BlockLength`] (8), tested after 3 and before 4.
    pub fn submit_block(&mut self, queue: u64, kind: u64, n: u64, block: &[u8]) -> Result<Ticket, Refusal> {
        let (answer, number) = declarations::submit(&mut self.bytes, queue, kind, n, block);
        accepted(answer).map(|()| Ticket { queue, number })
    }

    /// Serves the queue whose turn it is, and hands out the record where this turn was the last of a job's span.
    ///
    /// A queue without a running job takes in its oldest one; a job makes at most one evaluation in each turn.
    /// [`Refusal::Board`] (6) changes nothing.
    pub fn turn(&mut self) -> Result<Option<Record>, Refusal> {
        let mut bytes = [0; RECORD_BYTES];
        let written = self.turn_into(&mut bytes)?;
        written.then(|| Record::from_bytes(&bytes)).transpose()
    }

    /// [`turn`](Board::turn) into a buffer of the caller's: `true` where a record was written to its first 64 bytes,
    /// and to no others; `false` leaves the buffer as it was.
    ///
    /// Refused, in this order, with nothing changed: [`Refusal::Board`] (6), [`RecordLength`](Refusal::RecordLength)
    /// (5), also where no record is due.
    pub fn turn_into(&mut self, record: &mut [u8]) -> Result<bool, Refusal> {
        match declarations::turn(&mut self.bytes, record) {
            0 => Ok(false),
            1 => Ok(true),
            number => Err(number.into()),
        }
    }

    /// What the running job of a queue has done so far. The board is only read.
    ///
    /// Refused, in this order: [`Refusal::Board`] (6), [`Queue`](Refusal::Queue) (1),
    /// [`NoRunningJob`](Refusal::NoRunningJob) (7), which also is the answer where jobs wait and none has had a turn.
    pub fn look(&self, queue: u64) -> Result<Look, Refusal> {
        let (answer, evaluations, density) = declarations::look(&self.bytes, queue);
        accepted(answer).map(|()| Look { evaluations, density })
    }

    /// With which turn a job of a kind would come out: how many turns of the board, whichever queues they serve, it
    /// takes from now until the job, submitted now, is handed out, that turn counted. The board is only read, and no
    /// evaluation is made.
    ///
    /// [`submit`](Board::submit) and then [`turn`](Board::turn) show exactly this number if no turn and no other submit
    /// to the queue comes between quote and submit. Jobs submitted later stand behind and do not change it. It depends
    /// on public fields alone and may be shown to anyone.
    ///
    /// `kind` is a number as [`Request::kind`] and [`Kind::number`](crate::Kind::number) give it. Refused, in this
    /// order: [`Refusal::Board`] (6), [`Queue`](Refusal::Queue) (1), [`Kind`](Refusal::Kind) (2),
    /// [`QueueFull`](Refusal::QueueFull) (4).
    pub fn quote(&self, queue: u64, kind: u64) -> Result<u64, Refusal> {
        let (answer, turns) = declarations::quote(&self.bytes, queue, kind);
        accepted(answer).map(|()| turns)
    }
}

/// A fresh board.
impl Default for Board {
    fn default() -> Board {
        Board::new()
    }
}

impl fmt::Debug for Board {
    fn fmt(&self, f: &mut fmt::Formatter<'_>) -> fmt::Result {
        f.debug_struct("Board").field("length", &self.bytes.len()).finish_non_exhaustive()
    }
}
