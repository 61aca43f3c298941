//! The record of a job: a public part and a sealed one, which belongs to the queue's owner. Jobs without a board.

use crate::declarations;
use crate::refusal::accepted;
use crate::{Kind, Refusal, Request, Ticket, RECORD_BYTES};
use std::fmt;

/// The bytes of the public part.
const PUBLIC_BYTES: usize = 16;

/// The record of a job, 64 bytes.
///
/// Bytes 0 to 15 are public: ticket, kind and queue. The others are sealed: status, values and evaluations.
/// `Debug` shows the public part only.
#[derive(Clone, PartialEq, Eq)]
pub struct Record {
    bytes: [u8; RECORD_BYTES],
}

impl Record {
    /// The record in the first 64 bytes of a buffer. Fewer are [`Refusal::RecordLength`] (5); nothing else is tested.
    pub fn from_bytes(bytes: &[u8]) -> Result<Record, Refusal> {
        let bytes = bytes.first_chunk().ok_or(Refusal::RecordLength)?;
        Ok(Record { bytes: *bytes })
    }

    /// The 64 bytes.
    pub fn as_bytes(&self) -> &[u8; RECORD_BYTES] {
        &self.bytes
    }

    /// The record as eight little-endian numbers.
    fn words(&self) -> [u64; 8] {
        let mut words = [0; 8];
        for (word, bytes) in words.iter_mut().zip(self.bytes.chunks_exact(8)) {
            *word = bytes.iter().rev().fold(0, |word, byte| (word << 8) | u64::from(*byte));
        }
        words
    }

    /// The kind byte and the queue byte.
    fn labels(&self) -> (u64, u64) {
        let [_, labels, ..] = self.words();
        let [kind, queue, ..] = labels.to_le_bytes();
        (kind.into(), queue.into())
    }

    /// The ticket that the job's submit answered.
    pub fn ticket(&self) -> Ticket {
        let [number, ..] = self.words();
        let (_, queue) = self.labels();
        Ticket { queue, number }
    }

    /// The job's kind, or [`Refusal::Kind`] (2) where the byte is not 1 to 9, which no record of a board has.
    pub fn kind(&self) -> Result<Kind, Refusal> {
        let (kind, _) = self.labels();
        Kind::try_from(kind)
    }

    /// Bytes 0 to 15: ticket, kind, queue, zeros. They may be shown to anyone.
    pub fn public(&self) -> &[u8] {
        &self.bytes[..PUBLIC_BYTES]
    }

    /// The sealed part.
    pub fn sealed(&self) -> Sealed {
        let [_, _, status, first, second, third, evaluations, _] = self.words();
        let values = [first, second, third].map(f64::from_bits);
        Sealed { status, values, evaluations }
    }
}

impl fmt::Debug for Record {
    fn fmt(&self, f: &mut fmt::Formatter<'_>) -> fmt::Result {
        let (kind, _) = self.labels();
        f.debug_struct("Record").field("ticket", &self.ticket()).field("kind", &kind).finish_non_exhaustive()
    }
}

/// The sealed part of a record: what became of the job.
#[derive(Clone, Copy, Debug, PartialEq)]
pub struct Sealed {
    /// 0, or the number of a refusal by the data (11 to 17) or the equation (21 to 27).
    pub status: u64,
    /// The values that the kind hands out ([`Kind`]), in reduced numbers: K, 1/Å³, K/Å³, K·Å³; unused ones,
    /// and all on refusal, are +0.
    pub values: [f64; 3],
    /// The evaluations that the search made.
    pub evaluations: u64,
}

impl Sealed {
    /// The values where the status is 0, else the refusal.
    pub fn outcome(&self) -> Result<[f64; 3], Refusal> {
        accepted(self.status).map(|()| self.values)
    }
}

/// A whole job without a board: the sealed part that a board would hand out for this request.
///
/// Refused, in this order: [`Refusal::Kind`] (2), [`Components`](Refusal::Components) (3), which only a request that
/// was taken from bytes can have. Refusals by the data or the equation are in [`Sealed::status`].
pub fn answer(request: &Request) -> Result<Sealed, Refusal> {
    let mut record = Record { bytes: [0; RECORD_BYTES] };
    answer_block(request.kind(), request.components(), request.block(), &mut record.bytes)?;
    Ok(record.sealed())
}

/// [`answer`] over plain bytes: writes the sealed bytes 16 to 63 of a record, and no others.
///
/// Refused, in this order, with the buffer as it was: [`Refusal::Kind`] (2), [`Components`](Refusal::Components) (3),
/// [`BlockLength`](Refusal::BlockLength) (8), [`RecordLength`](Refusal::RecordLength) (5).
pub fn answer_block(kind: u64, n: u64, block: &[u8], record: &mut [u8]) -> Result<(), Refusal> {
    accepted(declarations::answer(kind, n, block, record))
}
