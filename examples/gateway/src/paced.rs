//! The gateway: one turn in each slot, submits and looks in the gaps, and a release at the slot's end.
use std::collections::VecDeque;
use std::fmt;
use std::hint::black_box;

use peng_robinson_board::{Board, Look, Record, Refusal, Request, Ticket, RECORD_BYTES};

use crate::clock::Clock;
use crate::slots::Slots;

/// How many waiting calls are served in one gap. It is a number and not a time, so that the list of calls on the
/// board does not depend on how long turns took, as long as they end in their slots.
pub const CALLS_IN_A_GAP: usize = 4;

/// The calls of a board.
pub trait BoardCalls {
    fn submit(&mut self, queue: u64, request: &Request) -> Result<Ticket, Refusal>;
    fn look(&self, queue: u64) -> Result<Look, Refusal>;
    fn turn_into(&mut self, record: &mut [u8]) -> Result<bool, Refusal>;
}

impl BoardCalls for Board {
    fn submit(&mut self, queue: u64, request: &Request) -> Result<Ticket, Refusal> {
        Board::submit(self, queue, request)
    }

    fn look(&self, queue: u64) -> Result<Look, Refusal> {
        Board::look(self, queue)
    }

    fn turn_into(&mut self, record: &mut [u8]) -> Result<bool, Refusal> {
        Board::turn_into(self, record)
    }
}

/// A call that waits for a gap.
#[derive(Debug, Clone)]
pub enum Waiting {
    Submit { queue: u64, request: Box<Request> },
    Look { queue: u64 },
}

/// What a call was answered in a gap. What a look shows is for the queue's owner alone.
#[derive(Debug, Clone, Copy, PartialEq)]
pub enum Reply {
    Submitted(Result<Ticket, Refusal>),
    Looked(Result<Look, Refusal>),
}

/// What is handed out at a slot's end: the turn's answer and record, and the replies to the calls served before it.
/// `Debug` shows neither the record nor the replies, which have sealed parts.
pub struct Release {
    /// the slot at whose end this is
    pub slot: u64,
    pub turn: Result<bool, Refusal>,
    pub replies: Vec<Reply>,
    buffer: [u8; RECORD_BYTES],
}

impl Release {
    /// The record, if the turn wrote one.
    pub fn record(&self) -> Option<Record> {
        match self.turn {
            Ok(true) => Record::from_bytes(&self.buffer).ok(),
            _ => None,
        }
    }
}

impl fmt::Debug for Release {
    fn fmt(&self, f: &mut fmt::Formatter<'_>) -> fmt::Result {
        let mut shown = f.debug_struct("Release");
        shown.field("slot", &self.slot).field("turn", &self.turn);
        shown.finish_non_exhaustive()
    }
}

/// The moments of a slot. They are for the operator alone: how long a turn took tells whether it evaluated.
#[derive(Debug, Clone, Copy, PartialEq, Eq)]
pub struct Moments {
    /// the slot in which the turn was taken
    pub slot: u64,
    pub began: u64,
    pub ended: u64,
    /// the slot's end for which the release waited
    pub boundary: u64,
    pub released: u64,
}

/// A board behind a fixed clock.
pub struct Gateway<C, B = Board> {
    board: B,
    clock: C,
    slots: Slots,
    waiting: VecDeque<Waiting>,
    buffer: [u8; RECORD_BYTES],
}

impl<C: Clock, B: BoardCalls> Gateway<C, B> {
    pub fn new(board: B, clock: C, slots: Slots) -> Gateway<C, B> {
        Gateway {
            board,
            clock,
            slots,
            waiting: VecDeque::new(),
            buffer: [0; RECORD_BYTES],
        }
    }

    /// Puts a call at the end of the waiting list.
    pub fn wait(&mut self, call: Waiting) {
        self.waiting.push_back(call);
    }

    /// Serves the next waiting calls in a gap, takes one turn in the slot that follows, and releases at the slot's
    /// end. A turn that ends after its slot is released at the end of the first slot that ends after it; the slots
    /// between have no turn.
    pub fn run_slot(&mut self) -> (Release, Moments) {
        let replies = self.serve_in_gap();

        let slot = self.slots.next_start(self.clock.now());
        self.clock.wait_until(self.slots.start(slot));
        let began = self.clock.now();
        let turn = self.board.turn_into(&mut self.buffer);
        let ended = self.clock.now();

        let release_slot = self.slots.next_end(ended).max(slot);
        let boundary = self.slots.end(release_slot);
        // all work is done before the wait, the same whether the turn wrote a record or not: what the turn left in the
        // processor's caches would show in work that is done after it
        let release = black_box(Release {
            slot: release_slot,
            turn,
            replies,
            buffer: std::mem::replace(&mut self.buffer, [0; RECORD_BYTES]),
        });
        self.clock.wait_until(boundary);
        let released = self.clock.now();
        let moments = Moments {
            slot,
            began,
            ended,
            boundary,
            released,
        };
        (release, moments)
    }

    /// Waits for a gap where there is none now. A wait that comes back late may end in a slot: the turn then has a
    /// later one, so that no call is served in a slot with a turn.
    fn serve_in_gap(&mut self) -> Vec<Reply> {
        let now = self.clock.now();
        if !self.slots.in_gap(now) {
            let end = self.slots.end(self.slots.next_end(now));
            self.clock.wait_until(end);
        }
        let count = self.waiting.len().min(CALLS_IN_A_GAP);
        let board = &mut self.board;
        let calls = self.waiting.drain(..count);
        calls
            .map(|call| match call {
                Waiting::Submit { queue, request } => {
                    Reply::Submitted(board.submit(queue, &request))
                }
                Waiting::Look { queue } => Reply::Looked(board.look(queue)),
            })
            .collect()
    }
}
