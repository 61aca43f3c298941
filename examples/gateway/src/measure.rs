//! Turns of two boards under one protocol, free-running and paced, with the time of each.
//! All jobs of a board make one request, and every queue is kept full, so that it is known which turn of its job's span
//! each turn is.
use peng_robinson_board::{Board, Kind, Refusal, Request, QUEUES, RECORD_BYTES};

use crate::clock::{BusyClock, Clock};
use crate::paced::{Gateway, Waiting};
use crate::slots::Slots;

/// Counted turns between two changes of board.
pub const BLOCK: usize = 240;

/// Turns at the beginning of a block that are not counted, while the caches change over to its board.
const LEAD: usize = 20;

/// Jobs that a queue holds.
const HELD: usize = 8;

/// A release that comes more nanoseconds than this after the slot's end counts as late.
const LATE: u64 = 1_000;

/// What was measured of the turns of one board.
#[derive(Debug, Default)]
pub struct Samples {
    /// nanoseconds from the call of a turn to its return
    pub inside: Vec<f64>,
    /// from the release before to this one; free-running, a turn's return is its release
    pub interval: Vec<f64>,
    /// from the slot's end to the release; free-running, there are none
    pub offset: Vec<f64>,
    /// which turn of the span it was, from 1
    pub turn: Vec<u64>,
    /// the round that it was taken in
    pub round: Vec<u64>,
    /// turns that ended after their slot
    pub overruns: usize,
    pub late: usize,
}

impl Samples {
    fn add(&mut self, turn: &Turn, before: u64, place: u64, round: u64) {
        self.inside.push(turn.inside as f64);
        self.interval.push((turn.released - before) as f64);
        self.offset.extend(turn.offset.map(|offset| offset as f64));
        self.turn.push(place);
        self.round.push(round);
        self.overruns += usize::from(turn.overrun);
        self.late += usize::from(turn.offset > Some(LATE));
    }
}

/// The moments of one turn.
struct Turn {
    inside: u64,
    released: u64,
    offset: Option<u64>,
    overrun: bool,
}

/// A board under measurement.
trait Source {
    fn turn(&mut self) -> Result<Turn, Refusal>;
}

/// A board whose queues are all full of one request.
fn full_board(request: &Request) -> Result<Board, Refusal> {
    let mut board = Board::new();
    for queue in 0..QUEUES {
        for _ in 0..HELD {
            board.submit(queue, request)?;
        }
    }
    Ok(board)
}

/// Turns one after the other; each record is released as soon as its turn is over, and its job followed by the next.
struct Free {
    board: Board,
    clock: BusyClock,
    request: Request,
}

impl Source for Free {
    fn turn(&mut self) -> Result<Turn, Refusal> {
        let mut record = [0; RECORD_BYTES];
        let began = self.clock.now();
        let written = self.board.turn_into(&mut record)?;
        let ended = self.clock.now();
        if written {
            self.board.submit(record[9].into(), &self.request)?;
        }
        Ok(Turn {
            inside: ended - began,
            released: ended,
            offset: None,
            overrun: false,
        })
    }
}

/// Turns in slots; a job that is out is followed by the next through the waiting list.
struct Paced {
    gateway: Gateway<BusyClock>,
    slots: Slots,
    request: Request,
}

impl Source for Paced {
    fn turn(&mut self) -> Result<Turn, Refusal> {
        let (release, moments) = self.gateway.run_slot();
        release.turn?;
        if let Some(record) = release.record() {
            let queue = record.ticket().queue;
            let request = Box::new(self.request.clone());
            self.gateway.wait(Waiting::Submit { queue, request });
        }
        Ok(Turn {
            inside: moments.ended - moments.began,
            released: moments.released,
            offset: Some(moments.released - moments.boundary),
            overrun: moments.ended > self.slots.end(moments.slot),
        })
    }
}

/// Counts turns of two boards, one for each request. A round has four blocks, of the boards first, second, second,
/// first, so that what changes slowly in the machine meets both alike. Each round has new boards; which request has the
/// first of them changes from round to round, so that their places in memory change sides.
fn alternate<S: Source>(
    requests: [&Request; 2],
    turns: usize,
    make: impl Fn(&Request) -> Result<S, Refusal>,
) -> Result<[Samples; 2], Refusal> {
    let span = Kind::try_from(requests[0].kind())?.span();
    let mut samples = [Samples::default(), Samples::default()];
    let mut sides = [0, 1];
    let mut round = 0;
    while samples[0].inside.len() < turns {
        let mut boards = [make(requests[sides[0]])?, make(requests[sides[1]])?];
        let mut taken = [0; 2];
        for board in [0, 1, 1, 0] {
            let samples = &mut samples[sides[board]];
            let count = BLOCK.min(turns - samples.inside.len());
            let mut before = 0;
            for number in 0..LEAD + count {
                let turn = boards[board].turn()?;
                if number >= LEAD {
                    let place = 1 + taken[board] / QUEUES % span;
                    samples.add(&turn, before, place, round);
                }
                before = turn.released;
                taken[board] += 1;
            }
        }
        sides.swap(0, 1);
        round += 1;
    }
    Ok(samples)
}

/// Turns of two requests of one kind, as fast as they go.
pub fn free_running(requests: [&Request; 2], turns: usize) -> Result<[Samples; 2], Refusal> {
    let clock = BusyClock::new();
    alternate(requests, turns, |request| {
        Ok(Free {
            board: full_board(request)?,
            clock,
            request: request.clone(),
        })
    })
}

/// Turns of two requests of one kind, one in each slot.
pub fn paced(requests: [&Request; 2], turns: usize, slots: Slots) -> Result<[Samples; 2], Refusal> {
    let clock = BusyClock::new();
    alternate(requests, turns, |request| {
        Ok(Paced {
            gateway: Gateway::new(full_board(request)?, clock, slots),
            slots,
            request: request.clone(),
        })
    })
}
