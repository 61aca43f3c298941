//! When jobs come out: each kind after its span, with the turn that a quote names, tickets by queue, random calls
//! beside document 01's schedule.

mod common;

use common::{propane_butane, turns_taken, Random};
use peng_robinson_board::*;
use std::collections::VecDeque;

/// The spans of kinds 1 to 9, from documents 01 and 02.
const SPANS: [u64; 9] = [3_101, 6_204, 30, 30, 150, 250, 150, 200, 200];

/// A request of a kind. Its data are in order for every kind.
fn request(kind: u64) -> Request {
    let conditions = Conditions { choice: 1, temperature: 300.0, pressure: 0.05, start: 0.001 };
    Request::new(Kind::try_from(kind).unwrap(), &propane_butane(), conditions).unwrap()
}

/// A job alone on a fresh board comes out with turn 4(span − 1) + queue + 1, and no other turn hands anything out.
#[test]
fn a_job_comes_out_with_the_last_turn_of_its_span() {
    for (kind, span) in (1..).zip(SPANS) {
        assert_eq!(Kind::try_from(kind).map(Kind::span), Ok(span));
        for queue in 0..QUEUES {
            let mut board = Board::new();
            assert_eq!(board.quote(queue, kind), Ok(4 * (span - 1) + queue + 1));
            assert_eq!(board.submit(queue, &request(kind)), Ok(Ticket { queue, number: 0 }));
            assert_eq!(board.look(queue), Err(Refusal::NoRunningJob));
            for turn in 1..4 * (span - 1) + queue + 1 {
                assert_eq!(board.turn(), Ok(None), "kind {kind}, queue {queue}, turn {turn}");
                // running from its first turn on
                assert_eq!(board.look(queue).is_ok(), turn > queue);
            }
            let record = board.turn().unwrap().expect("a record");
            assert_eq!(record.ticket(), Ticket { queue, number: 0 });
            assert_eq!(record.kind().map(Kind::number), Ok(kind));
            assert_eq!(board.look(queue), Err(Refusal::NoRunningJob));
        }
    }
}

#[test]
fn a_queue_holds_eight_jobs_and_its_tickets_count_on() {
    let mut board = Board::new();
    let request = request(3);
    for number in 0..8 {
        for queue in 0..QUEUES {
            assert_eq!(board.submit(queue, &request), Ok(Ticket { queue, number }));
        }
    }
    for queue in 0..QUEUES {
        assert_eq!(board.submit(queue, &request), Err(Refusal::QueueFull));
    }
    // queue 0 has its place again with its 30th turn, the other queues not yet
    for _ in 0..4 * 29 {
        assert_eq!(board.turn(), Ok(None));
        assert_eq!(board.submit(0, &request), Err(Refusal::QueueFull));
    }
    let record = board.turn().unwrap().expect("a record");
    assert_eq!(record.ticket(), Ticket { queue: 0, number: 0 });
    assert_eq!(board.submit(1, &request), Err(Refusal::QueueFull));
    assert_eq!(board.submit(0, &request), Ok(Ticket { queue: 0, number: 8 }));
    assert_eq!(board.submit(0, &request), Err(Refusal::QueueFull));
}

/// Whichever queue is next, behind jobs that wait and one that runs; and a quote changes nothing.
#[test]
fn a_job_comes_out_with_the_quoted_turn() {
    let mut board = Board::new();
    // after 119 turns the first job has left
    for (kind, turns) in [(3, 0), (5, 1), (4, 2), (9, 45), (6, 0), (8, 31), (7, 70)] {
        board.submit(2, &request(kind)).unwrap();
        for _ in 0..turns {
            board.turn().unwrap();
        }
        let before = board.clone();
        for queue in 0..QUEUES {
            for asked in 1..=9 {
                let taken = turns_taken(&board, queue, &request(asked));
                assert_eq!(board.quote(queue, asked), Ok(taken), "after {kind}: queue {queue}, kind {asked}");
            }
        }
        assert_eq!(board, before);
    }
}

#[test]
fn the_longest_quote() {
    let mut board = Board::new();
    board.turn().unwrap();
    for _ in 0..7 {
        board.submit(0, &request(2)).unwrap();
    }
    // eight spans, and queue 0 is the last of the four to have its turn
    assert_eq!(board.quote(0, 2), Ok(4 * 8 * 6_204));
    assert_eq!(turns_taken(&board, 0, &request(2)), 198_528);
}

/// What comes to the queue before the job counts, what comes after it or to other queues does not.
#[test]
fn what_a_quote_depends_on() {
    let mut board = Board::new();
    assert_eq!(board.quote(1, 5), Ok(598));
    board.submit(1, &request(3)).unwrap();
    assert_eq!(board.quote(1, 5), Ok(598 + 120));
    let ticket = board.submit(1, &request(5)).unwrap();
    for queue in 0..QUEUES {
        board.submit(queue, &request(4)).unwrap();
    }
    let tickets = (0..598 + 120).map(|_| board.turn().unwrap().map(|record| record.ticket()));
    assert_eq!(tickets.last(), Some(Some(ticket)));
}

/// Document 01's schedule, worked from the calls' arguments alone.
#[derive(Clone, Default)]
struct Schedule {
    turn: usize,
    accepted: [u64; 4],
    /// kind, ticket, turns had
    held: [VecDeque<(u64, u64, u64)>; 4],
}

impl Schedule {
    fn submit(&mut self, queue: u64, kind: u64, n: u64, block_length: usize) -> Result<u64, u64> {
        match () {
            () if queue > 3 => Err(1),
            () if !(1..=9).contains(&kind) => Err(2),
            () if !(1..=8).contains(&n) || (kind >= 7 && n != 2) => Err(3),
            () if block_length != 640 => Err(8),
            () if self.held[queue as usize].len() == 8 => Err(4),
            () => {
                let ticket = self.accepted[queue as usize];
                self.accepted[queue as usize] += 1;
                self.held[queue as usize].push_back((kind, ticket, 0));
                Ok(ticket)
            }
        }
    }

    /// Kind, queue and ticket of the record handed out, if any.
    fn turn(&mut self, record_length: usize) -> Result<Option<(u64, u64, u64)>, u64> {
        if record_length < 64 {
            return Err(5);
        }
        let queue = self.turn;
        self.turn = (queue + 1) % 4;
        let Some((kind, ticket, turns)) = self.held[queue].front_mut() else {
            return Ok(None);
        };
        *turns += 1;
        let out = (*kind, queue as u64, *ticket);
        if *turns < SPANS[*kind as usize - 1] {
            return Ok(None);
        }
        self.held[queue].pop_front();
        Ok(Some(out))
    }

    fn look(&self, queue: u64) -> Result<(), u64> {
        let held = self.held.get(queue as usize).ok_or(1u64)?;
        match held.front() {
            Some((_, _, turns)) if *turns > 0 => Ok(()),
            _ => Err(7),
        }
    }

    /// By a submit and turns on a copy, with an N and a block that fit every kind.
    fn quote(&self, queue: u64, kind: u64) -> Result<u64, u64> {
        let mut copy = self.clone();
        let ticket = copy.submit(queue, kind, 2, 640)?;
        let mut turns = 1;
        while copy.turn(64) != Ok(Some((kind, queue, ticket))) {
            turns += 1;
        }
        Ok(turns)
    }
}

/// Random calls on the board and on the schedule, quotes too where they are asked for. How many records came, submits were
/// refused by 4 and quotes were given.
fn random_calls(with_quotes: bool) -> (u64, u64, u64) {
    let (mut board, mut schedule, mut random) = (Board::new(), Schedule::default(), Random::new(1));
    let (mut records, mut full, mut quotes) = (0, 0, 0);
    for _ in 0..60_000 {
        match random.below(if with_quotes { 16 } else { 15 }) {
            0 => {
                // mostly short kinds and good arguments
                let kind = [3, 4, 3, 4, 3, 5, 6, 7, 8, 9, 0, 10, 1 << 32][random.below(13) as usize];
                let queue = random.below(5);
                let n = [1, 2, 3, 8, 2, 2, 0, 9][random.below(8) as usize];
                let length = [640, 640, 640, 639, 641, 0][random.below(6) as usize];
                // now and then a block of anything
                let block = match random.below(4) {
                    0 => random.bytes(length),
                    _ => [&request(4).block()[..], &[0]].concat()[..length].to_vec(),
                };
                let expected = schedule.submit(queue, kind, n, block.len());
                let ticket = board.submit_block(queue, kind, n, &block);
                assert_eq!(ticket, expected.map(|number| Ticket { queue, number }).map_err(Refusal::from));
                full += u64::from(expected == Err(4));
            }
            1 => {
                let queue = random.below(6);
                let shown = board.look(queue).map(|_| ());
                assert_eq!(shown, schedule.look(queue).map_err(Refusal::from));
            }
            2 => {
                let expected = schedule.turn(63).map(|out| out.is_some());
                assert_eq!(board.turn_into(&mut [0; 63]), expected.map_err(Refusal::from));
            }
            3 if with_quotes => {
                let (queue, kind) = (random.below(5), random.below(11));
                let expected = schedule.quote(queue, kind);
                assert_eq!(board.quote(queue, kind), expected.map_err(Refusal::from));
                quotes += u64::from(expected.is_ok());
            }
            _ => {
                let record = board.turn().unwrap();
                let public = record.map(|record| {
                    let Ticket { queue, number } = record.ticket();
                    (record.kind().unwrap().number(), queue, number)
                });
                assert_eq!(Ok(public), schedule.turn(64));
                records += u64::from(public.is_some());
            }
        }
    }
    (records, full, quotes)
}

#[test]
fn random_calls_are_answered_as_the_schedule_says() {
    let (records, full, _) = random_calls(false);
    // the list came to both
    assert!(records > 100 && full > 10, "{records} records, {full} refused by 4");
}

#[test]
fn random_calls_with_quotes_are_answered_as_the_schedule_says() {
    let (records, full, quotes) = random_calls(true);
    assert!(records > 100 && full > 10, "{records} records, {full} refused by 4");
    assert!(quotes > 1_000, "{quotes} quoted");
}
