//! The board's four calls on any bytes, to compare the proved ones with: written from documents 01 and 02 and the tables in
//! `crates/board_spec/specs` and `stepping.rs`. Numbers are little-endian u64s, a NaN is stored with one pattern.
//!
//! A board is four quarters of 6,144 bytes and the turn. In a quarter: jobs accepted, jobs held, turns had by the first job,
//! six counters, three floats, evaluations and latest density of the running search, from 128 kind and N of each of eight
//! slots, from 1,024 their blocks. A job stands in the slot of its ticket modulo 8.

use crate::block::{check, count_fits, kind_fits, Job, BLOCK};
use crate::float;
use crate::stepping::{start, step, Stored};
use std::ops::Range;

pub const BOARD: usize = 24_584;
pub const QUARTER: usize = 6_144;
/// Where the turn stands.
pub const TURN: usize = 4 * QUARTER;
pub const RECORD: usize = 64;

// in a quarter
pub const ACCEPTED: usize = 0;
pub const HELD: usize = 8;
pub const TURNS: usize = 16;
pub const COUNTERS: usize = 24;
pub const FLOATS: usize = 72;
pub const EVALUATIONS: usize = 96;
pub const LATEST: usize = 104;

pub fn kind_at(slot: usize) -> usize {
    128 + 16 * slot
}

pub fn count_at(slot: usize) -> usize {
    kind_at(slot) + 8
}

pub fn block_at(slot: usize) -> usize {
    1024 + BLOCK * slot
}

/// What a call answers.
#[derive(Clone, Copy, Debug, PartialEq, Eq, PartialOrd, Ord)]
pub enum Answer {
    /// by the caller's refusal of this number
    Refused(u64),
    Ticket(u64),
    /// 1 if a record was written, else 0
    Turned(u64),
    Shown {
        evaluations: u64,
        /// the density's bits, one pattern for every NaN
        density: u64,
    },
    /// accepted turns until the job would be handed out, that turn counted
    Quoted(u64),
}

/// The turns of a kind, from the one that takes a job in to the one that hands it out.
pub fn span(kind: u64) -> u64 {
    match kind {
        1 => 3101,
        2 => 6204,
        3 | 4 => 30,
        5 | 7 => 150,
        6 => 250,
        _ => 200,
    }
}

pub fn get(bytes: &[u8], at: usize) -> u64 {
    u64::from_le_bytes(bytes[at..at + 8].try_into().expect("eight bytes"))
}

pub fn put(bytes: &mut [u8], at: usize, number: u64) {
    bytes[at..at + 8].copy_from_slice(&number.to_le_bytes());
}

fn get_float(bytes: &[u8], at: usize) -> f64 {
    f64::from_bits(get(bytes, at))
}

fn put_float(bytes: &mut [u8], at: usize, x: f64) {
    put(bytes, at, float::bits(x));
}

fn quarter(queue: u64) -> Range<usize> {
    let from = QUARTER * queue as usize;
    from..from + QUARTER
}

// ---- a quarter

/// The first job's ticket: as many below the next one as jobs are held.
fn first_ticket(q: &[u8]) -> u64 {
    get(q, ACCEPTED).wrapping_sub(get(q, HELD))
}

fn slot(ticket: u64) -> usize {
    (ticket % 8) as usize
}

fn first_kind(q: &[u8]) -> u64 {
    get(q, kind_at(slot(first_ticket(q))))
}

/// The first job, or the refusal of its data.
fn first_job(q: &[u8]) -> Result<Job, u64> {
    let slot = slot(first_ticket(q));
    let (kind, n) = (get(q, kind_at(slot)), get(q, count_at(slot)));
    let block = &q[block_at(slot)..block_at(slot) + BLOCK];
    check(
        kind as u8,
        n as usize,
        block.try_into().expect("a whole block"),
    )
}

fn load(q: &[u8]) -> Stored {
    let counter = |i: usize| get(q, COUNTERS + 8 * i);
    Stored {
        stage: counter(0),
        tag: counter(1),
        status: counter(2),
        left: counter(3),
        way: counter(4),
        rounds: counter(5),
        floats: [0, 1, 2].map(|i| get_float(q, FLOATS + 8 * i)),
        evaluations: get(q, EVALUATIONS),
        latest: get_float(q, LATEST),
    }
}

fn store(q: &mut [u8], s: &Stored) {
    let counters = [s.stage, s.tag, s.status, s.left, s.way, s.rounds];
    for (i, counter) in counters.into_iter().enumerate() {
        put(q, COUNTERS + 8 * i, counter);
    }
    for (i, x) in s.floats.into_iter().enumerate() {
        put_float(q, FLOATS + 8 * i, x);
    }
    put(q, EVALUATIONS, s.evaluations);
    put_float(q, LATEST, s.latest);
}

fn quarter_fits(q: &[u8]) -> bool {
    let held = get(q, HELD);
    if held > 8 {
        return false;
    }
    for i in 0..held {
        let slot = slot(first_ticket(q).wrapping_add(i));
        let (kind, n) = (get(q, kind_at(slot)), get(q, count_at(slot)));
        if !kind_fits(kind) || !count_fits(kind, n) {
            return false;
        }
    }
    let turns = get(q, TURNS);
    let kind = first_kind(q);
    turns == 0 || (held > 0 && turns < span(kind) && load(q).fits(kind))
}

/// The record of a job that its queue's last turn leaves with these numbers.
fn record_of(ticket: u64, kind: u64, queue: u64, s: &Stored) -> [u8; RECORD] {
    let mut record = [0; RECORD];
    put(&mut record, 0, ticket);
    (record[8], record[9]) = (kind as u8, queue as u8);
    let (status, values) = s.result();
    put(&mut record, 16, status);
    for (i, x) in values.into_iter().enumerate() {
        put_float(&mut record, 24 + 8 * i, x);
    }
    put(&mut record, 48, s.evaluations);
    record
}

fn turn_quarter(queue: u64, q: &mut [u8], record: &mut [u8]) -> u64 {
    let (held, turns) = (get(q, HELD), get(q, TURNS));
    if held == 0 {
        return 0;
    }
    let job = first_job(q);
    let before = if turns == 0 { start(&job) } else { load(q) };
    let after = step(&job, &before);
    let kind = first_kind(q);
    if turns + 1 == span(kind) {
        record[..RECORD].copy_from_slice(&record_of(first_ticket(q), kind, queue, &after));
        put(q, HELD, held - 1);
        put(q, TURNS, 0);
        return 1;
    }
    put(q, TURNS, turns + 1);
    store(q, &after);
    0
}

// ---- the calls

/// The test behind 6.
pub fn fits(board: &[u8]) -> bool {
    board.len() == BOARD
        && get(board, TURN) <= 3
        && (0..4).all(|queue| quarter_fits(&board[quarter(queue)]))
}

/// Refusals 6, 1, 2, 3, 8, 4 in this order.
pub fn submit(board: &mut [u8], queue: u64, kind: u64, n: u64, block: &[u8]) -> Answer {
    if !fits(board) {
        return Answer::Refused(6);
    }
    if queue > 3 {
        return Answer::Refused(1);
    }
    if !kind_fits(kind) {
        return Answer::Refused(2);
    }
    if !count_fits(kind, n) {
        return Answer::Refused(3);
    }
    if block.len() != BLOCK {
        return Answer::Refused(8);
    }
    let q = &mut board[quarter(queue)];
    let held = get(q, HELD);
    if held == 8 {
        return Answer::Refused(4);
    }
    let ticket = get(q, ACCEPTED);
    let slot = slot(ticket);
    put(q, kind_at(slot), kind);
    put(q, count_at(slot), n);
    q[block_at(slot)..block_at(slot) + BLOCK].copy_from_slice(block);
    put(q, ACCEPTED, ticket.wrapping_add(1));
    put(q, HELD, held + 1);
    Answer::Ticket(ticket)
}

/// Refusals 6, 5 in this order.
pub fn turn(board: &mut [u8], record: &mut [u8]) -> Answer {
    if !fits(board) {
        return Answer::Refused(6);
    }
    if record.len() < RECORD {
        return Answer::Refused(5);
    }
    let queue = get(board, TURN);
    let written = turn_quarter(queue, &mut board[quarter(queue)], record);
    put(board, TURN, (queue + 1) % 4);
    Answer::Turned(written)
}

/// Refusals 6, 1, 7 in this order.
pub fn look(board: &[u8], queue: u64) -> Answer {
    if !fits(board) {
        return Answer::Refused(6);
    }
    if queue > 3 {
        return Answer::Refused(1);
    }
    let q = &board[quarter(queue)];
    if get(q, TURNS) == 0 {
        return Answer::Refused(7);
    }
    let s = load(q);
    Answer::Shown {
        evaluations: s.evaluations,
        density: float::bits(s.latest),
    }
}

/// Counts turns of the board one after the other until the last of these jobs of one queue is handed out. The first has had some
/// turns already; a turn that names another queue counts and brings the jobs nothing.
fn turns_until_last(mut turn: u64, queue: u64, kinds: &[u64], mut had: u64) -> u64 {
    let mut turns = 0;
    for kind in kinds {
        while had < span(*kind) {
            had += u64::from(turn == queue);
            turn = (turn + 1) % 4;
            turns += 1;
        }
        had = 0;
    }
    turns
}

/// Document 02, P7, from the turn, the kinds of the jobs held in their order and the turns had by the first. Refusals 6, 1, 2, 4
/// in this order.
pub fn quote(board: &[u8], queue: u64, kind: u64) -> Answer {
    if !fits(board) {
        return Answer::Refused(6);
    }
    if queue > 3 {
        return Answer::Refused(1);
    }
    if !kind_fits(kind) {
        return Answer::Refused(2);
    }
    let q = &board[quarter(queue)];
    let held = get(q, HELD);
    if held == 8 {
        return Answer::Refused(4);
    }
    let kind_of = |i: u64| get(q, kind_at(slot(first_ticket(q).wrapping_add(i))));
    let mut kinds: Vec<u64> = (0..held).map(kind_of).collect();
    kinds.push(kind);
    let turns = turns_until_last(get(board, TURN), queue, &kinds, get(q, TURNS));
    Answer::Quoted(turns)
}
