//! The proved calls and the proved writer, linked from `target/staticlib/libgateway.a`, with their answers in the oracle's form.

use oracle::board::Answer;
use oracle::float;
use oracle::writer::Filing;

extern "C" {
    // a slice is a pointer and a length
    fn pr_submit(
        board: *mut u8,
        board_len: usize,
        queue: u64,
        kind: u64,
        n: u64,
        block: *const u8,
        block_len: usize,
        ticket: *mut u64,
    ) -> u64;
    fn pr_turn(board: *mut u8, board_len: usize, record: *mut u8, record_len: usize) -> u64;
    fn pr_look(
        board: *const u8,
        board_len: usize,
        queue: u64,
        evaluations: *mut u64,
        density: *mut f64,
    ) -> u64;
    fn pr_quote(board: *const u8, board_len: usize, queue: u64, kind: u64, turns: *mut u64) -> u64;
    fn pr_answer(
        kind: u64,
        n: u64,
        block: *const u8,
        block_len: usize,
        record: *mut u8,
        record_len: usize,
    ) -> u64;
    fn pr_write_block(
        kind: u64,
        n: u64,
        coefficients: *const f64,
        coefficients_len: usize,
        interactions: *const f64,
        interactions_len: usize,
        fractions: *const f64,
        fractions_len: usize,
        choice: u64,
        temperature: f64,
        pressure: f64,
        start: f64,
        block: *mut u8,
        block_len: usize,
    ) -> u64;
}

/// What stands where an answer goes before the call; a refusal has to leave it.
const BEFORE: u64 = 0x5a5a_5a5a_5a5a_5a5a;

/// A refusal that wrote something, as no other side answers.
fn refused(number: u64, untouched: bool) -> Answer {
    Answer::Refused(if untouched { number } else { 1000 + number })
}

pub fn submit(board: &mut [u8], queue: u64, kind: u64, n: u64, block: &[u8]) -> Answer {
    let mut ticket = BEFORE;
    let number = unsafe {
        pr_submit(
            board.as_mut_ptr(),
            board.len(),
            queue,
            kind,
            n,
            block.as_ptr(),
            block.len(),
            &mut ticket,
        )
    };
    match number {
        0 => Answer::Ticket(ticket),
        number => refused(number, ticket == BEFORE),
    }
}

pub fn turn(board: &mut [u8], record: &mut [u8]) -> Answer {
    let number = unsafe {
        pr_turn(
            board.as_mut_ptr(),
            board.len(),
            record.as_mut_ptr(),
            record.len(),
        )
    };
    match number {
        0 | 1 => Answer::Turned(number),
        number => Answer::Refused(number),
    }
}

pub fn look(board: &[u8], queue: u64) -> Answer {
    let (mut evaluations, mut density) = (BEFORE, f64::from_bits(BEFORE));
    let number = unsafe {
        pr_look(
            board.as_ptr(),
            board.len(),
            queue,
            &mut evaluations,
            &mut density,
        )
    };
    match number {
        0 => Answer::Shown {
            evaluations,
            density: float::bits(density),
        },
        number => refused(number, evaluations == BEFORE && density.to_bits() == BEFORE),
    }
}

pub fn quote(board: &[u8], queue: u64, kind: u64) -> Answer {
    let mut turns = BEFORE;
    let number = unsafe { pr_quote(board.as_ptr(), board.len(), queue, kind, &mut turns) };
    match number {
        0 => Answer::Quoted(turns),
        number => refused(number, turns == BEFORE),
    }
}

/// A whole job without a board: 0 where the record's sealed bytes were written, else the refusal.
pub fn answer(kind: u64, n: u64, block: &[u8], record: &mut [u8]) -> u64 {
    unsafe {
        pr_answer(
            kind,
            n,
            block.as_ptr(),
            block.len(),
            record.as_mut_ptr(),
            record.len(),
        )
    }
}

/// 0 where the block was written, else the refusal.
pub fn write_block(filing: &Filing, block: &mut [u8]) -> u64 {
    unsafe {
        pr_write_block(
            filing.kind,
            filing.n,
            filing.coefficients.as_ptr(),
            filing.coefficients.len(),
            filing.interactions.as_ptr(),
            filing.interactions.len(),
            filing.fractions.as_ptr(),
            filing.fractions.len(),
            filing.choice,
            filing.temperature,
            filing.pressure,
            filing.start,
            block.as_mut_ptr(),
            block.len(),
        )
    }
}
