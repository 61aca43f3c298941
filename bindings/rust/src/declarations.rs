//! The six C functions of libgateway.a, each with a safe function over slices. The only unsafe code of the crate.

use crate::Conditions;

// a slice is a pointer and a length
extern "C" {
    fn pr_submit(
        board: *mut u8,
        board_len: usize,
        queue: u64,
        kind: u64,
        n: u64,
        block: *const u8,
        block_len: usize,
        ticket: *mut u64,
    ) -> u64;
    fn pr_turn(board: *mut u8, board_len: usize, record: *mut u8, record_len: usize) -> u64;
    fn pr_look(
        board: *const u8,
        board_len: usize,
        queue: u64,
        evaluations: *mut u64,
        density: *mut f64,
    ) -> u64;
    fn pr_quote(board: *const u8, board_len: usize, queue: u64, kind: u64, turns: *mut u64) -> u64;
    fn pr_answer(
        kind: u64,
        n: u64,
        block: *const u8,
        block_len: usize,
        record: *mut u8,
        record_len: usize,
    ) -> u64;
    fn pr_write_block(
        kind: u64,
        n: u64,
        coefficients: *const f64,
        coefficients_len: usize,
        interactions: *const f64,
        interactions_len: usize,
        fractions: *const f64,
        fractions_len: usize,
        choice: u64,
        temperature: f64,
        pressure: f64,
        start: f64,
        block: *mut u8,
        block_len: usize,
    ) -> u64;
}

// SAFETY of each call below: the pointers come from references that live through it, with their own lengths; mutable
// ones overlap no others; and no function keeps a pointer. The functions ask nothing else of their callers.

/// The answer, and the ticket where it is 0.
pub fn submit(board: &mut [u8], queue: u64, kind: u64, n: u64, block: &[u8]) -> (u64, u64) {
    let mut ticket = 0;
    let number = unsafe {
        pr_submit(board.as_mut_ptr(), board.len(), queue, kind, n, block.as_ptr(), block.len(), &mut ticket)
    };
    (number, ticket)
}

/// 1 where a record was written, 0 where none was, else the refusal.
pub fn turn(board: &mut [u8], record: &mut [u8]) -> u64 {
    unsafe { pr_turn(board.as_mut_ptr(), board.len(), record.as_mut_ptr(), record.len()) }
}

/// The answer, and evaluations and density where it is 0.
pub fn look(board: &[u8], queue: u64) -> (u64, u64, f64) {
    let (mut evaluations, mut density) = (0, 0.0);
    let number = unsafe { pr_look(board.as_ptr(), board.len(), queue, &mut evaluations, &mut density) };
    (number, evaluations, density)
}

/// The answer, and the number of turns where it is 0.
pub fn quote(board: &[u8], queue: u64, kind: u64) -> (u64, u64) {
    let mut turns = 0;
    let number = unsafe { pr_quote(board.as_ptr(), board.len(), queue, kind, &mut turns) };
    (number, turns)
}

/// 0 where the record's sealed bytes were written, else the refusal.
pub fn answer(kind: u64, n: u64, block: &[u8], record: &mut [u8]) -> u64 {
    unsafe { pr_answer(kind, n, block.as_ptr(), block.len(), record.as_mut_ptr(), record.len()) }
}

/// 0 where the block was written, else the refusal.
pub fn write_block(
    kind: u64,
    n: u64,
    coefficients: &[f64],
    interactions: &[f64],
    fractions: &[f64],
    conditions: Conditions,
    block: &mut [u8],
) -> u64 {
    unsafe {
        pr_write_block(
            kind,
            n,
            coefficients.as_ptr(),
            coefficients.len(),
            interactions.as_ptr(),
            interactions.len(),
            fractions.as_ptr(),
            fractions.len(),
            conditions.choice,
            conditions.temperature,
            conditions.pressure,
            conditions.start,
            block.as_mut_ptr(),
            block.len(),
        )
    }
}
