//! The writer of request blocks against the oracle's: from the numbers of a request to its bytes, and to a refusal by 15, after
//! every check but 16.
use crate::proved;
use crate::requests;
use crate::timing::{compare, Row};
use oracle::writer::{write_block, Filing};
use oracle::BLOCK;
use std::hint::black_box;

fn row(what: &'static str, filing: &Filing, answer: u64) -> Row {
    let (mut a, mut b) = ([0xa5; BLOCK], [0xa5; BLOCK]);
    let said = (proved::write_block(filing, &mut a), write_block(filing, &mut b));
    assert!(said == (answer, answer) && a == b, "the two writers differ");
    const TIMES: usize = 1_000;
    compare(
        what,
        "the oracle's",
        TIMES,
        &mut || (0..TIMES).for_each(|_| _ = black_box(proved::write_block(black_box(filing), black_box(&mut a)))),
        &mut || (0..TIMES).for_each(|_| _ = black_box(write_block(black_box(filing), black_box(&mut b)))),
    )
}

pub fn rows() -> Vec<Row> {
    let written = [("written, kind 1, N = 1", 1, 1), ("written, kind 1, N = 2", 1, 2), ("written, kind 1, N = 8", 1, 8), ("written, kind 5, N = 8", 5, 8)];
    let mut rows: Vec<Row> = written.map(|(what, kind, n)| row(what, &requests::filings(kind, n)[0], 0)).into();
    let mut refused = requests::filings(1, 8).swap_remove(0);
    refused.temperature = -1.0;
    rows.push(row("refused by 15, kind 1, N = 8", &refused, 15));
    rows
}
