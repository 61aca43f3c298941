//! Whole jobs, from the block's bytes to the record's: `records::answer` against the oracle's `run_request`, for each kind
//! and N = 1, 2, 8. Both sides write the record's sealed bytes.
use crate::proved;
use crate::requests::{self, Job};
use crate::timing::compare;
use oracle::board::RECORD;
use oracle::{float, run_request, Answer};
use std::hint::black_box;

const SEALED: usize = 16;

impl Job {
    fn ours(&self, record: &mut [u8; RECORD]) -> u64 {
        let (kind, n) = (u64::from(self.kind), u64::from(self.n));
        proved::answer(kind, n, &self.block, record)
    }

    fn theirs(&self, record: &mut [u8; RECORD]) -> u64 {
        match run_request(self.kind, self.n, &self.block) {
            Answer::Refused(number) => number,
            Answer::Sealed { status, values, evaluations, .. } => {
                let [x, y, z] = values.map(float::bits);
                for (i, word) in [status, x, y, z, evaluations, 0].into_iter().enumerate() {
                    record[SEALED + 8 * i..SEALED + 8 * i + 8].copy_from_slice(&word.to_le_bytes());
                }
                0
            }
        }
    }

    /// Sees that both sides leave the same bytes and find an answer, and gives its evaluations.
    fn evaluations(&self) -> u64 {
        let (mut a, mut b) = ([0xa5; RECORD], [0xa5; RECORD]);
        let said = (self.ours(&mut a), self.theirs(&mut b));
        assert!(said == (0, 0) && a == b, "kind {}, N = {}: the two sides differ", self.kind, self.n);
        let word = |at: usize| u64::from_le_bytes(a[at..at + 8].try_into().expect("eight bytes"));
        assert!(word(SEALED) == 0, "kind {}, N = {}: refused by {}", self.kind, self.n, word(SEALED));
        word(SEALED + 32)
    }
}

/// Nanoseconds of a job, ours and theirs.
type Times = (f64, f64);

fn time(job: &Job) -> Times {
    let (mut a, mut b) = ([0; RECORD], [0; RECORD]);
    let row = compare(
        "a job",
        "the oracle's",
        1,
        &mut || _ = black_box(black_box(job).ours(black_box(&mut a))),
        &mut || _ = black_box(black_box(job).theirs(black_box(&mut b))),
    );
    (row.ours, row.theirs)
}

/// How often the table is gone through, so that a job's runs do not all fall into the same busy moment.
const ROUNDS: usize = 8;

/// A mean over the jobs of a row, of the best run of each.
fn print_row(kind: u8, n: usize, evaluations: u64, best: &[Times]) {
    let (count, each) = (best.len() as f64, evaluations as f64);
    let ours: f64 = best.iter().map(|times| times.0).sum();
    let theirs: f64 = best.iter().map(|times| times.1).sum();
    println!(
        "{kind:>4} {n:>2} {:>7.2} {:>12.1} {:>14.1} {:>12.1} {:>13.0} {:>15.0}",
        ours / theirs,
        ours / count / 1e3,
        theirs / count / 1e3,
        each / count,
        ours / each,
        theirs / each
    );
}

pub fn print() {
    let rows: Vec<(u8, usize)> = requests::rows().collect();
    let jobs: Vec<Vec<Job>> = rows.iter().map(|&(kind, n)| requests::jobs(kind, n)).collect();
    let evaluations: Vec<u64> = jobs.iter().map(|jobs| jobs.iter().map(Job::evaluations).sum()).collect();
    let mut best: Vec<Vec<Times>> = jobs.iter().map(|jobs| vec![(f64::INFINITY, f64::INFINITY); jobs.len()]).collect();
    for _ in 0..ROUNDS {
        for (job, best) in jobs.iter().flatten().zip(best.iter_mut().flatten()) {
            let (ours, theirs) = time(job);
            *best = (best.0.min(ours), best.1.min(theirs));
        }
    }
    println!();
    println!(
        "{:>4} {:>2} {:>7} {:>12} {:>14} {:>12} {:>13} {:>15}",
        "kind", "N", "ratio", "ours/job/us", "theirs/job/us", "evaluations", "ours/eval/ns", "theirs/eval/ns"
    );
    for (i, &(kind, n)) in rows.iter().enumerate() {
        print_row(kind, n, evaluations[i], &best[i]);
    }
}
