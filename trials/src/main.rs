//! The proved board and writer run beside the oracle's, on random requests, call lists, damaged boards and filings. docs/TRIALS.md has the counts.
//! Stops at the first difference, with exit status 1.

mod blocks;
mod damaged;
mod pairs;
mod proved;
mod report;
mod requests;
mod schedule;
mod writes;

use report::{Difference, Options, Progress, Tally};
use std::process::ExitCode;

const USAGE: &str = "\
usage: trials requests|pairs|damaged|writes [--count N] [--seed S] [--first I]
  requests   the oracle's requests through the proved board, against its whole answers; each released as quoted
  pairs      pairs of call lists that differ in blocks only: public answers, everything against the oracle's board, quotes kept
  damaged    boards with damage: every call of the proved board against the oracle's; some quotes followed to the release
  writes     filings through the proved writer, against the oracle's; each block read back; requests read and written again
  --first    the item to begin with, so that one that failed is repeated with --count 1";

type Trial = fn(Options, &mut Tally, &mut Progress) -> Result<(), Difference>;

fn parse(words: &[String]) -> Option<(&str, Trial, Options)> {
    let (name, mut words) = words.split_first()?;
    let (trial, count): (Trial, u64) = match name.as_str() {
        "requests" => (requests::run, 20_000),
        "pairs" => (pairs::run, 100_000),
        "damaged" => (damaged::run, 1_000_000),
        "writes" => (writes::run, 100_000),
        _ => return None,
    };
    let mut options = Options {
        count,
        seed: 1,
        first: 0,
    };
    while let [option, value, rest @ ..] = words {
        let value = value.parse().ok()?;
        match option.as_str() {
            "--count" => options.count = value,
            "--seed" => options.seed = value,
            "--first" => options.first = value,
            _ => return None,
        }
        words = rest;
    }
    words.is_empty().then_some((name, trial, options))
}

fn main() -> ExitCode {
    let words: Vec<String> = std::env::args().skip(1).collect();
    let Some((name, trial, options)) = parse(&words) else {
        eprintln!("{USAGE}");
        return ExitCode::from(2);
    };
    let (mut tally, mut progress) = (Tally::default(), Progress::new());
    let outcome = trial(options, &mut tally, &mut progress);
    let seconds = progress.seconds();
    let Options { count, seed, .. } = options;
    if let Err(Difference(text)) = outcome {
        println!("{name} of seed {seed} differ\n{text}");
        return ExitCode::FAILURE;
    }
    tally.print();
    println!("{count} {name} of seed {seed}: no difference, {seconds:.0} seconds");
    ExitCode::SUCCESS
}
