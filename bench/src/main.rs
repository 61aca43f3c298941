//! Times the proved code against what it is compared with, side by side in one run, and prints ratios.
//! Each layer has a module with a function `rows`, whole jobs and the board's calls tables of their own; docs/BENCH.md
//! holds the figures. `bits` times nothing and compares random evaluations bit by bit.
mod bits;
mod blends;
mod evaluations;
mod floats;
mod jets;
mod jobs;
// the board's calls, whole answers and the writer, as trials/ declares them
#[path = "../../trials/src/proved.rs"]
mod proved;
mod requests;
mod timing;
mod turns;
mod writes;

use std::process::ExitCode;

const USAGE: &str = "\
usage: bench [floats] [jets] [evaluations] [writes] [jobs] [turns]      without a name, all
       bench bits COUNT SEED";

const TABLES: [&str; 6] = ["floats", "jets", "evaluations", "writes", "jobs", "turns"];

fn measure(wanted: impl Fn(&str) -> bool) {
    let layers: [(&str, fn() -> Vec<timing::Row>); 4] =
        [("floats", floats::rows), ("jets", jets::rows), ("evaluations", evaluations::rows), ("writes", writes::rows)];
    if layers.iter().any(|(name, _)| wanted(name)) {
        println!("{:<34} {:>7} {:>10} {:>10}   against", "what", "ratio", "ours/ns", "theirs/ns");
    }
    for (_, rows) in layers.iter().filter(|(name, _)| wanted(name)) {
        rows().iter().for_each(timing::Row::print);
    }
    if wanted("floats") {
        floats::print_counts();
    }
    if wanted("jobs") {
        jobs::print();
    }
    if wanted("turns") {
        turns::print();
    }
}

fn main() -> ExitCode {
    let words: Vec<String> = std::env::args().skip(1).collect();
    let words: Vec<&str> = words.iter().map(String::as_str).collect();
    if let ["bits", count, seed] = words[..] {
        if let (Ok(count @ 1..), Ok(seed)) = (count.parse(), seed.parse()) {
            return bits::run(count, seed);
        }
    }
    if words.iter().all(|word| TABLES.contains(word)) {
        measure(|name| words.is_empty() || words.contains(&name));
        return ExitCode::SUCCESS;
    }
    eprintln!("{USAGE}");
    ExitCode::from(2)
}
