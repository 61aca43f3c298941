//! The command line.
use std::ffi::OsString;

use crate::slots::Slots;

pub const USAGE: &str = "\
usage: gateway measure [--turns COUNT] [--slot-us MICROSECONDS] [--gap-us MICROSECONDS]
       COUNT turns of each mix, 1000 to 1000000 (100000); slot and gap, 1 to 1000000 (40 and 10)";

/// What to measure.
#[derive(Debug, Clone, Copy, PartialEq, Eq)]
pub struct Plan {
    /// turns of each mix
    pub turns: usize,
    pub slots: Slots,
}

/// The number after an option, within its range.
fn number(option: &str, word: Option<&str>, least: u64, most: u64) -> Result<u64, String> {
    let word = word.ok_or_else(|| format!("{option} needs a number"))?;
    let number = word.parse().ok();
    let fits = number.filter(|number| (least..=most).contains(number));
    fits.ok_or_else(|| format!("{option} takes a whole number from {least} to {most}: {word}"))
}

/// The plan, or what is wrong with the words after the program's name.
pub fn plan(words: impl IntoIterator<Item = OsString>) -> Result<Plan, String> {
    let words: Vec<String> = words
        .into_iter()
        .map(|word| word.to_string_lossy().into_owned())
        .collect();
    let mut words = words.iter().map(String::as_str);
    match words.next() {
        Some("measure") => (),
        Some(word) => return Err(format!("no such command: {word}")),
        None => return Err("no command".to_string()),
    }
    let (mut turns, mut slot, mut gap) = (100_000, 40, 10);
    while let Some(option) = words.next() {
        match option {
            "--turns" => turns = number(option, words.next(), 1_000, 1_000_000)?,
            "--slot-us" => slot = number(option, words.next(), 1, 1_000_000)?,
            "--gap-us" => gap = number(option, words.next(), 1, 1_000_000)?,
            _ => return Err(format!("no such option: {option}")),
        }
    }
    let slots = Slots::new(1000 * slot, 1000 * gap).ok_or("slot or gap out of range")?;
    let turns = usize::try_from(turns).map_err(|_| "too many turns")?;
    Ok(Plan { turns, slots })
}
