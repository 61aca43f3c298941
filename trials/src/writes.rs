//! The proved writer beside the oracle's: random filings byte for byte, each block read back; requests of the generator read
//! and written again; and lists and buffers of every length around the right one.

use crate::proved;
use crate::report::{hex, same, same_bytes, Difference, Options, Outcome, Progress, Tally};
use oracle::block::{check, count_fits, kind_fits, KINDS};
use oracle::board::{put, RECORD};
use oracle::filings::filings;
use oracle::generate::requests;
use oracle::writer::{filing_of, write_block, Filing};
use oracle::{float, run_request, BLOCK};

/// What stands where nothing is to be written.
const BEFORE: u8 = 0xa5;

/// A filing's numbers in words; all NaNs are one value.
fn words(filing: &Filing) -> Vec<u64> {
    let lists = [
        &filing.coefficients,
        &filing.interactions,
        &filing.fractions,
    ];
    let conditions = [filing.temperature, filing.pressure, filing.start];
    lists
        .into_iter()
        .flatten()
        .chain(&conditions)
        .map(|&x| float::bits(x))
        .chain([filing.choice])
        .collect()
}

fn kind_and_n(filing: &Filing) -> (u8, u8) {
    (filing.kind as u8, filing.n as u8)
}

/// The record that the oracle's reader and searches give a block, but for the public bytes, which a writer has no part in.
fn expected_record(filing: &Filing, block: &[u8; BLOCK]) -> [u8; RECORD] {
    let (kind, n) = kind_and_n(filing);
    let mut record = [BEFORE; RECORD];
    if let oracle::Answer::Sealed {
        status,
        values,
        evaluations,
        ..
    } = run_request(kind, n, block)
    {
        let [x, y, z] = values.map(float::bits);
        for (i, word) in [status, x, y, z, evaluations, 0].into_iter().enumerate() {
            put(&mut record, 16 + 8 * i, word);
        }
    }
    record
}

/// The proved reader's record of a block.
fn record(filing: &Filing, block: &[u8; BLOCK]) -> Result<[u8; RECORD], Difference> {
    let mut record = [BEFORE; RECORD];
    let said = proved::answer(filing.kind, filing.n, block, &mut record);
    same("answer of a written block", said, 0)?;
    Ok(record)
}

/// Both writers on one filing, and its block read back.
fn write(filing: &Filing, buffer: &[u8], tally: &mut Tally) -> Outcome {
    let (mut ours, mut theirs) = (buffer.to_vec(), buffer.to_vec());
    let said = proved::write_block(filing, &mut ours);
    let answer = write_block(filing, &mut theirs);
    same("writer", said, answer)?;
    same_bytes("buffer", &ours, &theirs)?;
    if answer != 0 {
        tally.add(format!("refused by {answer:>2}"));
        return same_bytes("buffer of a refusal", &ours, buffer);
    }
    tally.add(format!("written, kind {}", filing.kind));
    let block: &[u8; BLOCK] = ours[..].try_into().expect("640 bytes");
    let found = filing_of(filing.kind, filing.n, block).map(|found| words(&found));
    same("numbers read back", found, Some(words(filing)))?;
    same_bytes(
        "record",
        &record(filing, block)?,
        &expected_record(filing, block),
    )
}

/// What stands in a request's parts, written again, has the same record, or is refused by the number that the reader gives it.
fn again(request: &[u8], tally: &mut Tally) -> Outcome {
    let (kind, n) = (request[0], request[1]);
    let block: &[u8; BLOCK] = request[2..].try_into().expect("640 bytes");
    if !kind_fits(kind.into()) || !count_fits(kind.into(), n.into()) {
        return Ok(());
    }
    let Some(filing) = filing_of(kind.into(), n.into(), block) else {
        return Ok(());
    };
    let fits = check(kind, n.into(), block);
    let mut written = [BEFORE; BLOCK];
    let said = proved::write_block(&filing, &mut written);
    same("writer of a request", said, fits.err().unwrap_or(0))?;
    if said != 0 {
        tally.add("read, and refused again by the same number");
        return same_bytes("buffer of a refusal", &written, &[BEFORE; BLOCK]);
    }
    tally.add("read and written again");
    let found = filing_of(filing.kind, filing.n, &written).map(|found| words(&found));
    same("numbers of a request", found, Some(words(&filing)))?;
    let (first, second) = (record(&filing, block)?, record(&filing, &written)?);
    same_bytes("record of a request written again", &second, &first)
}

/// A filing of equal components that every kind accepts.
fn plain(kind: u64, n: u64) -> Filing {
    let count = n as usize;
    Filing {
        kind,
        n,
        coefficients: [369.96, 4.25e6, 0.153].repeat(count),
        interactions: vec![0.01; count * (count - 1) / 2],
        fractions: vec![1.0 / n as f64; count],
        choice: 0,
        temperature: 300.0,
        pressure: 1e-3,
        start: 1e-3,
    }
}

/// Every list of every kind and N at every length up to twice the right one and some more, and buffers up to 1,300 bytes.
fn every_length(tally: &mut Tally) -> Outcome {
    let all = (1..=KINDS).flat_map(|kind| (1..=8).map(move |n| (kind, n)));
    for (kind, n) in all.filter(|&(kind, n)| count_fits(kind, n)) {
        for which in 0..3 {
            let right = plain(kind, n).list_mut(which).len();
            for length in 0..2 * right + 4 {
                let mut filing = plain(kind, n);
                let last = *filing.list_mut(which).last().unwrap_or(&0.5);
                filing.list_mut(which).resize(length, last);
                let mut buffer = [BEFORE; BLOCK];
                let said = proved::write_block(&filing, &mut buffer);
                let what = format!("kind {kind}, N = {n}, list {which} of {length}");
                same(&what, said, if length == right { 0 } else { 11 })?;
                same(&what, buffer == [BEFORE; BLOCK], said == 11)?;
                tally.add("lists tried");
            }
        }
        for length in 0..1300 {
            let mut buffer = vec![BEFORE; length];
            let said = proved::write_block(&plain(kind, n), &mut buffer);
            let what = format!("kind {kind}, N = {n}, buffer of {length}");
            same(&what, said, if length == BLOCK { 0 } else { 8 })?;
            same(&what, buffer.iter().all(|&b| b == BEFORE), said == 8)?;
            tally.add("buffers tried");
        }
    }
    Ok(())
}

pub fn run(options: Options, tally: &mut Tally, progress: &mut Progress) -> Outcome {
    if options.first == 0 {
        every_length(tally)?;
    }
    let end = (options.first + options.count) as usize;
    let items = filings(options.seed, end).zip(requests(options.seed, end));
    for (place, ((filing, buffer), request)) in (0u64..).zip(items).skip(options.first as usize) {
        write(&filing, &buffer, tally)
            .and_then(|()| again(&request, tally))
            .map_err(|Difference(text)| {
                Difference(format!(
                    "{text}\nitem {place}, alone repeated by --first {place} --count 1\n{filing:?}\nrequest {}",
                    hex(&request)
                ))
            })?;
        progress.at(place - options.first, options.count);
    }
    Ok(())
}
