//! The oracle as a program: answers requests, and makes and answers test input. README.md lists the subcommands.

use oracle::filings::{filings, FilingCensus};
use oracle::float::bits;
use oracle::generate::requests;
use oracle::show::{select, show, Census};
use oracle::vectors::{
    eval_cases, eval_fits, eval_record, float_line, jet_cases, jet_operation, words, EvalCase,
    JetCase, JET_RECORD,
};
use oracle::{run_request, trace_request, BLOCK, REQUEST};
use std::io::{self, BufRead, BufWriter, Read, Write};
use std::process::ExitCode;

const USAGE: &str = "\
usage: oracle                          answer one request on standard input
       oracle --trace                  the same, with every evaluation made
       oracle --batch                  answer requests until the end of input
       oracle --show                   print requests in readable form until the end of input
       oracle --generate SEED COUNT    requests in bytes
       oracle --census SEED COUNT      the same requests, counted by kind and status
       oracle --select SEED COUNT EACH of those requests, EACH of every kind and status, and the longest
       oracle --filings SEED COUNT     filings for the writer, counted by kind and answer
       oracle --jets SEED COUNT        jet operations with results, in words
       oracle --jets-bin SEED COUNT    the same operations in bytes
       oracle --jets-run               results of jet operations in bytes
       oracle --evals SEED COUNT       single evaluations in bytes
       oracle --evals-run              results of single evaluations in bytes
       oracle --floats-run             roots and logarithms of floats, lines of 16 hexadecimal digits";

/// Fills the buffer as far as the input goes; gives the bytes read.
fn read_full(input: &mut impl Read, buffer: &mut [u8]) -> io::Result<usize> {
    let mut filled = 0;
    while filled < buffer.len() {
        match input.read(&mut buffer[filled..]) {
            Ok(0) => break,
            Ok(count) => filled += count,
            Err(error) if error.kind() == io::ErrorKind::Interrupted => {}
            Err(error) => return Err(error),
        }
    }
    Ok(filled)
}

fn block_of(request: &[u8; REQUEST]) -> &[u8; BLOCK] {
    request[2..].try_into().expect("640 bytes")
}

fn single(input: &mut impl Read, out: &mut impl Write, trace: bool) -> io::Result<()> {
    let mut request = [0; REQUEST];
    if read_full(input, &mut request)? < REQUEST {
        return writeln!(out, "short");
    }
    let (kind, n) = (request[0], request[1]);
    if !trace {
        return writeln!(out, "{}", run_request(kind, n, block_of(&request)));
    }
    let (answer, evaluations) = trace_request(kind, n, block_of(&request));
    for (i, e) in evaluations.iter().enumerate() {
        writeln!(
            out,
            "{} {} {:016X} {:016X} {} | T {:e} rho {:e} -> {:?}",
            i + 1,
            e.call,
            bits(e.temperature),
            bits(e.density),
            words(&e.yields),
            e.temperature,
            e.density,
            e.yields
        )?;
    }
    writeln!(out, "{answer}")
}

fn batch(input: &mut impl Read, out: &mut impl Write) -> io::Result<()> {
    let mut request = [0; REQUEST];
    loop {
        match read_full(input, &mut request)? {
            0 => return Ok(()),
            REQUEST => {
                let answer = run_request(request[0], request[1], block_of(&request));
                writeln!(out, "{answer}")?;
            }
            _ => return writeln!(out, "short"),
        }
    }
}

fn show_all(input: &mut impl Read, out: &mut impl Write) -> io::Result<()> {
    let mut request = [0; REQUEST];
    while read_full(input, &mut request)? == REQUEST {
        write!(out, "{}", show(&request))?;
    }
    Ok(())
}

fn invalid(message: &str) -> io::Error {
    io::Error::new(io::ErrorKind::InvalidData, message)
}

fn jets_run(input: &mut impl Read, out: &mut impl Write) -> io::Result<()> {
    let mut record = [0; JET_RECORD];
    loop {
        match read_full(input, &mut record)? {
            0 => return Ok(()),
            JET_RECORD => {
                let case = JetCase::from_bytes(&record);
                let result = jet_operation(case.operation, case.a, case.b)
                    .ok_or_else(|| invalid("unknown jet operation"))?;
                writeln!(out, "{}", words(&result.c))?;
            }
            _ => return Err(invalid("the last jet operation is too short")),
        }
    }
}

fn evals_run(input: &mut impl Read, out: &mut impl Write) -> io::Result<()> {
    let mut record = [0; 1024];
    loop {
        let head = read_full(input, &mut record[..2])?;
        if head == 0 {
            return Ok(());
        }
        let n = usize::from(record[1]);
        if head < 2 || !eval_fits(record[0], n) {
            return Err(invalid(
                "no evaluation byte 1 to 5 and N 1 to 8, or 6 to 8 and 2",
            ));
        }
        let rest = &mut record[2..eval_record(n)];
        if read_full(input, rest)? < rest.len() {
            return Err(invalid("the last evaluation is too short"));
        }
        let case = EvalCase::from_bytes(&record[..eval_record(n)]);
        writeln!(out, "{}", words(&case.run()))?;
    }
}

fn floats_run(input: &mut impl BufRead, out: &mut impl Write) -> io::Result<()> {
    for line in input.lines() {
        let answer =
            float_line(&line?).ok_or_else(|| invalid("a line other than 16 hexadecimal digits"))?;
        writeln!(out, "{answer}")?;
    }
    Ok(())
}

fn run(arguments: &[String]) -> io::Result<bool> {
    let mut input = io::stdin().lock();
    let mut out = BufWriter::new(io::stdout().lock());
    let words: Vec<&str> = arguments.iter().map(String::as_str).collect();
    let number = |text: &str| text.parse::<u64>().ok();
    match words[..] {
        [] => single(&mut input, &mut out, false)?,
        ["--trace"] => single(&mut input, &mut out, true)?,
        ["--batch"] => batch(&mut input, &mut out)?,
        ["--show"] => show_all(&mut input, &mut out)?,
        ["--jets-run"] => jets_run(&mut input, &mut out)?,
        ["--evals-run"] => evals_run(&mut input, &mut out)?,
        ["--floats-run"] => floats_run(&mut input, &mut out)?,
        ["--select", seed, count, each] => {
            let (Some(seed), Some(count), Some(each)) = (number(seed), number(count), number(each))
            else {
                return Ok(false);
            };
            for request in select(seed, count as usize, each) {
                out.write_all(&request)?;
            }
        }
        [command, seed, count] => {
            let (Some(seed), Some(count)) = (number(seed), number(count)) else {
                return Ok(false);
            };
            let count = count as usize;
            match command {
                "--generate" => {
                    for request in requests(seed, count) {
                        out.write_all(&request)?;
                    }
                }
                "--census" => {
                    let mut census = Census::default();
                    for (place, request) in requests(seed, count).enumerate() {
                        census.count(place as u64, &request);
                    }
                    write!(out, "{census}")?;
                }
                "--filings" => {
                    let mut census = FilingCensus::default();
                    for (filing, mut buffer) in filings(seed, count) {
                        census.count(&filing, &mut buffer);
                    }
                    write!(out, "{census}")?;
                }
                "--jets" => {
                    for case in jet_cases(seed, count) {
                        writeln!(out, "{}", case.line())?;
                    }
                }
                "--jets-bin" => {
                    for case in jet_cases(seed, count) {
                        out.write_all(&case.to_bytes())?;
                    }
                }
                "--evals" => {
                    for case in eval_cases(seed, count) {
                        out.write_all(&case.to_bytes())?;
                    }
                }
                _ => return Ok(false),
            }
        }
        _ => return Ok(false),
    }
    out.flush()?;
    Ok(true)
}

fn main() -> ExitCode {
    let arguments: Vec<String> = std::env::args().skip(1).collect();
    match run(&arguments) {
        Ok(true) => ExitCode::SUCCESS,
        Ok(false) => {
            eprintln!("{USAGE}");
            ExitCode::from(2)
        }
        // a reader that closes its end early is no fault
        Err(error) if error.kind() == io::ErrorKind::BrokenPipe => ExitCode::SUCCESS,
        Err(error) => {
            eprintln!("oracle: {error}");
            ExitCode::FAILURE
        }
    }
}
