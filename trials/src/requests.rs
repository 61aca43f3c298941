//! The oracle's random requests put through the proved board, all four queues full, against the oracle's whole answers. Each is
//! quoted before its submit and released with the quoted turn.

use crate::proved;
use crate::report::{hex, same, same_bytes, Difference, Options, Outcome, Progress, Tally};
use crate::schedule::{Job, Schedule};
use oracle::board::{put, Answer, BOARD, RECORD};
use oracle::{float, generate, run_request, show, BLOCK, REQUEST};

type Request = [u8; REQUEST];

fn block(request: &Request) -> &[u8; BLOCK] {
    request[2..].try_into().expect("640 bytes")
}

/// What a job's release is compared with.
struct Submitted {
    place: u64,
    request: Request,
    /// the number of the turn that the quote names, counted from the first
    due: u64,
}

/// The record of a job as document 01 says: public bytes of the schedule, sealed ones of the oracle's whole answer.
fn expected(job: &Job<Submitted>, queue: usize) -> [u8; RECORD] {
    let request = &job.label.request;
    let mut record = [0; RECORD];
    put(&mut record, 0, job.ticket);
    (record[8], record[9]) = (request[0], queue as u8);
    let answer = run_request(request[0], request[1], block(request));
    if let oracle::Answer::Sealed {
        status,
        values,
        evaluations,
        ..
    } = answer
    {
        let [x, y, z] = values.map(float::bits);
        for (i, word) in [status, x, y, z, evaluations].into_iter().enumerate() {
            put(&mut record, 16 + 8 * i, word);
        }
    }
    record
}

struct Run<'a> {
    board: Vec<u8>,
    schedule: Schedule<Submitted>,
    /// the calls made, and the turns among them
    calls: u64,
    turns: u64,
    tally: &'a mut Tally,
}

fn repeat(place: u64, request: &Request) -> String {
    format!(
        "request {place}, alone repeated by --first {place} --count 1\n{}bytes {}",
        show::show(request),
        hex(request)
    )
}

impl Run<'_> {
    /// The turns quoted, or none where refused.
    fn quote(&mut self, queue: u64, kind: u64) -> Result<u64, Difference> {
        self.calls += 1;
        let said = proved::quote(&self.board, queue, kind);
        let expected = self.schedule.quote(queue, kind);
        if let Err(number) = expected {
            self.tally.add(format!("quote refused by {number}"));
        }
        let expected = expected.map_or_else(Answer::Refused, Answer::Quoted);
        same("quote", said, expected)?;
        match said {
            Answer::Quoted(turns) => Ok(turns),
            _ => Ok(0),
        }
    }

    fn submit(&mut self, place: u64, request: Request) -> Outcome {
        let (queue, kind, n) = (place % 4, request[0].into(), request[1].into());
        let turns = self.quote(queue, kind).map_err(|Difference(text)| {
            Difference(format!("{text}\n{}", repeat(place, &request)))
        })?;
        let due = self.turns.wrapping_add(turns);
        self.calls += 1;
        let said = proved::submit(&mut self.board, queue, kind, n, block(&request));
        let label = Submitted {
            place,
            request,
            due,
        };
        let expected = self.schedule.submit(queue, kind, n, BLOCK, label);
        if let Err(number) = expected {
            self.tally.add(format!("submit refused by {number}"));
        }
        same(
            "submit",
            said,
            expected.map_or_else(Answer::Refused, Answer::Ticket),
        )
        .map_err(|Difference(text)| Difference(format!("{text}\n{}", repeat(place, &request))))
    }

    fn turn(&mut self) -> Outcome {
        self.calls += 1;
        self.turns += 1;
        let mut record = [0xa5; RECORD + 8];
        let said = proved::turn(&mut self.board, &mut record);
        let (queue, out) = self.schedule.turn(record.len()).expect("room");
        let mut should = [0xa5; RECORD + 8];
        let Some(job) = out else {
            return same("turn", said, Answer::Turned(0))
                .and_then(|()| same_bytes("buffer of a turn without a record", &record, &should))
                .map_err(|Difference(text)| {
                    Difference(format!(
                        "call {}, a turn of queue {queue}\n{text}",
                        self.calls
                    ))
                });
        };
        should[..RECORD].copy_from_slice(&expected(&job, queue));
        let status = oracle::board::get(&should, 16);
        self.tally
            .add(format!("kind {}, status {status}", job.kind));
        same("turn", said, Answer::Turned(1))
            .and_then(|()| same_bytes("record", &record, &should))
            .and_then(|()| same("turn quoted for the release", job.label.due, self.turns))
            .map_err(|Difference(text)| {
                let Submitted { place, request, .. } = job.label;
                Difference(format!("{text}\n{}", repeat(place, &request)))
            })
    }
}

pub fn run(options: Options, tally: &mut Tally, progress: &mut Progress) -> Outcome {
    let mut run = Run {
        board: vec![0; BOARD],
        schedule: Schedule::new(),
        calls: 0,
        turns: 0,
        tally,
    };
    let end = options.first + options.count;
    let requests = generate::requests(options.seed, end as usize);
    for (place, request) in (0u64..).zip(requests).skip(options.first as usize) {
        while run.schedule.held(place as usize % 4) == 8 {
            run.turn()?;
        }
        run.submit(place, request)?;
        progress.at(place - options.first, options.count);
    }
    while (0..4).any(|queue| run.schedule.held(queue) > 0) {
        run.turn()?;
    }
    Ok(())
}
