//! Pairs of call lists that differ in blocks only. The public answers and each record's bytes 0 to 15 are those of document 01's
//! schedule in both lists; looks, sealed bytes and the whole board are those of the oracle's board. A job submitted right after its
//! quote is handed out with the quoted turn.

use crate::blocks::Blocks;
use crate::proved;
use crate::report::{hex, same, same_bytes, Difference, Options, Outcome, Progress, Tally};
use crate::schedule::Schedule;
use oracle::board::{self, get, put, Answer, BOARD, RECORD};
use oracle::random::Rng;
use oracle::BLOCK;

/// A call with the blocks of both lists.
enum Call {
    Submit {
        queue: u64,
        kind: u64,
        n: u64,
        blocks: [Vec<u8>; 2],
    },
    Turn {
        length: usize,
    },
    Look {
        queue: u64,
    },
    Quote {
        queue: u64,
        kind: u64,
    },
}

impl std::fmt::Display for Call {
    fn fmt(&self, f: &mut std::fmt::Formatter<'_>) -> std::fmt::Result {
        match self {
            Call::Submit {
                queue,
                kind,
                n,
                blocks: [a, b],
            } => {
                writeln!(f, "submit to queue {queue}, kind {kind}, N {n}")?;
                write!(f, "block of list 0 {}\nblock of list 1 {}", hex(a), hex(b))
            }
            Call::Turn { length } => write!(f, "turn with a buffer of {length}"),
            Call::Look { queue } => write!(f, "look at queue {queue}"),
            Call::Quote { queue, kind } => write!(f, "quote of queue {queue}, kind {kind}"),
        }
    }
}

/// How long a list is and what it brings.
struct Theme {
    calls: usize,
    kinds: &'static [u64],
    /// a submit, a look and a quote each once in so many calls
    submits: usize,
    looks: usize,
    quotes: usize,
    /// submits at the beginning
    burst: usize,
    /// refused arguments once in so many
    wrong: usize,
}

fn theme(rng: &mut Rng) -> Theme {
    let short = Theme {
        calls: 80 + rng.below(280),
        kinds: &[3, 3, 3, 4, 4, 4, 5, 7, 8, 9],
        submits: 8,
        looks: 10,
        quotes: 12,
        burst: rng.below(6),
        wrong: 8,
    };
    match rng.below(400) {
        // long enough for kinds 1 and 2
        0 => Theme {
            calls: 27_500,
            kinds: &[1, 2, 2],
            submits: 2000,
            looks: 50,
            quotes: 500,
            burst: 8,
            ..short
        },
        1 | 2 => Theme {
            calls: 13_800,
            kinds: &[1, 1, 3, 4, 5, 6, 7, 8, 9],
            submits: 1000,
            looks: 50,
            quotes: 500,
            burst: 8,
            ..short
        },
        // for kinds 5 to 9
        3..=22 => Theme {
            calls: 800 + rng.below(800),
            kinds: &[3, 4, 5, 6, 6, 7, 8, 8, 9, 9],
            submits: 80,
            quotes: 40,
            burst: 4 + rng.below(8),
            ..short
        },
        // queues filled to the eighth job and further
        23..=50 => Theme {
            burst: 12 + rng.below(40),
            wrong: 40,
            ..short
        },
        _ => short,
    }
}

/// A number from 0 to 10, or one that a narrower type would take for one of them.
fn wrong_number(rng: &mut Rng) -> u64 {
    let small = rng.below(11) as u64;
    match rng.below(4) {
        0 => small,
        1 => small + rng.pick(&[1 << 8, 1 << 16, 1 << 32, 1 << 63]),
        2 => rng.bits(),
        _ => u64::MAX - small,
    }
}

/// An N, in kinds 7 to 9 mostly the one that fits.
fn count(rng: &mut Rng, kind: u64) -> u64 {
    match rng.below(8) {
        0 => 1 + rng.below(8) as u64,
        1 | 2 => 2,
        _ if (7..=9).contains(&kind) => 2,
        _ => 1,
    }
}

fn submit_call(rng: &mut Rng, theme: &Theme, blocks: &Blocks) -> Call {
    let mut queue = rng.below(4) as u64;
    let mut kind = rng.pick(theme.kinds);
    let mut n = count(rng, kind);
    let mut length = BLOCK;
    if rng.once_in(theme.wrong) {
        queue = wrong_number(rng);
    }
    if rng.once_in(theme.wrong) {
        kind = wrong_number(rng);
    }
    if rng.once_in(theme.wrong) {
        n = wrong_number(rng);
    }
    if rng.once_in(theme.wrong) {
        length = rng.pick(&[0, 1, 639, 641, 1280]);
    }
    let mut block = || {
        let mut block = blocks.any(rng, kind, n).to_vec();
        block.resize(length, 0x11);
        block
    };
    let blocks = [block(), block()];
    Call::Submit {
        queue,
        kind,
        n,
        blocks,
    }
}

/// A queue, or once in so many a number that may be none.
fn any_queue(rng: &mut Rng, theme: &Theme) -> u64 {
    if rng.once_in(theme.wrong) {
        wrong_number(rng)
    } else {
        rng.below(4) as u64
    }
}

/// The next call; one submit in two has its quote before it.
fn calls(rng: &mut Rng, theme: &Theme, place: usize, blocks: &Blocks) -> Vec<Call> {
    if place < theme.burst || rng.once_in(theme.submits) {
        let submit = submit_call(rng, theme, blocks);
        return match submit {
            Call::Submit { queue, kind, .. } if rng.once_in(2) => {
                vec![Call::Quote { queue, kind }, submit]
            }
            _ => vec![submit],
        };
    }
    vec![other_call(rng, theme)]
}

fn other_call(rng: &mut Rng, theme: &Theme) -> Call {
    if rng.once_in(theme.looks) {
        let queue = any_queue(rng, theme);
        return Call::Look { queue };
    }
    if rng.once_in(theme.quotes) {
        let queue = any_queue(rng, theme);
        let mut kind = rng.pick(theme.kinds);
        if rng.once_in(theme.wrong) {
            kind = wrong_number(rng);
        }
        return Call::Quote { queue, kind };
    }
    let length = match rng.below(3 * theme.wrong) {
        0 => rng.pick(&[0, 1, 16, 63]),
        1 => 65 + rng.below(64),
        _ => RECORD,
    };
    Call::Turn { length }
}

/// One of the two lists: the proved board and the oracle's.
struct Side {
    proved: Vec<u8>,
    oracle: Vec<u8>,
}

/// What one call did to a side: the answer, and the record buffer afterwards.
struct Did {
    answer: Answer,
    record: Vec<u8>,
}

impl Side {
    fn new() -> Self {
        Side {
            proved: vec![0; BOARD],
            oracle: vec![0; BOARD],
        }
    }

    /// Makes the call on both boards and sees that they do the same.
    fn call(&mut self, call: &Call, list: usize) -> Result<Did, Difference> {
        let mut record = Vec::new();
        let (answer, expected) = match call {
            Call::Submit {
                queue,
                kind,
                n,
                blocks,
            } => (
                proved::submit(&mut self.proved, *queue, *kind, *n, &blocks[list]),
                board::submit(&mut self.oracle, *queue, *kind, *n, &blocks[list]),
            ),
            Call::Turn { length } => {
                record = vec![0xa5; *length];
                let mut other = record.clone();
                let answers = (
                    proved::turn(&mut self.proved, &mut record),
                    board::turn(&mut self.oracle, &mut other),
                );
                same_bytes("record buffer", &record, &other)?;
                answers
            }
            Call::Look { queue } => (
                proved::look(&self.proved, *queue),
                board::look(&self.oracle, *queue),
            ),
            // cannot change the oracle's board, with which the proved one is compared below
            Call::Quote { queue, kind } => (
                proved::quote(&self.proved, *queue, *kind),
                board::quote(&self.oracle, *queue, *kind),
            ),
        };
        same("answer", answer, expected)?;
        same_bytes("board", &self.proved, &self.oracle)?;
        Ok(Did { answer, record })
    }
}

/// The call as the schedule has it: the public answer, and the public bytes of a record written.
fn scheduled(
    schedule: &mut Schedule<()>,
    call: &Call,
    tally: &mut Tally,
) -> (Result<u64, u64>, Option<[u8; 16]>) {
    match call {
        Call::Submit {
            queue,
            kind,
            n,
            blocks,
        } => {
            let answer = schedule.submit(*queue, *kind, *n, blocks[0].len(), ());
            match answer {
                Ok(_) => tally.add(format!("submit accepted, kind {kind}")),
                Err(number) => tally.add(format!("submit refused by {number}")),
            }
            (answer, None)
        }
        Call::Turn { length } => match schedule.turn(*length) {
            Err(number) => {
                tally.add(format!("turn refused by {number}"));
                (Err(number), None)
            }
            Ok((_, None)) => {
                tally.add("turn without a record");
                (Ok(0), None)
            }
            Ok((queue, Some(job))) => {
                tally.add(format!("turn with a record, kind {}", job.kind));
                let mut public = [0; 16];
                put(&mut public, 0, job.ticket);
                (public[8], public[9]) = (job.kind as u8, queue as u8);
                (Ok(1), Some(public))
            }
        },
        Call::Look { queue } => {
            let answer = schedule.look(*queue);
            match answer {
                Ok(()) => tally.add("look answered"),
                Err(number) => tally.add(format!("look refused by {number}")),
            }
            (answer.map(|()| 0), None)
        }
        Call::Quote { queue, kind } => {
            let answer = schedule.quote(*queue, *kind);
            match answer {
                Ok(_) => tally.add(format!("quote answered, kind {kind}")),
                Err(number) => tally.add(format!("quote refused by {number}")),
            }
            (answer, None)
        }
    }
}

/// What the public sees of an answer: that a look is answered, and not what it shows.
fn public(answer: Answer) -> Result<u64, u64> {
    match answer {
        Answer::Refused(number) => Err(number),
        Answer::Ticket(ticket) => Ok(ticket),
        Answer::Turned(written) => Ok(written),
        Answer::Shown { .. } => Ok(0),
        Answer::Quoted(turns) => Ok(turns),
    }
}

/// A job that was submitted right after its quote.
struct Promise {
    queue: u64,
    ticket: u64,
    kind: u64,
    /// accepted turns to come, the one that hands it out counted
    turns: u64,
}

/// The quotes of a list that are still to be kept, from the proved answers alone.
#[derive(Default)]
struct Promises {
    /// queue, kind and turns where the call before was a quote that was answered
    latest: Option<(u64, u64, u64)>,
    open: Vec<Promise>,
}

impl Promises {
    /// A job with a quote is handed out with the quoted turn and no other.
    fn call(&mut self, call: &Call, did: &Did, tally: &mut Tally) -> Outcome {
        let latest = self.latest.take();
        match (call, did.answer) {
            (Call::Quote { queue, kind }, Answer::Quoted(turns)) => {
                self.latest = Some((*queue, *kind, turns));
            }
            (Call::Submit { queue, kind, .. }, Answer::Ticket(ticket)) => {
                if let Some((_, _, turns)) = latest.filter(|q| (q.0, q.1) == (*queue, *kind)) {
                    self.open.push(Promise {
                        queue: *queue,
                        ticket,
                        kind: *kind,
                        turns,
                    });
                }
            }
            (Call::Turn { .. }, Answer::Turned(written)) => {
                let out = (written == 1).then(|| (u64::from(did.record[9]), get(&did.record, 0)));
                for promise in &mut self.open {
                    let Promise { queue, ticket, .. } = *promise;
                    promise.turns = promise.turns.wrapping_sub(1);
                    if (out == Some((queue, ticket))) != (promise.turns == 0) {
                        return Err(Difference(format!(
                            "a quote not kept: ticket {ticket} of queue {queue} with {} turns to come",
                            promise.turns
                        )));
                    }
                    if promise.turns == 0 {
                        tally.add(format!("quoted job handed out, kind {}", promise.kind));
                    }
                }
                self.open.retain(|promise| promise.turns > 0);
            }
            _ => {}
        }
        Ok(())
    }
}

fn step(
    sides: &mut [Side; 2],
    schedule: &mut Schedule<()>,
    promises: &mut Promises,
    call: &Call,
    tally: &mut Tally,
) -> Outcome {
    let (answer, written) = scheduled(schedule, call, tally);
    let mut did = Vec::new();
    for (list, side) in sides.iter_mut().enumerate() {
        let one = one_list(side, list, call, answer, written)
            .map_err(|Difference(text)| Difference(format!("list {list}: {text}")))?;
        if written.is_some() {
            tally.add(format!("record with status {}", get(&one.record, 16)));
        }
        did.push(one);
    }
    // that the lists differ where they may, or the trial would show nothing
    if written.is_some() && did[0].record != did[1].record {
        tally.add("record sealed differently in the two lists");
    }
    if did[0].answer != did[1].answer {
        tally.add("look that shows other numbers in the two lists");
    }
    promises.call(call, &did[0], tally)
}

/// A call in one of the lists: as the oracle's board does it, and in public as the schedule has it.
fn one_list(
    side: &mut Side,
    list: usize,
    call: &Call,
    answer: Result<u64, u64>,
    written: Option<[u8; 16]>,
) -> Result<Did, Difference> {
    let did = side.call(call, list)?;
    same("public answer", public(did.answer), answer)?;
    match written {
        Some(public) => same_bytes("public bytes", &did.record[..16], &public)?,
        None if did.record.iter().all(|b| *b == 0xa5) => {}
        None => return Err(Difference("a buffer that was touched".into())),
    }
    Ok(did)
}

/// So many pairs share the blocks to pick from.
const CHUNK: u64 = 1000;

pub fn run(options: Options, tally: &mut Tally, progress: &mut Progress) -> Outcome {
    let mut blocks = Blocks::new(options.seed, options.first / CHUNK);
    for pair in options.first..options.first + options.count {
        if pair % CHUNK == 0 {
            blocks = Blocks::new(options.seed, pair / CHUNK);
        }
        let mut rng = options.rng(pair);
        let theme = theme(&mut rng);
        let mut sides = [Side::new(), Side::new()];
        let mut schedule = Schedule::new();
        let mut promises = Promises::default();
        for place in 0..theme.calls {
            for call in calls(&mut rng, &theme, place, &blocks) {
                let done = step(&mut sides, &mut schedule, &mut promises, &call, tally);
                done.map_err(|Difference(text)| {
                    Difference(format!(
                        "pair {pair}, place {place}, repeated by --first {pair} --count 1\n{text}\n{call}"
                    ))
                })?;
            }
        }
        progress.at(pair - options.first, options.count);
    }
    Ok(())
}
