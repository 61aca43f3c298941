//! Boards from random runs with damage done to them, each given to submit, turn, look and quote of the proved board and of the
//! oracle's: the same answers and the same bytes afterwards, and unchanged where refused. Some quotes are followed to the release.

use crate::blocks::{damage_float, odd_float, Blocks};
use crate::proved;
use crate::report::{same, same_bytes, Difference, Options, Outcome, Progress, Tally};
use oracle::block::{check, count_fits, KINDS};
use oracle::board::{
    self, block_at, count_at, fits, get, kind_at, put, span, Answer, ACCEPTED, BOARD, COUNTERS,
    EVALUATIONS, FLOATS, HELD, LATEST, QUARTER, RECORD, TURN, TURNS,
};
use oracle::critical_point::{
    critical_point, critical_point_binary_p, critical_point_binary_t, spinodal,
};
use oracle::density_iteration::{_pressure_spinodal, _pressure_spinodal_branch};
use oracle::evaluations::Evaluations;
use oracle::random::Rng;
use oracle::state::DensityInitialization::{Liquid, Vapor};
use oracle::stepping::rounds_below;
use oracle::BLOCK;

// ---- boards from runs

/// An N, in kinds 7 to 9 mostly the one that fits.
fn count(rng: &mut Rng, kind: u64) -> u64 {
    match rng.below(6) {
        0 => 1 + rng.below(8) as u64,
        1 => 2,
        _ if (7..=9).contains(&kind) => 2,
        _ => 1,
    }
}

/// A run: its board so far and the kinds it is about. Long spans would keep the short ones waiting.
struct Run {
    board: Vec<u8>,
    kinds: &'static [u64],
}

impl Run {
    fn submit(&mut self, rng: &mut Rng, blocks: &Blocks, jobs: usize) {
        for _ in 0..jobs {
            let (queue, kind) = (rng.below(4) as u64, rng.pick(self.kinds));
            let n = count(rng, kind);
            let block = blocks.any(rng, kind, n);
            board::submit(&mut self.board, queue, kind, n, &block);
        }
    }

    fn turn(&mut self, turns: usize) {
        let mut record = [0; RECORD];
        for _ in 0..turns {
            board::turn(&mut self.board, &mut record);
        }
    }

    /// A few calls further.
    fn go_on(&mut self, rng: &mut Rng, blocks: &Blocks) {
        self.turn(rng.below(6));
        if rng.once_in(12) {
            self.turn(rng.below(120));
        }
        if rng.once_in(10) {
            self.submit(rng, blocks, 1);
        }
    }
}

/// An early board, its counts anywhere.
fn fresh(rng: &mut Rng, blocks: &Blocks) -> Run {
    let mut run = Run {
        board: vec![0; BOARD],
        kinds: rng.pick(&[
            &[1, 2][..],
            &[3, 4],
            &[3, 4, 5, 6, 7, 8, 9],
            &[5, 7],
            &[8, 9],
            &[1, 2, 3, 4, 5, 6, 7, 8, 9],
        ]),
    };
    for queue in 0..4 {
        if rng.once_in(2) {
            let near_end = u64::MAX - rng.below(10) as u64;
            let count = rng.pick(&[5, 1 << 32, near_end]);
            put(&mut run.board[QUARTER * queue..], ACCEPTED, count);
        }
    }
    let jobs = 2 + rng.below(16);
    run.submit(rng, blocks, jobs);
    run.turn(rng.below(60));
    run
}

// ---- damage

/// At and around the ends of the ranges.
fn edge(rng: &mut Rng) -> u64 {
    let near = rng.pick(&[
        0,
        4,
        7,
        8,
        11,
        17,
        21,
        27,
        30,
        50,
        150,
        200,
        250,
        3101,
        6204,
        1 << 8,
        1 << 16,
        1 << 32,
        1 << 63,
        u64::MAX,
    ]);
    near.wrapping_add(rng.below(3) as u64).wrapping_sub(1)
}

fn first_slot(q: &[u8]) -> usize {
    (get(q, ACCEPTED).wrapping_sub(get(q, HELD)) % 8) as usize
}

fn first_kind(q: &[u8]) -> u64 {
    get(q, kind_at(first_slot(q)))
}

/// A counter's value in the kind's range.
fn counter(rng: &mut Rng, kind: u64, i: usize) -> u64 {
    let most = if i == 5 { rounds_below(kind) } else { 50 };
    let below = |rng: &mut Rng, n: u64| rng.bits() % n;
    match i {
        0 => below(rng, 5),
        1 => below(rng, 7),
        2 => rng.pick(&[0, 0, 0, 21, 22, 23, 24, 25, 26, 27]),
        4 => below(rng, 4),
        _ if rng.once_in(3) => 0,
        _ if rng.once_in(4) => most - 1,
        _ => below(rng, most),
    }
}

/// At and around the ends of both ranges of rounds, whichever is the kind's.
fn rounds_edge(rng: &mut Rng) -> u64 {
    rng.pick(&[48, 49, 50, 51, 198, 199, 200, 201])
}

/// The numbers themselves, or each moved a little.
fn near<const U: usize>(rng: &mut Rng, found: [f64; U]) -> [f64; U] {
    let most = rng.pick(&[0.0, 1e-9, 1e-4, 0.05]);
    found.map(|x| x * (1.0 + most * rng.between(-1.0, 1.0)))
}

/// Densities, temperatures, pressures and odd ones.
fn plausible(rng: &mut Rng) -> u64 {
    match rng.below(5) {
        0 => odd_float(rng),
        1 => rng.between(50.0, 900.0).to_bits(),
        2 => rng.log_between(1e-8, 1.0).to_bits(),
        _ => rng.between(0.0, 0.03).to_bits(),
    }
}

/// Densities, or a temperature and densities, at which a search of the first job converges or turns.
fn telling(rng: &mut Rng, q: &[u8]) -> Option<Vec<f64>> {
    let slot = first_slot(q);
    let (kind, n) = (get(q, kind_at(slot)) as u8, get(q, count_at(slot)) as usize);
    if !count_fits(kind.into(), n as u64) {
        return None;
    }
    let block = &q[block_at(slot)..block_at(slot) + BLOCK];
    let job = check(kind, n, block.try_into().expect("a whole block")).ok()?;
    let (eos, x, t) = (&job.eos, &job.molefracs[..], job.temperature);
    let evals = &mut Evaluations::default();
    if kind == 5 || kind == 7 || (kind == 6 && rng.once_in(2)) {
        let found = critical_point(eos, x, None, None, evals).ok()?;
        return Some(found.into());
    }
    if kind == 6 {
        let [vapor, liquid] = spinodal(eos, t, x, evals).ok()?;
        return Some(rng.pick(&[[vapor, liquid], [liquid, vapor]]).into());
    }
    if kind == 8 {
        let found = critical_point_binary_t(eos, t, x, None, evals).ok()?;
        return Some(near(rng, found).into());
    }
    if kind == 9 {
        let found = critical_point_binary_p(eos, job.pressure, None, x, None, evals).ok()?;
        return Some(near(rng, found).into());
    }
    let max_density = eos.compute_max_density(x);
    let other = max_density * rng.unit();
    let rho = match rng.below(4) {
        0 => _pressure_spinodal_branch(eos, t, x, Vapor, evals).ok()?.1,
        1 => _pressure_spinodal_branch(eos, t, x, Liquid, evals).ok()?.1,
        2 => _pressure_spinodal(eos, t, other, x, evals).ok()?.1,
        _ => max_density * rng.pick(&[0.001, 0.1, 0.3, 0.6, 0.8, 0.86, 0.95, 1.0]),
    };
    Some(vec![rho, other])
}

/// A running search with any numbers in their ranges, and the turn at its queue.
fn any_place(rng: &mut Rng, board: &mut [u8], queue: usize) {
    put(board, TURN, queue as u64);
    let q = &mut board[QUARTER * queue..QUARTER * (queue + 1)];
    if get(q, HELD) == 0 {
        return;
    }
    let span = span(first_kind(q));
    let turns = match rng.below(4) {
        0 => span - 1,
        _ => 1 + rng.bits() % (span - 1),
    };
    put(q, TURNS, turns);
    for i in 0..6 {
        let value = counter(rng, first_kind(q), i);
        put(q, COUNTERS + 8 * i, value);
    }
    if rng.once_in(8) {
        put(q, COUNTERS + 40, rounds_edge(rng));
    }
    for i in 0..3 {
        put(q, FLOATS + 8 * i, plausible(rng));
    }
    if rng.once_in(2) {
        let found = telling(rng, q).unwrap_or_default();
        for (i, x) in found.into_iter().enumerate() {
            put(q, FLOATS + 8 * i, x.to_bits());
        }
    }
    if rng.once_in(4) {
        put(q, EVALUATIONS, edge(rng));
        put(q, LATEST, odd_float(rng));
    }
}

fn damage_quarter(rng: &mut Rng, blocks: &Blocks, q: &mut [u8]) {
    let slot = match rng.below(3) {
        0 => rng.below(8),
        _ => first_slot(q),
    };
    match rng.below(17) {
        0 => q[rng.below(QUARTER)] = rng.bits() as u8,
        1 => q[rng.below(256)] ^= 1 << rng.below(8),
        2 => put(q, 8 * rng.below(32), edge(rng)),
        3 => {
            let i = rng.below(6);
            put(q, COUNTERS + 8 * i, edge(rng));
        }
        4 | 5 => {
            let i = rng.below(6);
            put(q, COUNTERS + 8 * i, counter(rng, first_kind(q), i));
        }
        6 | 7 => {
            let at = rng.pick(&[FLOATS, FLOATS + 8, FLOATS + 16, LATEST]);
            put(q, at, plausible(rng));
        }
        8 => {
            let end = span(first_kind(q));
            put(q, TURNS, rng.pick(&[0, 1, end - 2, end - 1, end, end + 1]));
        }
        9 => {
            let kind = rng.bits() % (KINDS + 2);
            put(q, kind_at(slot), kind);
        }
        10 => {
            let n = rng.below(10) as u64;
            put(q, count_at(slot), n);
        }
        11 => {
            let held = rng.below(10) as u64;
            put(q, HELD, held);
        }
        12 => {
            let count = edge(rng);
            put(q, ACCEPTED, count);
        }
        13 => {
            // the end of a job refused by its data, right or nearly so
            q[COUNTERS..EVALUATIONS].fill(0);
            put(q, COUNTERS + 16, 10 + rng.below(9) as u64);
            if rng.once_in(3) {
                put(q, COUNTERS + 8 * rng.below(6), rng.below(3) as u64);
            }
        }
        14 => damage_float(rng, &mut q[block_at(slot)..block_at(slot) + BLOCK]),
        15 => put(q, COUNTERS + 40, rounds_edge(rng)),
        _ => {
            let (kind, n) = (get(q, kind_at(slot)), get(q, count_at(slot)));
            let block = blocks.any(rng, kind, n);
            q[block_at(slot)..block_at(slot) + BLOCK].copy_from_slice(&block);
        }
    }
}

fn damage(rng: &mut Rng, blocks: &Blocks, board: &mut Vec<u8>) {
    let queue = rng.below(4);
    match rng.below(24) {
        0 => board[rng.below(BOARD)] = rng.bits() as u8,
        1 => {
            let turn = rng.below(6) as u64;
            put(board, TURN, turn);
        }
        2 => put(board, TURN, edge(rng)),
        3 => {
            let length = rng.pick(&[0, 1, 8, TURN, BOARD - 1, BOARD - 1, BOARD + 1, BOARD + 1]);
            board.resize(length, rng.bits() as u8);
        }
        4 => {
            let header = rng.pick(&[128, 256, QUARTER]);
            let q = &mut board[QUARTER * queue..];
            q[..header].fill_with(|| rng.bits() as u8);
        }
        5 if rng.once_in(4) => board.fill_with(|| rng.bits() as u8),
        // undamaged
        5 => {}
        6..=13 => any_place(rng, board, queue),
        _ => {
            put(board, TURN, queue as u64);
            let q = &mut board[QUARTER * queue..QUARTER * (queue + 1)];
            for _ in 0..1 + rng.below(3) {
                damage_quarter(rng, blocks, q);
            }
        }
    }
    if board.len() == BOARD && rng.once_in(4) {
        any_place(rng, board, queue);
    }
}

// ---- both forms on the damaged board

/// The damaged board and the copies that the two forms work on.
struct Boards {
    damaged: Vec<u8>,
    proved: Vec<u8>,
    oracle: Vec<u8>,
}

fn copy(into: &mut Vec<u8>, from: &[u8]) {
    into.clear();
    into.extend_from_slice(from);
}

impl Boards {
    fn copy_damaged(&mut self) {
        copy(&mut self.proved, &self.damaged);
        copy(&mut self.oracle, &self.damaged);
    }

    /// The same answers and bytes; where refused, the board as it was.
    fn compare(&self, what: &str, said: Answer, expected: Answer) -> Outcome {
        same(what, said, expected)?;
        same_bytes(what, &self.proved, &self.oracle)?;
        if matches!(said, Answer::Refused(_)) {
            same_bytes(what, &self.proved, &self.damaged)?;
        }
        Ok(())
    }

    fn look(&mut self, queue: u64) -> Result<Answer, Difference> {
        let said = proved::look(&self.proved, queue);
        self.compare("look", said, board::look(&self.oracle, queue))?;
        same_bytes("a board looked at", &self.proved, &self.damaged)?;
        Ok(said)
    }

    fn quote(&mut self, queue: u64, kind: u64) -> Result<Answer, Difference> {
        let said = proved::quote(&self.proved, queue, kind);
        self.compare("quote", said, board::quote(&self.oracle, queue, kind))?;
        same_bytes("a board quoted", &self.proved, &self.damaged)?;
        Ok(said)
    }

    /// Submits to the proved board and takes turns, not more than were quoted: the last of them, and none before, hands the job out.
    fn follow(&mut self, job: (u64, u64, u64), block: &[u8], turns: u64) -> Outcome {
        let (queue, kind, n) = job;
        let ticket = match proved::submit(&mut self.proved, queue, kind, n, block) {
            Answer::Ticket(ticket) => ticket,
            other => {
                let told = format!("a job that was quoted: submit answers {other:?}");
                return Err(Difference(told));
            }
        };
        let mut record = [0xa5; RECORD];
        let release = (1..=turns).find(|_| {
            proved::turn(&mut self.proved, &mut record) == Answer::Turned(1)
                && (get(&record, 0), u64::from(record[9])) == (ticket, queue)
        });
        same("turn that releases a quoted job", release, Some(turns))?;
        same("kind of a quoted job", u64::from(record[8]), kind)
    }

    fn submit(
        &mut self,
        queue: u64,
        kind: u64,
        n: u64,
        block: &[u8],
    ) -> Result<Answer, Difference> {
        let said = proved::submit(&mut self.proved, queue, kind, n, block);
        let expected = board::submit(&mut self.oracle, queue, kind, n, block);
        self.compare("submit", said, expected)?;
        Ok(said)
    }

    fn turn(&mut self, length: usize) -> Result<(Answer, Vec<u8>), Difference> {
        let mut record = vec![0xa5; length];
        let mut other = record.clone();
        let said = proved::turn(&mut self.proved, &mut record);
        let expected = board::turn(&mut self.oracle, &mut other);
        same_bytes("record buffer", &record, &other)?;
        same("turn", said, expected)?;
        same_bytes("turn", &self.proved, &self.oracle)?;
        let untouched = matches!(said, Answer::Refused(_) | Answer::Turned(0));
        if untouched && record.iter().any(|b| *b != 0xa5) {
            return Err(Difference("a buffer that was touched".into()));
        }
        Ok((said, record))
    }
}

/// What a turn on a board that passes 6 finds in the queue served, and what it made of it.
fn turned(before: &[u8], after: &[u8], said: Answer, record: &[u8]) -> String {
    let number = match said {
        Answer::Turned(number) => number,
        other => return format!("turn: {other:?}"),
    };
    let queue = get(before, TURN) as usize;
    let q = &before[QUARTER * queue..QUARTER * (queue + 1)];
    let next = &after[QUARTER * queue..QUARTER * (queue + 1)];
    if get(q, HELD) == 0 {
        return "turn: of a queue with no job".into();
    }
    let kind = first_kind(q);
    if number == 1 {
        return format!("turn: kind {kind} handed out, status {}", get(record, 16));
    }
    if get(q, TURNS) == 0 {
        return format!("turn: kind {kind} taken in");
    }
    let made = get(next, EVALUATIONS).wrapping_sub(get(q, EVALUATIONS));
    let place = match kind {
        2 | 6 => get(q, COUNTERS),
        _ => get(q, COUNTERS + 8),
    };
    let name = if kind == 2 || kind == 6 {
        "stage"
    } else {
        "tag"
    };
    format!("turn: kind {kind} at {name} {place}, {made} evaluations")
}

fn answered(call: &str, said: Answer) -> String {
    match said {
        Answer::Refused(number) => format!("{call}: refused by {number}"),
        _ => format!("{call}: answered"),
    }
}

/// How often a quote of so many turns is followed to the release: once in this number. Long ones take their time.
fn followed_once_in(turns: u64) -> usize {
    match turns {
        0..=600 => 4,
        601..=2400 => 64,
        _ => 2048,
    }
}

fn try_quote(
    rng: &mut Rng,
    blocks: &Blocks,
    boards: &mut Boards,
    queue: u64,
    tally: &mut Tally,
) -> Outcome {
    let kind = match rng.below(32) {
        0 => 0,
        1 => KINDS + 1 + rng.bits() % 3,
        2 => edge(rng),
        // short spans, so that more of them can be followed
        3..=10 => 3 + rng.bits() % 2,
        _ => 1 + rng.bits() % KINDS,
    };
    let said = boards.quote(queue, kind)?;
    tally.add(answered("quote", said));
    let Answer::Quoted(turns) = said else {
        return Ok(());
    };
    if rng.once_in(followed_once_in(turns)) {
        let n = if kind >= 7 { 2 } else { 1 + rng.bits() % 8 };
        let block = blocks.any(rng, kind, n);
        boards.follow((queue, kind, n), &block, turns)?;
        tally.add(format!("quote: followed to the release, kind {kind}"));
        boards.copy_damaged();
    }
    Ok(())
}

fn try_calls(rng: &mut Rng, blocks: &Blocks, boards: &mut Boards, tally: &mut Tally) -> Outcome {
    boards.copy_damaged();
    let queue = match rng.below(16) {
        0 => 4 + rng.bits() % 3,
        _ => rng.below(4) as u64,
    };
    let said = boards.look(queue)?;
    tally.add(answered("look", said));

    try_quote(rng, blocks, boards, queue, tally)?;

    let kind = 1 + rng.bits() % KINDS;
    let n = count(rng, kind);
    let block = blocks.any(rng, kind, n);
    let length = if rng.once_in(16) { BLOCK - 1 } else { BLOCK };
    let said = boards.submit(queue, kind, n, &block[..length])?;
    tally.add(answered("submit", said));

    boards.copy_damaged();
    let length = match rng.below(16) {
        0 => RECORD - 1,
        1 => RECORD + 9,
        _ => RECORD,
    };
    let (said, record) = boards.turn(length)?;
    if let Answer::Refused(_) = said {
        same_bytes("a turn refused", &boards.proved, &boards.damaged)?;
        tally.add(answered("turn", said));
        return Ok(());
    }
    tally.add(turned(&boards.damaged, &boards.proved, said, &record));
    if !fits(&boards.proved) {
        return Err(Difference("a turn left a board that 6 refuses".into()));
    }
    if rng.once_in(8) {
        for _ in 0..8 {
            let (said, _) = boards.turn(RECORD)?;
            tally.add(answered("further turn", said));
        }
    }
    Ok(())
}

/// So many items come from one run, and so many runs share the blocks to pick from.
const CHUNK: u64 = 200;
const RUNS: u64 = 50;

/// The board goes to a file, so that the difference can be looked into without the trial.
fn told(options: Options, item: u64, boards: &Boards, Difference(text): Difference) -> Difference {
    let path = std::env::temp_dir().join(format!("damaged-{}-{item}.board", options.seed));
    let kept = match std::fs::write(&path, &boards.damaged) {
        Ok(()) => format!("the board is in {}", path.display()),
        Err(error) => format!("the board could not be kept: {error}"),
    };
    Difference(format!(
        "board {item}, repeated by --first {item} --count 1\n{text}\n{kept}"
    ))
}

pub fn run(options: Options, tally: &mut Tally, progress: &mut Progress) -> Outcome {
    let end = options.first + options.count;
    let mut boards = Boards {
        damaged: Vec::new(),
        proved: Vec::new(),
        oracle: Vec::new(),
    };
    let mut unseen = Tally::default();
    let mut blocks = Blocks::new(options.seed, options.first / CHUNK / RUNS);
    let mut chunk = options.first / CHUNK;
    while chunk * CHUNK < end {
        if chunk % RUNS == 0 {
            blocks = Blocks::new(options.seed, chunk / RUNS);
        }
        let mut rng = options.rng(chunk);
        let mut run = fresh(&mut rng, &blocks);
        for item in chunk * CHUNK..end.min((chunk + 1) * CHUNK) {
            run.go_on(&mut rng, &blocks);
            copy(&mut boards.damaged, &run.board);
            damage(&mut rng, &blocks, &mut boards.damaged);
            // the items before the first draw the same numbers and are not counted
            let seen = item >= options.first;
            let tally = if seen { &mut *tally } else { &mut unseen };
            try_calls(&mut rng, &blocks, &mut boards, tally)
                .map_err(|difference| told(options, item, &boards, difference))?;
            if seen {
                progress.at(item - options.first, options.count);
            }
        }
        chunk += 1;
    }
    Ok(())
}
