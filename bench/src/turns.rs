//! The board's calls beside the oracle's, for each kind and N = 1, 2, 8, on the requests of `jobs`: single calls, what an
//! evaluating turn spends besides its evaluation, and jobs a second through the board.
//!
//! Each call is timed alone by `Clock`, on a board whose four queues are running and full but for what the call needs, turns
//! also on a board that holds one job. The words that a call changes are put back, so that it is made again, the two sides in turn.
use crate::blends::{yielded, Blend, Evaluation, Rows, State, EVALUATIONS};
use crate::proved;
use crate::requests::{self, jobs, Job};
use crate::timing::{deeper, median, Clock};
use oracle::block::check;
use oracle::board::{self, get, put, span, Answer, BOARD, RECORD};
use oracle::{evaluations, float, trace_request};
use std::hint::black_box;
use std::rc::Rc;
use std::time::Instant;

const QUEUES: u64 = 4;
const PLACES: usize = 8;

#[derive(Clone, Copy)]
enum Call<'a> {
    Submit(u64, &'a Job),
    Turn,
    Look(u64),
    Quote(u64, u64),
}

/// The board's calls of one side.
struct Side {
    submit: fn(&mut [u8], u64, u64, u64, &[u8]) -> Answer,
    turn: fn(&mut [u8], &mut [u8]) -> Answer,
    look: fn(&[u8], u64) -> Answer,
    quote: fn(&[u8], u64, u64) -> Answer,
}

/// Ours and theirs, the order of every pair below.
const SIDES: [Side; 2] = [
    Side { submit: proved::submit, turn: proved::turn, look: proved::look, quote: proved::quote },
    Side { submit: board::submit, turn: board::turn, look: board::look, quote: board::quote },
];

impl Side {
    fn make(&self, call: Call, board: &mut [u8], record: &mut [u8]) -> Answer {
        match call {
            Call::Submit(queue, job) => (self.submit)(board, queue, job.kind.into(), job.n.into(), &job.block),
            Call::Turn => (self.turn)(board, record),
            Call::Look(queue) => (self.look)(board, queue),
            Call::Quote(queue, kind) => (self.quote)(board, queue, kind),
        }
    }
}

/// Makes a call by both sides and sees that they leave the same board, record and answer.
fn make(board: &mut [u8], call: Call) -> Answer {
    let mut other = board.to_vec();
    let (mut a, mut b) = ([0xa5; RECORD], [0xa5; RECORD]);
    let answer = SIDES[0].make(call, board, &mut a);
    assert!(answer == SIDES[1].make(call, &mut other, &mut b), "the two sides answer differently");
    assert!(board == other && a == b, "the two sides leave different bytes");
    answer
}

/// What can be made over and over by either side.
trait Repeated {
    /// Makes it once and gives the nanoseconds.
    fn make(&mut self, clock: &Clock, side: usize) -> f64;
}

/// With the nanoseconds of each side.
struct Timed<T> {
    what: T,
    times: [Vec<f64>; 2],
}

impl<T: Repeated> Timed<T> {
    fn new(what: T) -> Self {
        Timed { what, times: Default::default() }
    }

    /// Untimed, so that neither side finds the bytes far away.
    fn warm(&mut self, clock: &Clock) {
        (0..SIDES.len()).for_each(|side| _ = self.what.make(clock, side));
    }

    fn time(&mut self, clock: &Clock) {
        for side in 0..SIDES.len() {
            let ns = self.what.make(clock, side);
            self.times[side].push(ns);
        }
    }
}

/// A call on a board.
struct Case<'a> {
    board: Vec<u8>,
    call: Call<'a>,
    answer: Answer,
    /// place and number of each word that the call changes, as it was before
    changed: Vec<(usize, u64)>,
}

impl<'a> Case<'a> {
    fn new(board: &[u8], call: Call<'a>) -> Timed<Self> {
        let mut after = board.to_vec();
        let answer = make(&mut after, call);
        let changed = (0..BOARD).step_by(8).filter(|&at| get(board, at) != get(&after, at)).map(|at| (at, get(board, at)));
        Timed::new(Case { board: board.to_vec(), call, answer, changed: changed.collect() })
    }
}

impl Repeated for Case<'_> {
    fn make(&mut self, clock: &Clock, side: usize) -> f64 {
        let mut record = [0; RECORD];
        let (answer, ns) = clock.time(|| SIDES[side].make(self.call, &mut self.board, &mut record));
        assert!(answer == self.answer, "another answer than before");
        for &(at, number) in &self.changed {
            put(&mut self.board, at, number);
        }
        ns
    }
}

/// The evaluation that a turn makes, by itself. Ours goes through `eos_*`, which first copies the blend's arrays together.
struct Point {
    blend: Rc<Blend>,
    evaluation: &'static Evaluation,
    state: State,
    /// what a look shows of it
    density: f64,
}

impl Point {
    /// Sees that the evaluation on this blend yields what it did in the job of this pressure.
    fn new(blend: &Rc<Blend>, pressure: f64, made: &evaluations::Evaluation) -> Self {
        let name = match made.partial_density {
            Some(_) if made.call == "criticality_conditions" => "criticality_conditions_t",
            _ => made.call,
        };
        let evaluation = EVALUATIONS.iter().find(|evaluation| evaluation.name == name).expect("an evaluation of the oracle's");
        let density = made.partial_density.unwrap_or([made.density, 0.0]);
        let state = State { temperature: made.temperature, density, pressure };
        assert!(!made.yields.is_empty(), "an evaluation that yields nothing");
        for evaluate in [evaluation.ours, evaluation.theirs] {
            let yielded = yielded(evaluate, blend, &state);
            let same = made.yields.iter().zip(yielded).all(|(&x, y)| float::bits(x) == float::bits(y));
            assert!(same, "{name}: another evaluation than the job's");
        }
        Point { blend: blend.clone(), evaluation, state, density: made.density }
    }
}

impl Repeated for Point {
    fn make(&mut self, clock: &Clock, side: usize) -> f64 {
        let evaluate = [self.evaluation.ours, self.evaluation.theirs][side];
        let mut yielded = [0.0; 12];
        let ((), ns) = clock.time(|| evaluate(&self.blend, &self.state, &mut yielded));
        black_box(yielded);
        ns
    }
}

// ---- the calls of a kind and N

/// The same eight jobs in each queue, begun with another.
fn job_at(jobs: &[Job], queue: u64, place: usize) -> &Job {
    &jobs[(place + 2 * queue as usize) % PLACES]
}

fn submit(board: &mut [u8], queue: u64, job: &Job) {
    assert!(matches!(make(board, Call::Submit(queue, job)), Answer::Ticket(_)), "a job that is not taken");
}

/// A board with so many jobs in queue 0 and eight in the others.
fn filled(jobs: &[Job], first: usize) -> Vec<u8> {
    let mut board = vec![0; BOARD];
    for queue in 0..QUEUES {
        for place in 0..if queue == 0 { first } else { PLACES } {
            submit(&mut board, queue, job_at(jobs, queue, place));
        }
    }
    board
}

/// A turn of each queue.
fn round(board: &mut [u8], written: bool) {
    for _ in 0..QUEUES {
        assert!(make(board, Call::Turn) == Answer::Turned(written.into()), "a job's span is another");
    }
}

/// The evaluations of a job in order, with the blend that they are made on.
fn evaluations_of(job: &Job) -> Vec<Point> {
    let Ok(run) = check(job.kind, job.n.into(), &job.block) else { panic!("a job without fault") };
    let blend = Rc::new(Blend::new(Rows::of(&run.eos, &run.molefracs)));
    trace_request(job.kind, job.n, &job.block).1.iter().map(|made| Point::new(&blend, run.pressure, made)).collect()
}

/// The calls of a kind and N, by what they find.
#[derive(Default)]
struct Cases<'a> {
    submit: Vec<Timed<Case<'a>>>,
    look: Vec<Timed<Case<'a>>>,
    /// of an eighth job; the oracle counts turns one by one
    quote: Vec<Timed<Case<'a>>>,
    empty: Vec<Timed<Case<'a>>>,
    evaluating: Vec<Timed<Case<'a>>>,
    /// the evaluations of these turns
    points: Vec<Timed<Point>>,
    finished: Vec<Timed<Case<'a>>>,
    handing_out: Vec<Timed<Case<'a>>>,
    /// the same turns on a board that holds the one job
    evaluating_alone: Vec<Timed<Case<'a>>>,
    finished_alone: Vec<Timed<Case<'a>>>,
}

impl<'a> Cases<'a> {
    fn new(jobs: &'a [Job]) -> Self {
        let mut cases = Cases::default();
        let mut seven = filled(jobs, PLACES - 1);
        round(&mut seven, false);
        cases.submit = jobs.iter().map(|job| Case::new(&seven, Call::Submit(0, job))).collect();
        cases.quote = vec![Case::new(&seven, Call::Quote(0, jobs[0].kind.into()))];
        let mut none = filled(jobs, 0);
        round(&mut none, false);
        cases.empty = vec![Case::new(&none, Call::Turn)];
        let mut board = filled(jobs, PLACES);
        for place in 0..PLACES {
            cases.follow(&mut board, job_at(jobs, 0, place));
            for queue in 0..QUEUES {
                submit(&mut board, queue, job_at(jobs, queue, place));
            }
            cases.alone(job_at(jobs, 0, place));
        }
        cases
    }

    /// The turns of a job on a board that holds no other, in the order of `points`.
    fn alone(&mut self, job: &Job) {
        let mut board = vec![0; BOARD];
        submit(&mut board, 0, job);
        for _ in evaluations_of(job) {
            self.evaluating_alone.push(Case::new(&board, Call::Turn));
            round(&mut board, false);
        }
        self.finished_alone.push(Case::new(&board, Call::Turn));
    }

    /// Follows the first job of queue 0 from its first turn to its last.
    fn follow(&mut self, board: &mut Vec<u8>, job: &Job) {
        let points = evaluations_of(job);
        let (made, last) = (points.len() as u64, span(job.kind.into()));
        assert!(made + 1 < last, "a job without a finished turn");
        for turn in 1..=last {
            if turn <= made {
                self.evaluating.push(Case::new(board, Call::Turn));
            } else if turn == made + 1 {
                self.finished.push(Case::new(board, Call::Turn));
                self.look.push(Case::new(board, Call::Look(0)));
            } else if turn == last {
                self.handing_out.push(Case::new(board, Call::Turn));
            }
            round(board, turn == last);
            if turn <= made {
                let density = float::bits(points[turn as usize - 1].density);
                assert!(make(board, Call::Look(0)) == Answer::Shown { evaluations: turn, density }, "the look shows another evaluation");
            }
        }
        self.points.extend(points.into_iter().map(Timed::new));
    }

    fn rows(&mut self) -> [(&'static str, &mut Vec<Timed<Case<'a>>>); 9] {
        [
            ("submit", &mut self.submit),
            ("look", &mut self.look),
            ("quote", &mut self.quote),
            ("turn, empty queue", &mut self.empty),
            ("turn, evaluating", &mut self.evaluating),
            ("turn, finished job", &mut self.finished),
            ("turn, handing out", &mut self.handing_out),
            ("evaluating, alone", &mut self.evaluating_alone),
            ("finished, alone", &mut self.finished_alone),
        ]
    }

    fn time(&mut self, clock: &Clock) {
        for cases in [&mut self.submit, &mut self.look, &mut self.quote, &mut self.empty, &mut self.finished, &mut self.handing_out, &mut self.finished_alone] {
            let times = CALLS.div_ceil(cases.len());
            cases.iter_mut().for_each(|case| time(clock, times, case, None));
        }
        let times = CALLS.div_ceil(self.evaluating.len());
        for ((case, alone), point) in self.evaluating.iter_mut().zip(&mut self.evaluating_alone).zip(&mut self.points) {
            time(clock, times, case, Some(point));
            time(clock, times, alone, None);
        }
    }
}

/// How often the table is gone through, so that the runs of a call do not all fall into the same busy moment or lie at the same
/// place of the stack.
const ROUNDS: usize = 8;
/// Calls of a row in a round, shared out among its cases.
const CALLS: usize = 5_000;

/// So many times, an evaluating turn and its evaluation in turn.
fn time(clock: &Clock, times: usize, case: &mut Timed<Case>, mut point: Option<&mut Timed<Point>>) {
    case.warm(clock);
    for _ in 0..times {
        case.time(clock);
        if let Some(point) = &mut point {
            point.time(clock);
        }
    }
}

// ---- figures

struct Figures {
    median: f64,
    /// the longest of the best runs of each case: what the longest call takes where nothing interrupts it
    by_work: f64,
    /// 99.99 % of the calls take no longer
    most: f64,
    longest: f64,
}

fn best(times: &[f64]) -> f64 {
    times.iter().copied().fold(f64::INFINITY, f64::min)
}

fn figures<T>(cases: &[Timed<T>], side: usize) -> Figures {
    let by_work = cases.iter().map(|case| best(&case.times[side])).fold(0.0, f64::max);
    let mut all: Vec<f64> = cases.iter().flat_map(|case| &case.times[side]).copied().collect();
    let median = median(&mut all);
    let most = all[(all.len() as f64 * 0.9999).ceil() as usize - 1];
    Figures { median, by_work, most, longest: all[all.len() - 1] }
}

/// Over the cases, of the best run of each.
fn mean<T>(cases: &[Timed<T>], side: usize) -> f64 {
    let sum: f64 = cases.iter().map(|case| best(&case.times[side])).sum();
    sum / cases.len() as f64
}

fn print_calls(kind: u8, n: usize, cases: &mut Cases) {
    for (what, cases) in cases.rows() {
        let [a, b] = [0, 1].map(|side| figures(cases, side));
        println!(
            "{kind:>4} {n:>2} {what:<18} {:>6.2} {:>10.0} {:>10.0} {:>10.0} {:>10.0} {:>10.0} {:>10.0} {:>10.0} {:>10.0}",
            a.median / b.median,
            a.median,
            b.median,
            a.by_work,
            b.by_work,
            a.most,
            b.most,
            a.longest,
            b.longest
        );
    }
}

fn print_besides(kind: u8, n: usize, cases: &Cases) {
    let [a, b] = [0, 1].map(|side| {
        let evaluation = mean(&cases.points, side);
        (evaluation, mean(&cases.evaluating, side) - evaluation, mean(&cases.evaluating_alone, side) - evaluation)
    });
    println!("{kind:>4} {n:>2} {:>10.0} {:>10.0} {:>10.0} {:>12.0} {:>12.0} {:>12.0}", a.0, a.1, a.2, b.0, b.1, b.2);
}

// ---- whole passes

/// Submits eight jobs to each queue and takes turns until all are out; gives the records in order and the seconds.
fn pass(side: &Side, jobs: &[Job]) -> (Vec<[u8; RECORD]>, f64) {
    let (mut board, mut record) = (vec![0; BOARD], [0; RECORD]);
    let mut records = Vec::with_capacity(4 * PLACES);
    let start = Instant::now();
    for queue in 0..QUEUES {
        for place in 0..PLACES {
            side.make(Call::Submit(queue, job_at(jobs, queue, place)), &mut board, &mut record);
        }
    }
    while records.len() < 4 * PLACES {
        if (side.turn)(&mut board, &mut record) == Answer::Turned(1) {
            records.push(record);
        }
    }
    (records, start.elapsed().as_secs_f64())
}

const PASSES: usize = 5;

/// The better seconds of each side, those before or those of one more pass.
fn faster(before: [f64; 2], jobs: &[Job]) -> [f64; 2] {
    let [ours, theirs] = [0, 1].map(|side| pass(&SIDES[side], jobs));
    assert!(ours.0 == theirs.0, "the two sides leave different records");
    [before[0].min(ours.1), before[1].min(theirs.1)]
}

pub fn print() {
    let clock = Clock::new();
    let rows: Vec<(u8, usize)> = requests::rows().collect();
    let jobs: Vec<Vec<Job>> = rows.iter().map(|&(kind, n)| jobs(kind, n)).collect();
    let mut cases: Vec<Cases> = jobs.iter().map(|jobs| Cases::new(jobs)).collect();
    for round in 0..ROUNDS {
        deeper(round, &mut || cases.iter_mut().for_each(|cases| cases.time(&clock)));
    }
    let mut best = vec![[f64::INFINITY; 2]; rows.len()];
    for round in 0..PASSES {
        deeper(round, &mut || best.iter_mut().zip(&jobs).for_each(|(best, jobs)| *best = faster(*best, jobs)));
    }
    println!();
    println!(
        "{:>4} {:>2} {:<18} {:>6} {:>10} {:>10} {:>10} {:>10} {:>10} {:>10} {:>10} {:>10}",
        "kind", "N", "call, ns", "ratio", "ours", "theirs", "by work", "theirs", "99.99 %", "theirs", "longest", "theirs"
    );
    for (&(kind, n), cases) in rows.iter().zip(&mut cases) {
        print_calls(kind, n, cases);
    }
    println!();
    println!(
        "{:>4} {:>2} {:>10} {:>10} {:>10} {:>12} {:>12} {:>12}",
        "kind", "N", "evaluation", "besides", "alone", "theirs/ns", "besides", "alone"
    );
    for (&(kind, n), cases) in rows.iter().zip(&cases) {
        print_besides(kind, n, cases);
    }
    println!();
    println!("{:>4} {:>2} {:>6} {:>13} {:>15}", "kind", "N", "ratio", "ours/jobs/s", "theirs/jobs/s");
    for (&(kind, n), best) in rows.iter().zip(best) {
        let [ours, theirs] = best.map(|seconds| (4 * PLACES) as f64 / seconds);
        println!("{kind:>4} {n:>2} {:>6.2} {ours:>13.0} {theirs:>15.0}", ours / theirs);
    }
}
