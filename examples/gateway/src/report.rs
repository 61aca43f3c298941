//! Welch's t over the measured times, and the tables and sentences that are printed of them.
use std::io::{self, Write};
use std::ops::Range;

use crate::measure::Samples;
use crate::statistics::{
    by_rounds, cropped, summary, two_shares, welch, Student, Summary, Welch, THRESHOLD,
};

/// The share of the times that is left out at either end for the middle nine tenths.
const OUT: f64 = 0.05;

const INSIDE: &str = "time inside a turn";

/// Welch's t of the middle nine tenths.
fn middle(first: &[f64], second: &[f64]) -> Option<Welch> {
    let (first, second) = cropped(first, second, OUT);
    welch(&first, &second)
}

/// What two sets of times say of each other: Welch's t of all and of the middle nine tenths, and by rounds.
#[derive(Debug, Clone, Copy)]
pub struct Compared {
    pub all: Welch,
    pub middle: Welch,
    pub rounds: Student,
}

impl Compared {
    /// None where there are too few times. `rounds` are those that the times belong to.
    pub fn of(times: [&[f64]; 2], rounds: [&[u64]; 2]) -> Option<Compared> {
        let [first, second] = times;
        Some(Compared {
            all: welch(first, second)?,
            middle: middle(first, second)?,
            rounds: by_rounds(times, rounds, OUT)?,
        })
    }

    fn print(&self, out: &mut impl Write) -> io::Result<()> {
        print_test(out, "all", &self.all)?;
        print_test(out, "middle nine tenths", &self.middle)?;
        let Student {
            difference,
            t,
            degrees,
        } = self.rounds;
        let what = "the same, by rounds";
        writeln!(
            out,
            "    {what:<26} t {t:>8.2}  df {degrees:>8.0}  difference {difference:.2}"
        )
    }
}

/// The largest |t| of Welch's tests, and |t| by rounds.
#[derive(Debug, Clone, Copy, PartialEq)]
pub struct Largest {
    pub welch: f64,
    pub rounds: f64,
}

impl Largest {
    fn of(tests: &[Welch], rounds: &Student) -> Largest {
        Largest {
            welch: tests.iter().map(|test| test.t.abs()).fold(0.0, f64::max),
            rounds: rounds.t.abs(),
        }
    }

    fn or(self, other: Largest) -> Largest {
        Largest {
            welch: self.welch.max(other.welch),
            rounds: self.rounds.max(other.rounds),
        }
    }

    /// A difference that both tests see.
    fn told_apart(&self) -> bool {
        self.welch > THRESHOLD && self.rounds > THRESHOLD
    }

    fn not_told_apart(&self) -> bool {
        self.welch <= THRESHOLD && self.rounds <= THRESHOLD
    }
}

/// What the times of two boards say of one quantity.
#[derive(Debug, Clone)]
pub struct Findings {
    pub quantity: &'static str,
    pub summaries: [Summary; 2],
    pub compared: Compared,
    /// the turn of the span, from 1, whose middle nine tenths have the largest |t|
    pub turn: u64,
    pub at_turn: Welch,
}

impl Findings {
    /// None where there are too few times. `turns` are the turns of the span and `rounds` the rounds that the times
    /// belong to.
    pub fn of(
        quantity: &'static str,
        times: [&[f64]; 2],
        turns: [&[u64]; 2],
        rounds: [&[u64]; 2],
    ) -> Option<Findings> {
        let [first, second] = times;
        let at = |board: usize, turn: u64| -> Vec<f64> {
            let pairs = times[board].iter().zip(turns[board]);
            let of_turn = pairs.filter(|(_, &it)| it == turn);
            of_turn.map(|(&time, _)| time).collect()
        };
        let span = turns[0].iter().copied().max()?;
        let by_turn =
            (1..=span).filter_map(|turn| Some((turn, middle(&at(0, turn), &at(1, turn))?)));
        let (turn, at_turn) = by_turn.max_by(|(_, a), (_, b)| a.t.abs().total_cmp(&b.t.abs()))?;
        Some(Findings {
            quantity,
            summaries: [summary(first)?, summary(second)?],
            compared: Compared::of(times, rounds)?,
            turn,
            at_turn,
        })
    }

    pub fn largest(&self) -> Largest {
        let Compared {
            all,
            middle,
            rounds,
        } = self.compared;
        Largest::of(&[all, middle, self.at_turn], &rounds)
    }

    fn print(&self, out: &mut impl Write, names: [&str; 2]) -> io::Result<()> {
        writeln!(
            out,
            "  {:<28} {:>10} {:>10} {:>10} {:>10} {:>10}",
            self.quantity, "mean", "s.d.", "median", "99.9 %", "longest"
        )?;
        for (name, s) in names.iter().zip(&self.summaries) {
            writeln!(
                out,
                "    {name:<26} {:>10.1} {:>10.1} {:>10.1} {:>10.0} {:>10.0}",
                s.mean, s.deviation, s.median, s.most, s.largest
            )?;
        }
        self.compared.print(out)?;
        let turn = format!("turn {} of the span", self.turn);
        print_test(out, &turn, &self.at_turn)
    }
}

fn print_test(out: &mut impl Write, what: &str, test: &Welch) -> io::Result<()> {
    writeln!(
        out,
        "    {what:<26} t {:>8.2}  df {:>8.0}",
        test.t, test.degrees
    )
}

/// Turns that missed their slot's end.
#[derive(Debug, Clone, Copy)]
pub struct Missed {
    pub overruns: usize,
    pub late: usize,
    pub turns: usize,
}

/// What is known of the paced turns only.
#[derive(Debug, Clone, Copy)]
pub struct Releases {
    /// releases after the slot's end of turns that evaluate against turns that do not, of both boards
    pub work: Compared,
    /// of turns that do not evaluate, those early in the span against those late in it
    pub idle: Compared,
    pub missed: [Missed; 2],
}

/// The findings of one run of two boards.
#[derive(Debug)]
pub struct Run {
    pub names: [&'static str; 2],
    pub findings: Vec<Findings>,
    pub releases: Option<Releases>,
}

/// The releases whose turn of the span is in the range, of both boards, and their rounds.
fn offsets(samples: &[Samples; 2], turns: &Range<u64>) -> (Vec<f64>, Vec<u64>) {
    let all = |s: &'_ Samples| -> Vec<(f64, u64)> {
        let times = s.offset.iter().zip(&s.turn).zip(&s.round);
        let wanted = times.filter(|((_, turn), _)| turns.contains(turn));
        wanted
            .map(|((&offset, _), &round)| (offset, round))
            .collect()
    };
    samples.iter().flat_map(all).unzip()
}

/// The releases of two ranges of turns of the span against each other.
fn compared(samples: &[Samples; 2], turns: [Range<u64>; 2]) -> Option<Compared> {
    let [first, second] = turns.map(|turns| offsets(samples, &turns));
    Compared::of([&first.0, &second.0], [&first.1, &second.1])
}

impl Run {
    pub fn free(names: [&'static str; 2], samples: &[Samples; 2]) -> Option<Run> {
        let turns = samples.each_ref().map(|s| s.turn.as_slice());
        let inside = samples.each_ref().map(|s| s.inside.as_slice());
        let interval = samples.each_ref().map(|s| s.interval.as_slice());
        let rounds = samples.each_ref().map(|s| s.round.as_slice());
        let findings = vec![
            Findings::of(INSIDE, inside, turns, rounds)?,
            Findings::of("interval between releases", interval, turns, rounds)?,
        ];
        Some(Run {
            names,
            findings,
            releases: None,
        })
    }

    /// `evaluating` and `idle` are turns of the span that evaluate, and that do not, on either board.
    pub fn paced(
        names: [&'static str; 2],
        samples: &[Samples; 2],
        evaluating: Range<u64>,
        idle: Range<u64>,
    ) -> Option<Run> {
        let mut run = Run::free(names, samples)?;
        let turns = samples.each_ref().map(|s| s.turn.as_slice());
        let offset = samples.each_ref().map(|s| s.offset.as_slice());
        let rounds = samples.each_ref().map(|s| s.round.as_slice());
        let quantity = "release after slot's end";
        run.findings
            .push(Findings::of(quantity, offset, turns, rounds)?);
        let missed = samples.each_ref().map(|s| Missed {
            overruns: s.overruns,
            late: s.late,
            turns: s.turn.len(),
        });
        let between = (idle.start + idle.end) / 2;
        run.releases = Some(Releases {
            work: compared(samples, [evaluating, idle.clone()])?,
            idle: compared(samples, [idle.start..between, between..idle.end])?,
            missed,
        });
        Some(run)
    }

    pub fn print(&self, out: &mut impl Write, mode: &str) -> io::Result<()> {
        let [first, second] = self.names;
        writeln!(out, "{mode}: {first} against {second}")?;
        for findings in &self.findings {
            findings.print(out, self.names)?;
        }
        if let Some(Releases { work, idle, missed }) = &self.releases {
            let pairs = [
                ("turns that evaluate", "others", work),
                ("others early in the span", "late", idle),
            ];
            writeln!(out, "  release after slot's end, both boards")?;
            for (one, other, compared) in pairs {
                let [a, b] = compared.middle.means;
                writeln!(out, "    {one} {a:.2}, {other} {b:.2}: middle nine tenths")?;
                compared.print(out)?;
            }
            let totals = missed.map(|it| it.turns);
            let counts = [
                (
                    "turns that ended after their slot",
                    missed.map(|it| it.overruns),
                ),
                (
                    "releases over 1 µs after the slot's end",
                    missed.map(|it| it.late),
                ),
            ];
            for (what, counts) in counts {
                let z = two_shares(counts, totals);
                let [a, b] = counts;
                writeln!(out, "  {what}: {first} {a}, {second} {b}: z {z:.2}")?;
            }
        }
        writeln!(out)
    }
}

/// The four runs of a measurement.
#[derive(Debug)]
pub struct Measured {
    pub free: Run,
    pub free_control: Run,
    pub paced: Run,
    pub paced_control: Run,
}

impl Measured {
    /// Each test by name with the largest |t|, and those of its control.
    pub fn tests(&self) -> Vec<(String, Largest, Largest)> {
        let pairs = [
            ("free-running", &self.free, &self.free_control),
            ("paced", &self.paced, &self.paced_control),
        ];
        let mut tests = Vec::new();
        for (mode, run, control) in pairs {
            for (a, b) in run.findings.iter().zip(&control.findings) {
                let hidden = match (mode, a.quantity) {
                    ("paced", INSIDE) => ", not released",
                    _ => "",
                };
                let name = format!("{mode}, {}{hidden}", a.quantity);
                tests.push((name, a.largest(), b.largest()));
            }
        }
        // evaluating turns are told from others by both pairs of boards
        let both = [&self.paced.releases, &self.paced_control.releases];
        let largest = |of: fn(&Releases) -> Compared| {
            let compared = both.into_iter().flatten().map(of);
            let largest = compared.map(|it| Largest::of(&[it.all, it.middle], &it.rounds));
            largest.reduce(Largest::or)
        };
        if let (Some(work), Some(idle)) = (largest(|it| it.work), largest(|it| it.idle)) {
            let name = "paced, release of turns that evaluate".to_string();
            tests.push((name, work, idle));
        }
        tests
    }

    /// The tests of what a rival sees of a gateway.
    fn released(&self) -> Vec<(String, Largest, Largest)> {
        let tests = self.tests().into_iter();
        tests
            .filter(|(name, ..)| name.starts_with("paced") && !name.contains(INSIDE))
            .collect()
    }

    pub fn print(&self, out: &mut impl Write) -> io::Result<()> {
        writeln!(
            out,
            "{:<44} {:>19} {:>19}",
            "Largest |t|", "mixes", "control"
        )?;
        let columns = ["Welch", "by rounds", "Welch", "by rounds"].map(|it| format!("{it:>9}"));
        writeln!(out, "{:<44} {}", "", columns.join(" "))?;
        for (name, mixes, control) in self.tests() {
            let verdict = if mixes.not_told_apart() {
                "not told apart"
            } else if mixes.told_apart() && control.not_told_apart() {
                "told apart"
            } else {
                "unclear"
            };
            writeln!(
                out,
                "  {name:<42} {:>9.2} {:>9.2} {:>9.2} {:>9.2}  {verdict}",
                mixes.welch, mixes.rounds, control.welch, control.rounds
            )?;
        }
        self.print_lessons(out)
    }

    fn print_lessons(&self, out: &mut impl Write) -> io::Result<()> {
        writeln!(out, "\nWhat a rival learns:")?;
        if let Some(inside) = self.free.findings.first() {
            let [a, b] = inside.at_turn.means;
            let [first, second] = self.free.names;
            let tells = match inside.largest().told_apart() {
                true => "the mixes are told apart",
                false => "no test of the turns' times tells the mixes apart",
            };
            writeln!(
                out,
                "- Free-running, who sees when a turn ends sees how long it took, and {tells}: turn {} of the\n  \
                 span takes {a:.0} ns for {first} and {b:.0} ns for {second}, means of the middle nine tenths \
                 (t {:.2}).",
                inside.turn, inside.at_turn.t
            )?;
        }
        let released = self.released();
        let largest = released.iter().map(|(_, largest, _)| *largest);
        let Largest { welch, rounds } = largest.reduce(Largest::or).unwrap_or(Largest {
            welch: 0.0,
            rounds: 0.0,
        });
        let says = if released.iter().any(|(_, largest, _)| largest.told_apart()) {
            "the pacing did not hide everything here"
        } else if welch > THRESHOLD || rounds > THRESHOLD {
            "one kind of test sees a difference\n  that the other does not"
        } else {
            "with so many turns these tests\n  do not tell the mixes apart"
        };
        writeln!(
            out,
            "- Paced, the largest |t| of the releases is {welch:.2} by Welch and {rounds:.2} by rounds: {says}."
        )?;
        if let Some(Releases { missed: [a, b], .. }) = self.paced.releases {
            writeln!(
                out,
                "- Paced, the jitter of the releases is seen, and that a turn ended after its slot, {} and {} of {} \
                 here:\n  its release comes at a later slot's end.",
                a.overruns, b.overruns, a.turns
            )?;
        }
        writeln!(
            out,
            "- Not measured: power, caches, the memory bus, and what else a rival on the same machine sees."
        )
    }
}
