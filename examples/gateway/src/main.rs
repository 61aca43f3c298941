//! `gateway measure`: what a rival learns from the moments of a board's turns, free-running and on a fixed clock.
use std::io::{self, Write};
use std::process::ExitCode;

use gateway::arguments::{plan, Plan, USAGE};
use gateway::measure::{free_running, paced, BLOCK};
use gateway::mixes::{request, Mix};
use gateway::report::{Measured, Run};
use gateway::statistics::THRESHOLD;
use peng_robinson_board::{answer, Kind, Refusal, Request};

enum Failure {
    Refused(Refusal),
    Output(io::Error),
    TooFew,
}

impl From<Refusal> for Failure {
    fn from(refusal: Refusal) -> Failure {
        Failure::Refused(refusal)
    }
}

impl From<io::Error> for Failure {
    fn from(error: io::Error) -> Failure {
        Failure::Output(error)
    }
}

fn measure(plan: Plan, out: &mut impl Write) -> Result<(), Failure> {
    let (winter, catalogue) = (Mix::winter(), Mix::catalogue());
    let requests = [request(&winter)?, request(&catalogue)?];
    let [first, second] = &requests;
    let evaluations = [answer(first)?.evaluations, answer(second)?.evaluations];
    let span = Kind::try_from(first.kind())?.span();
    let seconds = 4 * plan.turns as u64 * plan.slots.period() / 1_000_000_000;
    writeln!(
        out,
        "\
{} turns of each mix; slot {} µs, gap {} µs: about {seconds} s. Times in ns.
All jobs are of kind {}, N {}, the liquid branch of the spinodal, span {span}: {} evaluates in its first {} turns,
{} in {}. Blocks of {BLOCK} turns, the two boards in turn. t is Welch's, df its degrees of freedom; side-channel
practice (TVLA) takes |t| above {THRESHOLD} for a difference. Of the turns of the span, that with the largest |t| is
shown, of its middle nine tenths. One mix against itself is the control: the method's noise.
",
        plan.turns,
        plan.slots.slot() / 1000,
        plan.slots.gap() / 1000,
        first.kind(),
        first.components(),
        winter.name,
        evaluations[0],
        catalogue.name,
        evaluations[1],
    )?;

    // the first turn of a job and the one that hands it out do other work besides
    let [a, b] = evaluations;
    let (evaluating, idle) = (2..a.min(b) + 1, a.max(b) + 1..span);
    let names = [winter.name, catalogue.name];
    let same = [winter.name, "winter again"];
    let mut free_run = |names, requests: [&Request; 2]| -> Result<Run, Failure> {
        let samples = free_running(requests, plan.turns)?;
        let run = Run::free(names, &samples).ok_or(Failure::TooFew)?;
        run.print(out, "Free-running")?;
        out.flush()?;
        Ok(run)
    };
    let free = free_run(names, [first, second])?;
    let free_control = free_run(same, [first, first])?;
    let mut paced_run = |names, requests: [&Request; 2]| -> Result<Run, Failure> {
        let samples = paced(requests, plan.turns, plan.slots)?;
        let run = Run::paced(names, &samples, evaluating.clone(), idle.clone());
        let run = run.ok_or(Failure::TooFew)?;
        run.print(out, "Paced")?;
        out.flush()?;
        Ok(run)
    };
    let measured = Measured {
        free,
        free_control,
        paced: paced_run(names, [first, second])?,
        paced_control: paced_run(same, [first, first])?,
    };
    measured.print(out)?;
    out.flush()?;
    Ok(())
}

fn main() -> ExitCode {
    let plan = match plan(std::env::args_os().skip(1)) {
        Ok(plan) => plan,
        Err(message) => {
            eprintln!("gateway: {message}\n{USAGE}");
            return ExitCode::FAILURE;
        }
    };
    match measure(plan, &mut io::stdout().lock()) {
        Ok(()) => ExitCode::SUCCESS,
        Err(failure) => {
            match failure {
                Failure::Refused(refusal) => eprintln!("gateway: {refusal}"),
                Failure::TooFew => eprintln!("gateway: too few turns"),
                // a reader that closes the pipe ends the program without a message
                Failure::Output(error) if error.kind() == io::ErrorKind::BrokenPipe => (),
                Failure::Output(error) => eprintln!("gateway: {error}"),
            }
            ExitCode::FAILURE
        }
    }
}
