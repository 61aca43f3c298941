//! Prints what a rival sees of a winter mix and of a catalogue mix: of an engine that replies when its iteration
//! stops, and of the board. Exit status 1 where the board's public views differ, or where nothing else does.
use std::io::{self, Write};
use std::process::ExitCode;

use peng_robinson_board::{Look, Record, Refusal};
use rival::calls::calls;
use rival::engine::{moments, Moments};
use rival::mixes::Mix;
use rival::public::{condensed, first_difference, run, Call, Fields, Owned, Public};

const USAGE: &str = "usage: rival        (no arguments)";

const THEOREM: &str = "\
That they are equal, the theorem `demand_3` says of any two lists of calls from a fresh board with the same public
fields (crates/board_spec: statement specs/Demand3.antt, field `public_same`; proof proofs/Demand3.antt). A call's
moment in it is its place in the list. It says nothing of wall-clock time inside one turn: a turn that evaluates takes longer
than one that does not. examples/gateway measures that time and releases records on a fixed clock.";

/// The list of calls of both mixes and what comes of it.
struct Comparison {
    names: [&'static str; 2],
    moments: Vec<Moments>,
    fields: [Vec<Fields>; 2],
    views: [Vec<Public>; 2],
    owned: [Owned; 2],
}

impl Comparison {
    fn of(winter: &Mix, catalogue: &Mix) -> Result<Comparison, Refusal> {
        let moments = moments([winter, catalogue])?;
        let lists = [calls(winter, false)?, calls(catalogue, true)?];
        let fields = lists
            .each_ref()
            .map(|list| list.iter().map(Call::fields).collect());
        let [(view, owned), (other_view, other_owned)] = lists.map(|list| run(&list));
        Ok(Comparison {
            names: [winter.name, catalogue.name],
            moments,
            fields,
            views: [view, other_view],
            owned: [owned, other_owned],
        })
    }

    /// What tells the mixes apart where nothing keeps the reply back.
    fn print_engine(&self, out: &mut impl Write) -> io::Result<()> {
        let [first, second] = self.names;
        writeln!(
            out,
            "An engine that replies when its iteration stops: evaluations until the reply\n"
        )?;
        writeln!(
            out,
            "  {:<32} kind {first:>10} {second:>10}  the rival",
            "question"
        )?;
        for row in &self.moments {
            let [a, b] = row.evaluations;
            let told = match row.told_apart() {
                true => "tells them apart",
                false => "sees the same",
            };
            writeln!(
                out,
                "  {:<32} {:>4} {a:>10} {b:>10}  {told}",
                row.question, row.kind
            )?;
        }
        let told = self.moments.iter().filter(|row| row.told_apart()).count();
        writeln!(
            out,
            "\n  {told} of {} questions tell the mixes apart by the moment of the reply.\n",
            self.moments.len()
        )
    }

    fn print_board(&self, out: &mut impl Write) -> io::Result<()> {
        let [first, second] = self.names;
        let [fields, _] = &self.fields;
        let [view, other] = &self.views;
        writeln!(
            out,
            "The board: the same list of {} calls for both mixes, and what the public sees of each call\n",
            fields.len()
        )?;
        writeln!(
            out,
            "  {:>14}  {:<36} {first:<35} {second}",
            "place", "call"
        )?;
        for line in condensed(fields, view, other) {
            let place = match line.last - line.first {
                0 => (line.first + 1).to_string(),
                _ => format!("{} to {}", line.first + 1, line.last + 1),
            };
            let call = line.fields.to_string();
            let [a, b] = line.seen.map(|seen| seen.to_string());
            writeln!(out, "  {place:>14}  {call:<36} {a:<35} {b}")?;
        }
        match first_difference(view, other) {
            None => writeln!(out, "\n  The public views: equal.\n"),
            Some(place) => writeln!(out, "\n  The public views differ at place {}.\n", place + 1),
        }
    }

    fn print_owned(&self, out: &mut impl Write) -> io::Result<()> {
        let [first, second] = self.names;
        let [owned, other] = &self.owned;
        writeln!(
            out,
            "What is not public: status, first value and evaluations of a record, density and evaluations of a look\n"
        )?;
        writeln!(out, "  {:>14}  {:<18} {first:<25} {second}", "place", "of")?;
        let show = |look: &Look| format!("   {:>13.6e} {:>4}", look.density, look.evaluations);
        for ((place, a), (_, b)) in owned.looks.iter().zip(&other.looks) {
            let (place, a, b) = (place + 1, show(a), show(b));
            writeln!(out, "  {place:>14}  {:<18} {a:<25} {b}", "look")?;
        }
        let show = |record: &Record| {
            let sealed = record.sealed();
            let [value, ..] = sealed.values;
            format!(
                "{:>2} {value:>13.6e} {:>4}",
                sealed.status, sealed.evaluations
            )
        };
        for ((place, a), (_, b)) in owned.records.iter().zip(&other.records) {
            let ticket = a.ticket();
            let of = format!("queue {} ticket {}", ticket.queue, ticket.number);
            let (place, a, b) = (place + 1, show(a), show(b));
            writeln!(out, "  {place:>14}  {of:<18} {a:<25} {b}")?;
        }
        let (all, differing) = owned.differing(other);
        writeln!(out, "\n  {differing} of {all} differ.\n")
    }

    /// The same calls, the same public view, and something not public that differs.
    fn holds(&self) -> bool {
        let [fields, other_fields] = &self.fields;
        let [view, other_view] = &self.views;
        let [owned, other_owned] = &self.owned;
        first_difference(fields, other_fields).is_none()
            && first_difference(view, other_view).is_none()
            && owned.differing(other_owned).1 > 0
    }

    fn print(&self, out: &mut impl Write) -> io::Result<()> {
        self.print_engine(out)?;
        self.print_board(out)?;
        self.print_owned(out)?;
        writeln!(out, "{THEOREM}")?;
        out.flush()
    }
}

fn main() -> ExitCode {
    if std::env::args_os().len() > 1 {
        eprintln!("{USAGE}");
        return ExitCode::FAILURE;
    }
    let comparison = match Comparison::of(&Mix::winter(), &Mix::catalogue()) {
        Ok(comparison) => comparison,
        Err(refusal) => {
            eprintln!("rival: {refusal}");
            return ExitCode::FAILURE;
        }
    };
    match comparison.print(&mut io::stdout().lock()) {
        Ok(()) if comparison.holds() => ExitCode::SUCCESS,
        Ok(()) => ExitCode::FAILURE,
        Err(error) => {
            // a reader that closes the pipe ends the program without a message
            if error.kind() != io::ErrorKind::BrokenPipe {
                eprintln!("rival: {error}");
            }
            ExitCode::FAILURE
        }
    }
}
