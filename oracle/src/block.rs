//! The request block of 640 bytes: its parts, the refusals 11 to 17 and the run of the search that the kind names.

use crate::critical_point::{
    critical_point, critical_point_binary_p, critical_point_binary_t, spinodal,
};
use crate::cubic::{PengRobinson, PengRobinsonRecord};
use crate::density_iteration::{
    _density_iteration, _density_iteration_stable, _pressure_spinodal, _pressure_spinodal_branch,
};
use crate::evaluations::{Evaluation, Evaluations, FeosResult};
use crate::float;
use crate::state::DensityInitialization::{InitialDensity, Liquid, Vapor};

pub const BLOCK: usize = 640;
/// Kind, N and a block.
pub const REQUEST: usize = 2 + BLOCK;

/// The kinds are 1 to 9.
pub const KINDS: u64 = 9;

/// Refusal 2 unless this holds.
pub fn kind_fits(kind: u64) -> bool {
    (1..=KINDS).contains(&kind)
}

/// Refusal 3 unless this holds: kinds 7 to 9 are for two components, every other kind for 1 to 8.
pub fn count_fits(kind: u64, n: u64) -> bool {
    match kind {
        7..=9 => n == 2,
        _ => (1..=8).contains(&n),
    }
}

/// What a request is answered with.
#[derive(Clone, Debug, PartialEq)]
pub enum Answer {
    /// A refusal of the caller's: 2 for the kind, 3 for N.
    Refused(u64),
    /// The sealed part of the record.
    Sealed {
        kind: u8,
        /// 0 or a refusal of the data or the equation
        status: u64,
        /// +0 where unused, and all on refusal
        values: [f64; 3],
        evaluations: u64,
    },
}

impl std::fmt::Display for Answer {
    fn fmt(&self, f: &mut std::fmt::Formatter<'_>) -> std::fmt::Result {
        match self {
            Answer::Refused(number) => write!(f, "{number}"),
            Answer::Sealed {
                kind,
                status,
                values,
                evaluations,
            } => {
                let [x, y, z] = values.map(float::bits);
                write!(
                    f,
                    "{kind} {status} {x:016X} {y:016X} {z:016X} {evaluations}"
                )
            }
        }
    }
}

/// The numbers of a block whose four pairs are in order.
#[derive(Clone, Debug)]
pub struct Parts {
    pub coefficients: Vec<PengRobinsonRecord>,
    /// k_ij by rows, i below j
    pub interactions: Vec<f64>,
    pub fractions: Vec<f64>,
    pub choice: u64,
    pub temperature: f64,
    pub pressure: f64,
    pub start: f64,
}

/// The lengths of coefficients, interactions, fractions and conditions for n components.
pub fn lengths(n: usize) -> [usize; 4] {
    [24 * n, 4 * n * (n - 1), 8 * n, 32]
}

/// The four pairs of offset and length as they stand in the block.
pub fn pairs(block: &[u8; BLOCK]) -> [(usize, usize); 4] {
    let number = |at: usize| usize::from(u16::from_le_bytes([block[at], block[at + 1]]));
    [0, 4, 8, 12].map(|at| (number(at), number(at + 2)))
}

fn number_at(block: &[u8; BLOCK], at: usize) -> u64 {
    u64::from_le_bytes(block[at..at + 8].try_into().expect("eight bytes"))
}

fn floats(block: &[u8; BLOCK], (offset, length): (usize, usize)) -> Vec<f64> {
    (0..length / 8)
        .map(|i| f64::from_bits(number_at(block, offset + 8 * i)))
        .collect()
}

/// Reads the parts, or `None` where a pair is wrong (refusal 11).
pub fn read_parts(n: usize, block: &[u8; BLOCK]) -> Option<Parts> {
    let pairs = pairs(block);
    let mut end = 16;
    for ((offset, length), expected) in pairs.into_iter().zip(lengths(n)) {
        if offset < end || length != expected {
            return None;
        }
        end = offset + length;
    }
    if end > BLOCK {
        return None;
    }
    let coefficients = floats(block, pairs[0])
        .chunks(3)
        .map(|c| PengRobinsonRecord {
            tc: c[0],
            pc: c[1],
            acentric_factor: c[2],
        })
        .collect();
    let conditions = pairs[3].0;
    let condition = |i: usize| number_at(block, conditions + 8 * i);
    Some(Parts {
        coefficients,
        interactions: floats(block, pairs[1]),
        fractions: floats(block, pairs[2]),
        choice: condition(0),
        temperature: f64::from_bits(condition(1)),
        pressure: f64::from_bits(condition(2)),
        start: f64::from_bits(condition(3)),
    })
}

/// A search ready to run.
pub struct Job {
    pub kind: u8,
    /// the blend, or in kinds 5 and 6 the chosen component
    pub eos: PengRobinson,
    pub molefracs: Vec<f64>,
    pub choice: u64,
    pub temperature: f64,
    pub pressure: f64,
    pub start: f64,
}

fn finite_and_positive(x: f64) -> bool {
    x.is_finite() && x > 0.0
}

/// Bits of +0, which kinds 5 and 7 read as none, kind 8 in the start and kind 9 in temperature and start.
fn is_none(x: f64) -> bool {
    x.to_bits() == 0
}

/// The fractions' sum from the first on in ascending order of index, rounded after each addition.
pub fn sum_of(fractions: &[f64]) -> f64 {
    let mut sum = fractions[0];
    for x in &fractions[1..] {
        sum += x;
    }
    sum
}

/// Whether a sum of fractions is near enough to 1; one that overflows is not.
pub fn adds_up(sum: f64) -> bool {
    (sum - 1.0).abs() <= 1e-9
}

/// The data refusals in document 01's order, 17 between 14 and 15, else the job.
pub fn check(kind: u8, n: usize, block: &[u8; BLOCK]) -> Result<Job, u64> {
    let parts = read_parts(n, block).ok_or(11u64)?;
    let eos = PengRobinson::new(&parts.coefficients, &parts.interactions);

    // 12: every component, used or not
    for (i, record) in parts.coefficients.iter().enumerate() {
        let ok = finite_and_positive(record.tc)
            && finite_and_positive(record.pc)
            && record.acentric_factor.is_finite()
            && eos.kappa[i].is_finite()
            && finite_and_positive(eos.a[i])
            && finite_and_positive(eos.b[i]);
        if !ok {
            return Err(12);
        }
    }

    // 13: interactions
    if parts.interactions.iter().any(|k| !k.is_finite()) {
        return Err(13);
    }

    // 14, then 17: fractions and their sum, which kinds 5 and 6 do not read
    let pure = kind == 5 || kind == 6;
    if !pure {
        let bad = |x: &f64| !x.is_finite() || x.is_sign_negative();
        if parts.fractions.iter().any(bad) {
            return Err(14);
        }
        if !adds_up(sum_of(&parts.fractions)) {
            return Err(17);
        }
    }

    // 15: the conditions that the kind uses
    let no_temperature = matches!(kind, 5 | 7 | 9) && is_none(parts.temperature);
    if !no_temperature && !finite_and_positive(parts.temperature) {
        return Err(15);
    }
    let uses_pressure = matches!(kind, 1 | 2 | 9);
    if uses_pressure && !parts.pressure.is_finite() {
        return Err(15);
    }
    let uses_start = matches!(kind, 3 | 5 | 7 | 8 | 9) || (kind == 1 && parts.choice == 2);
    if uses_start && !parts.start.is_finite() {
        return Err(15);
    }

    // 16: the choice, then the maximum density of the run
    let choices = match kind {
        1 => 3,
        4 => 2,
        5 | 6 => n as u64,
        _ => u64::MAX,
    };
    let uses_choice = matches!(kind, 1 | 4 | 5 | 6);
    if uses_choice && parts.choice >= choices {
        return Err(16);
    }
    let (eos, molefracs) = if pure {
        (eos.subset(parts.choice as usize), vec![1.0])
    } else {
        (eos, parts.fractions)
    };
    if !finite_and_positive(eos.compute_max_density(&molefracs)) {
        return Err(16);
    }
    Ok(Job {
        kind,
        eos,
        molefracs,
        choice: parts.choice,
        temperature: parts.temperature,
        pressure: parts.pressure,
        start: parts.start,
    })
}

impl Job {
    /// Runs the search to its end.
    pub fn run(&self, evals: &mut Evaluations) -> FeosResult<[f64; 3]> {
        let (eos, x, t) = (&self.eos, &self.molefracs[..], self.temperature);
        let given = |x: f64| if is_none(x) { None } else { Some(x) };
        match self.kind {
            1 => {
                let initial_density = match self.choice {
                    0 => Vapor,
                    1 => Liquid,
                    _ => InitialDensity(self.start),
                };
                let rho = _density_iteration(eos, t, self.pressure, x, initial_density, evals)?;
                Ok([rho, 0.0, 0.0])
            }
            2 => {
                let rho = _density_iteration_stable(eos, t, self.pressure, x, evals)?;
                Ok([rho, 0.0, 0.0])
            }
            3 => {
                let (p, rho, d2p) = _pressure_spinodal(eos, t, self.start, x, evals)?;
                Ok([p, rho, d2p])
            }
            4 => {
                let branch = if self.choice == 0 { Vapor } else { Liquid };
                let (p, rho) = _pressure_spinodal_branch(eos, t, x, branch, evals)?;
                Ok([p, rho, 0.0])
            }
            5 | 7 => {
                let [t, rho] = critical_point(eos, x, given(t), given(self.start), evals)?;
                Ok([t, rho, 0.0])
            }
            6 => {
                let [vapor, liquid] = spinodal(eos, t, x, evals)?;
                Ok([vapor, liquid, 0.0])
            }
            8 => {
                let [rho0, rho1] = critical_point_binary_t(eos, t, x, given(self.start), evals)?;
                Ok([rho0, rho1, 0.0])
            }
            _ => critical_point_binary_p(eos, self.pressure, given(t), x, given(self.start), evals),
        }
    }
}

fn answer(kind: u8, n: u8, block: &[u8; BLOCK], evals: &mut Evaluations) -> Answer {
    if !kind_fits(kind.into()) {
        return Answer::Refused(2);
    }
    if !count_fits(kind.into(), n.into()) {
        return Answer::Refused(3);
    }
    let (status, values) = match check(kind, usize::from(n), block) {
        Err(refusal) => (refusal, [0.0; 3]),
        Ok(job) => match job.run(evals) {
            Ok(values) => (0, values),
            Err(error) => (error as u64, [0.0; 3]),
        },
    };
    Answer::Sealed {
        kind,
        status,
        values,
        evaluations: evals.count,
    }
}

/// Answers one request.
pub fn run_request(kind: u8, n: u8, block: &[u8; BLOCK]) -> Answer {
    answer(kind, n, block, &mut Evaluations::default())
}

/// Answers one request and tells every evaluation made.
pub fn trace_request(kind: u8, n: u8, block: &[u8; BLOCK]) -> (Answer, Vec<Evaluation>) {
    let mut evals = Evaluations {
        count: 0,
        trace: Some(Vec::new()),
    };
    let answer = answer(kind, n, block, &mut evals);
    (answer, evals.trace.unwrap_or_default())
}
