//! A job one evaluation at a time, from and to the numbers that a board stores. Every set of numbers is read as some place.
//!
//! | kind | place | numbers |
//! |---|---|---|
//! | 1 | tag 0 the end, 1 the first round, 2 a round, 3 the curvature, 4 the nearest spinodal, 5 the liquid's, else the vapour's | `left` rounds of the search after this one, `way` the detour, `rounds` of the spinodal after this one |
//! | 2 | stage 0 the end, 1 the liquid's search, 2 the vapour's, 3 the liquid's potential, else the vapour's | the search's as in kind 1, whose tag 0 is its last place here; stage 2: the liquid's end in `status` and the third float |
//! | 3, 4 | tag 0 the end, else a round | `rounds` after this one |
//! | 5, 7 | tag 0 the end, 1 a round from a given temperature, else of the trial `way` | `rounds` after this one |
//! | 6 | stage 0 the end, 1 the critical point, whose tag 0 is a trial's, 2 the vapour's spinodal, else the liquid's | as in kind 5 |
//! | 8, 9 | tag 0 the end, else a round | `rounds` after this one; the floats are the unknowns: both partial densities, in kind 9 the temperature before them |

use crate::block::Job;
use crate::evaluations::{finite, Evaluations, FeosError, FeosResult};
use crate::float;

/// The stored rounds of a kind's search are fewer than this.
pub fn rounds_below(kind: u64) -> u64 {
    match kind {
        8 | 9 => 200,
        _ => 50,
    }
}

/// What a quarter stores of its running search.
#[derive(Clone, Copy, Debug, PartialEq)]
pub struct Stored {
    pub stage: u64,
    pub tag: u64,
    pub status: u64,
    pub left: u64,
    pub way: u64,
    pub rounds: u64,
    pub floats: [f64; 3],
    pub evaluations: u64,
    /// density of the latest evaluation, of two partial densities the sum
    pub latest: f64,
}

const NOTHING: Stored = Stored {
    stage: 0,
    tag: 0,
    status: 0,
    left: 0,
    way: 0,
    rounds: 0,
    floats: [0.0; 3],
    evaluations: 0,
    latest: 0.0,
};

impl Stored {
    /// The range of each counter: those of the kind's search, or the end of a job that its data refuse.
    pub fn fits(&self, kind: u64) -> bool {
        let of_search = self.stage <= 4
            && self.tag <= 6
            && (self.status == 0 || (21..=27).contains(&self.status))
            && self.left <= 49
            && self.way <= 3
            && self.rounds < rounds_below(kind);
        let zeros = [self.stage, self.tag, self.left, self.way, self.rounds];
        of_search || (zeros == [0; 5] && (11..=17).contains(&self.status))
    }

    /// Status and values for the record; 22 where the numbers are no end.
    pub fn result(&self) -> (u64, [f64; 3]) {
        if self.stage == 0 && self.tag == 0 {
            (self.status, self.floats)
        } else {
            (22, [0.0; 3])
        }
    }
}

/// How a search ends.
type End = FeosResult<[f64; 3]>;

fn ended(end: End) -> Stored {
    match end {
        Ok(floats) => Stored { floats, ..NOTHING },
        Err(error) => Stored {
            status: error as u64,
            ..NOTHING
        },
    }
}

/// A phase's end as its status and density tell it.
fn phase(status: u64, density: f64) -> FeosResult<f64> {
    Err(match status {
        0 => return Ok(density),
        21 => FeosError::InvalidState,
        22 => FeosError::NotConverged,
        23 => FeosError::IterationFailed,
        24 => FeosError::BothPhasesFailed,
        25 => FeosError::WrongBranch,
        26 => FeosError::SuperCritical,
        _ => FeosError::NotFinite,
    })
}

fn of_density(end: FeosResult<f64>) -> End {
    end.map(|rho| [rho, 0.0, 0.0])
}

/// Vapour or liquid.
#[derive(Clone, Copy)]
enum Branch {
    Vapor,
    Liquid,
}

/// A search for a spinodal: its end, or a round with those left after it.
enum Spinodal {
    Ended(End),
    At { rounds: u64, rho: f64 },
}

/// A density search: its end or its next evaluation, with the rounds left after the present one.
enum Density {
    Ended(FeosResult<f64>),
    First,
    Slope {
        left: u64,
        rho: f64,
    },
    Curvature {
        left: u64,
        rho: f64,
        error: f64,
    },
    Nearest {
        left: u64,
        way: u64,
        rounds: u64,
        rho: f64,
    },
    Liquid {
        left: u64,
        way: u64,
        rounds: u64,
        rho: f64,
    },
    Vapor {
        left: u64,
        way: u64,
        rounds: u64,
        rho: f64,
        rho_l: f64,
    },
}

impl Density {
    /// The place at a tag; the end, tag 0, is told apart by the caller. A way beyond the last is the last.
    fn read(s: &Stored) -> Self {
        let (left, rounds, [rho, other, _]) = (s.left, s.rounds, s.floats);
        match s.tag {
            1 => Density::First,
            2 => Density::Slope { left, rho },
            3 => Density::Curvature {
                left,
                rho,
                error: other,
            },
            4 => Density::Nearest {
                left,
                way: s.way.min(2),
                rounds,
                rho,
            },
            5 => Density::Liquid {
                left,
                way: s.way.min(1),
                rounds,
                rho,
            },
            _ => Density::Vapor {
                left,
                way: s.way.min(1),
                rounds,
                rho,
                rho_l: other,
            },
        }
    }

    fn written(self) -> Stored {
        let at = |tag, left, way, rounds, rho, other| Stored {
            tag,
            left,
            way,
            rounds,
            floats: [rho, other, 0.0],
            ..NOTHING
        };
        match self {
            Density::Ended(end) => ended(of_density(end)),
            Density::First => at(1, 0, 0, 0, 0.0, 0.0),
            Density::Slope { left, rho } => at(2, left, 0, 0, rho, 0.0),
            Density::Curvature { left, rho, error } => at(3, left, 0, 0, rho, error),
            Density::Nearest {
                left,
                way,
                rounds,
                rho,
            } => at(4, left, way, rounds, rho, 0.0),
            Density::Liquid {
                left,
                way,
                rounds,
                rho,
            } => at(5, left, way, rounds, rho, 0.0),
            Density::Vapor {
                left,
                way,
                rounds,
                rho,
                rho_l,
            } => at(6, left, way, rounds, rho, rho_l),
        }
    }
}

/// The next round of a density search, with `rounds` left and this one among them.
fn next_round(rounds: u64, rho: f64) -> Density {
    match rounds.checked_sub(1) {
        Some(left) => Density::Slope { left, rho },
        None => Density::Ended(Err(FeosError::NotConverged)),
    }
}

/// A stable density: its end or its next evaluation.
enum Stable {
    Ended(FeosResult<f64>),
    LiquidSearch(Density),
    VaporSearch(FeosResult<f64>, Density),
    LiquidPotential(f64, f64),
    VaporPotential(f64, f64, f64),
}

impl Stable {
    fn read(s: &Stored) -> Self {
        let [x, y, z] = s.floats;
        match s.stage {
            0 => Stable::Ended(phase(s.status, x)),
            1 => Stable::LiquidSearch(Density::read(s)),
            2 => Stable::VaporSearch(phase(s.status, z), Density::read(s)),
            3 => Stable::LiquidPotential(x, y),
            _ => Stable::VaporPotential(x, y, z),
        }
    }

    fn written(self) -> Stored {
        let potential = |stage, floats| Stored {
            stage,
            floats,
            ..NOTHING
        };
        match self {
            Stable::Ended(end) => ended(of_density(end)),
            Stable::LiquidSearch(search) => Stored {
                stage: 1,
                ..search.written()
            },
            Stable::VaporSearch(liquid, search) => {
                let mut s = search.written();
                s.stage = 2;
                (s.status, s.floats[2]) = match liquid {
                    Ok(rho) => (0, rho),
                    Err(error) => (error as u64, 0.0),
                };
                s
            }
            Stable::LiquidPotential(l, v) => potential(3, [l, v, 0.0]),
            Stable::VaporPotential(l, v, mu_l) => potential(4, [l, v, mu_l]),
        }
    }
}

/// A search for a critical point from one temperature.
enum Hkm {
    Ended(FeosResult<[f64; 2]>),
    At { rounds: u64, t: f64, rho: f64 },
}

/// A critical point: its end, or a round from a given temperature or of a trial.
enum Critical {
    Ended(FeosResult<[f64; 2]>),
    Given {
        rounds: u64,
        t: f64,
        rho: f64,
    },
    Trial {
        trial: u64,
        rounds: u64,
        t: f64,
        rho: f64,
    },
}

impl Critical {
    fn read(s: &Stored) -> Self {
        let (rounds, [t, rho, _]) = (s.rounds, s.floats);
        match s.tag {
            1 => Critical::Given { rounds, t, rho },
            _ => Critical::Trial {
                trial: s.way,
                rounds,
                t,
                rho,
            },
        }
    }

    fn written(self) -> Stored {
        let at = |tag, way, rounds, t, rho| Stored {
            tag,
            way,
            rounds,
            floats: [t, rho, 0.0],
            ..NOTHING
        };
        match self {
            Critical::Ended(end) => ended(end.map(|[t, rho]| [t, rho, 0.0])),
            Critical::Given { rounds, t, rho } => at(1, 0, rounds, t, rho),
            Critical::Trial {
                trial,
                rounds,
                t,
                rho,
            } => at(2, trial, rounds, t, rho),
        }
    }
}

/// The rounds after the first of `critical_point_hkm` and `calculate_spinodal`.
const AFTER_FIRST: u64 = 49;
const TRIALS: [f64; 3] = [300.0, 700.0, 500.0];
const TOLERANCE: f64 = 1e-8;

/// Where the trial begins, or that there is none.
fn trial_begins(trial: u64, rho: f64) -> Critical {
    match TRIALS.get(trial as usize) {
        Some(&t) => Critical::Trial {
            trial,
            rounds: AFTER_FIRST,
            t,
            rho,
        },
        None => Critical::Ended(Err(FeosError::NotConverged)),
    }
}

/// Both stability spinodals: the end, or the next evaluation with what is known by then.
enum Both {
    Ended(FeosResult<[f64; 2]>),
    Critical(Critical),
    Vapor {
        critical: f64,
        rounds: u64,
        rho: f64,
    },
    Liquid {
        vapor: f64,
        rounds: u64,
        rho: f64,
    },
}

impl Both {
    fn read(s: &Stored) -> Self {
        let (rounds, [rho, other, _]) = (s.rounds, s.floats);
        match s.stage {
            1 => Both::Critical(Critical::read(s)),
            2 => Both::Vapor {
                critical: other,
                rounds,
                rho,
            },
            _ => Both::Liquid {
                vapor: other,
                rounds,
                rho,
            },
        }
    }

    fn written(self) -> Stored {
        let at = |stage, rounds, rho, other| Stored {
            stage,
            rounds,
            floats: [rho, other, 0.0],
            ..NOTHING
        };
        match self {
            Both::Ended(end) => ended(end.map(|[v, l]| [v, l, 0.0])),
            Both::Critical(search) => Stored {
                stage: 1,
                ..search.written()
            },
            Both::Vapor {
                critical,
                rounds,
                rho,
            } => at(2, rounds, rho, critical),
            Both::Liquid { vapor, rounds, rho } => at(3, rounds, rho, vapor),
        }
    }
}

/// A critical point at a set temperature or pressure, of two or three unknowns: its end, or a round.
enum Binary<const U: usize> {
    Ended(FeosResult<[f64; U]>),
    At { rounds: u64, at: [f64; U] },
}

impl<const U: usize> Binary<U> {
    /// A step's end, or the next round if one is left.
    fn after(rounds: u64, stepped: FeosResult<(bool, [f64; U])>) -> Self {
        match stepped {
            Err(error) => Binary::Ended(Err(error)),
            Ok((true, at)) => Binary::Ended(Ok(at)),
            Ok((false, at)) => match rounds.checked_sub(1) {
                Some(rounds) => Binary::At { rounds, at },
                None => Binary::Ended(Err(FeosError::NotConverged)),
            },
        }
    }

    fn written(self) -> Stored {
        let floats = |at: [f64; U]| std::array::from_fn(|i| at.get(i).copied().unwrap_or(0.0));
        match self {
            Binary::Ended(end) => ended(end.map(floats)),
            Binary::At { rounds, at } => Stored {
                tag: 1,
                rounds,
                floats: floats(at),
                ..NOTHING
            },
        }
    }
}

/// The rounds after the first of `critical_point_binary_t` and `critical_point_binary_p`.
const AFTER_FIRST_BINARY: u64 = 199;
/// Kind 9's starting temperature where none is given.
const BINARY_START: f64 = 300.0;

/// The whole step made shorter where this part of it is longer than `most`.
fn shortened<const U: usize>(delta: [f64; U], part: usize, most: f64) -> [f64; U] {
    let size = delta[part].abs();
    if size > most {
        let factor = most / size;
        delta.map(|d| d * factor)
    } else {
        delta
    }
}

/// What a density search looks for, and from where.
struct Looking {
    pressure: f64,
    start: f64,
}

/// What one `p_dpdrho` leads to.
enum Round {
    Converged(f64),
    Next(f64),
    /// in the unstable region, with the error of the pressure
    Unstable(f64),
}

/// A job's equation of state, and the evaluation that a step makes.
struct Step<'a> {
    job: &'a Job,
    max_density: f64,
    /// the density of the evaluation made, if any
    made: Option<f64>,
}

impl<'a> Step<'a> {
    fn new(job: &'a Job) -> Self {
        Step {
            job,
            max_density: job.eos.compute_max_density(&job.molefracs),
            made: None,
        }
    }

    /// Notes an evaluation at this density. A step makes no second one.
    fn at(&mut self, rho: f64) -> Evaluations {
        assert!(
            self.made.replace(rho).is_none(),
            "two evaluations in a step"
        );
        Evaluations::default()
    }

    // ---- kinds 3 and 4

    fn spinodal_begins(&self, rho: f64) -> Spinodal {
        if rho <= 0.0 {
            Spinodal::Ended(Err(FeosError::InvalidState))
        } else {
            Spinodal::At { rounds: 29, rho }
        }
    }

    /// A round at rho: pressure, density and curvature where it converged, else the next density.
    fn spinodal_at(&mut self, rho: f64) -> FeosResult<Result<[f64; 3], f64>> {
        let (eos, x, t) = (&self.job.eos, &self.job.molefracs, self.job.temperature);
        let (p, dp, d2p) = self.at(rho).p_dpdrho_d2pdrho2(eos, t, rho, x)?;
        if dp.abs() < TOLERANCE {
            return Ok(Ok([p, rho, d2p]));
        }
        let mut delta = -dp / d2p;
        if !delta.is_finite() {
            return Err(FeosError::NotConverged);
        }
        let most = 0.05 * self.max_density;
        if delta.abs() > most {
            delta = most * delta.signum();
        }
        delta = float::max(delta, -rho * 0.95);
        delta = float::min(delta, self.max_density - rho);
        Ok(Err(finite(rho + delta)?))
    }

    fn spinodal_steps(&mut self, rounds: u64, rho: f64) -> Spinodal {
        match self.spinodal_at(rho) {
            Err(error) => Spinodal::Ended(Err(error)),
            Ok(Ok(found)) => Spinodal::Ended(Ok(found)),
            Ok(Err(rho)) => match rounds.checked_sub(1) {
                Some(rounds) => Spinodal::At { rounds, rho },
                None => Spinodal::Ended(Err(FeosError::NotConverged)),
            },
        }
    }

    /// A search that ended on the other branch is refused; the curvature is not handed out.
    fn on_branch(&self, branch: Branch, place: Spinodal) -> Spinodal {
        let Spinodal::Ended(Ok([p, rho, d2p])) = place else {
            return place;
        };
        let right = match branch {
            Branch::Vapor => d2p < 0.0,
            Branch::Liquid => d2p > 0.0,
        };
        Spinodal::Ended(if right {
            Ok([p, rho, 0.0])
        } else {
            Err(FeosError::WrongBranch)
        })
    }

    fn branch_begins(&self, branch: Branch) -> Spinodal {
        let start = match branch {
            Branch::Vapor => 0.001 * self.max_density,
            Branch::Liquid => 0.8 * self.max_density,
        };
        self.on_branch(branch, self.spinodal_begins(start))
    }

    fn branch_steps(&mut self, branch: Branch, rounds: u64, rho: f64) -> Spinodal {
        let place = self.spinodal_steps(rounds, rho);
        self.on_branch(branch, place)
    }

    // ---- kind 1

    fn density_begins(&self, looking: &Looking) -> Density {
        if looking.start <= 0.0 {
            Density::Ended(Err(FeosError::InvalidState))
        } else {
            Density::First
        }
    }

    fn slope_at(&mut self, looking: &Looking, rho: f64) -> FeosResult<Round> {
        let (eos, x, t) = (&self.job.eos, &self.job.molefracs, self.job.temperature);
        let (p, dp) = self.at(rho).p_dpdrho(eos, t, rho, x)?;
        let error = p - looking.pressure;
        if float::is_sign_negative(dp) {
            return Ok(Round::Unstable(error));
        }
        let mut delta = -error / dp;
        let most = 0.075 * self.max_density;
        if delta.abs() > most {
            delta = most * delta.signum();
        }
        delta = float::max(delta, -0.95 * rho);
        let rho = finite(rho + delta)?;
        Ok(if error.abs() < float::max(1e-12, rho * 1e-14) {
            Round::Converged(rho)
        } else {
            Round::Next(rho)
        })
    }

    /// Where the search goes on from after a poor start.
    fn corrected(&self, start: f64) -> f64 {
        if start <= 0.15 * self.max_density {
            0.05 * start
        } else {
            float::min(1.1 * start, self.max_density)
        }
    }

    /// Which way out of the unstable region: 0 to 2 through the nearest spinodal, or 0 and 1 through both.
    fn detour(
        &self,
        looking: &Looking,
        left: u64,
        rho: f64,
        error: f64,
        curvature: f64,
    ) -> Density {
        let below = float::is_sign_negative(error);
        let concave = float::is_sign_negative(curvature);
        let nearest = |way| self.nearest(looking, left, way, self.spinodal_begins(looking.start));
        let both = |way| self.liquid(looking, left, way, self.branch_begins(Branch::Liquid));
        if rho > 0.85 * self.max_density {
            nearest(0)
        } else if !below && !concave {
            nearest(1)
        } else if below && concave {
            nearest(2)
        } else if below {
            both(0)
        } else {
            both(1)
        }
    }

    /// The detour through the nearest spinodal stands here, or leads on from it.
    fn nearest(&self, looking: &Looking, left: u64, way: u64, place: Spinodal) -> Density {
        let (sp_p, sp_rho) = match place {
            Spinodal::At { rounds, rho } => {
                return Density::Nearest {
                    left,
                    way,
                    rounds,
                    rho,
                }
            }
            Spinodal::Ended(Err(error)) => return Density::Ended(Err(error)),
            Spinodal::Ended(Ok([p, rho, _])) => (p, rho),
        };
        let below = float::is_sign_negative(sp_p - looking.pressure);
        let beside = if below {
            float::min(sp_rho * 1.1, self.max_density)
        } else {
            0.001 * self.max_density
        };
        let rho = match way {
            0 if sp_rho > 0.85 * self.max_density => {
                if below {
                    return Density::Ended(Err(FeosError::IterationFailed));
                }
                sp_rho * 0.98
            }
            0 | 1 => beside,
            _ if below => 0.8 * self.max_density,
            _ => sp_rho * 0.8,
        };
        next_round(left, rho)
    }

    /// The detour through both spinodals stands at the liquid's, or goes on to the vapour's.
    fn liquid(&self, looking: &Looking, left: u64, way: u64, place: Spinodal) -> Density {
        match place {
            Spinodal::At { rounds, rho } => Density::Liquid {
                left,
                way,
                rounds,
                rho,
            },
            Spinodal::Ended(Err(error)) => Density::Ended(Err(error)),
            Spinodal::Ended(Ok([_, rho_l, _])) => {
                self.vapor(looking, left, way, rho_l, self.branch_begins(Branch::Vapor))
            }
        }
    }

    fn vapor(
        &self,
        looking: &Looking,
        left: u64,
        way: u64,
        rho_l: f64,
        place: Spinodal,
    ) -> Density {
        let (p, rho_v) = match place {
            Spinodal::At { rounds, rho } => {
                return Density::Vapor {
                    left,
                    way,
                    rounds,
                    rho,
                    rho_l,
                }
            }
            Spinodal::Ended(Err(error)) => return Density::Ended(Err(error)),
            Spinodal::Ended(Ok([p, rho, _])) => (p, rho),
        };
        let below = float::is_sign_negative(p - looking.pressure);
        let from_v = (looking.start - rho_v).abs();
        let from_l = (looking.start - rho_l).abs();
        let to_vapor = match way {
            0 => !below && from_v < from_l,
            _ => !(below && from_v > from_l),
        };
        let rho = if to_vapor {
            0.8 * rho_v
        } else {
            float::min(rho_l * 1.1, self.max_density)
        };
        next_round(left, rho)
    }

    fn density_steps(&mut self, looking: &Looking, place: Density) -> Density {
        match place {
            Density::Ended(end) => Density::Ended(end),
            Density::First => match self.slope_at(looking, looking.start) {
                Err(error) => Density::Ended(Err(error)),
                Ok(Round::Converged(rho)) => Density::Ended(Ok(rho)),
                Ok(Round::Next(rho)) => next_round(49, rho),
                Ok(Round::Unstable(_)) => next_round(50, self.corrected(looking.start)),
            },
            Density::Slope { left, rho } => match self.slope_at(looking, rho) {
                Err(error) => Density::Ended(Err(error)),
                Ok(Round::Converged(rho)) => Density::Ended(Ok(rho)),
                Ok(Round::Next(rho)) => next_round(left, rho),
                Ok(Round::Unstable(error)) => Density::Curvature { left, rho, error },
            },
            Density::Curvature { left, rho, error } => {
                let (eos, x, t) = (&self.job.eos, &self.job.molefracs, self.job.temperature);
                match self.at(rho).p_dpdrho_d2pdrho2(eos, t, rho, x) {
                    Err(error) => Density::Ended(Err(error)),
                    Ok((_, _, d2p)) => self.detour(looking, left, rho, error, d2p),
                }
            }
            Density::Nearest {
                left,
                way,
                rounds,
                rho,
            } => {
                let place = self.spinodal_steps(rounds, rho);
                self.nearest(looking, left, way, place)
            }
            Density::Liquid {
                left,
                way,
                rounds,
                rho,
            } => {
                let place = self.branch_steps(Branch::Liquid, rounds, rho);
                self.liquid(looking, left, way, place)
            }
            Density::Vapor {
                left,
                way,
                rounds,
                rho,
                rho_l,
            } => {
                let place = self.branch_steps(Branch::Vapor, rounds, rho);
                self.vapor(looking, left, way, rho_l, place)
            }
        }
    }

    /// Kind 1's own search.
    fn looking(&self) -> Looking {
        match self.job.choice {
            0 => self.vapor_phase(),
            1 => self.liquid_phase(),
            _ => Looking {
                start: self.job.start,
                ..self.liquid_phase()
            },
        }
    }

    // ---- kind 2

    fn liquid_phase(&self) -> Looking {
        Looking {
            pressure: self.job.pressure,
            start: self.max_density,
        }
    }

    fn vapor_phase(&self) -> Looking {
        Looking {
            pressure: self.job.pressure,
            start: self.job.pressure / self.job.temperature,
        }
    }

    fn after_liquid(&self, place: Density) -> Stable {
        let Density::Ended(liquid) = place else {
            return Stable::LiquidSearch(place);
        };
        if self.job.pressure < self.max_density * self.job.temperature {
            self.after_vapor(liquid, self.density_begins(&self.vapor_phase()))
        } else {
            Stable::Ended(liquid)
        }
    }

    fn after_vapor(&self, liquid: FeosResult<f64>, place: Density) -> Stable {
        let Density::Ended(vapor) = place else {
            return Stable::VaporSearch(liquid, place);
        };
        match (liquid, vapor) {
            (Ok(l), Ok(v)) => Stable::LiquidPotential(l, v),
            (Ok(rho), Err(_)) | (Err(_), Ok(rho)) => Stable::Ended(Ok(rho)),
            (Err(_), Err(_)) => Stable::Ended(Err(FeosError::BothPhasesFailed)),
        }
    }

    fn potential(&mut self, rho: f64) -> FeosResult<f64> {
        let (eos, x, t) = (&self.job.eos, &self.job.molefracs, self.job.temperature);
        self.at(rho).chemical_potential(eos, t, rho, x)
    }

    fn stable_steps(&mut self, place: Stable) -> Stable {
        match place {
            Stable::Ended(end) => Stable::Ended(end),
            Stable::LiquidSearch(search) => {
                let place = self.density_steps(&self.liquid_phase(), search);
                self.after_liquid(place)
            }
            Stable::VaporSearch(liquid, search) => {
                let place = self.density_steps(&self.vapor_phase(), search);
                self.after_vapor(liquid, place)
            }
            Stable::LiquidPotential(l, v) => match self.potential(l) {
                Err(error) => Stable::Ended(Err(error)),
                Ok(mu_l) => Stable::VaporPotential(l, v, mu_l),
            },
            Stable::VaporPotential(l, v, mu_l) => {
                Stable::Ended(
                    self.potential(v)
                        .map(|mu_v| if mu_l > mu_v { v } else { l }),
                )
            }
        }
    }

    // ---- kinds 5 and 7

    fn hkm_at(&mut self, t: f64, rho: f64) -> FeosResult<(bool, f64, f64)> {
        let (eos, x) = (&self.job.eos, &self.job.molefracs);
        let (res, jac) = self.at(rho).criticality(eos, t, rho, x)?;
        let [mut dt, mut drho] = float::solve(jac, res).ok_or(FeosError::IterationFailed)?;
        let most = 0.25 * t;
        if dt.abs() > most {
            let factor = most / dt.abs();
            (dt, drho) = (dt * factor, drho * factor);
        }
        let most = 0.03 * self.max_density;
        if drho.abs() > most {
            let factor = most / drho.abs();
            (dt, drho) = (dt * factor, drho * factor);
        }
        let t = finite(t - dt)?;
        let rho = finite(float::max(rho - drho, 1e-4 * self.max_density))?;
        Ok((float::norm(res) < TOLERANCE, t, rho))
    }

    fn hkm_steps(&mut self, rounds: u64, t: f64, rho: f64) -> Hkm {
        match self.hkm_at(t, rho) {
            Err(error) => Hkm::Ended(Err(error)),
            Ok((true, t, rho)) => Hkm::Ended(Ok([t, rho])),
            Ok((false, t, rho)) => match rounds.checked_sub(1) {
                Some(rounds) => Hkm::At { rounds, t, rho },
                None => Hkm::Ended(Err(FeosError::NotConverged)),
            },
        }
    }

    fn critical_steps(&mut self, start: f64, place: Critical) -> Critical {
        match place {
            Critical::Ended(end) => Critical::Ended(end),
            Critical::Given { rounds, t, rho } => match self.hkm_steps(rounds, t, rho) {
                Hkm::Ended(end) => Critical::Ended(end),
                Hkm::At { rounds, t, rho } => Critical::Given { rounds, t, rho },
            },
            Critical::Trial {
                trial,
                rounds,
                t,
                rho,
            } => match self.hkm_steps(rounds, t, rho) {
                Hkm::Ended(Ok(found)) => Critical::Ended(Ok(found)),
                Hkm::Ended(Err(_)) => trial_begins(trial + 1, start),
                Hkm::At { rounds, t, rho } => Critical::Trial {
                    trial,
                    rounds,
                    t,
                    rho,
                },
            },
        }
    }

    /// Without a given density, and always in kind 6.
    fn usual_start(&self) -> f64 {
        0.3 * self.max_density
    }

    /// The starting density of kinds 5 and 7 to 9.
    fn given_start(&self) -> f64 {
        if self.job.start.to_bits() == 0 {
            self.usual_start()
        } else {
            self.job.start
        }
    }

    // ---- kind 6

    fn after_critical(&self, place: Critical) -> Both {
        match place {
            Critical::Ended(Err(error)) => Both::Ended(Err(error)),
            Critical::Ended(Ok([_, critical])) => Both::Vapor {
                critical,
                rounds: AFTER_FIRST,
                rho: 1e-5 * self.max_density,
            },
            _ => Both::Critical(place),
        }
    }

    fn stability_at(&mut self, rho: f64) -> FeosResult<(bool, f64)> {
        let (eos, x, t) = (&self.job.eos, &self.job.molefracs, self.job.temperature);
        let (f, df) = self.at(rho).stability(eos, t, rho, x)?;
        let mut delta = f / df;
        let most = 0.03 * self.max_density;
        if delta.abs() > most {
            delta *= most / delta.abs();
        }
        let rho = finite(float::max(rho - delta, 1e-4 * self.max_density))?;
        Ok((f.abs() < TOLERANCE, rho))
    }

    /// The density of a spinodal where it converged, else the rounds left and the density to go on from.
    fn stability_steps(&mut self, rounds: u64, rho: f64) -> FeosResult<Result<f64, (u64, f64)>> {
        match self.stability_at(rho)? {
            (true, rho) => Ok(Ok(rho)),
            (false, rho) => match rounds.checked_sub(1) {
                Some(rounds) => Ok(Err((rounds, rho))),
                None => Err(FeosError::SuperCritical),
            },
        }
    }

    fn both_steps(&mut self, place: Both) -> Both {
        match place {
            Both::Ended(end) => Both::Ended(end),
            Both::Critical(search) => {
                let place = self.critical_steps(self.usual_start(), search);
                self.after_critical(place)
            }
            Both::Vapor {
                critical,
                rounds,
                rho,
            } => match self.stability_steps(rounds, rho) {
                Err(error) => Both::Ended(Err(error)),
                Ok(Err((rounds, rho))) => Both::Vapor {
                    critical,
                    rounds,
                    rho,
                },
                Ok(Ok(vapor)) => Both::Liquid {
                    vapor,
                    rounds: AFTER_FIRST,
                    rho: 2.0 * critical - vapor,
                },
            },
            Both::Liquid { vapor, rounds, rho } => match self.stability_steps(rounds, rho) {
                Err(error) => Both::Ended(Err(error)),
                Ok(Err((rounds, rho))) => Both::Liquid { vapor, rounds, rho },
                Ok(Ok(liquid)) => Both::Ended(Ok([vapor, liquid])),
            },
        }
    }

    // ---- kinds 8 and 9

    /// The starting density shared out by the fractions.
    fn partial_start(&self) -> [f64; 2] {
        let (x, rho) = (&self.job.molefracs, self.given_start());
        [x[0] * rho, x[1] * rho]
    }

    fn binary_t_begins(&self) -> Binary<2> {
        Binary::At {
            rounds: AFTER_FIRST_BINARY,
            at: self.partial_start(),
        }
    }

    fn binary_p_begins(&self) -> Binary<3> {
        let [rho0, rho1] = self.partial_start();
        let t = match self.job.temperature {
            t if t.to_bits() == 0 => BINARY_START,
            t => t,
        };
        Binary::At {
            rounds: AFTER_FIRST_BINARY,
            at: [t, rho0, rho1],
        }
    }

    /// A partial density after its step and its floor.
    fn stepped_density(&self, rho: f64, delta: f64) -> FeosResult<f64> {
        finite(float::max(rho - delta, 1e-4 * self.max_density))
    }

    fn binary_t_at(&mut self, rho: [f64; 2]) -> FeosResult<(bool, [f64; 2])> {
        let (eos, t) = (&self.job.eos, self.job.temperature);
        let (res, jac) = self.at(rho[0] + rho[1]).criticality_t(eos, t, rho)?;
        let mut delta = float::solve(jac, res).ok_or(FeosError::IterationFailed)?;
        for part in 0..2 {
            delta = shortened(delta, part, 0.03 * self.max_density);
        }
        let rho0 = self.stepped_density(rho[0], delta[0])?;
        let rho1 = self.stepped_density(rho[1], delta[1])?;
        Ok((float::norm(res) < TOLERANCE, [rho0, rho1]))
    }

    fn binary_p_at(&mut self, [t, rho0, rho1]: [f64; 3]) -> FeosResult<(bool, [f64; 3])> {
        let (eos, p) = (&self.job.eos, self.job.pressure);
        let made = self.at(rho0 + rho1).criticality_p(eos, p, t, [rho0, rho1]);
        let (res, jac) = made?;
        let mut delta = float::solve_three(jac, res).ok_or(FeosError::IterationFailed)?;
        delta = shortened(delta, 0, 0.25 * t);
        for part in 1..3 {
            delta = shortened(delta, part, 0.03 * self.max_density);
        }
        let t = finite(t - delta[0])?;
        let rho0 = self.stepped_density(rho0, delta[1])?;
        let rho1 = self.stepped_density(rho1, delta[2])?;
        Ok((float::norm(res) < TOLERANCE, [t, rho0, rho1]))
    }
}

fn spinodal_written(place: Spinodal) -> Stored {
    match place {
        Spinodal::Ended(end) => ended(end),
        Spinodal::At { rounds, rho } => Stored {
            tag: 1,
            rounds,
            floats: [rho, 0.0, 0.0],
            ..NOTHING
        },
    }
}

fn branch_of(job: &Job) -> Branch {
    match job.choice {
        0 => Branch::Vapor,
        _ => Branch::Liquid,
    }
}

/// The numbers before a job's first evaluation; a job that its data refuse is at its end.
pub fn start(job: &Result<Job, u64>) -> Stored {
    let job = match job {
        Ok(job) => job,
        Err(refusal) => {
            return Stored {
                status: *refusal,
                ..NOTHING
            }
        }
    };
    let step = Step::new(job);
    match job.kind {
        1 => step.density_begins(&step.looking()).written(),
        2 => step
            .after_liquid(step.density_begins(&step.liquid_phase()))
            .written(),
        3 => spinodal_written(step.spinodal_begins(job.start)),
        4 => spinodal_written(step.branch_begins(branch_of(job))),
        5 | 7 => {
            let rho = step.given_start();
            let place = if job.temperature.to_bits() == 0 {
                trial_begins(0, rho)
            } else {
                Critical::Given {
                    rounds: AFTER_FIRST,
                    t: job.temperature,
                    rho,
                }
            };
            place.written()
        }
        6 => step
            .after_critical(trial_begins(0, step.usual_start()))
            .written(),
        8 => step.binary_t_begins().written(),
        _ => step.binary_p_begins().written(),
    }
}

/// One evaluation from the stored numbers, or none where they are an end.
pub fn step(job: &Result<Job, u64>, stored: &Stored) -> Stored {
    let Ok(job) = job else {
        return *stored;
    };
    let at_end = match job.kind {
        2 | 6 => stored.stage == 0,
        _ => stored.tag == 0,
    };
    if at_end {
        return *stored;
    }
    let mut step = Step::new(job);
    let (rounds, rho) = (stored.rounds, stored.floats[0]);
    let next = match job.kind {
        1 => {
            let looking = step.looking();
            step.density_steps(&looking, Density::read(stored))
                .written()
        }
        2 => step.stable_steps(Stable::read(stored)).written(),
        3 => spinodal_written(step.spinodal_steps(rounds, rho)),
        4 => spinodal_written(step.branch_steps(branch_of(job), rounds, rho)),
        5 | 7 => {
            let start = step.given_start();
            step.critical_steps(start, Critical::read(stored)).written()
        }
        6 => step.both_steps(Both::read(stored)).written(),
        8 => {
            let [rho0, rho1, _] = stored.floats;
            Binary::after(rounds, step.binary_t_at([rho0, rho1])).written()
        }
        _ => Binary::after(rounds, step.binary_p_at(stored.floats)).written(),
    };
    Stored {
        evaluations: stored.evaluations.wrapping_add(1),
        latest: step.made.expect("an evaluation"),
        ..next
    }
}
