//! Random requests from a seed: real blends in ordinary and odd states, damaged blocks, and extremes of the range.

use crate::block::{adds_up, lengths, sum_of, BLOCK, KINDS, REQUEST};
use crate::critical_point::matrix;
use crate::cubic::{PengRobinson, PengRobinsonRecord};
use crate::density_iteration::{_pressure_spinodal, _pressure_spinodal_branch};
use crate::evaluations::Evaluations;
use crate::jet::Jet16;
use crate::random::{blend, blend_of_two, blend_on_line, make_alike, Blend, Rng};
use crate::residual::plain;
use crate::state::DensityInitialization::{Liquid, Vapor};

/// One Pascal in K per cubic angstrom.
const PASCAL: f64 = 1.0 / 13806490.0;

/// The least and the greatest sum of fractions that 17 lets pass: floats are 2^-53 apart below 1 and 2^-52 above.
pub const LEAST_SUM: f64 = 1.0 - 9007199.0 / 9007199254740992.0;
pub const GREATEST_SUM: f64 = 1.0 + 4503599.0 / 4503599627370496.0;

/// A request before it is written into bytes.
#[derive(Clone, Debug)]
pub struct Draft {
    pub kind: u8,
    pub n: usize,
    pub blend: Blend,
    pub choice: u64,
    pub temperature: f64,
    pub pressure: f64,
    pub start: f64,
    pub scale: Scale,
}

/// What the search will see: the blend, or in kinds 5 and 6 the chosen component.
struct Seen {
    eos: PengRobinson,
    x: Vec<f64>,
    max_density: f64,
    /// mean of the critical temperatures
    tc: f64,
    scale: Scale,
}

/// Units of temperature and density. The equation looks the same in any, the tolerances of the searches do not.
#[derive(Clone, Copy, Debug)]
pub struct Scale {
    temperature: f64,
    density: f64,
}

impl Scale {
    pub const ONE: Scale = Scale {
        temperature: 1.0,
        density: 1.0,
    };

    fn random(rng: &mut Rng) -> Self {
        if rng.once_in(5) {
            Scale {
                temperature: rng.log_between(1e-18, 1e3),
                density: rng.log_between(1e-6, 1e15),
            }
        } else {
            Scale::ONE
        }
    }

    /// One Pascal.
    fn pascal(&self) -> f64 {
        PASCAL * self.temperature * self.density
    }
}

impl Draft {
    fn seen(&self) -> Seen {
        let eos = PengRobinson::new(&self.blend.coefficients, &self.blend.interactions);
        let (eos, x) = if self.is_pure() {
            (eos.subset(self.choice as usize % self.n), vec![1.0])
        } else {
            (eos, self.blend.fractions.clone())
        };
        let max_density = eos.compute_max_density(&x);
        let tc = x.iter().zip(&eos.tc).map(|(x, tc)| x * tc).sum();
        Seen {
            eos,
            x,
            max_density,
            tc,
            scale: self.scale,
        }
    }

    /// Of one component; the fractions are not read.
    fn is_pure(&self) -> bool {
        self.kind == 5 || self.kind == 6
    }

    fn uses_pressure(&self) -> bool {
        matches!(self.kind, 1 | 2 | 9)
    }

    fn uses_start(&self) -> bool {
        matches!(self.kind, 3 | 5 | 7 | 8 | 9) || (self.kind == 1 && self.choice == 2)
    }

    fn uses_choice(&self) -> bool {
        matches!(self.kind, 1 | 4 | 5 | 6)
    }
}

fn temperature(rng: &mut Rng, seen: &Seen) -> f64 {
    match rng.below(8) {
        0 => seen.tc * rng.between(0.98, 1.02),
        1 => seen.tc * rng.between(0.05, 0.5),
        2 | 3 => seen.tc * rng.between(0.4, 1.0),
        4 => seen.tc * rng.between(1.0, 2.0),
        _ => seen.scale.temperature * rng.between(50.0, 900.0),
    }
}

/// A density on the spinodal that a search from a random start or of a branch finds.
fn on_spinodal(rng: &mut Rng, seen: &Seen, t: f64) -> Option<(f64, f64)> {
    let mut evals = Evaluations::default();
    let found = match rng.below(3) {
        0 => _pressure_spinodal_branch(&seen.eos, t, &seen.x, Vapor, &mut evals),
        1 => _pressure_spinodal_branch(&seen.eos, t, &seen.x, Liquid, &mut evals),
        _ => {
            let start = seen.max_density * rng.unit();
            _pressure_spinodal(&seen.eos, t, start, &seen.x, &mut evals).map(|(p, rho, _)| (p, rho))
        }
    };
    found.ok()
}

fn pressure(rng: &mut Rng, seen: &Seen, t: f64) -> f64 {
    let limit = seen.max_density * t;
    let pascal = seen.scale.pascal();
    match rng.below(16) {
        0 => 0.0,
        1 => -0.0,
        2 => -rng.log_between(1.0, 1e9) * pascal,
        // where the stable search stops looking for a vapour
        3 => limit,
        4 => limit * rng.between(0.9, 1.5),
        // at and around a spinodal's pressure
        5 | 6 => match on_spinodal(rng, seen, t) {
            Some((p, _)) => p * rng.pick(&[1.0, 0.999, 1.001, 0.9, 1.1]),
            None => rng.between(0.0, 1.0) * limit,
        },
        7 => rng.log_between(1e8, 1e12) * pascal,
        8 => rng.log_between(1e-6, 1.0) * pascal,
        9 => rng.pick(&[5e-324, 1e-300, 1e300, f64::MAX, f64::MIN, 1e100]),
        _ => rng.log_between(1e2, 1e8) * pascal,
    }
}

fn start(rng: &mut Rng, seen: &Seen, t: f64) -> f64 {
    let max = seen.max_density;
    match rng.below(20) {
        0 => 0.0,
        1 => -0.0,
        2 => -max * rng.unit(),
        3 => max,
        4 => max * rng.pick(&[0.15, 0.85, 0.3, 0.9, 0.05, 0.001, 1e-4, 1.0 / 1.1]),
        // at and beyond the packing limit 1/b
        5 => max * rng.between(1.0, 1.2),
        6 => max * rng.between(1.11, 4.0),
        7 => rng.pick(&[5e-324, 1e-320, 1e-300, 1e-200, 1e-30]),
        8 => rng.pick(&[1e10, 1e100, 1e300, f64::MAX, f64::MIN]),
        9..=11 => match on_spinodal(rng, seen, t) {
            Some((_, rho)) => rho * rng.pick(&[1.0, 1.0, 0.99, 1.01, 0.9, 1.1]),
            None => max * rng.unit(),
        },
        12 => max * rng.log_between(1e-9, 1.0),
        _ => max * rng.unit(),
    }
}

/// A temperature for a point of the critical line: between the pure critical temperatures and beyond them.
fn line_temperature(rng: &mut Rng, seen: &Seen) -> f64 {
    let (low, high) = (
        seen.eos.tc[0].min(seen.eos.tc[1]),
        seen.eos.tc[0].max(seen.eos.tc[1]),
    );
    match rng.below(12) {
        // at the ends and beside them
        0 => rng.pick(&[low, high]) * rng.pick(&[1.0, 0.999, 1.001, 0.99, 1.01]),
        1 => rng.between(0.5 * low, low),
        2 => rng.between(high, 1.5 * high),
        3 => temperature(rng, seen),
        _ => rng.between(low, high),
    }
}

/// A pressure for a point of the critical line: around the pure critical pressures, and as other kinds have them.
fn line_pressure(rng: &mut Rng, seen: &Seen, records: &[PengRobinsonRecord], t: f64) -> f64 {
    let [first, second] = [0, 1].map(|i| records[i].pc * PASCAL);
    match rng.below(12) {
        // maxima of the line lie above both ends
        0 | 1 => first.max(second) * rng.between(1.0, 3.0),
        2 => first.min(second) * rng.between(0.1, 1.0),
        3 => rng.pick(&[first, second]) * rng.pick(&[1.0, 0.999, 1.001]),
        4 | 5 => pressure(rng, seen, t),
        _ => rng.between(first, second),
    }
}

fn scale(fractions: &mut [f64], factor: f64) {
    for x in fractions {
        *x *= factor;
    }
}

/// Changes the largest fraction until the sum is the target, or next to it where rounding leaves none closer.
fn add_up_to(fractions: &mut [f64], target: f64) {
    let by_size = |&i: &usize, &j: &usize| fractions[i].total_cmp(&fractions[j]);
    let largest = (0..fractions.len()).max_by(by_size).unwrap_or_default();
    for _ in 0..20 {
        fractions[largest] += target - sum_of(fractions);
    }
}

/// A sum at the limit of 17, or a step inside or outside it.
fn at_limit(rng: &mut Rng, fractions: &mut [f64]) {
    let target = rng.pick(&[
        LEAST_SUM,
        LEAST_SUM.next_down(),
        LEAST_SUM.next_up(),
        GREATEST_SUM,
        GREATEST_SUM.next_up(),
        GREATEST_SUM.next_down(),
    ]);
    add_up_to(fractions, target);
}

/// Fractions that add up in ascending order and not in descending order, or the other way round; N of 3 or more.
fn at_limit_by_order(rng: &mut Rng, fractions: &mut [f64]) {
    for _ in 0..200 {
        fractions.fill_with(|| rng.between(0.01, 1.0));
        let sum = sum_of(fractions);
        scale(fractions, 1.0 / sum);
        at_limit(rng, fractions);
        let reversed: Vec<f64> = fractions.iter().rev().copied().collect();
        if adds_up(sum_of(fractions)) != adds_up(sum_of(&reversed)) {
            return;
        }
    }
}

/// A blend in a state that the equation of state is made for, or in an odd one.
fn ordinary(rng: &mut Rng) -> Draft {
    let kind = 1 + rng.below(KINDS as usize) as u8;
    ordinary_of(rng, kind)
}

fn ordinary_of(rng: &mut Rng, kind: u8) -> Draft {
    let n = match rng.below(3) {
        _ if kind >= 7 => 2,
        0 => 1,
        1 => 1 + rng.below(3),
        _ => 1 + rng.below(8),
    };
    let mut draft = Draft {
        kind,
        n,
        blend: match kind {
            7 => blend_of_two(rng),
            8 | 9 => blend_on_line(rng),
            _ => blend(rng, n),
        },
        choice: 0,
        temperature: 0.0,
        pressure: 0.0,
        start: 0.0,
        scale: Scale::random(rng),
    };
    for record in &mut draft.blend.coefficients {
        record.tc *= draft.scale.temperature;
        record.pc *= draft.scale.temperature * draft.scale.density;
    }
    if rng.once_in(8) {
        // 1 only within what 17 allows
        let sum = rng.between(1.0 - 9.9e-10, 1.0 + 9.9e-10);
        scale(&mut draft.blend.fractions, sum);
    }
    draft.choice = match kind {
        1 => rng.below(3) as u64,
        4 => rng.below(2) as u64,
        _ => rng.below(n) as u64,
    };
    let seen = draft.seen();
    draft.temperature = temperature(rng, &seen);
    draft.pressure = pressure(rng, &seen, draft.temperature);
    draft.start = start(rng, &seen, draft.temperature);
    if kind >= 8 {
        draft.temperature = line_temperature(rng, &seen);
        let records = &draft.blend.coefficients;
        draft.pressure = line_pressure(rng, &seen, records, draft.temperature);
        if rng.once_in(2) {
            // near what a search without a start begins with
            draft.start = seen.max_density * rng.between(0.2, 0.4);
        }
    }
    if kind == 5 || kind >= 7 {
        if kind != 8 && rng.once_in(2) {
            draft.temperature = 0.0;
        }
        if rng.once_in(2) {
            draft.start = 0.0;
        }
    }
    draft
}

/// The mixed entry of the matrix of two components.
fn mixed_entry(eos: &PengRobinson, x: &[f64], t: f64, rho: f64) -> f64 {
    let x = plain(x);
    let sqrt_z: Vec<Jet16> = x.iter().map(|x| x.sqrt()).collect();
    matrix(eos, Jet16::from(t), Jet16::from(rho).recip(), &x, &sqrt_z)[0][1].re()
}

/// The same at partial densities, whose sum and fractions come with their own rounding.
pub(crate) fn mixed_entry_at(eos: &PengRobinson, t: f64, rho: [f64; 2]) -> f64 {
    let density = rho[0] + rho[1];
    mixed_entry(eos, &rho.map(|rho| rho / density), t, density)
}

/// Temperature and density at which the mixed entry of the matrix of two components is exactly 0, where they are found among
/// this temperature and the floats after it, as many as told. The density is a start of kinds 8 and 9 where `in_parts`.
pub(crate) fn uncoupled_state(
    eos: &PengRobinson,
    x: &[f64],
    t: f64,
    temperatures: usize,
    in_parts: bool,
) -> Option<(f64, f64)> {
    let max_density = eos.compute_max_density(x);
    let mixed = |t: f64, rho: f64| {
        if in_parts {
            mixed_entry_at(eos, t, [x[0] * rho, x[1] * rho])
        } else {
            mixed_entry(eos, x, t, rho)
        }
    };
    // attraction prevails at the lower density, repulsion near the packing limit 1/b
    let [mut low, mut high] = [1e-3, 1.1].map(|part| part * max_density);
    if !(mixed(t, low) < 0.0 && mixed(t, high) > 0.0) {
        return None;
    }
    for t in (t.to_bits()..).take(temperatures).map(f64::from_bits) {
        while low.next_up() < high {
            let middle = f64::from_bits(low.to_bits().midpoint(high.to_bits()));
            if mixed(t, middle) < 0.0 {
                low = middle;
            } else {
                high = middle;
            }
        }
        // rounding alone decides here
        let near = high.to_bits();
        let mut around = (near - 8..near + 8).map(f64::from_bits);
        if let Some(rho) = around.find(|&rho| mixed(t, rho) == 0.0) {
            return Some((t, rho));
        }
        [low, high] = [near - 100, near + 100].map(f64::from_bits);
    }
    None
}

/// A critical point whose first evaluation finds the mixed entry exactly 0.
fn uncoupled(rng: &mut Rng, kind: u8) -> Draft {
    let mut draft = ordinary_of(rng, kind);
    let seen = draft.seen();
    // the temperature of a search without one, or a given one
    let (given, t, temperatures) = match rng.below(4) {
        0 if kind != 8 => (false, 300.0, 1),
        _ => (true, seen.tc * rng.between(0.5, 1.5), 20),
    };
    if let Some((t, rho)) = uncoupled_state(&seen.eos, &seen.x, t, temperatures, kind != 7) {
        draft.temperature = if given { t } else { 0.0 };
        draft.start = rho;
    }
    draft
}

/// A critical point of two components with the same coefficients.
fn alike(rng: &mut Rng, kind: u8) -> Draft {
    let mut draft = ordinary_of(rng, kind);
    make_alike(rng, &mut draft.blend);
    draft
}

/// Numbers far from any fluid, as far as the data checks let them pass and beyond.
fn extreme(rng: &mut Rng) -> Draft {
    let mut draft = ordinary(rng);
    for _ in 0..1 + rng.below(3) {
        let i = rng.below(draft.n);
        let record = &mut draft.blend.coefficients[i];
        match rng.below(13) {
            0 => record.tc = rng.log_between(1e-150, 1e150),
            1 => record.pc = rng.log_between(1e-290, 1e290),
            2 => record.tc = rng.log_between(1e-3, 1e6),
            3 => record.pc = rng.log_between(1e-3, 1e15),
            4 => record.acentric_factor = rng.between(-20.0, 20.0),
            5 => record.acentric_factor = rng.any_finite(),
            6 => draft.temperature = rng.log_between(1e-308, 1e308),
            7 => draft.temperature = rng.log_between(1e-3, 1e6),
            8 => {
                // all co-volumes by the same factor, the conditions with them or not
                let factor = rng.log_between(1e-290, 1e290);
                for record in &mut draft.blend.coefficients {
                    record.pc *= factor;
                }
                if rng.once_in(2) {
                    draft.pressure *= factor;
                    draft.start *= factor;
                }
            }
            9 => {
                // one component with traces of the others, at most 7e-10 of them
                let trace = rng.log_between(1e-320, 1e-10);
                draft.blend.fractions.fill(trace);
                draft.blend.fractions[i] = 1.0;
            }
            10 => draft.pressure = rng.any_finite(),
            11 => draft.start = rng.any_finite(),
            _ => {
                for k in &mut draft.blend.interactions {
                    *k = rng.pick(&[1.0, 2.0, -1.0, 1e3, -1e300, 1e300]);
                }
            }
        }
    }
    draft
}

/// Far below the critical temperature, where searches go through one spinodal after the other.
fn cold(rng: &mut Rng) -> Draft {
    let mut draft = ordinary(rng);
    if rng.once_in(2) {
        draft.kind = rng.pick(&[1, 2]);
        draft.choice = rng.below(3) as u64;
    }
    if rng.once_in(3) {
        let i = rng.below(draft.n);
        draft.blend.coefficients[i].acentric_factor = rng.between(-3.0, 3.0);
    }
    let seen = draft.seen();
    draft.temperature = seen.tc * rng.log_between(1e-3, 0.6);
    draft.pressure = pressure(rng, &seen, draft.temperature);
    draft.start = start(rng, &seen, draft.temperature);
    if rng.once_in(4) {
        draft.pressure = seen.max_density * draft.temperature * rng.log_between(0.1, 1e4);
    }
    if rng.once_in(4) {
        // the liquid spinodal lies at or beyond the maximum density, the start below it
        (draft.kind, draft.choice) = (1, 2);
        draft.temperature = seen.tc * rng.between(0.03, 0.2);
        draft.start = seen.max_density * rng.between(0.5, 0.8);
    }
    draft
}

/// A start on a spinodal, with slope exactly 0 where one is near, and the pressure that belongs to it.
fn flat(rng: &mut Rng) -> Draft {
    let mut draft = ordinary(rng);
    draft.kind = rng.pick(&[1, 1, 3]);
    draft.choice = 2;
    let seen = draft.seen();
    draft.temperature = seen.tc * rng.between(0.4, 0.99);
    let t = draft.temperature;
    let Some((p, rho)) = on_spinodal(rng, &seen, t) else {
        return draft;
    };
    (draft.pressure, draft.start) = (p, rho);
    let bits = rho.to_bits();
    for near in bits.saturating_sub(60)..bits + 60 {
        let rho = f64::from_bits(near);
        let (_, p, dp_drho) = seen.eos.p_dpdrho(t, rho, &seen.x);
        if dp_drho == 0.0 {
            (draft.pressure, draft.start) = (p, rho);
        }
    }
    draft
}

/// Energies so small that every slope passes as 0: the branches then are where their searches begin, and the start
/// lies halfway between them.
fn faint(rng: &mut Rng) -> Draft {
    let mut draft = ordinary(rng);
    draft.kind = 1;
    draft.choice = 2;
    let smaller = rng.log_between(1e-18, 1e-9) / draft.scale.temperature;
    for record in &mut draft.blend.coefficients {
        record.tc *= smaller;
        record.pc *= smaller * 1e12;
    }
    let seen = draft.seen();
    draft.temperature = seen.tc * rng.between(0.1, 0.99);
    draft.start = (0.8 * seen.max_density + 0.001 * seen.max_density) * 0.5;
    draft.pressure = seen.max_density * draft.temperature * rng.between(-2.0, 0.5);
    draft
}

/// So hot that a potential overflows where pressure and slope do not: for a narrow range of co-volumes and temperatures.
fn hot(rng: &mut Rng) -> Draft {
    let mut draft = ordinary(rng);
    draft.kind = 2;
    let covolume = rng.between(0.5, 30.0);
    for record in &mut draft.blend.coefficients {
        // kappa is exactly 0 here, so that the attraction does not depend on the temperature
        record.acentric_factor = -0.23338349942403006;
        record.pc = 0.0778 * record.tc / (covolume * PASCAL);
    }
    if rng.once_in(2) {
        // or that the derivatives by temperature are rounding errors and the step overflows
        draft.kind = if draft.n == 2 && rng.once_in(2) { 7 } else { 5 };
        draft.choice = rng.below(draft.n) as u64;
        draft.temperature = rng.log_between(1e280, 1e306);
        draft.start = 0.0;
        if draft.kind == 5 && rng.once_in(8) {
            // here the second pivot of the critical step is 0 and the first is not
            let i = draft.choice as usize;
            let record = &mut draft.blend.coefficients[i];
            (record.tc, record.pc) = (369.83, 4248000.0);
            draft.temperature = 7.888680658552583e279;
            draft.start = 2.1535135699266495e-18;
        }
        return draft;
    }
    draft.temperature = rng.between(1.2e306, 1.77e306);
    let seen = draft.seen();
    let rho = seen.max_density * rng.log_between(1e-62, 1e-43);
    // the search has to meet this pressure exactly
    let (_, p, _) = seen.eos.p_dpdrho(draft.temperature, rho, &seen.x);
    draft.pressure = if p.is_finite() { p } else { 1e300 };
    draft
}

/// A number that no check of a positive quantity lets pass.
fn bad(rng: &mut Rng) -> f64 {
    rng.pick(&[
        0.0,
        -0.0,
        -1.0,
        f64::NAN,
        f64::INFINITY,
        f64::NEG_INFINITY,
        -5e-324,
        f64::from_bits(0xFFF8_0000_0000_0001),
        f64::from_bits(0x7FF0_0000_0000_0001),
    ])
}

/// Puts a fault for the refusal into the draft; 11 is put into the bytes.
pub fn damage(rng: &mut Rng, draft: &mut Draft, refusal: u8) {
    let i = rng.below(draft.n);
    match refusal {
        12 => {
            let record = &mut draft.blend.coefficients[i];
            match rng.below(7) {
                0 | 1 => record.tc = bad(rng),
                2 | 3 => record.pc = bad(rng),
                4 => record.acentric_factor = rng.pick(&[f64::NAN, f64::INFINITY, 1e160, -1e200]),
                // a or b of 0 or infinite
                5 => record.tc = rng.pick(&[5e-324, 1e-200, 1e200, f64::MAX]),
                _ => record.pc = rng.pick(&[5e-324, 1e-305, f64::MAX]),
            }
        }
        13 if !draft.blend.interactions.is_empty() => {
            let i = rng.below(draft.blend.interactions.len());
            draft.blend.interactions[i] = rng.pick(&[f64::NAN, f64::INFINITY, f64::NEG_INFINITY]);
        }
        14 if draft.n > 1 && rng.once_in(2) => {
            // the sum stays as it is
            let negative = rng.pick(&[-0.0, -0.1, -5e-324]);
            let fractions = &mut draft.blend.fractions;
            fractions[(i + 1) % draft.n] += fractions[i] - negative;
            fractions[i] = negative;
        }
        14 => {
            draft.blend.fractions[i] = rng.pick(&[
                -0.0,
                -0.1,
                -5e-324,
                f64::NAN,
                f64::INFINITY,
                f64::NEG_INFINITY,
            ]);
        }
        15 => match rng.below(4) {
            0 if draft.uses_pressure() => draft.pressure = rng.pick(&[f64::NAN, f64::INFINITY]),
            1 if draft.uses_start() => draft.start = rng.pick(&[f64::NAN, f64::NEG_INFINITY]),
            _ => draft.temperature = bad(rng),
        },
        16 if draft.uses_choice() && !rng.once_in(3) => {
            let limit = match draft.kind {
                1 => 3,
                4 => 2,
                _ => draft.n as u64,
            };
            let far = rng.bits();
            draft.choice = rng.pick(&[limit, limit + 1, 1 << 32, 1 << 63, u64::MAX, far]);
        }
        16 if !draft.is_pure() && rng.once_in(2) => too_large(rng, &mut draft.blend),
        16 => too_small(rng, &mut draft.blend),
        17 => spoil_sum(rng, &mut draft.blend.fractions),
        _ => {}
    }
}

/// Co-volumes so small that the maximum density overflows, or nearly so; a and b stay above 0.
fn too_small(rng: &mut Rng, blend: &mut Blend) {
    for record in &mut blend.coefficients {
        record.tc = rng.log_between(1e-7, 5e-7);
        record.pc = rng.log_between(1e308, 1.7e308);
    }
}

/// Co-volumes just below the end of the range: with fractions that add up to a little more than 1 theirs overflows, and
/// the maximum density is 0.
fn too_large(rng: &mut Rng, blend: &mut Blend) {
    let covolume = f64::MAX * (1.0 - 4e-10);
    for record in &mut blend.coefficients {
        record.pc = rng.log_between(1e-306, 5e-304);
        record.tc = covolume / (0.0778 / PASCAL) * record.pc;
    }
    add_up_to(&mut blend.fractions, 1.0 + 9e-10);
}

/// Fractions that do not add up, or only just.
fn spoil_sum(rng: &mut Rng, fractions: &mut [f64]) {
    let i = rng.below(fractions.len());
    match rng.below(8) {
        0 | 1 => at_limit(rng, fractions),
        2 if fractions.len() > 2 => at_limit_by_order(rng, fractions),
        2 | 3 => {
            let off = rng.pick(&[1e-8, 5e-9, 1e-10]);
            scale(fractions, 1.0 + rng.pick(&[off, -off]));
        }
        // percentages, per mille, and worse
        4 | 5 => scale(
            fractions,
            rng.pick(&[100.0, 1000.0, 0.01, 1e6, 1e300, 1e-300]),
        ),
        6 => fractions.fill(rng.pick(&[0.0, 1.0, f64::MAX])),
        // one missing, or too much of one
        _ => fractions[i] = rng.pick(&[0.0, 1.0, 100.0, f64::MAX]),
    }
}

/// Fills what the kind does not read with anything.
fn fill_unused(rng: &mut Rng, draft: &mut Draft) {
    if !draft.uses_choice() && rng.once_in(2) {
        draft.choice = rng.bits();
    }
    if !draft.uses_pressure() && rng.once_in(2) {
        draft.pressure = if rng.once_in(2) {
            rng.special()
        } else {
            f64::from_bits(rng.bits())
        };
    }
    if !draft.uses_start() && rng.once_in(2) {
        draft.start = rng.pick(&[f64::NAN, f64::INFINITY, -1.0, 0.0]);
    }
    if draft.is_pure() && rng.once_in(3) {
        for x in &mut draft.blend.fractions {
            *x = f64::from_bits(rng.bits());
        }
    }
}

impl Draft {
    /// The bytes, parts at random distances, anything between them.
    pub fn to_bytes(&self, rng: &mut Rng) -> [u8; REQUEST] {
        let mut request = [0; REQUEST];
        (request[0], request[1]) = (self.kind, self.n as u8);
        let block = &mut request[2..];
        if rng.once_in(2) {
            block.fill_with(|| rng.bits() as u8);
        }
        let mut spare = BLOCK - 16 - lengths(self.n).iter().sum::<usize>();
        let mut at = 16;
        let words: [Vec<u64>; 4] = [
            self.blend
                .coefficients
                .iter()
                .flat_map(|r| [r.tc, r.pc, r.acentric_factor].map(f64::to_bits))
                .collect(),
            self.blend
                .interactions
                .iter()
                .map(|k| k.to_bits())
                .collect(),
            self.blend.fractions.iter().map(|x| x.to_bits()).collect(),
            vec![
                self.choice,
                self.temperature.to_bits(),
                self.pressure.to_bits(),
                self.start.to_bits(),
            ],
        ];
        let shape = rng.below(4);
        for (i, part) in words.iter().enumerate() {
            let gap = match shape {
                // packed, at the end, or spread
                0 | 1 => 0,
                2 if i == 3 => spare,
                2 => 0,
                _ => rng.below(spare + 1),
            };
            spare -= gap;
            at += gap;
            block[4 * i..4 * i + 2].copy_from_slice(&(at as u16).to_le_bytes());
            block[4 * i + 2..4 * i + 4].copy_from_slice(&(8 * part.len() as u16).to_le_bytes());
            for word in part {
                block[at..at + 8].copy_from_slice(&word.to_le_bytes());
                at += 8;
            }
        }
        request
    }
}

/// Spoils one of the pairs.
fn damage_pairs(rng: &mut Rng, request: &mut [u8; REQUEST]) {
    let pair = rng.below(4);
    let number = rng.below(2);
    let at = 2 + 4 * pair + 2 * number;
    let old = u16::from_le_bytes([request[at], request[at + 1]]);
    let new = match rng.below(6) {
        0 => old.wrapping_add(1),
        1 => old.wrapping_sub(1),
        2 => old.wrapping_add(8),
        3 => rng.pick(&[0, 15, 16, 608, 609, 639, 640, 641, 65535]),
        4 => rng.bits() as u16,
        _ => {
            if rng.once_in(2) {
                request[2..18].fill(0);
            } else {
                request[2..18].fill_with(|| rng.bits() as u8);
            }
            return;
        }
    };
    request[at..at + 2].copy_from_slice(&new.to_le_bytes());
}

/// The next request of the sequence.
pub fn request(rng: &mut Rng) -> [u8; REQUEST] {
    let theme = rng.below(100);
    let mut draft = match theme {
        0..=17 => extreme(rng),
        18..=27 => cold(rng),
        28 => hot(rng),
        29 => flat(rng),
        30 => faint(rng),
        31 => uncoupled(rng, 7),
        32 => alike(rng, 7),
        33 => {
            let kind = rng.pick(&[8, 9]);
            uncoupled(rng, kind)
        }
        34 => {
            let kind = rng.pick(&[8, 9]);
            alike(rng, kind)
        }
        _ => ordinary(rng),
    };
    fill_unused(rng, &mut draft);
    let faults: Vec<u8> = match theme {
        87 => vec![17],
        88..=95 => vec![11 + rng.below(7) as u8],
        96..=97 => (0..2 + rng.below(3))
            .map(|_| 11 + rng.below(7) as u8)
            .collect(),
        _ => vec![],
    };
    for &refusal in &faults {
        damage(rng, &mut draft, refusal);
    }
    let mut request = draft.to_bytes(rng);
    if faults.contains(&11) {
        damage_pairs(rng, &mut request);
    }
    if theme == 99 {
        match rng.below(6) {
            0 => request[0] = rng.pick(&[0, 10, 11, 16, 255]),
            1 => request[1] = rng.pick(&[0, 9, 10, 255]),
            2 => (request[0], request[1]) = (rng.pick(&[0, 10]), rng.pick(&[0, 9])),
            // a kind of two components with the block and N of another kind, or with another N
            3 => request[0] = rng.pick(&[7, 8, 9]),
            4 => {
                request[0] = rng.pick(&[7, 8, 9]);
                request[1] = rng.pick(&[0, 1, 3, 4, 8, 9, 255]);
            }
            // another N than the block was made for
            _ => request[1] = 1 + rng.below(8) as u8,
        }
    }
    request
}

/// Requests from a seed.
pub fn requests(seed: u64, count: usize) -> impl Iterator<Item = [u8; REQUEST]> {
    let mut rng = Rng::new(seed);
    (0..count).map(move |_| request(&mut rng))
}
