//! Random evaluations of the linked library beside the oracle's, bit by bit, all NaNs being one value (document 01). Half of
//! them are ordinary; in the other half numbers of the blend or state are odd. The digest tells two builds apart.
use crate::blends::{yielded, Blend, Evaluation, Reads, Rows, State, EVALUATIONS};
use oracle::random::{blend, Rng};
use oracle::{float, vectors, PengRobinson};
use std::process::ExitCode;

/// Differences that are printed.
const SHOWN: u64 = 5;

struct Case {
    blend: Blend,
    state: State,
}

/// A blend of real fluids with a temperature and a density up to its maximum; for an evaluation of the first component alone, up to
/// that of this component, which is there. Partial densities are mostly in the ratio of the fractions.
fn ordinary(rng: &mut Rng, evaluation: &Evaluation) -> (Rows, State) {
    let partial = evaluation.reads != Reads::Density;
    let n = if partial { 2 } else { 1 + rng.below(8) };
    let alone = (evaluation.of)(8) == 1 && (evaluation.of)(n) == 1;
    let blend = blend(rng, n);
    let eos = PengRobinson::new(&blend.coefficients, &blend.interactions);
    let max_density = eos.compute_max_density(if alone { &[1.0] } else { &blend.fractions });
    let temperature = eos.tc[0] * rng.between(0.3, 2.0);
    let density = max_density * if rng.once_in(2) { rng.between(0.01, 1.0) } else { rng.log_between(1e-9, 1.0) };
    let mut rows = Rows::of(&eos, &blend.fractions);
    if alone && (rows.x[0] == 0.0 || rng.once_in(2)) {
        rows.x[0] = 1.0;
    }
    let mut state = State::of(temperature, density);
    if partial {
        let share = if rng.once_in(4) { [rng.unit(), rng.unit()] } else { [rows.x[0], rows.x[1]] };
        state.density = share.map(|x| x * density);
        state.pressure = temperature * density * rng.between(-1.0, 3.0);
    }
    (rows, state)
}

/// A number to stand in the place of a usual one.
fn odd(rng: &mut Rng, usual: f64) -> f64 {
    match rng.below(8) {
        // zeros, infinities, NaN, subnormals, ends of the range
        0 | 1 => rng.special(),
        2 => rng.pick(&[0.0, -0.0]),
        // a subnormal
        3 => f64::from_bits(rng.bits() % (1 << 52)),
        4 => rng.any_finite(),
        5 => usual * rng.log_between(1e-300, 1e300),
        6 => usual * rng.log_between(1e-9, 1e9),
        _ => -usual,
    }
}

/// The numbers that are read of a state: so many of these.
fn numbers_of_state(reads: Reads, state: &mut State) -> Vec<&mut f64> {
    let State { temperature, density: [rho0, rho1], pressure } = state;
    let count = match reads {
        Reads::Density => 2,
        Reads::Partial => 3,
        Reads::PartialAndPressure => 4,
    };
    [temperature, rho0, rho1, pressure].into_iter().take(count).collect()
}

/// The numbers of the first n components, then the state.
fn numbers_of<'a>(n: usize, reads: Reads, rows: &'a mut Rows, state: &'a mut State) -> Vec<&'a mut f64> {
    let fractions = (reads == Reads::Density).then_some(&mut rows.x);
    let eights = [&mut rows.tc, &mut rows.a, &mut rows.b, &mut rows.kappa];
    let eights = eights.into_iter().chain(fractions).flat_map(move |row| &mut row[..n]);
    let interactions = rows.k.chunks_mut(8).take(n).flat_map(move |row| &mut row[..n]);
    eights.chain(interactions).chain(numbers_of_state(reads, state)).collect()
}

/// The same blend and state in other units of temperature and volume, so that all numbers are huge or tiny together.
fn in_other_units(rng: &mut Rng, rows: &mut Rows, state: &mut State) {
    let (kelvin, volume) = (rng.log_between(1e-160, 1e160), rng.log_between(1e-160, 1e160));
    rows.tc = rows.tc.map(|x| x * kelvin);
    rows.a = rows.a.map(|x| x * kelvin * volume);
    rows.b = rows.b.map(|x| x * volume);
    state.temperature *= kelvin;
    state.density = state.density.map(|rho| rho / volume);
    state.pressure = state.pressure * kelvin / volume;
}

/// Other units, and then none, one of the state, a few numbers, or one in four of them odd.
fn make_odd(rng: &mut Rng, n: usize, reads: Reads, rows: &mut Rows, state: &mut State) {
    let scaled = rng.once_in(3);
    if scaled {
        in_other_units(rng, rows, state);
    }
    let of_state = numbers_of_state(reads, state).len();
    let mut numbers = numbers_of(n, reads, rows, state);
    let count = numbers.len();
    let places: Vec<usize> = match rng.below(4) {
        0 if scaled => Vec::new(),
        0 => vec![count - 1 - rng.below(of_state)],
        1 => (0..count).filter(|_| rng.once_in(4)).collect(),
        _ => (0..1 + rng.below(3)).map(|_| rng.below(count)).collect(),
    };
    for at in places {
        *numbers[at] = odd(rng, *numbers[at]);
    }
}

/// NaN after the first n components and in fractions that partial densities stand for, where nothing may be read.
fn fill_unread(n: usize, reads: Reads, rows: &mut Rows) {
    if reads != Reads::Density {
        rows.x.fill(f64::NAN);
    }
    for row in [&mut rows.tc, &mut rows.a, &mut rows.b, &mut rows.kappa, &mut rows.x] {
        row[n..].fill(f64::NAN);
    }
    for (i, row) in rows.k.chunks_mut(8).enumerate() {
        row[if i < n { n } else { 0 }..].fill(f64::NAN);
    }
}

fn case(rng: &mut Rng, evaluation: &Evaluation, is_odd: bool) -> Case {
    let (mut rows, mut state) = ordinary(rng, evaluation);
    let n = (evaluation.of)(rows.n);
    if is_odd {
        make_odd(rng, n, evaluation.reads, &mut rows, &mut state);
    }
    fill_unread(n, evaluation.reads, &mut rows);
    Case { blend: Blend::new(rows), state }
}

/// FNV-1a.
struct Digest(u64);

impl Digest {
    fn add(&mut self, word: u64) {
        for byte in word.to_le_bytes() {
            self.0 = (self.0 ^ u64::from(byte)).wrapping_mul(0x0000_0100_0000_01b3);
        }
    }
}

/// What was compared of one evaluation on ordinary or odd numbers, by the first number yielded.
#[derive(Clone, Copy, Default)]
struct Tally {
    compared: u64,
    nan: u64,
    infinite: u64,
    zero: u64,
    different: u64,
}

impl Tally {
    fn add(&mut self, first: f64, differs: bool) {
        self.compared += 1;
        self.nan += u64::from(first.is_nan());
        self.infinite += u64::from(first.is_infinite());
        self.zero += u64::from(first == 0.0);
        self.different += u64::from(differs);
    }

    fn print(&self, name: &str, numbers: &str) {
        let Tally { compared, nan, infinite, zero, different } = *self;
        let other = compared - nan - infinite - zero;
        println!("{name:<24} {numbers:<8} {compared:>10} {nan:>10} {infinite:>10} {zero:>10} {other:>10} {different:>11}");
    }
}

fn show(name: &str, case: &Case, ours: &[f64], theirs: &[f64]) {
    let Rows { n, tc, a, b, kappa, k, x } = &case.blend.rows;
    println!("{name}, N = {n}: the two sides differ");
    let interactions: Vec<f64> = k.chunks(8).take(*n).flat_map(|row| &row[..*n]).copied().collect();
    let State { temperature, density: [rho0, rho1], pressure } = case.state;
    let state = [temperature, rho0, rho1, pressure];
    let rows = [("tc", &tc[..*n]), ("a", &a[..*n]), ("b", &b[..*n]), ("kappa", &kappa[..*n]), ("x", &x[..*n])];
    for (what, numbers) in rows.into_iter().chain([("k_ij", &interactions[..]), ("state", &state), ("ours", ours), ("theirs", theirs)]) {
        println!("  {what:<7} {}", vectors::words(numbers));
    }
}

/// Evaluations in turn, each on ordinary and on odd numbers alike. Exit status 1 where a bit differs.
pub fn run(count: u64, seed: u64) -> ExitCode {
    let mut rng = Rng::new(seed);
    let mut digest = Digest(0xcbf2_9ce4_8422_2325);
    let mut tallies = [[Tally::default(); 2]; EVALUATIONS.len()];
    let mut different = 0;
    for i in 0..count {
        let (at, is_odd) = (i as usize % EVALUATIONS.len(), i / EVALUATIONS.len() as u64 % 2 == 1);
        let evaluation = &EVALUATIONS[at];
        let case = case(&mut rng, evaluation, is_odd);
        let [ours, theirs] = [evaluation.ours, evaluation.theirs].map(|evaluate| yielded(evaluate, &case.blend, &case.state));
        ours.iter().for_each(|&x| digest.add(float::bits(x)));
        let differs = ours.map(float::bits) != theirs.map(float::bits);
        tallies[at][usize::from(is_odd)].add(ours[0], differs);
        different += u64::from(differs);
        if differs && different <= SHOWN {
            show(evaluation.name, &case, &ours, &theirs);
        }
    }
    println!(
        "{:<24} {:<8} {:>10} {:>10} {:>10} {:>10} {:>10} {:>11}",
        "first number", "numbers", "compared", "NaN", "infinite", "zero", "other", "differences"
    );
    for (evaluation, tallies) in EVALUATIONS.iter().zip(&tallies) {
        tallies[0].print(evaluation.name, "ordinary");
        tallies[1].print(evaluation.name, "odd");
    }
    println!("{count} evaluations of seed {seed}: {different} differences, digest {:016x}", digest.0);
    ExitCode::from(u8::from(different > 0))
}
