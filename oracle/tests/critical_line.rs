//! Kinds 8 and 9: critical points at a set temperature or pressure against kind 7's, their conditions against derivatives
//! worked out by hand, their steps by a second text, their data and refusals; and jets of 32 against those of 16.

mod common;

use common::*;
use oracle::block::check;
use oracle::board::{self, BOARD};
use oracle::critical_point::{criticality_in, criticality_t_in, matrix, stability_in};
use oracle::density_iteration::_chemical_potential_in;
use oracle::evaluations::Evaluation;
use oracle::float::{bits, solve, solve_three};
use oracle::generate::requests;
use oracle::random::{blend_on_line, Rng};
use oracle::vectors::{eval_cases, words, EvalCase};
use oracle::{
    _chemical_potential, criticality, criticality_p, criticality_t, run_request, stability,
    trace_request, Answer, Jet, PengRobinson, PengRobinsonRecord, BLOCK,
};
use std::collections::BTreeMap;

/// Status, values and evaluations.
fn sealed(numbers: &Numbers, kind: u8) -> (u64, [f64; 3], u64) {
    match run_request(kind, 2, &numbers.block()) {
        Answer::Sealed {
            status,
            values,
            evaluations,
            ..
        } => (status, values, evaluations),
        Answer::Refused(number) => panic!("refused {number}"),
    }
}

fn found(numbers: &Numbers, kind: u8) -> [f64; 3] {
    let (status, values, _) = sealed(numbers, kind);
    assert_eq!(status, 0, "{:?}", numbers.fractions);
    values
}

fn trace(numbers: &Numbers, kind: u8) -> Vec<Evaluation> {
    trace_request(kind, 2, &numbers.block()).1
}

fn eos(numbers: &Numbers) -> PengRobinson {
    PengRobinson::new(&numbers.coefficients, &numbers.interactions)
}

fn at(numbers: &Numbers, temperature: f64, pressure: f64) -> Numbers {
    Numbers {
        temperature,
        pressure,
        ..numbers.clone()
    }
}

/// Propane with butane at 400 K and near the pressure of its critical point there.
fn sound() -> Numbers {
    at(&two(PROPANE, BUTANE, [0.4, 0.6]), 400.0, 0.305)
}

const PASCAL: f64 = 1.0 / 13806490.0;

// ---- known critical points

/// Pairs with critical lines; temperatures and pressures of points on them.
fn lines() -> Vec<(Numbers, Vec<f64>, Vec<f64>)> {
    let pascal = |p: f64| p * PASCAL;
    let line = |first, second, k: f64, t: &[f64], p: &[f64]| {
        let numbers = Numbers {
            interactions: vec![k],
            ..two(first, second, [0.5, 0.5])
        };
        (numbers, t.to_vec(), p.iter().copied().map(pascal).collect())
    };
    vec![
        line(
            PROPANE,
            BUTANE,
            0.0,
            &[372.0, 380.0, 390.0, 400.0, 410.0, 420.0, 424.0],
            &[3.8e6, 4.2e6, 4.3e6],
        ),
        line(
            METHANE,
            ETHANE,
            0.003,
            &[195.0, 210.0, 230.0, 250.0, 270.0, 290.0, 303.0],
            &[5e6, 5.5e6, 6e6],
        ),
        line(
            CARBON_DIOXIDE,
            PROPANE,
            0.0,
            &[308.0, 315.0, 325.0, 335.0, 350.0, 365.0],
            &[4.3e6, 5e6, 6e6, 7e6],
        ),
    ]
}

/// Kind 7 at the composition of a point finds the same temperature and density.
fn satisfies_kind_7(numbers: &Numbers, t: f64, rho: [f64; 2]) {
    let density = rho[0] + rho[1];
    let x = rho[0] / density;
    let numbers = Numbers {
        fractions: vec![x, 1.0 - x],
        temperature: t,
        start: density,
        ..numbers.clone()
    };
    let [critical_t, critical_density, _] = found(&numbers, 7);
    close(critical_t, t, 1e-6);
    close(critical_density, density, 1e-6);
    // and from the usual start, which comes to the same point
    let usual = Numbers {
        start: 0.0,
        ..numbers
    };
    let [critical_t, critical_density, _] = found(&usual, 7);
    close(critical_t, t, 1e-6);
    close(critical_density, density, 1e-6);
}

#[test]
fn points_at_a_temperature() {
    for (numbers, temperatures, _) in lines() {
        let mut before = f64::INFINITY;
        for t in temperatures {
            let [rho0, rho1, none] = found(&at(&numbers, t, f64::NAN), 8);
            assert_eq!(bits(none), 0);
            satisfies_kind_7(&numbers, t, [rho0, rho1]);
            // less of the first, which is critical at the lower temperature
            let x = rho0 / (rho0 + rho1);
            assert!(0.0 < x && x < before && x < 1.0, "{t}: {x}");
            before = x;
            // from other fractions and starts
            for (fractions, start) in [([0.4, 0.6], 0.0), ([0.6, 0.4], 1.05 * (rho0 + rho1))] {
                let other = Numbers {
                    fractions: fractions.to_vec(),
                    start,
                    ..at(&numbers, t, 0.0)
                };
                let [other0, other1, _] = found(&other, 8);
                close(other0, rho0, 1e-8);
                close(other1, rho1, 1e-8);
            }
            // and with the components the other way round
            let swapped = Numbers {
                coefficients: numbers.coefficients.iter().rev().copied().collect(),
                ..at(&numbers, t, 0.0)
            };
            let [other1, other0, _] = found(&swapped, 8);
            close(other0, rho0, 1e-8);
            close(other1, rho1, 1e-8);
        }
    }
}

#[test]
fn points_at_a_pressure() {
    for (numbers, temperatures, pressures) in lines() {
        for p in pressures {
            let [t, rho0, rho1] = found(&at(&numbers, 0.0, p), 9);
            satisfies_kind_7(&numbers, t, [rho0, rho1]);
            let density = rho0 + rho1;
            let x = [rho0 / density, rho1 / density];
            let (_, pressure, _) = eos(&numbers).p_dpdrho(t, density, &x);
            close(pressure, p, 1e-7);
            // kind 8 at its temperature has the same densities
            let [other0, other1, _] = found(&at(&numbers, t, 0.0), 8);
            close(other0, rho0, 1e-6);
            close(other1, rho1, 1e-6);
        }
        // kind 9 at the pressure of kind 8's points
        for t in temperatures {
            let [rho0, rho1, _] = found(&at(&numbers, t, 0.0), 8);
            let density = rho0 + rho1;
            let (_, p, _) = eos(&numbers).p_dpdrho(t, density, &[rho0 / density, rho1 / density]);
            let near = Numbers {
                fractions: vec![rho0 / density, 1.0 - rho0 / density],
                start: density,
                ..at(&numbers, t, p)
            };
            let [other_t, other0, other1] = found(&near, 9);
            close(other_t, t, 1e-6);
            close(other0, rho0, 1e-5);
            close(other1, rho1, 1e-5);
        }
    }
}

/// Propane with butane has two points at a pressure near the line's highest; the start decides.
#[test]
fn two_points_at_a_pressure() {
    let of = |x: f64, t| {
        let numbers = two(PROPANE, BUTANE, [x, 1.0 - x]);
        found(&at(&numbers, t, 4.3e6 * PASCAL), 9)
    };
    let (first, second) = (of(0.5, 0.0), of(0.8, 0.0));
    assert!((389.0..391.0).contains(&first[0]), "{first:?}");
    assert!((378.0..379.0).contains(&second[0]), "{second:?}");
}

// ---- the conditions by hand

/// A state for the conditions' derivatives: not at the ends, where differences are worth little.
fn state(rng: &mut Rng) -> (PengRobinson, f64, [f64; 2]) {
    loop {
        let mut blend = blend_on_line(rng);
        let x = rng.between(0.05, 0.95);
        blend.fractions = vec![x, 1.0 - x];
        let eos = PengRobinson::new(&blend.coefficients, &blend.interactions);
        let ratio = eos.tc[0] / eos.tc[1];
        // beyond that temperatures at which a factor of the attraction changes its sign come near
        if !(0.2..5.0).contains(&ratio) || eos.tc[0] == eos.tc[1] {
            continue;
        }
        let t = rng.between(0.6, 1.6) * (x * eos.tc[0] + (1.0 - x) * eos.tc[1]);
        let rho = rng.between(0.05, 0.8) * eos.compute_max_density(&blend.fractions);
        return (eos, t, [x * rho, (1.0 - x) * rho]);
    }
}

/// l and c2 at partial densities, and the pressure, as on paper.
fn on_paper(eos: &PengRobinson, t: f64, rho: [f64; 2]) -> [f64; 3] {
    let density = rho[0] + rho[1];
    let analytic = Analytic::new(eos, t, density, rho.map(|rho| rho / density));
    let [l, c2] = analytic.conditions();
    [l, c2, analytic.pressure()]
}

/// Two differences make one of fourth order.
fn slope(f: impl Fn(f64) -> f64, x: f64) -> f64 {
    let by = |h: f64| (f(x + h) - f(x - h)) / (2.0 * h);
    (4.0 * by(1e-4 * x) - by(2e-4 * x)) / 3.0
}

fn near(ours: f64, theirs: f64, tolerance: f64, unit: f64) {
    let scale = unit.max(theirs.abs());
    assert!(
        (ours - theirs).abs() < tolerance * scale,
        "{ours:e} {theirs:e} beside {unit:e}"
    );
}

#[test]
fn conditions_and_their_derivatives() {
    let mut rng = Rng::new(21);
    for _ in 0..600 {
        let (eos, t, rho) = state(&mut rng);
        let pressure = rng.between(-1.0, 1.0);
        let theirs = on_paper(&eos, t, rho);
        let size = theirs[0].abs() + 1.0;
        let [l, c2, l_0, l_1, c2_0, c2_1] = criticality_t(&eos, t, rho);
        near(l, theirs[0], 1e-10, size);
        near(c2, theirs[1], 1e-8, size);
        let by_t = |row: usize| slope(|t| on_paper(&eos, t, rho)[row], t);
        let by_0 = |row: usize| slope(|x| on_paper(&eos, t, [x, rho[1]])[row], rho[0]);
        let by_1 = |row: usize| slope(|x| on_paper(&eos, t, [rho[0], x])[row], rho[1]);
        let density = rho[0] + rho[1];
        for (ours, theirs) in [
            (l_0, by_0(0)),
            (l_1, by_1(0)),
            (c2_0, by_0(1)),
            (c2_1, by_1(1)),
        ] {
            near(ours, theirs, 1e-5, size / density);
        }
        let all = criticality_p(&eos, pressure, t, rho);
        for (three, two) in [(0, l), (1, c2)] {
            assert_eq!(bits(all[three]), bits(two));
        }
        near(all[2], pressure - theirs[2], 1e-11, 1.0 + theirs[2].abs());
        for row in 0..2 {
            let [d_t, d_0, d_1] = [3, 4, 5].map(|i| all[3 * row + i]);
            near(d_t, by_t(row), 1e-5, size / t);
            near(d_0, by_0(row), 1e-5, size / density);
            near(d_1, by_1(row), 1e-5, size / density);
        }
        // what the pressure is off by, in closed form
        let b = [eos.b[0], eos.b[1]];
        let beta = b[0] * rho[0] + b[1] * rho[1];
        let alpha = [0, 1].map(|i| {
            let factor = 1.0 + eos.kappa[i] * (1.0 - (t / eos.tc[i]).sqrt());
            let by_t = -eos.kappa[i] / (2.0 * (t * eos.tc[i]).sqrt());
            let sign = factor.signum() * eos.a[i].sqrt();
            [sign * factor, sign * by_t]
        });
        let k = |i: usize, j: usize| 1.0 - eos.k_ij[i][j];
        let a = |i: usize, j: usize| alpha[i][0] * alpha[j][0] * k(i, j);
        let a_t =
            |i: usize, j: usize| (alpha[i][1] * alpha[j][0] + alpha[i][0] * alpha[j][1]) * k(i, j);
        let over = |f: &dyn Fn(usize, usize) -> f64| -> f64 {
            let of = |i: usize, j: usize| rho[i] * rho[j] * f(i, j);
            of(0, 0) + of(0, 1) + of(1, 0) + of(1, 1)
        };
        let q = 1.0 + 2.0 * beta - beta * beta;
        let p_t = density / (1.0 - beta) - over(&a_t) / q;
        near(all[9], -p_t, 1e-10, density / (1.0 - beta));
        for i in 0..2 {
            let repulsion = t / (1.0 - beta) + t * density * b[i] / (1.0 - beta).powi(2);
            let d = 2.0 * (a(i, 0) * rho[0] + a(i, 1) * rho[1]);
            let attraction = d / q - over(&a) * 2.0 * b[i] * (1.0 - beta) / (q * q);
            near(all[10 + i], attraction - repulsion, 1e-10, repulsion);
        }
    }
}

/// Kind 8's derivatives by the chain rule from kind 7's: along rho0 and rho1 in proportion only the density changes.
#[test]
fn derivatives_along_the_density() {
    let mut rng = Rng::new(22);
    for _ in 0..300 {
        let (eos, t, rho) = state(&mut rng);
        let density = rho[0] + rho[1];
        let x = rho.map(|rho| rho / density);
        let (res, jac) = criticality(&eos, t, density, &x);
        let six = criticality_t(&eos, t, rho);
        let twelve = criticality_p(&eos, 0.0, t, rho);
        for row in 0..2 {
            let size = res[0].abs() + 1.0;
            // fractions and density at position 0 are the same floats
            assert_eq!(bits(six[row]), bits(res[row]));
            let along = x[0] * six[2 + 2 * row] + x[1] * six[3 + 2 * row];
            near(along, jac[row][1], 1e-7, size / density);
            near(twelve[3 + 3 * row], jac[row][0], 1e-9, size / t);
            let along = x[0] * twelve[4 + 3 * row] + x[1] * twelve[5 + 3 * row];
            near(along, jac[row][1], 1e-7, size / density);
        }
        // the pressure's slope
        let (_, _, dp_drho) = eos.p_dpdrho(t, density, &x);
        near(
            x[0] * twelve[10] + x[1] * twelve[11],
            -dp_drho,
            1e-9,
            t + dp_drho.abs(),
        );
    }
}

/// -p_calc + pressure: the pressure is added last, to a sum that is worked out without it.
#[test]
fn pressure_is_added_last() {
    let numbers = sound();
    let eos = eos(&numbers);
    let rho = [0.0012, 0.0011];
    let without = criticality_p(&eos, 0.0, 400.0, rho);
    for p in [0.3, -0.3, 1e-20, 1e20, 0.1, without[2]] {
        let with = criticality_p(&eos, p, 400.0, rho);
        assert_eq!(bits(with[2]), bits(without[2] + p));
        assert_eq!(words(&with[3..]), words(&without[3..]));
    }
    // p_calc as p_dpdrho has it but for its last operations: both are -da + rho T
    let density = rho[0] + rho[1];
    let (_, p, _) = eos.p_dpdrho(400.0, density, &rho.map(|rho| rho / density));
    assert_eq!(bits(without[2]), bits(-p));
}

// ---- jets of 32 and of 16

/// Every evaluation of kinds 1 to 8 gives the same bits in jets of 32 as in those of 16.
#[test]
fn sixteen_positions_are_enough() {
    let mut by_evaluation = [0; 9];
    for case in eval_cases(31, 40_000).filter(|case| case.evaluation != 8) {
        let eos = PengRobinson::new(&case.blend.coefficients, &case.blend.interactions);
        let (t, rho, x) = (case.temperature, case.density, &case.blend.fractions[..]);
        let flat = |(res, jac): ([f64; 2], [[f64; 2]; 2])| [res, jac[0], jac[1]].concat();
        let (sixteen, whole) = match case.evaluation {
            1 => {
                let (a, b) = (eos.p_dpdrho(t, rho, x), eos.p_dpdrho_in::<32>(t, rho, x));
                (vec![a.0, a.1, a.2], vec![b.0, b.1, b.2])
            }
            2 => {
                let a = eos.p_dpdrho_d2pdrho2(t, rho, x);
                let b = eos.p_dpdrho_d2pdrho2_in::<32>(t, rho, x);
                (vec![a.0, a.1, a.2], vec![b.0, b.1, b.2])
            }
            3 => (
                vec![_chemical_potential(&eos, t, rho, x)],
                vec![_chemical_potential_in::<32>(&eos, t, rho, x)],
            ),
            4 => {
                let pure = eos.subset(0);
                (
                    flat(criticality(&pure, t, rho, &[1.0])),
                    flat(criticality_in::<32>(&pure, t, rho, &[1.0])),
                )
            }
            5 => {
                let pure = eos.subset(0);
                let a = stability(&pure, t, rho, &[1.0]);
                let b = stability_in::<32>(&pure, t, rho, &[1.0]);
                (vec![a.0, a.1], vec![b.0, b.1])
            }
            6 => (
                flat(criticality(&eos, t, rho, x)),
                flat(criticality_in::<32>(&eos, t, rho, x)),
            ),
            _ => (
                criticality_t(&eos, t, [x[0], x[1]]).to_vec(),
                criticality_t_in::<32>(&eos, t, [x[0], x[1]]).to_vec(),
            ),
        };
        assert_eq!(words(&sixteen), words(&whole), "{case:?}");
        let finite = sixteen.iter().all(|x| x.is_finite());
        by_evaluation[usize::from(case.evaluation)] += usize::from(finite);
    }
    assert!(by_evaluation[1..8].iter().all(|&count| count > 2_500));
}

// ---- the steps

/// What the rounds of a search came by.
#[derive(Default)]
struct Rounds {
    /// temperature and partial densities of each evaluation
    places: Vec<(f64, [f64; 2])>,
    /// steps that the temperature's limit, the first density's and the second's made smaller
    limited: [usize; 3],
    /// those that two of them did
    twice: usize,
    /// densities that came to their floor
    floors: usize,
}

/// A job's search by a second text: the rounds from what its evaluations yielded, status and values.
fn by_rounds(
    kind: u8,
    max_density: f64,
    mut t: f64,
    mut rho: [f64; 2],
    made: &[Evaluation],
) -> (Rounds, u64, [f64; 3]) {
    let mut rounds = Rounds::default();
    for e in made {
        rounds.places.push((t, rho));
        let y = &e.yields;
        if y.iter().any(|y| !y.is_finite()) {
            return (rounds, 27, [0.0; 3]);
        }
        // temperature first; kind 8 has none
        let (delta, sum) = if kind == 8 {
            let delta = solve([[y[2], y[3]], [y[4], y[5]]], [y[0], y[1]]);
            (delta.map(|[a, b]| [0.0, a, b]), y[0] * y[0] + y[1] * y[1])
        } else {
            let row = |i: usize| [y[i], y[i + 1], y[i + 2]];
            let delta = solve_three([row(3), row(6), row(9)], row(0));
            (delta, y[0] * y[0] + y[1] * y[1] + y[2] * y[2])
        };
        let Some(mut delta) = delta else {
            return (rounds, 23, [0.0; 3]);
        };
        let most = [0.25 * t, 0.03 * max_density, 0.03 * max_density];
        let mut times = 0;
        for i in (if kind == 8 { 1 } else { 0 })..3 {
            if delta[i].abs() > most[i] {
                rounds.limited[i] += 1;
                times += 1;
                let factor = most[i] / delta[i].abs();
                for d in &mut delta {
                    *d *= factor;
                }
            }
        }
        rounds.twice += usize::from(times > 1);
        if kind == 9 {
            t -= delta[0];
        }
        let floor = 1e-4 * max_density;
        for i in 0..2 {
            let stepped = rho[i] - delta[i + 1];
            // a NaN is no more than the floor either
            rho[i] = if stepped >= floor { stepped } else { floor };
            rounds.floors += usize::from(rho[i] == floor);
        }
        if ![t, rho[0], rho[1]].iter().all(|x| x.is_finite()) {
            return (rounds, 27, [0.0; 3]);
        }
        if sum.sqrt() < 1e-8 {
            let values = if kind == 8 {
                [rho[0], rho[1], 0.0]
            } else {
                [t, rho[0], rho[1]]
            };
            return (rounds, 0, values);
        }
    }
    (rounds, 22, [0.0; 3])
}

/// Requests of kinds 8 and 9 by the second text: where each evaluation was made, its sum as a look shows it, and the answer.
#[test]
fn rounds_of_generated_requests() {
    let mut seen = BTreeMap::new();
    let mut steps: BTreeMap<u8, [usize; 5]> = BTreeMap::new();
    for request in requests(41, 8_000) {
        let (kind, n) = (request[0], request[1]);
        let block: &[u8; BLOCK] = request[2..].try_into().unwrap();
        if !(8..=9).contains(&kind) || n != 2 {
            continue;
        }
        let Ok(job) = check(kind, 2, block) else {
            continue;
        };
        let (answer, made) = trace_request(kind, n, block);
        let max_density = job.eos.compute_max_density(&job.molefracs);
        let start = if job.start.to_bits() == 0 {
            0.3 * max_density
        } else {
            job.start
        };
        let t = if job.temperature == 0.0 {
            300.0
        } else {
            job.temperature
        };
        let rho = [job.molefracs[0] * start, job.molefracs[1] * start];
        let (rounds, status, values) = by_rounds(kind, max_density, t, rho, &made);
        let [by_t, by_0, by_1] = rounds.limited;
        let all = steps.entry(kind).or_default();
        for (all, one) in all
            .iter_mut()
            .zip([by_t, by_0, by_1, rounds.twice, rounds.floors])
        {
            *all += one;
        }
        assert_eq!(rounds.places.len(), made.len());
        for ((t, rho), e) in rounds.places.iter().zip(&made) {
            assert_eq!(bits(*t), bits(e.temperature));
            assert_eq!(bits(rho[0] + rho[1]), bits(e.density));
            let again = if kind == 8 {
                assert_eq!(e.call, "criticality_conditions");
                criticality_t(&job.eos, *t, *rho).to_vec()
            } else {
                assert_eq!(e.call, "criticality_conditions_p");
                criticality_p(&job.eos, job.pressure, *t, *rho).to_vec()
            };
            assert_eq!(words(&again), words(&e.yields));
        }
        let evaluations = made.len() as u64;
        assert!((1..=200).contains(&evaluations));
        assert!(status != 22 || evaluations == 200);
        let by_rounds = Answer::Sealed {
            kind,
            status,
            values,
            evaluations,
        };
        assert_eq!(answer.to_string(), by_rounds.to_string());
        *seen.entry((kind, status)).or_insert(0) += 1;
    }
    for kind in [8, 9] {
        for status in [0, 22, 23, 27] {
            let count = seen.get(&(kind, status)).copied().unwrap_or(0);
            assert!(count >= 15, "{kind} {status}: {count}");
        }
        // every limit and the floor come into play, and one limit after the other
        let least = [if kind == 8 { 0 } else { 100 }, 100, 100, 100, 100];
        let enough = steps[&kind]
            .iter()
            .zip(least)
            .all(|(found, least)| *found >= least);
        assert!(enough, "{kind}: {:?}", steps[&kind]);
    }
}

/// A far start: the density limit alone, whole steps of 0.03 of the maximum density.
#[test]
fn limited_steps() {
    let numbers = Numbers {
        start: 1e-3,
        ..at(&two(PROPANE, BUTANE, [0.9, 0.1]), 400.0, 0.0)
    };
    let max_density = eos(&numbers).compute_max_density(&numbers.fractions);
    let made = trace(&numbers, 8);
    let rho = [0.9 * 1e-3, 0.1 * 1e-3];
    let (rounds, status, _) = by_rounds(8, max_density, 400.0, rho, &made);
    assert_eq!(status, 0);
    assert!(rounds.limited[1] + rounds.limited[2] >= 3);
    for pair in rounds.places.windows(2) {
        let by = [0, 1].map(|i| (pair[1].1[i] - pair[0].1[i]).abs() / max_density);
        let most = by[0].max(by[1]);
        assert!(most <= 0.03 + 1e-12);
    }
    let first = [0, 1].map(|i| (rounds.places[1].1[i] - rounds.places[0].1[i]).abs());
    close(first[0].max(first[1]), 0.03 * max_density, 1e-12);
}

/// The maximum density of the block's fractions sets floors and limits throughout, not that of the composition on the way.
#[test]
fn floors_by_the_block() {
    // at the butane end of the line propane comes down to its floor and stays there
    let numbers = at(&two(PROPANE, BUTANE, [0.7, 0.3]), 500.0, 0.0);
    let max_density = eos(&numbers).compute_max_density(&numbers.fractions);
    let job = check(8, 2, &numbers.block()).ok().unwrap();
    let made = trace(&numbers, 8);
    let rho = [0.7 * (0.3 * max_density), 0.3 * (0.3 * max_density)];
    let (rounds, status, _) = by_rounds(8, max_density, 500.0, rho, &made);
    assert_eq!(status, 22);
    assert!(rounds.floors > 10);
    for ((_, rho), e) in rounds.places.iter().zip(&made) {
        assert_eq!(bits(rho[0] + rho[1]), bits(e.density));
    }
    assert_eq!(job.molefracs, [0.7, 0.3]);
}

// ---- what is read

#[test]
fn none_is_plus_zero() {
    let numbers = sound();
    let max_density = eos(&numbers).compute_max_density(&numbers.fractions);
    // 0.3 of the maximum density
    for kind in [8, 9] {
        let started = Numbers {
            start: 0.3 * max_density,
            ..numbers.clone()
        };
        assert_eq!(started.line(kind), numbers.line(kind));
        let other = Numbers {
            start: 0.31 * max_density,
            ..numbers.clone()
        };
        assert_ne!(other.line(kind), numbers.line(kind));
        assert_eq!(sealed(&other, kind).0, 0);
    }
    // 300 K in kind 9
    let none = at(&numbers, 0.0, 0.305);
    assert_eq!(none.line(9), at(&numbers, 300.0, 0.305).line(9));
    assert_eq!(sealed(&none, 9).0, 0);
    assert_ne!(none.line(9), numbers.line(9));
    let first = &trace(&none, 9)[0];
    assert_eq!(first.temperature, 300.0);
}

/// The first evaluation is at fraction times start; its density is the sum of the two.
#[test]
fn first_evaluation() {
    let numbers = Numbers {
        fractions: vec![0.3, 0.7],
        start: 0.0021,
        ..sound()
    };
    let [rho0, rho1] = [0.3 * 0.0021, 0.7 * 0.0021];
    let sum: f64 = rho0 + rho1;
    // neither the start itself nor another order
    assert_ne!(bits(sum), bits(0.0021));
    for kind in [8, 9] {
        let first = &trace(&numbers, kind)[0];
        assert_eq!(bits(first.density), bits(sum));
        assert_eq!(first.temperature, 400.0);
        let eos = eos(&numbers);
        let expected = if kind == 8 {
            criticality_t(&eos, 400.0, [rho0, rho1]).to_vec()
        } else {
            criticality_p(&eos, 0.305, 400.0, [rho0, rho1]).to_vec()
        };
        assert_eq!(words(&first.yields), words(&expected));
    }
}

#[test]
fn conditions_read() {
    let numbers = sound();
    let nan = f64::from_bits(0xFFF8_0000_0000_0001);
    for kind in [8, 9] {
        let line = numbers.line(kind);
        assert!(line.starts_with(&format!("{kind} 0 ")), "{line}");
        // choice is ignored, in kind 8 the pressure too
        for choice in [1, 2, 9, 1 << 32, 1 << 63, u64::MAX] {
            let junk = Numbers {
                choice,
                ..numbers.clone()
            };
            assert_eq!(junk.line(kind), line);
        }
        // a start has to be finite; -0 and a negative number are starts, and no 21
        for start in [f64::NAN, nan, f64::INFINITY, f64::NEG_INFINITY] {
            let bad = Numbers {
                start,
                ..numbers.clone()
            };
            bad.refused(kind, 15);
        }
        for start in [-0.0, -1e-3, 5e-324, -5e-324, f64::MAX, 0.02] {
            let odd = Numbers {
                start,
                ..numbers.clone()
            };
            assert_eq!(odd.line(kind), format!("{kind} 27 {ZEROS} 1"), "{start}");
        }
        // temperatures that no kind takes
        for t in [-0.0, -1.0, f64::NAN, nan, f64::INFINITY, f64::NEG_INFINITY] {
            at(&numbers, t, 0.305).refused(kind, 15);
        }
    }
    at(&numbers, 0.0, 0.305).refused(8, 15);
    let line = numbers.line(8);
    assert_eq!(line.split(' ').nth(4), Some("0000000000000000"));
    for pressure in [f64::NAN, nan, f64::INFINITY, -0.0, -1e300, 5e-324] {
        assert_eq!(at(&numbers, 400.0, pressure).line(8), line);
    }
    for pressure in [f64::NAN, nan, f64::INFINITY, f64::NEG_INFINITY] {
        at(&numbers, 400.0, pressure).refused(9, 15);
        at(&numbers, 0.0, pressure).refused(9, 15);
    }
    // any finite pressure is one
    for pressure in [0.0, -0.0, -0.1, -1e300, 1e300, 5e-324] {
        let (status, _, evaluations) = sealed(&at(&numbers, 400.0, pressure), 9);
        assert_eq!((status, evaluations), (22, 200), "{pressure}");
    }
}

/// Everything wrong, mended one after the other.
#[test]
fn order_of_the_data_refusals() {
    for kind in [8, 9] {
        let mut numbers = Numbers {
            // co-volumes of 1e-309, whose maximum density overflows
            coefficients: vec![fluid(1e-7, 1e308, 0.1), fluid(1e-7, 1e308, f64::NAN)],
            interactions: vec![f64::INFINITY],
            fractions: vec![60.0, -0.0],
            choice: u64::MAX,
            temperature: -0.0,
            pressure: f64::NAN,
            start: f64::INFINITY,
        };
        let mut pairs = numbers.block();
        pairs[0] = 15;
        let line = run_request(kind, 2, &pairs).to_string();
        assert_eq!(line, format!("{kind} 11 {ZEROS} 0"));
        numbers.refused(kind, 12);
        numbers.coefficients[1].acentric_factor = 0.1;
        numbers.refused(kind, 13);
        numbers.interactions[0] = 0.01;
        numbers.refused(kind, 14);
        numbers.fractions[1] = 40.0;
        numbers.refused(kind, 17);
        numbers.fractions = vec![0.6, 0.4];
        numbers.refused(kind, 15);
        numbers.start = 0.0;
        numbers.refused(kind, 15);
        numbers.temperature = 400.0;
        if kind == 9 {
            numbers.refused(kind, 15);
            numbers.pressure = 0.305;
        }
        numbers.refused(kind, 16);
        // of one component the maximum density may overflow, not that of the blend
        numbers.coefficients[0] = PROPANE;
        let line = numbers.line(kind);
        assert!(!line.starts_with(&format!("{kind} 16")), "{line}");
        numbers.coefficients[1] = BUTANE;
        let line = numbers.line(kind);
        assert!(line.starts_with(&format!("{kind} 0 ")), "{line}");
    }
}

#[test]
fn kinds_and_counts() {
    let numbers = sound();
    for kind in [8, 9] {
        for n in 0..=255 {
            let line = run_request(kind, n, &numbers.block()).to_string();
            if n == 2 {
                assert!(line.starts_with(&format!("{kind} 0 ")), "{line}");
            } else {
                assert_eq!(line, "3");
            }
        }
    }
    // blocks that fit their N
    let mut one = numbers.clone();
    one.coefficients.pop();
    one.interactions.pop();
    one.fractions = vec![1.0];
    let mut three = numbers.clone();
    three.coefficients.push(WATER);
    three.interactions = vec![0.0; 3];
    three.fractions.push(0.0);
    for kind in [8, 9] {
        assert_eq!(one.line(kind), "3");
        assert_eq!(three.line(kind), "3");
    }
    for kind in [10, 0, 255] {
        assert_eq!(numbers.line(kind), "2");
    }
}

// ---- refusals of the equation

/// The root of a fraction of 0 has no derivatives: 27 at the first evaluation, before any pivot is looked at.
#[test]
fn one_missing() {
    for fractions in [[0.0, 1.0], [1.0, 0.0]] {
        let numbers = Numbers {
            fractions: fractions.to_vec(),
            ..sound()
        };
        for kind in [8, 9] {
            assert_eq!(numbers.line(kind), format!("{kind} 27 {ZEROS} 1"));
        }
        let eos = eos(&numbers);
        let rho = fractions.map(|x| x * 2e-3);
        let six = criticality_t(&eos, 400.0, rho);
        assert!(six[0].is_finite() && six[2..].iter().all(|x| x.is_nan()));
        let twelve = criticality_p(&eos, 0.305, 400.0, rho);
        assert!(twelve[2].is_finite() && twelve[9..].iter().all(|x| x.is_finite()));
        assert!(twelve[3..9].iter().all(|x| x.is_nan()));
    }
    // a trace is no 0: it comes up to the floor with the first step
    let trace_of = Numbers {
        fractions: vec![1e-12, 1.0],
        ..sound()
    };
    assert_eq!(sealed(&trace_of, 8).0, 0);
}

/// Where the residuals are finite and the Jacobian is singular, the search ends with 23; components alike make it so.
#[test]
fn singular() {
    let water = at(&two(WATER, WATER, [0.5, 0.5]), 300.0, 0.3);
    for (kind, evaluations) in [(8, 7), (9, 43)] {
        let line = water.line(kind);
        assert_eq!(line, format!("{kind} 23 {ZEROS} {evaluations}"));
        let made = trace(&water, kind);
        let last = &made.last().unwrap().yields;
        assert!(last.iter().all(|x| x.is_finite()));
        if kind == 8 {
            let jac = [[last[2], last[3]], [last[4], last[5]]];
            assert_eq!(solve(jac, [last[0], last[1]]), None);
        } else {
            let row = |i: usize| [last[i], last[i + 1], last[i + 2]];
            assert_eq!(solve_three([row(3), row(6), row(9)], row(0)), None);
        }
    }
}

/// A pressure at the end of the range: all that the evaluation yields is finite, the elimination overflows, and no
/// temperature is left. A density that is no number becomes its floor, which would be no 27.
#[test]
fn no_temperature_after_a_step() {
    for pressure in [f64::MAX, f64::MIN] {
        let numbers = at(&sound(), 0.0, pressure);
        assert_eq!(numbers.line(9), format!("9 27 {ZEROS} 1"));
        let made = trace(&numbers, 9);
        assert!(made[0].yields.iter().all(|x| x.is_finite()));
        let y = &made[0].yields;
        let row = |i: usize| [y[i], y[i + 1], y[i + 2]];
        let delta = solve_three([row(3), row(6), row(9)], row(0)).unwrap();
        assert!(delta.iter().any(|d| !d.is_finite()));
    }
}

/// Far from any critical point the rounds run out.
#[test]
fn not_converged() {
    for t in [100.0, 300.0, 430.0, 600.0] {
        let numbers = at(&sound(), t, 10.0);
        assert_eq!(numbers.line(8), format!("8 22 {ZEROS} 200"));
        assert_eq!(numbers.line(9), format!("9 22 {ZEROS} 200"));
        assert_eq!(trace(&numbers, 8).len(), 200);
    }
}

/// The residuals from before the step decide: the last evaluation's are below the tolerance, the one before not, and the
/// numbers handed out are the stepped ones.
#[test]
fn convergence() {
    let numbers = sound();
    for kind in [8, 9] {
        let made = trace(&numbers, kind);
        let norm = |e: &Evaluation| {
            let residuals = if kind == 8 { 2 } else { 3 };
            let squares = e.yields[..residuals].iter().map(|x| x * x);
            squares.sum::<f64>().sqrt()
        };
        let [.., before, last] = &made[..] else {
            panic!("two evaluations")
        };
        assert!(norm(last) < 1e-8 && norm(before) >= 1e-8);
        let (_, values, evaluations) = sealed(&numbers, kind);
        assert_eq!(evaluations, made.len() as u64);
        let handed_out = if kind == 8 {
            values[0] + values[1]
        } else {
            values[1] + values[2]
        };
        close(handed_out, last.density, 1e-6);
        assert_ne!(bits(handed_out), bits(last.density));
    }
}

// ---- the board

/// Both are taken in for two components and handed out after 200 turns; how they are stepped is not laid out yet.
#[test]
fn on_the_board() {
    let mut fresh = [0; BOARD];
    let block = sound().block();
    for kind in [8, 9] {
        assert_eq!(board::span(kind), 200);
        for n in [0, 1, 3, 8, 9, 256 + 2, u64::MAX] {
            let said = board::submit(&mut fresh, 0, kind, n, &block);
            assert_eq!(said, board::Answer::Refused(3));
        }
        let said = board::submit(&mut fresh, 0, kind, 2, &block);
        assert_eq!(said, board::Answer::Ticket(kind - 8));
    }
    assert!(board::fits(&fresh));
}

// ---- generated evaluations and requests

#[test]
fn generated_evaluations() {
    let cases: Vec<EvalCase> = eval_cases(1, 40_000)
        .filter(|case| case.evaluation > 6)
        .collect();
    assert_eq!(cases.len(), 10_000);
    let count = |test: &dyn Fn(&EvalCase) -> bool| cases.iter().filter(|case| test(case)).count();
    let rho = |case: &EvalCase| [case.blend.fractions[0], case.blend.fractions[1]];
    let is_finite = |c: &EvalCase| c.run().iter().all(|x| x.is_finite());
    let finite = count(&is_finite);
    for (what, least, found) in [
        ("7", 5_000, count(&|c| c.evaluation == 7)),
        ("8", 5_000, count(&|c| c.evaluation == 8)),
        ("finite", 5_000, finite),
        ("not finite", 1_000, cases.len() - finite),
        ("0", 100, count(&|c| rho(c).contains(&0.0))),
        ("negative", 100, count(&|c| rho(c).iter().all(|&x| x < 0.0))),
        ("one negative", 100, count(&|c| rho(c)[0] * rho(c)[1] < 0.0)),
        ("opposite", 50, count(&|c| rho(c)[0] == -rho(c)[1])),
        ("equal", 300, count(&|c| rho(c)[0] == rho(c)[1])),
        ("no pressure", 500, count(&|c| c.density == 0.0)),
        ("negative pressure", 300, count(&|c| c.density < 0.0)),
        ("NaN pressure", 20, count(&|c| c.density.is_nan())),
        ("uncoupled", 200, count(&|c| uncoupled(c) && is_finite(c))),
    ] {
        assert!(found >= least, "{what}: {found}");
    }
    // bytes and back; 7 reads no pressure
    for case in &cases[..400] {
        let again = EvalCase::from_bytes(&case.to_bytes());
        assert_eq!(words(&again.run()), words(&case.run()));
        assert_eq!(case.run().len(), if case.evaluation == 7 { 6 } else { 12 });
        let other = EvalCase {
            density: 17.0,
            ..case.clone()
        };
        let same = words(&other.run()) == words(&case.run());
        assert!(same || case.evaluation == 8);
    }
}

/// The mixed entry of the matrix is exactly 0.
fn uncoupled(case: &EvalCase) -> bool {
    let eos = PengRobinson::new(&case.blend.coefficients, &case.blend.interactions);
    let rho = [case.blend.fractions[0], case.blend.fractions[1]];
    mixed(&eos, case.temperature, rho) == 0.0
}

fn mixed(eos: &PengRobinson, t: f64, rho: [f64; 2]) -> f64 {
    let density = Jet::from(rho[0] + rho[1]);
    let x = rho.map(|rho| Jet::from(rho) / density);
    let sqrt_z = x.map(|x| x.sqrt());
    matrix(eos, Jet::from(t), density.recip(), &x, &sqrt_z)[0][1].re()
}

/// Requests of kinds 8 and 9 hold what they are meant to.
#[test]
fn generated_requests() {
    let made: Vec<[u8; 2 + BLOCK]> = requests(3, 25_000)
        .filter(|r| r[0] > 7 && r[0] < 10)
        .collect();
    for kind in [8, 9] {
        let mut seen = BTreeMap::new();
        let (mut others, mut all) = (0, 0);
        for request in made.iter().filter(|request| request[0] == kind) {
            if request[1] != 2 {
                others += 1;
                continue;
            }
            all += 1;
            let block: &[u8; BLOCK] = request[2..].try_into().unwrap();
            let Ok(job) = check(kind, 2, block) else {
                continue;
            };
            let (t, p, start) = (job.temperature, job.pressure, job.start);
            let (low, high) = (
                job.eos.tc[0].min(job.eos.tc[1]),
                job.eos.tc[0].max(job.eos.tc[1]),
            );
            let mut note = |what: &'static str, holds: bool| {
                *seen.entry(what).or_insert(0) += usize::from(holds);
            };
            note("between", low < t && t < high);
            note("below", 0.0 < t && t < low);
            note("above", high < t);
            note("no temperature", t.to_bits() == 0);
            note("no start", start.to_bits() == 0);
            note("start -0", start.to_bits() == 1 << 63);
            note("start", start > 0.0);
            note("negative start", start < 0.0);
            note("huge start", start > 1e9);
            note("pressure 0", p == 0.0);
            note("negative pressure", p < 0.0);
            note("huge pressure", p > 1e9);
            note("pressure no number", !p.is_finite());
            note("choice", job.choice > 8);
            let [a, b]: [PengRobinsonRecord; 2] = [0, 1].map(|i| {
                let place = 8 * 3 * i;
                let at = usize::from(u16::from_le_bytes([block[0], block[1]])) + place;
                let float = |at: usize| f64::from_le_bytes(block[at..at + 8].try_into().unwrap());
                fluid(float(at), float(at + 8), float(at + 16))
            });
            let pair = |x: PengRobinsonRecord, y: PengRobinsonRecord| {
                (a.tc, b.tc) == (x.tc, y.tc) || (a.tc, b.tc) == (y.tc, x.tc)
            };
            note("propane, butane", pair(PROPANE, BUTANE));
            note("methane, ethane", pair(METHANE, ETHANE));
            note("carbon dioxide, propane", pair(CARBON_DIOXIDE, PROPANE));
            note("alike", a.tc == b.tc && a.pc == b.pc);
            note("one missing", job.molefracs.contains(&0.0));
            note("trace", job.molefracs.iter().any(|&x| x > 0.0 && x < 1e-6));
            let t = if t == 0.0 { 300.0 } else { t };
            let rho = [job.molefracs[0] * start, job.molefracs[1] * start];
            let usual = start > 1e-30 && rho.iter().all(|&rho| rho > 0.0);
            note("uncoupled", usual && mixed(&job.eos, t, rho) == 0.0);
        }
        assert!(all > 2_000 && others > 15, "{all} {others}");
        for (what, count) in &seen {
            let (never, few) = match *what {
                "no temperature" => (kind == 8, false),
                "pressure no number" => (kind == 9, false),
                "start -0" | "huge start" | "pressure 0" | "huge pressure" => (false, true),
                _ => (false, false),
            };
            let least = if few { 10 } else { 40 };
            assert_eq!(*count >= least, !never, "{kind}, {what}: {count}");
            assert!(!never || *count == 0);
        }
    }
}
