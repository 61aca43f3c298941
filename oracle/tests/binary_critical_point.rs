//! Kind 7: critical points of blends of two against the pure ones, its matrix and conditions against derivatives worked out by
//! hand, its refusals; and bits of one component, which a second one must not change.

mod common;

use common::*;
use oracle::block::{count_fits, kind_fits};
use oracle::board::{self, BOARD, QUARTER};
use oracle::critical_point::{critical_point, matrix};
use oracle::evaluations::{Evaluations, FeosError, FeosResult};
use oracle::float::bits;
use oracle::generate::requests;
use oracle::random::{blend_of_two, Rng};
use oracle::vectors::{eval_cases, eval_fits, words, EvalCase};
use oracle::{criticality, run_request, trace_request, Jet, BLOCK};
use oracle::{PengRobinson, PengRobinsonRecord};

fn critical(
    components: &[PengRobinsonRecord],
    interactions: &[f64],
    x: &[f64],
    t: Option<f64>,
) -> FeosResult<[f64; 2]> {
    let eos = PengRobinson::new(components, interactions);
    critical_point(&eos, x, t, None, &mut Evaluations::default())
}

fn pure(component: PengRobinsonRecord) -> [f64; 2] {
    critical(&[component], &[], &[1.0], None).unwrap()
}

// ---- known critical points

/// The critical line of propane and butane: temperatures and densities go from one pure point to the other.
#[test]
fn propane_with_butane() {
    let (propane, butane) = (pure(PROPANE), pure(BUTANE));
    let of = |x: f64, t| critical(&[PROPANE, BUTANE], &[0.0], &[x, 1.0 - x], t).unwrap();
    let mut before = butane;
    for percent in 1..=99 {
        let x = f64::from(percent) / 100.0;
        let [t, rho] = of(x, None);
        assert!(propane[0] < t && t < before[0], "{percent}: {t}");
        assert!(before[1] < rho && rho < propane[1], "{percent}: {rho}");
        // from a given temperature, and with the components the other way round
        let swapped = critical(&[BUTANE, PROPANE], &[0.0], &[1.0 - x, x], None).unwrap();
        for [other_t, other_rho] in [of(x, Some(400.0)), swapped] {
            close(other_t, t, 1e-9);
            close(other_rho, rho, 1e-9);
        }
        before = [t, rho];
    }
    for trace in [1e-4, 1e-6, 1e-9, 1e-12] {
        for (found, limit) in [(of(trace, None), butane), (of(1.0 - trace, None), propane)] {
            close(found[0], limit[0], 0.3 * trace + 1e-9);
            close(found[1], limit[1], 0.5 * trace + 1e-9);
        }
    }
}

/// At the point found the conditions nearly hold, and no smaller eigenvalue hides behind the one that is 0.
#[test]
fn conditions_at_the_point_found() {
    let mut rng = Rng::new(11);
    let mut found = 0;
    while found < 300 {
        let blend = blend_of_two(&mut rng);
        let x = &blend.fractions;
        let Ok([t, rho]) = critical(&blend.coefficients, &blend.interactions, x, None) else {
            continue;
        };
        let eos = PengRobinson::new(&blend.coefficients, &blend.interactions);
        let (res, _) = criticality(&eos, t, rho, x);
        assert!(res[0].abs() < 1e-8 && res[1].abs() < 1e-8, "{res:?}");
        let analytic = Analytic::new(&eos, t, rho, [x[0], x[1]]);
        let [[m11, m12], [_, m22]] = analytic.matrix();
        let det = m11 * m22 - m12 * m12;
        assert!(m11 + m22 > 0.0 && det.abs() < 1e-7 * (m11 + m22), "{det:e}");
        found += 1;
    }
}

/// Two components with the same coefficients have the pure one's critical point. With halves no exact 0 is met on the way from
/// a temperature near the critical one.
#[test]
fn components_alike() {
    for fluid in [METHANE, PROPANE, BUTANE, WATER, HELIUM] {
        let expected = pure(fluid);
        for x in [0.5, 0.3, 0.25, 0.01, 0.7] {
            for factor in [0.8, 0.95, 1.02] {
                let t = Some(factor * fluid.tc);
                let [t, rho] = critical(&[fluid, fluid], &[0.0], &[x, 1.0 - x], t).unwrap();
                close(t, expected[0], 1e-6);
                close(rho, expected[1], 1e-6);
            }
        }
    }
    for fluid in [METHANE, PROPANE, BUTANE, WATER] {
        let [t, rho] = critical(&[fluid, fluid], &[0.0], &[0.5, 0.5], None).unwrap();
        close(t, pure(fluid)[0], 1e-6);
        close(rho, pure(fluid)[1], 1e-6);
    }
}

/// Where repulsion prevails the smallest eigenvalue is that of an exchange of one molecule for its like, which changes nothing:
/// l is 1 and c2 is 0 at every temperature and density. With halves both derivatives by temperature come out exactly 0.
#[test]
fn an_exchange_of_like_components() {
    let oxygen = Numbers {
        temperature: 156.0,
        start: 0.022,
        ..two(OXYGEN, OXYGEN, [0.5, 0.5])
    };
    assert_eq!(oxygen.line(7), format!("7 23 {ZEROS} 1"));
    let (_, made) = trace_request(7, 2, &oxygen.block());
    let [l, c2, l_t, l_rho, c2_t, c2_rho] = made[0].yields[..] else {
        panic!("six numbers")
    };
    assert_eq!([l, c2, l_t, c2_t], [1.0, 0.0, 0.0, 0.0]);
    assert!(l_rho.abs() < 1e-9 && c2_rho.abs() < 1e-9);
    let hydrogen = Numbers {
        temperature: 640.0,
        ..two(HYDROGEN, HYDROGEN, [0.5, 0.5])
    };
    let line = hydrogen.line(7);
    assert!(line.starts_with(&format!("7 23 {ZEROS} ")), "{line}");
    // the three trials fail likewise
    let helium = two(HELIUM, HELIUM, [0.5, 0.5]).line(7);
    assert!(helium.starts_with(&format!("7 22 {ZEROS} ")), "{helium}");
}

// ---- the matrix and both conditions by hand

fn matrix_of(eos: &PengRobinson, t: f64, rho: f64, x: &[f64]) -> [[f64; 2]; 2] {
    let x: Vec<Jet> = x.iter().map(|&x| Jet::from(x)).collect();
    let sqrt_z: Vec<Jet> = x.iter().map(|x| x.sqrt()).collect();
    let m = matrix(eos, Jet::from(t), Jet::from(rho).recip(), &x, &sqrt_z);
    [0, 1].map(|i| [0, 1].map(|j| m[i][j].re()))
}

#[test]
fn matrix_and_conditions() {
    let mut rng = Rng::new(12);
    for _ in 0..1000 {
        let mut blend = blend_of_two(&mut rng);
        let x = rng.between(0.02, 0.98);
        // fractions enter as given, whatever their sum
        let sum = rng.pick(&[1.0, 1.0, 0.7, 1.3]);
        blend.fractions = vec![sum * x, sum * (1.0 - x)];
        let z = [blend.fractions[0], blend.fractions[1]];
        let eos = PengRobinson::new(&blend.coefficients, &blend.interactions);
        let t = rng.between(0.5, 2.0) * (x * eos.tc[0] + (1.0 - x) * eos.tc[1]);
        let rho = rng.between(0.02, 0.9) * eos.compute_max_density(&z);
        let near = |ours: f64, theirs: f64, tolerance: f64, unit: f64| {
            let scale = unit.max(theirs.abs());
            assert!(
                (ours - theirs).abs() < tolerance * scale,
                "{ours:e} {theirs:e} {z:?} {t} {rho}"
            );
        };
        let (ours, theirs) = (
            matrix_of(&eos, t, rho, &z),
            Analytic::new(&eos, t, rho, z).matrix(),
        );
        let size = theirs[0][0].abs() + theirs[1][1].abs() + theirs[0][1].abs() + 1.0;
        for i in 0..2 {
            for j in 0..2 {
                near(ours[i][j], theirs[i][j], 1e-11, size);
            }
        }
        let conditions = |t, rho| Analytic::new(&eos, t, rho, z).conditions();
        let (res, jac) = criticality(&eos, t, rho, &z);
        let there = conditions(t, rho);
        near(res[0], there[0], 1e-10, size);
        near(res[1], there[1], 1e-8, size);
        let h = 1e-4;
        for row in 0..2 {
            // two differences make one of fourth order
            let slope = |f: &dyn Fn(f64) -> f64, x: f64| {
                let by = |h: f64| (f(x + h) - f(x - h)) / (2.0 * h);
                (4.0 * by(h * x) - by(2.0 * h * x)) / 3.0
            };
            let by_t = slope(&|t| conditions(t, rho)[row], t);
            let by_rho = slope(&|rho| conditions(t, rho)[row], rho);
            near(jac[row][0], by_t, 1e-5, size / t);
            near(jac[row][1], by_rho, 1e-5, size / rho);
        }
    }
}

/// Densities at which m12 is exactly 0: l is the smaller entry, and c2 is along its component alone.
#[test]
fn no_mixed_entry() {
    let mut seen = [0; 2];
    for case in eval_cases(3, 40_000).filter(|case| case.evaluation == 6) {
        let (t, rho, x) = (case.temperature, case.density, &case.blend.fractions);
        let eos = PengRobinson::new(&case.blend.coefficients, &case.blend.interactions);
        let [[m11, m12], [_, m22]] = matrix_of(&eos, t, rho, x);
        let (res, jac) = criticality(&eos, t, rho, x);
        let all = [res, jac[0], jac[1]];
        if m12 != 0.0 || all.iter().flatten().any(|x| !x.is_finite()) {
            continue;
        }
        let first = m11 <= m22;
        seen[usize::from(!first)] += 1;
        close(res[0], m11.min(m22), 1e-12);
        let root = [x[0].sqrt(), x[1].sqrt()];
        let w = if first {
            [root[0], 0.0]
        } else {
            [0.0, root[1]]
        };
        let c2 = Analytic::new(&eos, t, rho, [x[0], x[1]]).third(w);
        assert!((res[1] - c2).abs() < 1e-8 * c2.abs().max(1.0), "{c2:e}");
    }
    assert!(seen.iter().all(|&count| count >= 40), "{seen:?}");
}

/// So thin a gas that the matrix is the identity: its root is that of 0, whose derivatives are no numbers.
#[test]
fn the_identity() {
    let eos = PengRobinson::new(&[PROPANE, BUTANE], &[0.0]);
    let m = matrix_of(&eos, 300.0, 1e-100, &[0.4, 0.6]);
    assert_eq!(m, [[1.0, 0.0], [0.0, 1.0]]);
    let (res, jac) = criticality(&eos, 300.0, 1e-100, &[0.4, 0.6]);
    assert_eq!(res[0], 1.0);
    assert!(jac[0].iter().all(|x| x.is_nan()));
}

// ---- a fraction of 0

#[test]
fn one_missing() {
    for fractions in [[0.0, 1.0], [1.0, 0.0]] {
        let mut numbers = two(PROPANE, BUTANE, fractions);
        assert_eq!(numbers.line(7), format!("7 22 {ZEROS} 3"));
        numbers.start = 2e-3;
        assert_eq!(numbers.line(7), format!("7 22 {ZEROS} 3"));
        numbers.temperature = 400.0;
        assert_eq!(numbers.line(7), format!("7 27 {ZEROS} 1"));
        // the root of 0 has no derivatives; what is at position 0 is finite
        let eos = PengRobinson::new(&[PROPANE, BUTANE], &[0.0]);
        let (res, jac) = criticality(&eos, 400.0, 2e-3, &fractions);
        assert!(res[0].is_finite());
        assert!(jac.iter().flatten().all(|x| x.is_nan()));
        assert_eq!(
            critical(&[PROPANE, BUTANE], &[0.0], &fractions, Some(400.0)),
            Err(FeosError::NotFinite)
        );
    }
}

// ---- refusals

#[test]
fn kinds_and_counts() {
    for kind in 0..=300 {
        assert_eq!(kind_fits(kind), (1..=9).contains(&kind));
        for n in 0..=300 {
            let of_two = (7..=9).contains(&kind);
            let fits = if of_two { n == 2 } else { n > 0 && n < 9 };
            assert_eq!(count_fits(kind, n), fits);
        }
    }
    let block = two(PROPANE, BUTANE, [0.4, 0.6]).block();
    for n in 0..=255 {
        assert_eq!(run_request(10, n, &block).to_string(), "2");
        assert_eq!(run_request(0, n, &block).to_string(), "2");
        let line = run_request(7, n, &block).to_string();
        if n == 2 {
            assert!(line.starts_with("7 0 "), "{line}");
        } else {
            assert_eq!(line, "3");
        }
    }
    // blocks that fit their N
    let mut one = two(PROPANE, BUTANE, [1.0, 0.0]);
    one.coefficients.pop();
    one.interactions.pop();
    one.fractions.pop();
    assert_eq!(one.line(7), "3");
    assert!(one.line(5).starts_with("5 0 "));
    let mut three = two(PROPANE, BUTANE, [0.4, 0.6]);
    three.coefficients.push(WATER);
    three.interactions = vec![0.0; 3];
    three.fractions.push(0.0);
    assert_eq!(three.line(7), "3");
    assert!(three.line(5).starts_with("5 0 "));
}

/// Everything wrong, mended one after the other.
#[test]
fn order_of_the_data_refusals() {
    let mut numbers = Numbers {
        // co-volumes of 1e-309, whose maximum density overflows
        coefficients: vec![fluid(1e-7, 1e308, 0.1), fluid(1e-7, 1e308, f64::NAN)],
        interactions: vec![f64::INFINITY],
        fractions: vec![60.0, -0.0],
        choice: u64::MAX,
        temperature: -0.0,
        pressure: f64::NAN,
        start: f64::INFINITY,
    };
    let mut pairs = numbers.block();
    pairs[0] = 15;
    let line = run_request(7, 2, &pairs).to_string();
    assert_eq!(line, format!("7 11 {ZEROS} 0"));
    numbers.refused(7, 12);
    numbers.coefficients[1].acentric_factor = 0.1;
    numbers.refused(7, 13);
    numbers.interactions[0] = 0.01;
    numbers.refused(7, 14);
    numbers.fractions[1] = 40.0;
    numbers.refused(7, 17);
    numbers.fractions = vec![0.6, 0.4];
    numbers.refused(7, 15);
    numbers.start = 0.0;
    numbers.refused(7, 15);
    numbers.temperature = 0.0;
    numbers.refused(7, 16);
    // of one component the maximum density may overflow, not that of the blend
    numbers.coefficients[0] = PROPANE;
    let line = numbers.line(7);
    assert!(!line.starts_with("7 16"), "{line}");
    numbers.coefficients[1] = BUTANE;
    let line = numbers.line(7);
    assert!(line.starts_with("7 0 "), "{line}");
}

#[test]
fn conditions_read() {
    let numbers = two(PROPANE, BUTANE, [0.4, 0.6]);
    let line = numbers.line(7);
    assert!(line.starts_with("7 0 "), "{line}");
    assert_eq!(line.split(' ').nth(4), Some("0000000000000000"));
    let nan = f64::from_bits(0xFFF8_0000_0000_0001);
    let pressures = [f64::NAN, nan, f64::INFINITY, -0.0, -1e300, 5e-324];
    for choice in [0, 1, 2, 9, 1 << 32, 1 << 63, u64::MAX] {
        for pressure in pressures {
            let junk = Numbers {
                choice,
                pressure,
                ..numbers.clone()
            };
            assert_eq!(junk.line(7), line);
        }
    }
    let with = |temperature: f64, start: f64| Numbers {
        temperature,
        start,
        ..numbers.clone()
    };
    // only +0 means none
    for bad in [-0.0, -1.0, f64::NAN, f64::INFINITY, f64::NEG_INFINITY] {
        with(bad, 0.0).refused(7, 15);
    }
    for bad in [f64::NAN, f64::INFINITY, f64::NEG_INFINITY] {
        with(0.0, bad).refused(7, 15);
        with(400.0, bad).refused(7, 15);
    }
    // -0 and a negative number are starts; no 21 here
    assert_eq!(with(400.0, -0.0).line(7), format!("7 27 {ZEROS} 1"));
    assert_eq!(with(400.0, -1e-3).line(7), format!("7 27 {ZEROS} 1"));
    assert_eq!(with(0.0, -0.0).line(7), format!("7 22 {ZEROS} 3"));
    assert!(with(400.0, 2.5e-3).line(7).starts_with("7 0 "));
    assert!(with(0.0, 2.5e-3).line(7).starts_with("7 0 "));
}

// ---- the board

/// Kind 7 is handed out after 150 turns; a board that holds one with N other than 2 is refused.
#[test]
fn on_the_board() {
    let block = two(PROPANE, BUTANE, [0.4, 0.6]).block();
    let (mut board, mut record) = ([0; BOARD], [0xa5; board::RECORD]);
    let mut submit = |kind, n| board::submit(&mut board, 0, kind, n, &block);
    for n in [0, 1, 3, 8, 9, 256 + 2, u64::MAX] {
        assert_eq!(submit(7, n), board::Answer::Refused(3));
    }
    assert_eq!(submit(10, 2), board::Answer::Refused(2));
    assert_eq!(submit(256 + 7, 2), board::Answer::Refused(2));
    assert_eq!(submit(7, 2), board::Answer::Ticket(0));
    let (answer, made) = trace_request(7, 2, &block);
    for turn in 1..150 {
        for queue in 0..4 {
            assert_eq!(
                board::turn(&mut board, &mut record),
                board::Answer::Turned(0)
            );
            if queue == 0 {
                let count = made.len().min(turn);
                let shown = board::Answer::Shown {
                    evaluations: count as u64,
                    density: bits(made[count - 1].density),
                };
                assert_eq!(board::look(&board, 0), shown);
            }
        }
    }
    for n in [1, 3, 8] {
        let mut other = board;
        board::put(&mut other[..QUARTER], board::count_at(0), n);
        assert!(!board::fits(&other));
        // every other kind lets it pass
        board::put(&mut other[..QUARTER], board::kind_at(0), 6);
        assert!(board::fits(&other));
    }
    let mut other = board;
    board::put(&mut other[..QUARTER], board::kind_at(0), 10);
    assert!(!board::fits(&other));
    // 149 turns had, as kind 5 may have
    board::put(&mut other[..QUARTER], board::kind_at(0), 5);
    assert!(board::fits(&other));
    board::put(&mut other[..QUARTER], board::TURNS, 150);
    assert!(!board::fits(&other));
    assert_eq!(
        board::turn(&mut board, &mut record),
        board::Answer::Turned(1)
    );
    let oracle::Answer::Sealed {
        status,
        values,
        evaluations,
        ..
    } = answer
    else {
        panic!("not refused")
    };
    assert_eq!(record[8], 7);
    assert_eq!(board::get(&record, 16), status);
    for (i, x) in values.into_iter().enumerate() {
        assert_eq!(board::get(&record, 24 + 8 * i), bits(x));
    }
    assert_eq!(board::get(&record, 48), evaluations);
}

// ---- generated evaluations and requests

#[test]
fn generated_evaluations() {
    let cases: Vec<EvalCase> = eval_cases(1, 40_000)
        .filter(|case| case.evaluation == 6)
        .collect();
    assert_eq!(cases.len(), 5_000);
    let count = |test: &dyn Fn(&EvalCase) -> bool| cases.iter().filter(|case| test(case)).count();
    let z = |case: &EvalCase| [case.blend.fractions[0], case.blend.fractions[1]];
    let alike = |case: &EvalCase| {
        let [a, b] = [0, 1].map(|i| case.blend.coefficients[i]);
        a.tc == b.tc && a.pc == b.pc && a.acentric_factor == b.acentric_factor
    };
    assert!(cases
        .iter()
        .all(|case| eval_fits(6, case.blend.fractions.len())));
    for (what, least, found) in [
        ("first missing", 50, count(&|c| z(c)[0] == 0.0)),
        ("second missing", 50, count(&|c| z(c)[1] == 0.0)),
        ("1e-3", 10, count(&|c| z(c).contains(&1e-3))),
        ("1e-9", 10, count(&|c| z(c).contains(&1e-9))),
        ("1e-300", 10, count(&|c| z(c).contains(&1e-300))),
        (
            "do not add up",
            100,
            count(&|c| (z(c)[0] + z(c)[1] - 1.0).abs() > 1e-3),
        ),
        (
            "alike, halves",
            100,
            count(&|c| alike(c) && z(c) == [0.5; 2] && c.blend.interactions[0] == 0.0),
        ),
        (
            "finite",
            3_000,
            count(&|c| c.run().iter().all(|x| x.is_finite())),
        ),
        (
            "not finite",
            300,
            count(&|c| c.run().iter().any(|x| !x.is_finite())),
        ),
        (
            "no attraction",
            100,
            count(&|c| c.blend.interactions[0] == 1.0),
        ),
    ] {
        assert!(found >= least, "{what}: {found}");
    }
    // bytes and back
    for case in &cases[..200] {
        let again = EvalCase::from_bytes(&case.to_bytes());
        assert_eq!(words(&again.run()), words(&case.run()));
    }
    for n in 0..10 {
        for evaluation in 6..=8 {
            assert_eq!(eval_fits(evaluation, n), n == 2);
        }
        assert_eq!(eval_fits(5, n), (1..=8).contains(&n));
        assert!(!eval_fits(0, n) && !eval_fits(9, n));
    }
}

/// Requests of kind 7: as many as of other kinds, with N other than 2 too, and first evaluations that find m12 exactly 0.
#[test]
fn generated_requests() {
    let (mut of_two, mut others, mut uncoupled, mut halves) = (0, 0, 0, 0);
    for request in requests(2, 40_000) {
        if request[0] != 7 {
            continue;
        }
        if request[1] != 2 {
            others += 1;
            continue;
        }
        of_two += 1;
        let block: &[u8; BLOCK] = request[2..].try_into().unwrap();
        let Ok(job) = oracle::block::check(7, 2, block) else {
            continue;
        };
        assert_eq!(job.molefracs.len(), 2);
        halves += usize::from(job.eos.tc[0] == job.eos.tc[1] && job.molefracs == [0.5, 0.5]);
        let t = if job.temperature == 0.0 {
            300.0
        } else {
            job.temperature
        };
        if job.start > 0.0 && job.molefracs.iter().all(|&x| x > 0.0) {
            let [[_, m12], _] = matrix_of(&job.eos, t, job.start, &job.molefracs);
            uncoupled += usize::from(m12 == 0.0 && job.start > 1e-30);
        }
    }
    assert!(of_two > 2_500 && others > 30, "{of_two} {others}");
    assert!(uncoupled > 70 && halves > 100, "{uncoupled} {halves}");
}

// ---- one component

/// Words of `criticality_conditions`.
#[test]
fn bits_of_one_component() {
    for (fluid, t, rho, expected) in [
        (PROPANE, 369.83, 0.0028, "3F521CCC3CA8DC00 3FAF0F29CD152888 3F8048CFD35490AD 40360F5D930E1DD1 BF6517807EAA50C6 4084B56A7BD1BC52"),
        (PROPANE, 300.0, 0.001, "3F925A9AE0AFBB20 BFE725CB306613DB 3F78C34D8A458783 C0860B8493485274 BF5408A5AA17435E 407B535BE37E6F12"),
        (PROPANE, 700.0, 0.0095, "4053ACE8AAADB867 4092B53B4D41211C 3F73220572663869 4100656669256FC3 3F54BB830440FD13 414881B050DD3273"),
        (PROPANE, 0.001, 0.005, "C143D45786942C6D 4124BE473D336E32 41E36070E813DEA2 C1B6E174EE5F6E5C C1C4450245918EDB C18E22446F8E5F9F"),
        (BUTANE, 425.0, 0.0022, "3F506B88E5DBE600 3FB4BC156BBE5618 3F7DCAA20DE7EF3F 4042A2BDFA85F71E BF6350D5291DAB47 408B0D36BF446972"),
        (WATER, 650.0, 0.008, "3F8EC2ECBAFBE800 BF8875FD828C3E60 3F74F9F69D2D21B4 3FD89C867474326A BF5B07A769F63BF7 406A6FC60E419A0E"),
        (HELIUM, 5.2, 0.01, "3F4EF64F38B90400 BFAB7CF2D9877DA8 3FCF9883EEE01F89 C01518DC02609818 BFB442D6E57034B3 4063E34B0F767BE5"),
        (PROPANE, 300.0, 1e-9, "3FEFFFFD331D042A BFEFFFFFFFFFF00E 3E407BC0D47A67A2 C094DD38514AE5DF BCE36555D1CE1CA2 3F4DB4F0E2DB47EC"),
        (PROPANE, 300.0, 0.5, "7FF8000000000000 7FF8000000000000 7FF8000000000000 7FF8000000000000 7FF8000000000000 7FF8000000000000"),
    ] {
        let eos = PengRobinson::new(&[fluid], &[]);
        let (res, jac) = criticality(&eos, t, rho, &[1.0]);
        let six = [res[0], res[1], jac[0][0], jac[0][1], jac[1][0], jac[1][1]];
        assert_eq!(words(&six), expected);
        // the evaluation byte 4 of the same
        let case = EvalCase {
            evaluation: 4,
            blend: oracle::random::Blend {
                coefficients: vec![fluid],
                interactions: vec![],
                fractions: vec![0.25],
            },
            temperature: t,
            density: rho,
        };
        assert_eq!(words(&case.run()), expected);
    }
}

/// Lines of kinds 5 and 6.
#[test]
fn lines_of_one_component() {
    let of = |fluid, temperature, start| Numbers {
        coefficients: vec![fluid],
        interactions: vec![],
        fractions: vec![1.0],
        choice: 0,
        temperature,
        pressure: 0.0,
        start,
    };
    let second = |temperature, start| Numbers {
        interactions: vec![0.01],
        choice: 1,
        temperature,
        start,
        ..two(PROPANE, BUTANE, [60.0, 40.0])
    };
    for (numbers, expected) in [
        (
            of(PROPANE, 0.0, 0.0),
            "5 0 40771D213CEC8CA5 3F662B76C42F98DC 0000000000000000 5",
        ),
        (
            of(PROPANE, 360.0, 0.0),
            "5 0 40771D213CEC8CA4 3F662B76C42F98D4 0000000000000000 4",
        ),
        (
            of(PROPANE, 300.0, 0.003),
            "5 0 40771D213CEC8CA4 3F662B76C42F98DB 0000000000000000 5",
        ),
        (
            of(PROPANE, 300.0, -0.001),
            "5 27 0000000000000000 0000000000000000 0000000000000000 1",
        ),
        (
            second(0.0, 0.0),
            "5 0 407A91C12982F698 3F613BFB372EDA07 0000000000000000 6",
        ),
        (
            second(400.0, 0.002),
            "5 0 407A91C12982F69B 3F613BFB372EDA06 0000000000000000 4",
        ),
        (
            of(WATER, 500.0, 0.0),
            "5 0 408438B008C0E0DB 3F8073D704138CAC 0000000000000000 5",
        ),
        (
            of(HELIUM, 4.0, 0.0),
            "5 0 4014CC810B9120EF 3F852825D80DA792 0000000000000000 5",
        ),
        (
            of(PROPANE, 360.0, 0.0),
            "6 0 3F601D91AD68135F 3F6D5A99197CDEA6 0000000000000000 20",
        ),
        (
            of(PROPANE, 300.0, 0.003),
            "6 0 3F50CDB880EB94A5 3F75D75D1A2D8EAF 0000000000000000 19",
        ),
        (
            second(400.0, 0.002),
            "6 0 3F54D316251D7BEB 3F6A12E314A201DC 0000000000000000 20",
        ),
        (
            of(WATER, 500.0, 0.0),
            "6 0 3F641D141B52599D 3F91CF7138174CCB 0000000000000000 22",
        ),
        (
            of(HELIUM, 4.0, 0.0),
            "6 0 3F7479CD76EEBEB8 3F925B90F64DD54D 0000000000000000 31",
        ),
        (
            of(PROPANE, 1e-200, 0.0),
            "6 26 0000000000000000 0000000000000000 0000000000000000 55",
        ),
    ] {
        let kind = expected.as_bytes()[0] - b'0';
        assert_eq!(numbers.line(kind), expected);
    }
}
