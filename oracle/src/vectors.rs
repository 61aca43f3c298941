//! Makers of test input for single jet operations and single evaluations, and what the oracle answers to it; roots and
//! logarithms of floats in words.

use crate::critical_point::{criticality, criticality_p, criticality_t, stability};
use crate::cubic::{PengRobinson, PengRobinsonRecord};
use crate::density_iteration::_chemical_potential;
use crate::float;
use crate::generate::uncoupled_state;
use crate::jet::{Jet, SIZE};
use crate::random::{blend, blend_of_two, blend_on_line, make_alike, Blend, Rng};

/// The operations on jets; the place is the operation's byte. `true`: takes two jets.
pub const OPERATIONS: [(&str, bool); 12] = [
    ("add", true),
    ("sub", true),
    ("neg", false),
    ("mul", true),
    ("div", true),
    ("recip", false),
    ("sqrt", false),
    ("ln", false),
    ("square", false),
    ("derivative1", false),
    ("derivative2", false),
    ("derivative3", false),
];

/// Bytes of one operation: its byte and two jets.
pub const JET_RECORD: usize = 1 + 2 * 8 * SIZE;

pub struct JetCase {
    pub operation: u8,
    pub a: Jet,
    /// zeros for an operation on one jet
    pub b: Jet,
}

/// The result, or `None` for an unknown operation byte.
pub fn jet_operation(operation: u8, a: Jet, b: Jet) -> Option<Jet> {
    Some(match operation {
        0 => a + b,
        1 => a - b,
        2 => -a,
        3 => a * b,
        4 => a / b,
        5 => a.recip(),
        6 => a.sqrt(),
        7 => a.ln(),
        8 => a.square(),
        9..=11 => a.derivative(usize::from(operation - 8)),
        _ => return None,
    })
}

/// Words of 16 hexadecimal digits, a space between them.
pub fn words(x: &[f64]) -> String {
    let words: Vec<String> = x
        .iter()
        .map(|&x| format!("{:016X}", float::bits(x)))
        .collect();
    words.join(" ")
}

/// A coefficient of a jet of this shape.
fn coefficient(rng: &mut Rng, shape: usize) -> f64 {
    match shape {
        0..=3 => rng.between(-2.0, 2.0),
        4 => rng.any_finite(),
        5 => rng.special(),
        6 if rng.once_in(3) => rng.special(),
        6 => rng.between(-10.0, 10.0),
        7 => rng.log_between(1e-12, 1e12),
        8 if rng.once_in(2) => 0.0,
        8 => rng.between(-1.0, 1.0),
        _ => 0.0,
    }
}

/// The coefficients beside e3 come from random numbers of their own, so that the others do not hang on them.
fn random_jet(rng: &mut Rng, beside: &mut Rng) -> Jet {
    let shape = rng.below(10);
    let mut c = [0.0; SIZE];
    for x in &mut c[..16] {
        *x = coefficient(rng, shape);
    }
    // the leading coefficient decides quotient, root and logarithm
    c[0] = match rng.below(12) {
        0 => rng.special(),
        1 => rng.between(-3.0, 0.0),
        2 => rng.between(0.99, 1.01),
        3 => rng.log_between(1e-300, 1e300),
        4 => f64::from_bits(rng.bits() % (1 << 52)),
        5 => f64::exp2(rng.below(40) as f64 - 20.0),
        6 => rng.any_finite(),
        7 => c[0],
        _ => rng.between(0.1, 10.0),
    };
    if shape == 9 {
        // a variable with a single mark, or a plain number
        let mark = rng.pick(&[1, 4, 8, 0]);
        if mark != 0 {
            c[mark] = 1.0;
        } else if beside.once_in(2) {
            c[16] = 1.0;
        }
    } else if !beside.once_in(4) {
        for x in &mut c[16..] {
            *x = coefficient(beside, shape);
        }
    }
    Jet { c }
}

/// Every operation in turn, on random and special jets.
pub fn jet_cases(seed: u64, count: usize) -> impl Iterator<Item = JetCase> {
    let (mut rng, mut beside) = (Rng::new(seed), Rng::new(!seed));
    (0..count).map(move |i| {
        let operation = (i % OPERATIONS.len()) as u8;
        let a = random_jet(&mut rng, &mut beside);
        let b = if OPERATIONS[usize::from(operation)].1 {
            random_jet(&mut rng, &mut beside)
        } else {
            Jet::zero()
        };
        JetCase { operation, a, b }
    })
}

impl JetCase {
    pub fn to_bytes(&self) -> Vec<u8> {
        let mut bytes = vec![self.operation];
        for x in self.a.c.iter().chain(&self.b.c) {
            bytes.extend(float::bits(*x).to_le_bytes());
        }
        bytes
    }

    pub fn from_bytes(bytes: &[u8]) -> Self {
        let at = |i: usize| float_at(bytes, 1 + 8 * i);
        JetCase {
            operation: bytes[0],
            a: Jet {
                c: std::array::from_fn(at),
            },
            b: Jet {
                c: std::array::from_fn(|i| at(SIZE + i)),
            },
        }
    }

    /// Operation, operands and result in words.
    pub fn line(&self) -> String {
        let (name, two) = OPERATIONS[usize::from(self.operation)];
        let result = jet_operation(self.operation, self.a, self.b).expect("a known operation");
        if two {
            format!(
                "{name} {} {} {}",
                words(&self.a.c),
                words(&self.b.c),
                words(&result.c)
            )
        } else {
            format!("{name} {} {}", words(&self.a.c), words(&result.c))
        }
    }
}

/// For a float's bits in 16 hexadecimal digits, those of its root and its logarithm, in lower case; `None` for another line.
pub fn float_line(line: &str) -> Option<String> {
    if line.len() != 16 || !line.bytes().all(|digit| digit.is_ascii_hexdigit()) {
        return None;
    }
    let x = f64::from_bits(u64::from_str_radix(line, 16).ok()?);
    let (root, logarithm) = (float::bits(x.sqrt()), float::bits(float::ln(x)));
    Some(format!("{root:016x} {logarithm:016x}"))
}

fn float_at(bytes: &[u8], at: usize) -> f64 {
    f64::from_bits(u64::from_le_bytes(
        bytes[at..at + 8].try_into().expect("eight bytes"),
    ))
}

/// One evaluation to be made: 1 `p_dpdrho`, 2 `p_dpdrho_d2pdrho2`, 3 `_chemical_potential`,
/// 4 `criticality_conditions` and 5 `stability_condition` with derivatives, of component 0 with fraction 1,
/// 6 `criticality_conditions` of two components with derivatives, 7 the same by the partial densities,
/// 8 `criticality_conditions_p` with derivatives.
#[derive(Clone, Debug)]
pub struct EvalCase {
    pub evaluation: u8,
    /// in 7 and 8 with the partial densities in the place of the fractions
    pub blend: Blend,
    pub temperature: f64,
    /// in 8 the pressure; 7 reads none
    pub density: f64,
}

/// Bytes of an evaluation with n components.
pub fn eval_record(n: usize) -> usize {
    2 + 24 * n + 4 * n * (n - 1) + 8 * n + 16
}

/// The evaluation bytes are 1 to 8.
const EVALUATIONS: u8 = 8;

/// Whether an evaluation can be made of n components: 6 to 8 of two, the others of 1 to 8.
pub fn eval_fits(evaluation: u8, n: usize) -> bool {
    match evaluation {
        6..=EVALUATIONS => n == 2,
        _ => (1..6).contains(&evaluation) && (1..=8).contains(&n),
    }
}

/// Two components as requests have them, and as none has them: smaller traces, fractions that do not add up, and without
/// attraction between unlike components.
fn any_two(rng: &mut Rng) -> Blend {
    let mut blend = blend_of_two(rng);
    let i = rng.below(2);
    match rng.below(12) {
        0 => {
            let trace = rng.pick(&[1e-3, 1e-9, 1e-16, 1e-100, 1e-300, 5e-324]);
            blend.fractions[i] = trace;
            blend.fractions[1 - i] = 1.0 - trace;
        }
        1 => blend.fractions[i] = 0.0,
        2 => blend.fractions.fill_with(|| rng.log_between(1e-3, 100.0)),
        3 => {
            make_alike(rng, &mut blend);
            (blend.interactions[0], blend.fractions) = (0.0, vec![0.5, 0.5]);
        }
        4 => blend.interactions[0] = 1.0,
        _ => {}
    }
    blend
}

/// An evaluation by partial densities: at ordinary, near-critical and odd ones of pairs with a critical line and of any two.
fn line_case(rng: &mut Rng, evaluation: u8) -> EvalCase {
    let mut blend = if rng.once_in(3) {
        any_two(rng)
    } else {
        blend_on_line(rng)
    };
    let eos = PengRobinson::new(&blend.coefficients, &blend.interactions);
    let x = [blend.fractions[0], blend.fractions[1]];
    let max_density = eos.compute_max_density(&x);
    let tc = x[0] * eos.tc[0] + x[1] * eos.tc[1];
    let (mut temperature, mut density) = match rng.below(4) {
        0 => (
            tc * rng.between(0.95, 1.05),
            0.3 * max_density * rng.between(0.9, 1.1),
        ),
        1 => (
            rng.between(50.0, 900.0),
            max_density * rng.log_between(1e-9, 1.0),
        ),
        _ => (
            tc * rng.between(0.3, 2.0),
            max_density * rng.between(0.001, 1.1),
        ),
    };
    if rng.once_in(12) {
        // the mixed entry of the matrix is exactly 0
        let near = tc * rng.between(0.5, 1.5);
        let found = uncoupled_state(&eos, &x, near, 40, true);
        (temperature, density) = found.unwrap_or((temperature, density));
    }
    let mut rho = x.map(|x| x * density);
    let i = rng.below(2);
    let mut pressure = match rng.below(8) {
        0 => rng.special(),
        1 => rng.any_finite(),
        2 => 0.0,
        _ => blend.coefficients[i].pc / 13806490.0 * rng.between(0.2, 3.0),
    };
    // odd and extreme states
    match rng.below(36) {
        0 => temperature = rng.special(),
        1 => rho[i] = rng.special(),
        2 => (temperature, rho[i]) = (rng.any_finite(), rng.any_finite()),
        3 => temperature = rng.log_between(1e-300, 1e300),
        4 => rho[i] = rng.log_between(1e-308, 1e300),
        5 => rho = rho.map(|rho| rho * rng.between(1.1, 3.0)),
        6 => rho = rho.map(|rho| -rho),
        7 => rho[i] = -rho[i],
        // a sum of 0
        8 => rho[i] = -rho[1 - i],
        9 => rho[i] = 0.0,
        10 => rho[i] = rho[1 - i],
        11 => rho[i] = 1e-4 * max_density,
        12 => rho = rho.map(|rho| rho * rng.log_between(1e-300, 1e-20)),
        13 => {
            let k = rng.special();
            let record = &mut blend.coefficients[i];
            match rng.below(3) {
                0 => record.tc = k,
                1 => record.pc = k,
                _ => record.acentric_factor = k,
            }
        }
        14 => blend.interactions[0] = rng.special(),
        15 => blend.coefficients[i].pc = rng.log_between(1e-290, 1e290),
        16 => pressure = rng.log_between(1e-300, 1e300),
        _ => {}
    }
    blend.fractions = rho.to_vec();
    EvalCase {
        evaluation,
        blend,
        temperature,
        density: pressure,
    }
}

/// The evaluations in turn, on ordinary, near-critical and extreme states of 1, 2, 3 and 8 components. Those by partial
/// densities come from random numbers of their own, so that the others do not hang on them.
pub fn eval_cases(seed: u64, count: usize) -> impl Iterator<Item = EvalCase> {
    let (mut rng, mut on_line) = (Rng::new(seed), Rng::new(!seed));
    (0..count).map(move |i| {
        let evaluation = (i % usize::from(EVALUATIONS)) as u8 + 1;
        if evaluation > 6 {
            return line_case(&mut on_line, evaluation);
        }
        let (n, mut blend) = if evaluation == 6 {
            (2, any_two(&mut rng))
        } else {
            let n = rng.pick(&[1, 1, 2, 3, 8]);
            (n, blend(&mut rng, n))
        };
        let of = |blend: &Blend| {
            if evaluation == 4 || evaluation == 5 {
                let eos = PengRobinson::new(&blend.coefficients[..1], &[]);
                (eos.compute_max_density(&[1.0]), blend.coefficients[0].tc)
            } else {
                let eos = PengRobinson::new(&blend.coefficients, &blend.interactions);
                let tc: f64 = (0..n)
                    .map(|i| blend.fractions[i] * blend.coefficients[i].tc)
                    .sum();
                (eos.compute_max_density(&blend.fractions), tc)
            }
        };
        let (max_density, tc) = of(&blend);
        let (mut temperature, mut density) = match rng.below(4) {
            0 => (
                tc * rng.between(0.999, 1.001),
                0.2531 / 0.9 * max_density * rng.between(0.99, 1.01),
            ),
            1 => (
                rng.between(50.0, 900.0),
                max_density * rng.log_between(1e-9, 1.0),
            ),
            _ => (
                tc * rng.between(0.3, 2.0),
                max_density * rng.between(0.001, 1.1),
            ),
        };
        if evaluation == 6 && rng.once_in(12) {
            // the mixed entry of the matrix is exactly 0
            let eos = PengRobinson::new(&blend.coefficients, &blend.interactions);
            let near = tc * rng.between(0.5, 1.5);
            let found = uncoupled_state(&eos, &blend.fractions, near, 40, false);
            (temperature, density) = found.unwrap_or((temperature, density));
        }
        // extreme states
        match rng.below(36) {
            0 => temperature = rng.special(),
            1 => density = rng.special(),
            2 => (temperature, density) = (rng.any_finite(), rng.any_finite()),
            3 => temperature = rng.log_between(1e-300, 1e300),
            4 => density = rng.log_between(1e-308, 1e300),
            5 => density = max_density * rng.between(1.1, 3.0),
            6 => density = -density,
            7 => {
                let i = rng.below(n);
                let k = rng.special();
                let record = &mut blend.coefficients[i];
                match rng.below(3) {
                    0 => record.tc = k,
                    1 => record.pc = k,
                    _ => record.acentric_factor = k,
                }
            }
            8 => {
                let i = rng.below(n);
                blend.fractions[i] = rng.special();
            }
            9 if n > 1 => {
                let i = rng.below(blend.interactions.len());
                blend.interactions[i] = rng.special();
            }
            10 => {
                let factor = rng.log_between(1e-200, 1e200);
                blend.fractions.iter_mut().for_each(|x| *x *= factor);
            }
            11 => {
                let i = rng.below(n);
                blend.coefficients[i].pc = rng.log_between(1e-290, 1e290);
            }
            _ => {}
        }
        EvalCase {
            evaluation,
            blend,
            temperature,
            density,
        }
    })
}

impl EvalCase {
    pub fn to_bytes(&self) -> Vec<u8> {
        let mut bytes = vec![self.evaluation, self.blend.coefficients.len() as u8];
        let mut put = |x: f64| bytes.extend(float::bits(x).to_le_bytes());
        for r in &self.blend.coefficients {
            put(r.tc);
            put(r.pc);
            put(r.acentric_factor);
        }
        self.blend.interactions.iter().for_each(|&k| put(k));
        self.blend.fractions.iter().for_each(|&x| put(x));
        put(self.temperature);
        put(self.density);
        bytes
    }

    /// Reads a whole record.
    pub fn from_bytes(bytes: &[u8]) -> Self {
        let n = usize::from(bytes[1]);
        let mut next = bytes[2..].chunks(8).map(|word| float_at(word, 0));
        let mut take = |count: usize| -> Vec<f64> { next.by_ref().take(count).collect() };
        let coefficients = take(3 * n)
            .chunks(3)
            .map(|c| PengRobinsonRecord {
                tc: c[0],
                pc: c[1],
                acentric_factor: c[2],
            })
            .collect();
        let interactions = take(n * (n - 1) / 2);
        let fractions = take(n);
        let state = take(2);
        EvalCase {
            evaluation: bytes[0],
            blend: Blend {
                coefficients,
                interactions,
                fractions,
            },
            temperature: state[0],
            density: state[1],
        }
    }

    /// What the evaluation yields.
    pub fn run(&self) -> Vec<f64> {
        let eos = PengRobinson::new(&self.blend.coefficients, &self.blend.interactions);
        let (t, rho, x) = (self.temperature, self.density, &self.blend.fractions[..]);
        let six = |(res, jac): ([f64; 2], [[f64; 2]; 2])| {
            vec![res[0], res[1], jac[0][0], jac[0][1], jac[1][0], jac[1][1]]
        };
        match self.evaluation {
            1 => {
                let (_, p, dp_drho) = eos.p_dpdrho(t, rho, x);
                vec![p, dp_drho, 0.0]
            }
            2 => {
                let (p, dp_drho, d2p_drho2) = eos.p_dpdrho_d2pdrho2(t, rho, x);
                vec![p, dp_drho, d2p_drho2]
            }
            3 => vec![_chemical_potential(&eos, t, rho, x)],
            4 => six(criticality(&eos.subset(0), t, rho, &[1.0])),
            5 => {
                let (f, df) = stability(&eos.subset(0), t, rho, &[1.0]);
                vec![f, df]
            }
            6 => six(criticality(&eos, t, rho, x)),
            7 => criticality_t(&eos, t, [x[0], x[1]]).to_vec(),
            _ => criticality_p(&eos, self.density, t, [x[0], x[1]]).to_vec(),
        }
    }
}
