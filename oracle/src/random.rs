//! Random numbers from a seed, special floats, and blends of real fluids for the makers of test input.

use crate::cubic::PengRobinsonRecord;

/// SplitMix64.
pub struct Rng {
    state: u64,
}

impl Rng {
    pub fn new(seed: u64) -> Self {
        Rng { state: seed }
    }

    pub fn bits(&mut self) -> u64 {
        self.state = self.state.wrapping_add(0x9E37_79B9_7F4A_7C15);
        let mut z = self.state;
        z = (z ^ (z >> 30)).wrapping_mul(0xBF58_476D_1CE4_E5B9);
        z = (z ^ (z >> 27)).wrapping_mul(0x94D0_49BB_1331_11EB);
        z ^ (z >> 31)
    }

    /// A whole number below n.
    pub fn below(&mut self, n: usize) -> usize {
        (self.bits() % n as u64) as usize
    }

    /// True once in n times.
    pub fn once_in(&mut self, n: usize) -> bool {
        self.below(n) == 0
    }

    /// A number from 0 up to 1.
    pub fn unit(&mut self) -> f64 {
        (self.bits() >> 11) as f64 / 9007199254740992.0
    }

    pub fn between(&mut self, low: f64, high: f64) -> f64 {
        low + (high - low) * self.unit()
    }

    /// Evenly spread in the logarithm; both ends positive.
    pub fn log_between(&mut self, low: f64, high: f64) -> f64 {
        self.between(low.ln(), high.ln()).exp()
    }

    pub fn pick<T: Copy>(&mut self, from: &[T]) -> T {
        from[self.below(from.len())]
    }

    /// Any finite float, every exponent alike.
    pub fn any_finite(&mut self) -> f64 {
        loop {
            let x = f64::from_bits(self.bits());
            if x.is_finite() {
                return x;
            }
        }
    }

    /// Zeros, infinities, NaN, subnormals and the ends of the range.
    pub fn special(&mut self) -> f64 {
        self.pick(&SPECIALS)
    }
}

pub const SPECIALS: [f64; 24] = [
    0.0,
    -0.0,
    1.0,
    -1.0,
    f64::INFINITY,
    f64::NEG_INFINITY,
    f64::NAN,
    5e-324,
    -5e-324,
    1.1125369292536007e-308,
    2.2250738585072009e-308,
    -2.2250738585072009e-308,
    f64::MIN_POSITIVE,
    -f64::MIN_POSITIVE,
    f64::MAX,
    f64::MIN,
    1e-300,
    -1e-300,
    1e300,
    -1e300,
    1e154,
    1e-162,
    1.0000000000000002,
    0.9999999999999999,
];

/// Name, critical temperature in K, critical pressure in Pa, acentric factor; values as found in handbooks.
pub const FLUIDS: [(&str, f64, f64, f64); 24] = [
    ("methane", 190.56, 4599000.0, 0.0115),
    ("ethane", 305.32, 4872000.0, 0.0995),
    ("propane", 369.83, 4248000.0, 0.1523),
    ("n-butane", 425.12, 3796000.0, 0.2002),
    ("isobutane", 407.80, 3640000.0, 0.1835),
    ("n-pentane", 469.70, 3370000.0, 0.2515),
    ("isopentane", 460.40, 3380000.0, 0.2279),
    ("n-hexane", 507.60, 3025000.0, 0.3013),
    ("n-heptane", 540.20, 2740000.0, 0.3495),
    ("n-octane", 568.70, 2490000.0, 0.3996),
    ("n-decane", 617.70, 2110000.0, 0.4923),
    ("n-hexadecane", 723.0, 1400000.0, 0.7174),
    ("ethylene", 282.34, 5041000.0, 0.0862),
    ("propylene", 364.85, 4600000.0, 0.1376),
    ("benzene", 562.05, 4895000.0, 0.2103),
    ("toluene", 591.75, 4108000.0, 0.2640),
    ("nitrogen", 126.20, 3400000.0, 0.0377),
    ("oxygen", 154.58, 5043000.0, 0.0222),
    ("carbon dioxide", 304.21, 7383000.0, 0.2236),
    ("hydrogen sulfide", 373.53, 8962900.0, 0.0942),
    ("water", 647.10, 22064000.0, 0.3449),
    ("ammonia", 405.65, 11280000.0, 0.2526),
    ("hydrogen", 33.19, 1313000.0, -0.2160),
    ("helium", 5.20, 228000.0, -0.3900),
];

/// Coefficients, interactions by rows and fractions of a blend.
#[derive(Clone, Debug)]
pub struct Blend {
    pub coefficients: Vec<PengRobinsonRecord>,
    pub interactions: Vec<f64>,
    pub fractions: Vec<f64>,
}

/// n of the fluids, each slightly changed, with small interactions and fractions that add up to 1 but for rounding.
pub fn blend(rng: &mut Rng, n: usize) -> Blend {
    let coefficients = (0..n)
        .map(|_| {
            let (_, tc, pc, acentric_factor) = rng.pick(&FLUIDS);
            let exact = rng.once_in(3);
            let mut change = || if exact { 1.0 } else { rng.between(0.9, 1.1) };
            PengRobinsonRecord {
                tc: tc * change(),
                pc: pc * change(),
                acentric_factor: acentric_factor * change(),
            }
        })
        .collect();
    let interactions = (0..n * (n - 1) / 2)
        .map(|_| {
            if rng.once_in(4) {
                0.0
            } else {
                rng.between(-0.1, 0.2)
            }
        })
        .collect();
    let parts: Vec<f64> = (0..n)
        .map(|_| {
            if n > 1 && rng.once_in(12) {
                0.0
            } else {
                rng.between(0.01, 1.0)
            }
        })
        .collect();
    let sum: f64 = parts.iter().sum();
    let fractions = if n == 1 {
        vec![1.0]
    } else if sum == 0.0 {
        vec![1.0 / n as f64; n]
    } else {
        parts.iter().map(|x| x / sum).collect()
    };
    Blend {
        coefficients,
        interactions,
        fractions,
    }
}

/// Two fluids for the critical point of their blend: often as handbooks give them, some alike. Fractions as suppliers file
/// them, halves, traces down to 1e-12, or one missing.
pub fn blend_of_two(rng: &mut Rng) -> Blend {
    let mut blend = blend(rng, 2);
    if rng.once_in(2) {
        for record in &mut blend.coefficients {
            let (_, tc, pc, acentric_factor) = rng.pick(&FLUIDS);
            *record = PengRobinsonRecord {
                tc,
                pc,
                acentric_factor,
            };
        }
    }
    if rng.once_in(6) {
        blend.interactions[0] = rng.between(-0.5, 1.0);
    }
    match rng.below(8) {
        0..=2 => {
            let percent = 1 + rng.below(99);
            blend.fractions = vec![percent as f64 / 100.0, (100 - percent) as f64 / 100.0];
        }
        3 => blend.fractions = vec![0.5, 0.5],
        4 | 5 => {
            let trace = if rng.once_in(3) {
                rng.pick(&[1e-3, 1e-6, 1e-9, 1e-12])
            } else {
                rng.log_between(1e-12, 0.5)
            };
            blend.fractions = vec![trace, 1.0 - trace];
        }
        _ => {}
    }
    if rng.once_in(24) {
        blend.fractions = vec![0.0, 1.0];
    }
    if rng.once_in(2) {
        blend.fractions.reverse();
    }
    if rng.once_in(12) {
        make_alike(rng, &mut blend);
    }
    blend
}

/// Places in `FLUIDS` of two whose critical line leads from one pure fluid to the other, or nearly so.
const PAIRS: [(usize, usize); 12] = [
    (2, 3),   // propane, n-butane
    (0, 1),   // methane, ethane
    (18, 2),  // carbon dioxide, propane
    (1, 2),   // ethane, propane
    (4, 3),   // isobutane, n-butane
    (3, 7),   // n-butane, n-hexane
    (16, 0),  // nitrogen, methane
    (16, 17), // nitrogen, oxygen
    (12, 1),  // ethylene, ethane
    (14, 15), // benzene, toluene
    (18, 19), // carbon dioxide, hydrogen sulfide
    (0, 2),   // methane, propane
];

/// Two fluids for a point of their critical line: mostly pairs that have one, in either order, else any two.
pub fn blend_on_line(rng: &mut Rng) -> Blend {
    let mut blend = blend_of_two(rng);
    if !rng.once_in(3) {
        let (first, second) = rng.pick(&PAIRS);
        let places = if rng.once_in(2) {
            [first, second]
        } else {
            [second, first]
        };
        for (record, place) in blend.coefficients.iter_mut().zip(places) {
            let (_, tc, pc, acentric_factor) = FLUIDS[place];
            *record = PengRobinsonRecord {
                tc,
                pc,
                acentric_factor,
            };
        }
    }
    blend
}

/// Gives both components of a blend of two the same coefficients; mostly no interaction, often halves.
pub fn make_alike(rng: &mut Rng, blend: &mut Blend) {
    blend.coefficients[1] = blend.coefficients[0];
    if !rng.once_in(4) {
        blend.interactions[0] = 0.0;
    }
    if rng.once_in(2) {
        blend.fractions = vec![0.5, 0.5];
    }
}
