//! What the tests of two components share: fluids, requests by their numbers, and the equation of state with its derivatives
//! on paper.
#![allow(dead_code)]

use oracle::{run_request, PengRobinson, PengRobinsonRecord, BLOCK};
use std::f64::consts::SQRT_2;

pub const ZEROS: &str = "0000000000000000 0000000000000000 0000000000000000";

pub const fn fluid(tc: f64, pc: f64, acentric_factor: f64) -> PengRobinsonRecord {
    PengRobinsonRecord {
        tc,
        pc,
        acentric_factor,
    }
}

pub const METHANE: PengRobinsonRecord = fluid(190.56, 4599000.0, 0.0115);
pub const ETHANE: PengRobinsonRecord = fluid(305.32, 4872000.0, 0.0995);
pub const CARBON_DIOXIDE: PengRobinsonRecord = fluid(304.21, 7383000.0, 0.2236);
pub const PROPANE: PengRobinsonRecord = fluid(369.83, 4248000.0, 0.1523);
pub const BUTANE: PengRobinsonRecord = fluid(425.12, 3796000.0, 0.2002);
pub const WATER: PengRobinsonRecord = fluid(647.10, 22064000.0, 0.3449);
pub const HYDROGEN: PengRobinsonRecord = fluid(33.19, 1313000.0, -0.2160);
pub const OXYGEN: PengRobinsonRecord = fluid(154.58, 5043000.0, 0.0222);
pub const HELIUM: PengRobinsonRecord = fluid(5.20, 228000.0, -0.3900);

/// The numbers of a request.
#[derive(Clone)]
pub struct Numbers {
    pub coefficients: Vec<PengRobinsonRecord>,
    pub interactions: Vec<f64>,
    pub fractions: Vec<f64>,
    pub choice: u64,
    pub temperature: f64,
    pub pressure: f64,
    pub start: f64,
}

/// Two components, no interaction, neither temperature nor start.
pub fn two(first: PengRobinsonRecord, second: PengRobinsonRecord, fractions: [f64; 2]) -> Numbers {
    Numbers {
        coefficients: vec![first, second],
        interactions: vec![0.0],
        fractions: fractions.to_vec(),
        choice: 0,
        temperature: 0.0,
        pressure: 0.0,
        start: 0.0,
    }
}

impl Numbers {
    pub fn block(&self) -> [u8; BLOCK] {
        let words = |x: &[f64]| x.iter().map(|x| x.to_bits()).collect::<Vec<u64>>();
        let coefficients: Vec<f64> = self
            .coefficients
            .iter()
            .flat_map(|r| [r.tc, r.pc, r.acentric_factor])
            .collect();
        let mut conditions = vec![self.choice];
        conditions.extend(words(&[self.temperature, self.pressure, self.start]));
        let parts = [
            words(&coefficients),
            words(&self.interactions),
            words(&self.fractions),
            conditions,
        ];
        let mut block = [0; BLOCK];
        let mut at = 16;
        for (i, part) in parts.iter().enumerate() {
            block[4 * i..4 * i + 2].copy_from_slice(&(at as u16).to_le_bytes());
            block[4 * i + 2..4 * i + 4].copy_from_slice(&(8 * part.len() as u16).to_le_bytes());
            for word in part {
                block[at..at + 8].copy_from_slice(&word.to_le_bytes());
                at += 8;
            }
        }
        block
    }

    pub fn line(&self, kind: u8) -> String {
        run_request(kind, self.coefficients.len() as u8, &self.block()).to_string()
    }

    /// The kind answers with a refusal and without an evaluation.
    pub fn refused(&self, kind: u8, status: u64) {
        assert_eq!(self.line(kind), format!("{kind} {status} {ZEROS} 0"));
    }
}

pub fn close(x: f64, y: f64, relative: f64) {
    let scale = x.abs().max(y.abs());
    assert!((x - y).abs() <= relative * scale, "{x:e} and {y:e}");
}

/// The equation of state with its derivatives by the mole numbers as they come out on paper: A/T is
/// -N ln(1 - B/V) - (D/T) g(B) with B the co-volumes' sum, D that of the attractions and g(B) = ln((V+pB)/(V+qB))/(2^1.5 B).
pub struct Analytic {
    t: f64,
    v: f64,
    z: [f64; 2],
    b: [f64; 2],
    /// attraction of each pair
    a: [[f64; 2]; 2],
    /// g and its three derivatives by B
    g: [f64; 4],
}

impl Analytic {
    pub fn new(eos: &PengRobinson, t: f64, rho: f64, z: [f64; 2]) -> Self {
        let v = 1.0 / rho;
        let b = [eos.b[0], eos.b[1]];
        let ak = [0, 1].map(|i| {
            let root = 1.0 + eos.kappa[i] * (1.0 - (t / eos.tc[i]).sqrt());
            eos.a[i] * root * root
        });
        let a = [0, 1].map(|i| [0, 1].map(|j| (ak[i] * ak[j]).sqrt() * (1.0 - eos.k_ij[i][j])));
        let sum = z[0] * b[0] + z[1] * b[1];
        let (p, q) = (1.0 + SQRT_2, 1.0 - SQRT_2);
        let (up, down) = (p / (v + p * sum), q / (v + q * sum));
        // the logarithm and its derivatives, then those of its quotient by B
        let l = [
            ((v + p * sum) / (v + q * sum)).ln(),
            up - down,
            down.powi(2) - up.powi(2),
            2.0 * (up.powi(3) - down.powi(3)),
        ];
        let c = 2.0 * SQRT_2;
        let g0 = l[0] / (c * sum);
        let g1 = (l[1] / c - g0) / sum;
        let g2 = (l[2] / c - 2.0 * g1) / sum;
        let g3 = (l[3] / c - 3.0 * g2) / sum;
        Analytic {
            t,
            v,
            z,
            b,
            a,
            g: [g0, g1, g2, g3],
        }
    }

    pub fn free(&self) -> f64 {
        self.v - self.z[0] * self.b[0] - self.z[1] * self.b[1]
    }

    /// Sum of a over pairs.
    pub fn pairs(&self, x: [f64; 2], y: [f64; 2]) -> f64 {
        let of = |i: usize| x[i] * (self.a[i][0] * y[0] + self.a[i][1] * y[1]);
        of(0) + of(1)
    }

    pub fn matrix(&self) -> [[f64; 2]; 2] {
        let (z, b, g, free) = (self.z, self.b, self.g, self.free());
        let d = self.pairs(z, z);
        let d_by = [self.pairs([1.0, 0.0], z), self.pairs([0.0, 1.0], z)].map(|x| 2.0 * x);
        [0, 1].map(|i| {
            [0, 1].map(|j| {
                let repulsion = (b[i] + b[j]) / free + (z[0] + z[1]) * b[i] * b[j] / free.powi(2);
                let attraction = 2.0 * self.a[i][j] * g[0]
                    + (d_by[i] * b[j] + d_by[j] * b[i]) * g[1]
                    + d * b[i] * b[j] * g[2];
                let one = if i == j { 1.0 } else { 0.0 };
                (repulsion - attraction / self.t) * (z[i] * z[j]).sqrt() + one
            })
        })
    }

    /// The third derivative of the whole Helmholtz energy over T along the mole numbers' change w.
    pub fn third(&self, w: [f64; 2]) -> f64 {
        let (z, g, free) = (self.z, self.g, self.free());
        let beta = w[0] * self.b[0] + w[1] * self.b[1];
        let repulsion = (z[0] + z[1]) * 2.0 * (beta / free).powi(3)
            + 3.0 * (w[0] + w[1]) * (beta / free).powi(2);
        let attraction = self.pairs(z, z) * g[3] * beta.powi(3)
            + 3.0 * (2.0 * self.pairs(w, z)) * g[2] * beta.powi(2)
            + 3.0 * (2.0 * self.pairs(w, w)) * g[1] * beta;
        // w^3/z^2, in an order that no trace overflows
        let ideal = [0, 1].map(|i| (w[i] / z[i]) * (w[i] / z[i] * w[i]));
        repulsion - attraction / self.t - ideal[0] - ideal[1]
    }

    /// l and c2, the vector by its angle; its first entry has the sign of m12.
    pub fn conditions(&self) -> [f64; 2] {
        let [[m11, m12], [_, m22]] = self.matrix();
        let (sin, cos) = (0.5 * (2.0 * m12).atan2(m11 - m22)).sin_cos();
        let sign = if (-sin < 0.0) == (m12 < 0.0) {
            1.0
        } else {
            -1.0
        };
        let u = [-sin * sign, cos * sign];
        let l = u[0] * (m11 * u[0] + m12 * u[1]) + u[1] * (m12 * u[0] + m22 * u[1]);
        let w = [self.z[0].sqrt() * u[0], self.z[1].sqrt() * u[1]];
        [l, self.third(w)]
    }

    /// The pressure.
    pub fn pressure(&self) -> f64 {
        let b = self.z[0] * self.b[0] + self.z[1] * self.b[1];
        let v = self.v;
        let n = self.z[0] + self.z[1];
        n * self.t / (v - b) - self.pairs(self.z, self.z) / (v * v + 2.0 * b * v - b * b)
    }
}
