//! The requests that writes, jobs and turns are measured on: eight of each kind for N = 1, 2, 8 (kinds 7 to 9: 2), on one bottle.
use crate::proved;
use oracle::random::FLUIDS;
use oracle::writer::Filing;
use oracle::{PengRobinson, PengRobinsonRecord, BLOCK};

/// What is in the bottle: the first N of these, by parts.
const BOTTLE: [(&str, f64); 8] = [
    ("propane", 50.0),
    ("n-butane", 20.0),
    ("isobutane", 12.0),
    ("propylene", 8.0),
    ("ethane", 4.0),
    ("n-pentane", 3.0),
    ("isopentane", 2.0),
    ("ethylene", 1.0),
];

/// One bar in K per cubic angstrom, the unit of a request's pressure.
const BAR: f64 = 1e5 / 13806490.0;

struct Bottle {
    records: Vec<PengRobinsonRecord>,
    interactions: Vec<f64>,
    fractions: Vec<f64>,
    /// mean of the critical temperatures
    tc: f64,
    max_density: f64,
}

impl Bottle {
    fn new(n: usize) -> Self {
        let record = |name| {
            let &(_, tc, pc, acentric_factor) = FLUIDS.iter().find(|fluid| fluid.0 == name).expect("a fluid of the oracle's");
            PengRobinsonRecord { tc, pc, acentric_factor }
        };
        let parts = &BOTTLE[..n];
        let sum: f64 = parts.iter().map(|part| part.1).sum();
        let records: Vec<_> = parts.iter().map(|part| record(part.0)).collect();
        let fractions: Vec<f64> = parts.iter().map(|part| part.1 / sum).collect();
        let interactions: Vec<f64> = (0..n).flat_map(|i| (i + 1..n).map(move |j| 0.002 * (j - i) as f64)).collect();
        let tc = records.iter().zip(&fractions).map(|(r, x)| r.tc * x).sum();
        let max_density = PengRobinson::new(&records, &interactions).compute_max_density(&fractions);
        Bottle { records, interactions, fractions, tc, max_density }
    }

    /// From the first component towards the second, by ninths.
    fn along(&self, i: usize, number: fn(&PengRobinsonRecord) -> f64) -> f64 {
        let [first, second] = [0, 1].map(|component| number(&self.records[component]));
        first + (second - first) * (i + 1) as f64 / 9.0
    }

    fn filing(&self, kind: u8, choice: u64, [temperature, pressure, start]: [f64; 3]) -> Filing {
        Filing {
            kind: kind.into(),
            n: self.records.len() as u64,
            coefficients: self.records.iter().flat_map(|r| [r.tc, r.pc, r.acentric_factor]).collect(),
            interactions: self.interactions.clone(),
            fractions: self.fractions.clone(),
            choice,
            temperature,
            pressure,
            start,
        }
    }
}

pub struct Job {
    pub kind: u8,
    pub n: u8,
    pub block: [u8; BLOCK],
}

/// The numbers of eight jobs of a kind, from cold and nearly empty to warm and full.
pub fn filings(kind: u8, n: usize) -> Vec<Filing> {
    let bottle = Bottle::new(n);
    let filing = |i: usize| {
        let warmth = 0.65 + 0.04 * i as f64;
        let t = bottle.tc * warmth;
        let p = BAR * [1.0, 2.0, 4.0, 6.0, 8.0, 10.0, 15.0, 20.0][i];
        let start = bottle.max_density * (0.1 + 0.1 * i as f64);
        let near = bottle.max_density * (0.2 + 0.02 * i as f64);
        let component = i % n;
        let (choice, conditions) = match kind {
            // vapour, liquid, from a start
            1 => (i % 3, [t, p, start]),
            2 => (0, [t, p, 0.0]),
            3 => (0, [t, 0.0, start]),
            4 => (i % 2, [t, 0.0, 0.0]),
            // from no temperature and from one near the answer
            5 => (component, [[0.0, 1.05 * bottle.records[component].tc][i % 2], 0.0, 0.0]),
            6 => (component, [bottle.records[component].tc * warmth, 0.0, 0.0]),
            // from none and from one near the answer, of the temperature and of the density
            7 => (0, [[0.0, (1.0 + 0.01 * i as f64) * bottle.tc][i % 2], 0.0, [0.0, near][i / 4]]),
            // along the critical line from no density and from one near the answer; kind 9 from a temperature near it, since
            // from none some searches do not converge
            8 => (0, [bottle.along(i, |record| record.tc), 0.0, [0.0, near][i % 2]]),
            _ => (0, [bottle.along(i, |record| record.tc), 1e-5 * BAR * bottle.along(i, |record| record.pc), [0.0, near][i % 2]]),
        };
        bottle.filing(kind, choice as u64, conditions)
    };
    (0..8).map(filing).collect()
}

/// Their blocks, by the proved writer.
pub fn jobs(kind: u8, n: usize) -> Vec<Job> {
    let job = |filing: &Filing| {
        let mut block = [0; BLOCK];
        assert!(proved::write_block(filing, &mut block) == 0, "kind {kind}, N = {n}: not written");
        Job { kind, n: n as u8, block }
    };
    filings(kind, n).iter().map(job).collect()
}

/// Kind and N of each row.
pub fn rows() -> impl Iterator<Item = (u8, usize)> {
    (1..=6).flat_map(|kind| [1, 2, 8].map(|n| (kind, n))).chain([7, 8, 9].map(|kind| (kind, 2)))
}
