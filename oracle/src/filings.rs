//! Random filings for the writer, each with a buffer: numbers of requests that the reader accepts, anything where the kind
//! reads nothing, and faults for every refusal, alone and several at once.

use crate::block::{check, count_fits, kind_fits, BLOCK, KINDS};
use crate::cubic::PengRobinsonRecord;
use crate::generate::{damage, request, Draft, Scale};
use crate::random::{Blend, Rng};
use crate::writer::{filing_of, write_block, Filing};
use std::collections::BTreeMap;

/// The writer's refusals in the order in which they are tested.
pub const REFUSALS: [u64; 10] = [2, 3, 8, 11, 12, 13, 14, 17, 15, 16];

/// How many coefficients, interactions and fractions n components have.
fn counts(n: usize) -> [usize; 3] {
    [3 * n, n * n.saturating_sub(1) / 2, n]
}

/// Any bits that a number can have.
fn anything(rng: &mut Rng) -> f64 {
    match rng.below(4) {
        0 => f64::from_bits(rng.pick(&[
            0x7FF8_0000_0000_0000,
            0xFFF8_0000_0000_0000,
            0xFFF8_0000_0000_0001,
            0x7FF0_0000_0000_0001,
            0xFFF4_0000_0000_0000,
            0x7FFF_FFFF_FFFF_FFFF,
            0xFFFF_FFFF_FFFF_FFFF,
        ])),
        1 => rng.pick(&[f64::INFINITY, f64::NEG_INFINITY, -0.0, 5e-324, -5e-324]),
        2 => rng.special(),
        _ => f64::from_bits(rng.bits()),
    }
}

/// The numbers of a request that the reader accepts.
fn readable(rng: &mut Rng) -> Filing {
    loop {
        let request = request(rng);
        let (kind, n) = (request[0], request[1]);
        if !kind_fits(kind.into()) || !count_fits(kind.into(), n.into()) {
            continue;
        }
        // most requests have few components, those of kinds 7 to 9 all
        if n < 4 && !rng.once_in(if kind >= 7 { 2 } else { 3 }) {
            continue;
        }
        let block: &[u8; BLOCK] = request[2..].try_into().expect("640 bytes");
        if check(kind, usize::from(n), block).is_ok() {
            if let Some(filing) = filing_of(u64::from(kind), u64::from(n), block) {
                return filing;
            }
        }
    }
}

/// Numbers that are read, that no fluid has and that pass all the same.
fn make_odd(rng: &mut Rng, filing: &mut Filing) {
    let i = 3 * rng.below(filing.n as usize) + 2;
    filing.coefficients[i] = rng.pick(&[0.0, -0.0, 5e-324, -5e-324, 1e100, -1e100]);
    for k in &mut filing.interactions {
        *k = match rng.below(3) {
            0 => rng.pick(&[-0.0, 5e-324, -f64::MIN_POSITIVE, f64::MAX, f64::MIN]),
            1 => rng.any_finite(),
            _ => *k,
        };
    }
}

/// Fills what the kind does not read.
fn fill_unread(rng: &mut Rng, filing: &mut Filing) {
    let (kind, choice) = (filing.kind, filing.choice);
    if kind == 2 || kind == 3 || kind >= 7 {
        filing.choice = rng.bits();
    }
    if kind > 2 && kind != 9 {
        filing.pressure = anything(rng);
    }
    if kind == 2 || kind == 4 || kind == 6 || (kind == 1 && choice != 2) {
        filing.start = anything(rng);
    }
    if kind == 5 || kind == 6 {
        filing.fractions.fill_with(|| anything(rng));
    }
}

/// The requests' faults for 12 to 17.
fn damage_numbers(rng: &mut Rng, filing: &mut Filing, refusal: u64) {
    let record = |c: &[f64]| PengRobinsonRecord {
        tc: c[0],
        pc: c[1],
        acentric_factor: c[2],
    };
    let mut draft = Draft {
        kind: filing.kind as u8,
        n: filing.n as usize,
        blend: Blend {
            coefficients: filing.coefficients.chunks(3).map(record).collect(),
            interactions: std::mem::take(&mut filing.interactions),
            fractions: std::mem::take(&mut filing.fractions),
        },
        choice: filing.choice,
        temperature: filing.temperature,
        pressure: filing.pressure,
        start: filing.start,
        scale: Scale::ONE,
    };
    damage(rng, &mut draft, refusal as u8);
    *filing = Filing {
        kind: filing.kind,
        n: filing.n,
        coefficients: draft
            .blend
            .coefficients
            .iter()
            .flat_map(|r| [r.tc, r.pc, r.acentric_factor])
            .collect(),
        interactions: draft.blend.interactions,
        fractions: draft.blend.fractions,
        choice: draft.choice,
        temperature: draft.temperature,
        pressure: draft.pressure,
        start: draft.start,
    };
}

/// Shortens the list, or lengthens it with numbers that mostly would pass.
fn resize(rng: &mut Rng, list: &mut Vec<f64>, length: usize) {
    list.truncate(length);
    while list.len() < length {
        let next = match list.len() {
            0 => rng.unit(),
            _ if rng.once_in(8) => anything(rng),
            old => list[rng.below(old)],
        };
        list.push(next);
    }
}

/// Lists that fit n components.
fn refit(rng: &mut Rng, filing: &mut Filing, n: usize) {
    for (which, count) in counts(n).into_iter().enumerate() {
        resize(rng, filing.list_mut(which), count);
    }
}

/// A length that the list of n components must not have.
fn wrong_count(rng: &mut Rng, n: usize, which: usize) -> usize {
    let right = counts(n)[which];
    let step = rng.pick(&[1, 2, 3, 8]);
    let wrong = match rng.below(16) {
        0..=3 => right + step,
        4..=7 => right.saturating_sub(step),
        8..=9 => rng.pick(&[0, 2 * right]),
        10..=11 => counts(n - 1)[which],
        12..=13 => counts(n + 1)[which],
        // the whole matrix, or both halves of it
        _ if which == 1 => rng.pick(&[n * n, n * (n - 1)]),
        // right again where the count is cut to 8 bits
        14 => right + 256,
        // or its bytes to 8 or 16
        _ => right + rng.pick(&[32, 8192]),
    };
    if wrong == right {
        right + step
    } else {
        wrong
    }
}

/// Spoils the lengths of one list or more.
fn damage_lists(rng: &mut Rng, filing: &mut Filing) {
    let n = filing.n as usize;
    let which = rng.below(3);
    match rng.below(8) {
        // all of them right for another N
        0 => {
            let other = rng.pick(&[n - 1, n + 1, 1, 8]);
            refit(rng, filing, if other == n { n + 1 } else { other });
        }
        // as many floats as there should be, some in the list after
        1 => {
            let count = filing.list_mut(which).len();
            let moved = filing
                .list_mut(which)
                .split_off(count - count.min(1 + rng.below(3)));
            let next = filing.list_mut((which + 1) % 3);
            if moved.is_empty() {
                next.push(1.0);
            }
            next.extend(moved);
        }
        2 | 3 => {
            for which in [which, (which + 1) % 3] {
                let count = wrong_count(rng, n, which);
                resize(rng, filing.list_mut(which), count);
            }
        }
        _ => {
            let count = wrong_count(rng, n, which);
            resize(rng, filing.list_mut(which), count);
        }
    }
}

/// A number outside `1..=most`, often one that is inside, or the old one, when cut to fewer bits.
fn outside(rng: &mut Rng, old: u64, most: u64) -> u64 {
    let wrong = match rng.below(4) {
        0 => rng.pick(&[0, most + 1]),
        1 => rng.pick(&[255, 257, (1 << 32) + 1, (1 << 32) + 3, 1 << 63, u64::MAX]),
        // 24N, 4N(N-1) and 8N stay the same modulo 2^64 with the last two
        2 => old + rng.pick(&[1 << 8, 1 << 16, 1 << 32, 1 << 62, 1 << 63]),
        _ => rng.bits() >> rng.below(64),
    };
    if (1..=most).contains(&wrong) {
        0
    } else {
        wrong
    }
}

/// A length that a buffer must not have.
fn wrong_buffer(rng: &mut Rng, filing: &Filing) -> usize {
    // as long as the packed parts, if they fit N
    let packed = 8 * counts(filing.n as usize).iter().sum::<usize>() + 48;
    let wrong = match rng.below(3) {
        0 => rng.pick(&[639, 641]),
        1 => rng.pick(&[0, 1, 16, packed, 642, 1280, 640 + 256, 640 + 65536]),
        _ => rng.below(2000),
    };
    if wrong == BLOCK {
        0
    } else {
        wrong
    }
}

/// The next filing of the sequence, with a buffer full of anything.
pub fn filing(rng: &mut Rng) -> (Filing, Vec<u8>) {
    let mut filing = readable(rng);
    if rng.once_in(4) {
        make_odd(rng, &mut filing);
    }
    fill_unread(rng, &mut filing);
    let faults = match rng.below(100) {
        0..=46 => 0,
        47..=77 => 1,
        _ => 2 + rng.below(3),
    };
    let mut places: Vec<usize> = (0..faults).map(|_| rng.below(REFUSALS.len())).collect();
    // the last refusal's fault first, so that none for an earlier one is covered up
    places.sort_unstable_by(|i, j| j.cmp(i));
    places.dedup();
    let mut length = BLOCK;
    for refusal in places.into_iter().map(|place| REFUSALS[place]) {
        match refusal {
            2 => filing.kind = outside(rng, filing.kind, KINDS),
            // a kind of two components with the numbers of another
            3 if filing.n != 2 && rng.once_in(8) => filing.kind = rng.pick(&[7, 8, 9]),
            3 => {
                filing.n = if filing.kind >= 7 && rng.once_in(2) {
                    rng.pick(&[1, 3, 4, 5, 6, 7, 8])
                } else {
                    outside(rng, filing.n, 8)
                };
                if filing.n < 10 && rng.once_in(2) {
                    let n = filing.n as usize;
                    refit(rng, &mut filing, n);
                }
            }
            8 => length = wrong_buffer(rng, &filing),
            11 => damage_lists(rng, &mut filing),
            _ => damage_numbers(rng, &mut filing, refusal),
        }
    }
    let mut buffer = vec![0; length];
    for bytes in buffer.chunks_mut(8) {
        let any = rng.bits().to_le_bytes();
        bytes.copy_from_slice(&any[..bytes.len()]);
    }
    (filing, buffer)
}

/// Filings from a seed; the count changes none of them.
pub fn filings(seed: u64, count: usize) -> impl Iterator<Item = (Filing, Vec<u8>)> {
    let mut rng = Rng::new(seed);
    (0..count).map(move |_| filing(&mut rng))
}

/// How many filings got each answer, by kind, and how many of each kind and N were written.
#[derive(Default)]
pub struct FilingCensus {
    /// by kind, 0 standing for every wrong one, and answer
    pub answers: BTreeMap<(u64, u64), u64>,
    /// by kind and N
    pub written: BTreeMap<(u64, u64), u64>,
}

impl FilingCensus {
    pub fn count(&mut self, filing: &Filing, buffer: &mut [u8]) {
        let kind = if kind_fits(filing.kind) {
            filing.kind
        } else {
            0
        };
        let answer = write_block(filing, buffer);
        *self.answers.entry((kind, answer)).or_default() += 1;
        if answer == 0 {
            *self.written.entry((kind, filing.n)).or_default() += 1;
        }
    }
}

impl std::fmt::Display for FilingCensus {
    fn fmt(&self, f: &mut std::fmt::Formatter<'_>) -> std::fmt::Result {
        let answers: Vec<u64> = [0].into_iter().chain(REFUSALS).collect();
        let of = |kind: u64, answer: u64| self.answers.get(&(kind, answer)).copied().unwrap_or(0);
        write!(f, "answer    ")?;
        for answer in &answers {
            write!(f, "{answer:7}")?;
        }
        for kind in (1..=KINDS).chain([0]) {
            match kind {
                0 => write!(f, "\nother kind")?,
                _ => write!(f, "\nkind {kind}    ")?,
            }
            for &answer in &answers {
                write!(f, "{:7}", of(kind, answer))?;
            }
        }
        write!(f, "\nall       ")?;
        for &answer in &answers {
            write!(
                f,
                "{:7}",
                (0..=KINDS).map(|kind| of(kind, answer)).sum::<u64>()
            )?;
        }
        write!(f, "\n\nwritten, N")?;
        for n in 1..=8 {
            write!(f, "{n:7}")?;
        }
        for kind in 1..=KINDS {
            write!(f, "\nkind {kind}    ")?;
            for n in 1..=8 {
                let written = self.written.get(&(kind, n)).copied().unwrap_or(0);
                write!(f, "{written:7}")?;
            }
        }
        writeln!(f)
    }
}
