//! A request in readable form, and counts of answers by kind and status.

use crate::block::{
    count_fits, lengths, pairs, read_parts, run_request, Answer, BLOCK, KINDS, REQUEST,
};
use crate::float::bits;
use crate::generate::requests;
use std::collections::BTreeMap;
use std::fmt::Write;

fn float(x: f64) -> String {
    format!("{x:e} ({:016X})", bits(x))
}

/// The request's kind, N, pairs and numbers, a line each; without the numbers where N does not fit the kind.
pub fn show(request: &[u8; REQUEST]) -> String {
    let (kind, n) = (request[0], request[1]);
    let block: &[u8; BLOCK] = request[2..].try_into().expect("640 bytes");
    let mut text = format!("kind {kind}, N {n}\n");
    let _ = writeln!(text, "pairs (offset, length) {:?}", pairs(block));
    if !count_fits(kind.into(), n.into()) {
        return text;
    }
    let n = usize::from(n);
    let Some(parts) = read_parts(n, block) else {
        let _ = writeln!(
            text,
            "the pairs do not pass; lengths for N are {:?}",
            lengths(n)
        );
        return text;
    };
    for (i, r) in parts.coefficients.iter().enumerate() {
        let _ = writeln!(
            text,
            "component {i}: tc {}, pc {}, acentric factor {}",
            float(r.tc),
            float(r.pc),
            float(r.acentric_factor)
        );
    }
    let mut next = parts.interactions.iter();
    for i in 0..n {
        for j in i + 1..n {
            let _ = writeln!(
                text,
                "k {i} {j}: {}",
                next.next().map_or(String::new(), |&k| float(k))
            );
        }
    }
    for (i, &x) in parts.fractions.iter().enumerate() {
        let _ = writeln!(text, "fraction {i}: {}", float(x));
    }
    let _ = writeln!(text, "choice {}", parts.choice);
    let _ = writeln!(text, "temperature {}", float(parts.temperature));
    let _ = writeln!(text, "pressure {}", float(parts.pressure));
    let _ = writeln!(text, "start {}", float(parts.start));
    text
}

/// Of the generated requests, the first `each` with every kind and status (or refusal), and every one that makes more
/// evaluations than those with its kind and status before it.
pub fn select(seed: u64, count: usize, each: u64) -> impl Iterator<Item = [u8; REQUEST]> {
    let mut seen: BTreeMap<(u8, u64), (u64, u64)> = BTreeMap::new();
    requests(seed, count).filter(move |request| {
        let block: &[u8; BLOCK] = request[2..].try_into().expect("640 bytes");
        let (kind, status, evaluations) = match run_request(request[0], request[1], block) {
            Answer::Refused(number) => (0, number, 0),
            Answer::Sealed {
                kind,
                status,
                evaluations,
                ..
            } => (kind, status, evaluations),
        };
        let (taken, most) = seen.entry((kind, status)).or_default();
        let longest = evaluations > *most;
        *most = (*most).max(evaluations);
        *taken += 1;
        *taken <= each || longest
    })
}

/// How many requests got each answer, and the most evaluations of each kind and of each kind and status.
#[derive(Default)]
pub struct Census {
    pub refused: BTreeMap<u64, u64>,
    /// by kind and status: requests, most evaluations, and the place of the request that made them
    pub sealed: BTreeMap<(u8, u64), (u64, u64, u64)>,
}

impl Census {
    pub fn count(&mut self, place: u64, request: &[u8; REQUEST]) {
        let block: &[u8; BLOCK] = request[2..].try_into().expect("640 bytes");
        match run_request(request[0], request[1], block) {
            Answer::Refused(number) => *self.refused.entry(number).or_default() += 1,
            Answer::Sealed {
                kind,
                status,
                evaluations,
                ..
            } => {
                let entry = self.sealed.entry((kind, status)).or_insert((0, 0, place));
                entry.0 += 1;
                if evaluations > entry.1 {
                    (entry.1, entry.2) = (evaluations, place);
                }
            }
        }
    }
}

impl std::fmt::Display for Census {
    fn fmt(&self, f: &mut std::fmt::Formatter<'_>) -> std::fmt::Result {
        for (number, count) in &self.refused {
            writeln!(f, "refused {number}: {count}")?;
        }
        writeln!(f, "kind status requests most-evaluations at-request")?;
        for ((kind, status), (count, most, place)) in &self.sealed {
            writeln!(f, "{kind:4} {status:6} {count:8} {most:16} {place:10}")?;
        }
        for kind in 1..=KINDS {
            let of_kind = self
                .sealed
                .iter()
                .filter(|((k, _), _)| u64::from(*k) == kind);
            if let Some((_, (_, most, place))) = of_kind.max_by_key(|(_, (_, most, _))| *most) {
                writeln!(
                    f,
                    "kind {kind}: at most {most} evaluations, at request {place}"
                )?;
            }
        }
        Ok(())
    }
}
