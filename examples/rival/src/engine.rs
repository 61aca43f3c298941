//! An engine that replies when its iteration stops: the moment of its reply, counted in evaluations, is public.
use peng_robinson_board::{answer, Refusal};

use crate::mixes::Mix;

/// One question, and the moment of the reply for each of the two mixes.
#[derive(Debug, Clone, PartialEq, Eq)]
pub struct Moments {
    pub question: &'static str,
    pub kind: u64,
    pub evaluations: [u64; 2],
}

impl Moments {
    pub fn told_apart(&self) -> bool {
        self.evaluations[0] != self.evaluations[1]
    }
}

/// Every question put to both mixes.
pub fn moments(mixes: [&Mix; 2]) -> Result<Vec<Moments>, Refusal> {
    let [first, second] = mixes;
    let both = first.questions()?.into_iter().zip(second.questions()?);
    both.map(|((question, request), (_, other))| {
        Ok(Moments {
            question,
            kind: request.kind(),
            evaluations: [answer(&request)?.evaluations, answer(&other)?.evaluations],
        })
    })
    .collect()
}
