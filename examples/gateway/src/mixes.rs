//! The mixes of examples/rival, and the request that all jobs of a board make.
use peng_robinson_board::{Phase, Refusal, Request};
pub use rival::mixes::Mix;

/// The spinodal of the liquid branch, kind 4. Of the 30 turns of its span the winter mix evaluates in 9, the
/// catalogue mix in 8.
pub fn request(mix: &Mix) -> Result<Request, Refusal> {
    mix.spinodal(Phase::Liquid)
}
