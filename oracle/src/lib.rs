//! The oracle: what the documents say the Rust would answer, over the standard library alone.
//! `run_request` answers a request; the evaluations and the jets are public for vectors and benchmarks.

pub mod block;
pub mod board;
pub mod critical_point;
pub mod cubic;
pub mod density_iteration;
pub mod evaluations;
pub mod filings;
pub mod float;
pub mod generate;
pub mod jet;
pub mod random;
pub mod residual;
pub mod show;
pub mod state;
pub mod stepping;
pub mod vectors;
pub mod writer;

pub use block::{run_request, trace_request, Answer, BLOCK, REQUEST};
pub use critical_point::{criticality, criticality_p, criticality_t, stability};
pub use cubic::{PengRobinson, PengRobinsonRecord};
pub use density_iteration::_chemical_potential;
pub use jet::{Jet, Jet16, JetOf};
pub use writer::{filing_of, write_block, Filing};
