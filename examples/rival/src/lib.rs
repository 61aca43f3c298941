//! Two suppliers file two mixes under the same public fields. `engine` replies when its iteration stops, the board by
//! its schedule; `public` holds what the public sees of a list of calls on the board and compares two such views.
pub mod calls;
pub mod engine;
pub mod mixes;
pub mod public;
