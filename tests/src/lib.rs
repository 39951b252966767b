//! The proved calls of the trace card, as C sees them (`boundary`), and a plain reference model
//! of what docs/CARD.md says, and of nothing else (`model`). The model is the yardstick, so it is
//! kept simple rather than fast. The tests use the others: cases to try, slices to lend to a call,
//! and calls written for speed, which the benchmark sets beside the proved ones.

#![deny(unsafe_code)]

#[allow(unsafe_code)]
pub mod boundary;
pub mod fast;
pub mod lent;
pub mod model;
pub mod random;
