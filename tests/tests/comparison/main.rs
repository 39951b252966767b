//! The proved calls against the model, through the C boundary: what is returned, the answer,
//! and every slice afterwards, those that a call only reads too. Each slice is lent in memory
//! of its own: between zones of marks, so that what is written outside is seen, and in an
//! allocation of just its size, so that valgrind sees what is read outside too:
//!
//! `cargo test --release --offline --test comparison
//! --config 'target."cfg(unix)".runner = "valgrind --error-exitcode=1"'`

#[path = "../common/mod.rs"]
mod common;

mod bench;
mod both;
mod calls;
mod comparing;
mod damage;
mod hostile;
mod lengths;
mod losses;
mod missing;
mod narrow;
mod planning;
mod previewing;
mod promised;
mod reading;
mod refining;
mod rolling;
mod writing;
