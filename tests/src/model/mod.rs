//! The model, one file for each idea of docs/CARD.md. All but the roll, comparing, previewing, the program trace, what narrow layers carry,
//! what missing digits count as and losses as measured was written before that document, from the customer's request; none of it shares code or structure with the proved side.

pub mod compare;
pub mod digits;
pub mod figure;
pub mod header;
pub mod losses;
pub mod plan;
pub mod planes;
pub mod planner;
pub mod predict;
pub mod preview;
pub mod program;
pub mod read;
pub mod refusal;
pub mod roll;
pub mod sheet;
pub mod steps;
pub mod write;

pub use compare::{compare, Compared};
pub use figure::figure;
pub use header::{open, Opened};
pub use plan::{Plan, MAX_LAYERS};
pub use planner::{plan_by_cells, plan_by_limit, Planned};
pub use predict::Curve;
pub use preview::preview;
pub use read::{read, refine, show, Reached};
pub use refusal::Refusal;
pub use roll::roll;
pub use write::write;
