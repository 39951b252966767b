//! Planning (docs/CARD.md, "The planner"): it goes by the header alone.
//!
//! Two methods answer the same question. Trying every plan is the definition itself; the
//! front serves cards with too many plans for that.

mod exhaustive;
mod front;

pub use exhaustive::{exhaustive, plans_of};
pub use front::front;

use super::header::{open, Opened};
use super::plan::{Plan, MAX_LAYERS};
use super::planes::cells_in;
use super::refusal::{self, Refusal};

/// With at most this many plans, every plan is tried.
pub const MOST_PLANS_TRIED: u64 = 4096;

/// What planning answers.
#[derive(Clone, Copy, Debug, PartialEq, Eq)]
pub struct Planned {
    pub plan: Plan,
    pub cells: u64,
    pub figure: u64,
}

/// What is asked of the planner.
#[derive(Clone, Copy, Debug, PartialEq, Eq)]
pub enum Goal {
    /// The fewest cells with a figure of at most this.
    Limit(u64),
    /// The smallest figure in at most so many cells, and of those the fewest cells.
    Cells(u64),
}

impl Goal {
    /// May this plan be answered at all?
    pub fn is_met_by(self, planned: &Planned) -> bool {
        match self {
            Goal::Limit(limit) => planned.figure <= limit,
            Goal::Cells(cells) => planned.cells <= cells,
        }
    }

    /// The plan with the least rank is the one answered.
    pub fn rank(self, planned: &Planned) -> (u64, u64, [u64; MAX_LAYERS]) {
        let Planned {
            plan,
            cells,
            figure,
        } = *planned;
        match self {
            Goal::Limit(_) => (cells, figure, backwards(&plan)),
            Goal::Cells(_) => (figure, cells, backwards(&plan)),
        }
    }
}

/// The plan from the last layer to the first; places past the last are 0 in every plan.
fn backwards(plan: &Plan) -> [u64; MAX_LAYERS] {
    let mut turned = *plan;
    turned.reverse();
    turned
}

/// The cells of all planes that a plan loads.
pub fn cells_of_plan(opened: &Opened, plan: &Plan) -> u64 {
    cells_in(&plan[..opened.planes.len()], &opened.points)
}

fn best(opened: &Opened, goal: Goal) -> Option<Planned> {
    if plans_of(opened) <= MOST_PLANS_TRIED {
        exhaustive(opened, goal)
    } else {
        front(opened, goal)
    }
}

/// Planning by limit. It is refused where no plan meets the limit.
pub fn plan_by_limit(card: &[u8], limit: u64) -> Result<Planned, Refusal> {
    let opened = open(card)?;
    best(&opened, Goal::Limit(limit)).ok_or(Refusal::plain(refusal::LIMIT))
}

/// Planning by cells. The number asked for is never refused: the plan of no planes fits.
pub fn plan_by_cells(card: &[u8], cells: u64) -> Result<Planned, Refusal> {
    let opened = open(card)?;
    Ok(best(&opened, Goal::Cells(cells)).expect("the plan of no planes fits any number of cells"))
}
