//! The definition itself: of every plan of the card, the least that meets the goal.

use super::{cells_of_plan, Goal, Planned};
use crate::model::figure::figure_of;
use crate::model::header::Opened;
use crate::model::plan::{Plan, MAX_LAYERS};

/// How many plans the card has: any number of planes from 0 to P_k for each layer. At most
/// 24^13, which fits u64.
pub fn plans_of(opened: &Opened) -> u64 {
    opened.planes.iter().map(|&planes| planes + 1).product()
}

/// The next plan, counting up as on a row of wheels; none after the last.
fn next_plan(opened: &Opened, plan: &Plan) -> Option<Plan> {
    let mut next = *plan;
    for (layer, &planes) in opened.planes.iter().enumerate() {
        if next[layer] < planes {
            next[layer] += 1;
            return Some(next);
        }
        next[layer] = 0;
    }
    None
}

/// Tries every plan; none where no plan meets the goal.
pub fn exhaustive(opened: &Opened, goal: Goal) -> Option<Planned> {
    let no_planes = [0; MAX_LAYERS];
    std::iter::successors(Some(no_planes), |plan| next_plan(opened, plan))
        .map(|plan| Planned {
            plan,
            cells: cells_of_plan(opened, &plan),
            figure: figure_of(opened, &plan),
        })
        .filter(|planned| goal.is_met_by(planned))
        .min_by_key(|planned| goal.rank(planned))
}
