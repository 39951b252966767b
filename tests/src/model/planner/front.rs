//! The front: layer by layer, only those beginnings of plans that could still be best.
//!
//! A beginning is told by its cells and by the error standing after its layers. Let one
//! beginning have no more cells and no more error than another, and less of one of them.
//! Carrying never turns a smaller error into an equal or larger one, so with the same
//! rest the first gives the better plan under either goal, and the second can be dropped.
//! Where both are equal, the same rest gives a tie, which the fewer planes from the last
//! layer of the beginning backwards decide.

use super::{backwards, Goal, Planned};
use crate::model::figure::standing_after;
use crate::model::header::Opened;
use crate::model::plan::{Plan, MAX_LAYERS};
use crate::model::planes::cells_of_plane;

/// The first layers of a plan, 0 for the others.
#[derive(Clone, Copy)]
struct Beginning {
    plan: Plan,
    cells: u64,
    standing: u64,
}

/// Every beginning with one layer more.
fn longer(opened: &Opened, layer: usize, beginnings: &[Beginning]) -> Vec<Beginning> {
    let planes = opened.planes[layer];
    let cells = cells_of_plane(opened.points[layer]);
    let mut all = Vec::new();
    for beginning in beginnings {
        for loaded in 0..=planes {
            let mut plan = beginning.plan;
            plan[layer] = loaded;
            all.push(Beginning {
                plan,
                cells: beginning.cells + loaded * cells,
                standing: standing_after(opened, layer, beginning.standing, planes - loaded),
            });
        }
    }
    all
}

/// Keeps those with less error than all that have fewer cells, and of equal ones the
/// first by the tie rule.
fn undominated(mut beginnings: Vec<Beginning>) -> Vec<Beginning> {
    beginnings.sort_by_key(|b| (b.cells, b.standing, backwards(&b.plan)));
    let mut kept: Vec<Beginning> = Vec::new();
    for beginning in beginnings {
        let better = kept
            .last()
            .is_none_or(|last| beginning.standing < last.standing);
        if better {
            kept.push(beginning);
        }
    }
    kept
}

/// The best plan for the goal; none where no plan meets it.
pub fn front(opened: &Opened, goal: Goal) -> Option<Planned> {
    let mut beginnings = vec![Beginning {
        plan: [0; MAX_LAYERS],
        cells: 0,
        standing: 0,
    }];
    for layer in 0..opened.planes.len() {
        beginnings = undominated(longer(opened, layer, &beginnings));
    }
    beginnings
        .into_iter()
        .map(|whole| Planned {
            plan: whole.plan,
            cells: whole.cells,
            figure: opened.step + whole.standing,
        })
        .filter(|planned| goal.is_met_by(planned))
        .min_by_key(|planned| goal.rank(planned))
}
