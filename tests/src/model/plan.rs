//! Plans (docs/CARD.md, "Plans, reading, refining").

use super::refusal::{self, Refusal};

/// 1 + 2L layers with L at most 6.
pub const MAX_LAYERS: usize = 13;

/// Planes loaded of each layer, from its top plane down; 0 past the last layer.
pub type Plan = [u64; MAX_LAYERS];

/// Refusal 9: a layer asks more than `most` has for it, or a place past the last
/// layer, for which there is nothing, is not 0. The detail is the first such place.
pub fn check_plan(plan: &Plan, most: &[u64]) -> Result<(), Refusal> {
    for (place, &asked) in plan.iter().enumerate() {
        let there = most.get(place).copied().unwrap_or(0);
        if asked > there {
            return Err(Refusal::with(refusal::PLAN, place as u64));
        }
    }
    Ok(())
}

/// The planes of each layer that a plan leaves out: so many digits of its coefficients are missing.
pub fn missing_of(planes: &[u64], plan: &Plan) -> Vec<u64> {
    let counts = planes.iter().zip(plan);
    counts.map(|(&planes, &loaded)| planes - loaded).collect()
}

/// The plan of these counts, 0 past the last layer.
pub fn plan_of(counts: &[u64]) -> Plan {
    let mut plan = [0; MAX_LAYERS];
    plan[..counts.len()].copy_from_slice(counts);
    plan
}
