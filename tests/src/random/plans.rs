//! Plans of cards with so many planes in each layer: those of the header, or those that are
//! whole.

use super::Random;
use crate::model::{Plan, MAX_LAYERS};

/// A plan that loads at most these planes.
pub fn plan_within(random: &mut Random, most: &[u64]) -> Plan {
    let mut plan = [0; MAX_LAYERS];
    for (place, &most) in most.iter().enumerate() {
        plan[place] = random.below(most + 1);
    }
    plan
}

/// A plan that loads at most these planes, and leaves few of them.
pub fn plan_of_most(random: &mut Random, most: &[u64]) -> Plan {
    let mut plan = [0; MAX_LAYERS];
    for (place, &most) in most.iter().enumerate() {
        plan[place] = most - random.below(most + 1).min(random.below(most + 1));
    }
    plan
}

/// A plan that loads at most these planes, but now and then asks too much at one place.
pub fn plan_about(random: &mut Random, most: &[u64]) -> Plan {
    let mut plan = plan_within(random, most);
    let place = random.below(MAX_LAYERS as u64) as usize;
    match random.below(12) {
        0 => plan[place] += 1,
        1 => plan[place] = random.draw(),
        2 => plan[MAX_LAYERS - 1] = u64::MAX,
        _ => {}
    }
    plan
}
