//! Look before refining: the values that one more plane would give (docs/CARD.md, "Plans, reading, refining").

use super::header::open;
use super::plan::Plan;
use super::read::{refine, Reached};
use super::refusal::{self, Refusal};

/// Refines a copy of the coefficients and values, and leaves its values in the third slice.
pub fn preview(
    card: &[u8],
    plan: &Plan,
    layer: u64,
    coefficients: &[i32],
    values: &[i64],
    next: &mut [i64],
) -> Result<Reached, Refusal> {
    // The third slice is judged with the other two: once the card is open, and before the plan.
    if next.len() != open(card)?.shape().count() {
        return Err(Refusal::plain(refusal::LENGTHS));
    }
    let (mut refined, mut rebuilt) = (coefficients.to_vec(), values.to_vec());
    let reached = refine(card, plan, layer, &mut refined, &mut rebuilt)?;
    next.copy_from_slice(&rebuilt);
    Ok(reached)
}
