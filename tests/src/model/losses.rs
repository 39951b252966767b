//! What a coefficient loses where low digits of it count as their middle (docs/CARD.md, "The figure"): at most, as the
//! writer measures it, and as a card says.

use super::digits::{digits_of, middle, weight};
use super::header::Opened;

/// The closed loss: the most that so many digits are from their middle, whatever they are.
pub fn closed(digits: u64) -> u64 {
    match digits {
        0 => 0,
        _ => 1 << (digits - 1),
    }
}

/// For d = 1 to so many: the largest distance met between the d low digits of these coefficients and their middle; 0
/// where there are none.
pub fn measured(coefficients: &[i64], most_digits: u64) -> Vec<u64> {
    let middles: Vec<i64> = (1..=most_digits).map(middle).collect();
    let mut losses = vec![0; middles.len()];
    for &q in coefficients {
        let mut digits = digits_of(q).into_iter();
        let mut low = 0;
        for (place, loss) in losses.iter_mut().enumerate() {
            low += i64::from(digits.next().unwrap_or(0)) * weight(place as u64);
            *loss = low.abs_diff(middles[place]).max(*loss);
        }
    }
    losses
}

/// What a card says that a layer loses where so many planes of it are missing; an old card says nothing, and
/// the closed loss holds.
pub fn said(opened: &Opened, layer: usize, missing: u64) -> u64 {
    match &opened.losses {
        Some(losses) if missing > 0 => losses[layer][missing as usize - 1],
        _ => closed(missing),
    }
}
