//! From a sample to its coefficient, and from coefficients back to values (docs/CARD.md,
//! "Coefficients").

use super::digits::middle;
use super::predict::{predict, Curve};
use super::sheet::Shape;

pub const LARGEST_STEP: u64 = 65_535;

/// The width: so many numbers in a row have the same coefficient.
pub fn width(step: u64) -> u64 {
    2 * step + 1
}

/// How many widths a sample is from its prediction, to the nearest.
pub fn coefficient(sample: i64, prediction: i64, step: u64) -> i64 {
    (sample - prediction + step as i64).div_euclid(width(step) as i64)
}

/// The value that a reader gets.
pub fn rebuilt(prediction: i64, coefficient: i64, step: u64) -> i64 {
    prediction + coefficient * width(step) as i64
}

/// All values, layer by layer, each predicted from those before. Each layer has so many digits missing
/// in its coefficients; they count as their middle.
pub fn rebuild(
    shape: Shape,
    curve: Curve,
    step: u64,
    coefficients: &[i32],
    missing: &[u64],
) -> Vec<i64> {
    let mut values = vec![0; shape.count()];
    for (layer, &missing) in shape.layers().into_iter().zip(missing) {
        for point in shape.points_of(layer) {
            let place = shape.place(point);
            let prediction = predict(&values, shape, curve, layer, point);
            let counted = i64::from(coefficients[place]) + middle(missing);
            values[place] = rebuilt(prediction, counted, step);
        }
    }
    values
}
