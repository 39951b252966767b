//! The largest and the smallest value that a card can give a sheet of some shape. But for rounding a
//! value is a sum of coefficients, each times a weight, so each coefficient stands at one end.

use super::{card_with, layer_of};
use trace_card_tests::model::digits::{GREATEST_COEFFICIENT, LEAST_COEFFICIENT};
use trace_card_tests::model::steps::LARGEST_STEP;

/// The weight of a value itself: twelve predictions divide by 16.
const ONE: i64 = 1 << 48;

/// The places of the values that a point is predicted from, each with its weight in sixteenths.
type Sources = Vec<(usize, i64)>;

/// A sheet of cubic prediction: for each point its layer and its sources.
pub struct Sheet {
    size: (u64, u64),
    levels: u64,
    points: Vec<(usize, Sources)>,
}

/// A card, the place of the value that is at an end there, and what it is, but for rounding.
pub struct Extreme {
    pub card: Vec<u8>,
    pub place: usize,
    pub value: i64,
}

/// The sources of the point at some place of a row or column, by their places there.
fn sources(at: u64, spacing: u64, length: u64) -> Vec<(u64, i64)> {
    let (before, after) = (at - spacing, at + spacing);
    if at >= 3 * spacing && at + 3 * spacing < length {
        let (first, last) = (at - 3 * spacing, at + 3 * spacing);
        vec![(first, -1), (before, 9), (after, 9), (last, -1)]
    } else if after < length {
        vec![(before, 8), (after, 8)]
    } else {
        vec![(before, 16)]
    }
}

impl Sheet {
    pub fn new((rows, cols): (u64, u64), levels: u64) -> Sheet {
        let point = |place: u64| {
            let (row, col) = (place / cols, place % cols);
            let layer = layer_of(levels, row, col);
            let found: Sources = if layer == 0 {
                vec![]
            } else {
                let spacing = 1 << (levels - layer.div_ceil(2) as u64);
                let (along, at, length, first) = if layer % 2 == 1 {
                    (1, col, cols, row * cols)
                } else {
                    (cols, row, rows, col)
                };
                let places = sources(at, spacing, length).into_iter();
                places
                    .map(|(at, weight)| ((first + at * along) as usize, weight))
                    .collect()
            };
            (layer, found)
        };
        Sheet {
            size: (rows, cols),
            levels,
            points: (0..rows * cols).map(point).collect(),
        }
    }

    /// The weight of every coefficient in the value at a place.
    fn weights(&self, place: usize, order: &[usize]) -> Vec<i64> {
        let mut weights = vec![0; self.points.len()];
        weights[place] = ONE;
        for &at in order {
            if weights[at] != 0 {
                for &(source, sixteenths) in &self.points[at].1 {
                    weights[source] += weights[at] / 16 * sixteenths;
                }
            }
        }
        weights
    }

    /// The card with the largest value at any place, or with the smallest.
    pub fn extreme(&self, largest: bool) -> Extreme {
        // The finest layer first.
        let mut order: Vec<usize> = (0..self.points.len()).collect();
        order.sort_by_key(|&place| std::cmp::Reverse(self.points[place].0));
        let end = |weight: i64| {
            if (weight > 0) == largest {
                GREATEST_COEFFICIENT
            } else {
                LEAST_COEFFICIENT
            }
        };
        let total = |weights: &[i64]| -> i128 {
            let terms = weights
                .iter()
                .map(|&weight| i128::from(weight) * i128::from(end(weight)));
            terms.sum()
        };
        let all = (0..self.points.len()).map(|place| (total(&self.weights(place, &order)), place));
        let (sum, place) = if largest { all.max() } else { all.min() }.unwrap();
        let weights = self.weights(place, &order);
        let coefficients: Vec<i32> = weights.iter().map(|&weight| end(weight)).collect();
        let width = i128::from(2 * LARGEST_STEP + 1);
        Extreme {
            card: card_with(self.size, self.levels, "cubic", LARGEST_STEP, &coefficients),
            place,
            value: (sum * width / i128::from(ONE)) as i64,
        }
    }
}
