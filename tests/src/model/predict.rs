//! What a point is expected to be, from points rebuilt before it (docs/CARD.md, "Prediction").

use super::sheet::{Layer, Point, Shape};

#[derive(Clone, Copy, Debug, PartialEq, Eq)]
pub enum Curve {
    Linear,
    Cubic,
}

/// The prediction from all four neighbours. For a divisor above 0, `div_euclid` rounds down.
pub fn cubic(a: i64, b: i64, c: i64, d: i64) -> i64 {
    (-a + 9 * b + 9 * c - d).div_euclid(16)
}

/// The prediction from the two nearest.
pub fn linear(b: i64, c: i64) -> i64 {
    (b + c).div_euclid(2)
}

/// The neighbours a, b, c and d of a point of a layer, those that are in the sheet. An anchor looks
/// at none.
pub fn neighbours(shape: Shape, layer: Layer, point: Point) -> [Option<Point>; 4] {
    // The point so many rows and columns away, if that is still in the sheet.
    let look = |rows_on: i64, cols_on: i64| -> Option<Point> {
        let row = point.row as i64 + rows_on;
        let col = point.col as i64 + cols_on;
        let inside = row >= 0 && row < shape.rows as i64 && col >= 0 && col < shape.cols as i64;
        inside.then_some(Point {
            row: row as u64,
            col: col as u64,
        })
    };
    match layer {
        Layer::Anchors { .. } => [None; 4],
        Layer::Across { s } => [-3, -1, 1, 3].map(|times| look(0, times * s as i64)),
        Layer::Down { s } => [-3, -1, 1, 3].map(|times| look(times * s as i64, 0)),
    }
}

/// The prediction of a point of a layer from the values that stand in the sheet.
pub fn predict(values: &[i64], shape: Shape, curve: Curve, layer: Layer, point: Point) -> i64 {
    if let Layer::Anchors { .. } = layer {
        return 0;
    }
    let value = |point: Point| values[shape.place(point)];
    let [a, b, c, d] = neighbours(shape, layer, point).map(|seen| seen.map(value));
    match (curve, a, b, c, d) {
        (Curve::Cubic, Some(a), Some(b), Some(c), Some(d)) => cubic(a, b, c, d),
        (_, _, Some(b), Some(c), _) => linear(b, c),
        (_, _, Some(b), None, _) => b,
        // An odd multiple of s is at least s, so b is always in the sheet.
        (_, _, None, _, _) => unreachable!("a point past the anchors has a point s before it"),
    }
}
