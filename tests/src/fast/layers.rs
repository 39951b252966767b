//! Layers as grids: quantizing and rebuilding in place.

use super::{middle, Header, Plan};
use crate::model::Curve;
use std::ops::Range;

/// The rows and columns of a layer, and the way its points look.
#[derive(Clone, Copy)]
pub struct Grid {
    row: usize,
    down: usize,
    col: usize,
    right: usize,
    /// The distance to the neighbours; 0 for anchors.
    spacing: usize,
    across: bool,
}

impl Grid {
    pub fn of(levels: usize, layer: usize) -> Grid {
        let s = 1 << (levels - layer.div_ceil(2));
        if layer == 0 {
            return Grid {
                row: 0,
                down: s,
                col: 0,
                right: s,
                spacing: 0,
                across: false,
            };
        }
        if layer % 2 == 1 {
            return Grid {
                row: 0,
                down: 2 * s,
                col: s,
                right: 2 * s,
                spacing: s,
                across: true,
            };
        }
        Grid {
            row: s,
            down: 2 * s,
            col: 0,
            right: s,
            spacing: s,
            across: false,
        }
    }

    pub fn size(&self, rows: usize, cols: usize) -> usize {
        let steps =
            |first: usize, step: usize, end: usize| end.saturating_sub(first).div_ceil(step);
        steps(self.row, self.down, rows) * steps(self.col, self.right, cols)
    }

    /// Of a layer but that of the anchors: no point has neighbours on both sides at 3 times the spacing.
    pub fn is_narrow(&self, rows: usize, cols: usize) -> bool {
        let length = if self.across { cols } else { rows };
        length <= 6 * self.spacing
    }

    /// Every point's place in the sheet, in row order.
    pub fn places(self, rows: usize, cols: usize) -> impl Iterator<Item = usize> {
        (self.row..rows).step_by(self.down).flat_map(move |row| {
            (self.col..cols)
                .step_by(self.right)
                .map(move |col| row * cols + col)
        })
    }

    /// The same by plain loops, which are the faster of the two where values are put at the places, and the slower where they are taken from there.
    #[inline(always)]
    pub fn each_place(self, rows: usize, cols: usize, mut visit: impl FnMut(usize)) {
        let mut row = self.row;
        while row < rows {
            let end = row * cols + cols;
            let mut at = row * cols + self.col;
            while at < end {
                visit(at);
                at += self.right;
            }
            row += self.down;
        }
    }
}

/// What is predicted at place t of a line of n points, `stride` apart; `at` is its index.
#[inline(always)]
fn predict(
    values: &[i64],
    cubic: bool,
    at: usize,
    stride: usize,
    t: usize,
    n: usize,
    s: usize,
) -> i64 {
    let near = s * stride;
    let b = values[at - near];
    if t + s >= n {
        return b;
    }
    let c = values[at + near];
    if cubic && t >= 3 * s && t + 3 * s < n {
        return (9 * (b + c) - values[at - 3 * near] - values[at + 3 * near]) >> 4;
    }
    (b + c) >> 1
}

/// Every point of a layer, with what is predicted there.
#[inline(always)]
fn each_point(
    header: &Header,
    layer: usize,
    values: &mut [i64],
    mut make: impl FnMut(usize, i64) -> i64,
) {
    let (rows, cols) = (header.rows, header.cols);
    let cubic = header.curve == Curve::Cubic;
    let g = Grid::of(header.levels, layer);
    for row in (g.row..rows).step_by(g.down) {
        for col in (g.col..cols).step_by(g.right) {
            let at = row * cols + col;
            let predicted = if g.spacing == 0 {
                0
            } else if g.across {
                predict(values, cubic, at, 1, col, cols, g.spacing)
            } else {
                predict(values, cubic, at, cols, row, rows, g.spacing)
            };
            values[at] = make(at, predicted);
        }
    }
}

/// Samples to coefficients and values.
pub fn quantize(header: &Header, samples: &[i32], coefficients: &mut [i32], values: &mut [i64]) {
    let step = header.step as i64;
    let width = 2 * step + 1;
    for layer in 0..header.layers() {
        // Nothing is divided where the width is 1.
        if step == 0 {
            each_point(header, layer, values, |at, predicted| {
                coefficients[at] = (i64::from(samples[at]) - predicted) as i32;
                i64::from(samples[at])
            });
        } else {
            each_point(header, layer, values, |at, predicted| {
                let q = (i64::from(samples[at]) - predicted + step).div_euclid(width);
                coefficients[at] = q as i32;
                predicted + q * width
            });
        }
    }
}

/// Coefficients to values.
pub fn rebuild(header: &Header, plan: &Plan, coefficients: &[i32], values: &mut [i64]) {
    rebuild_layers(header, plan, 0..header.layers(), coefficients, values);
}

/// The same of some layers, once those before them stand. What the missing digits of a layer count as is the same
/// at all its points; with it a coefficient is still far from the ends of 32 bits.
pub fn rebuild_layers(
    header: &Header,
    plan: &Plan,
    layers: Range<usize>,
    coefficients: &[i32],
    values: &mut [i64],
) {
    let width = 2 * header.step as i64 + 1;
    for layer in layers {
        let middle = middle(header.planes[layer] - plan[layer]);
        each_point(header, layer, values, |at, predicted| {
            predicted + i64::from(coefficients[at] + middle) * width
        });
    }
}
