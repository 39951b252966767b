//! Whole cases: a sheet with its settings, and what the model writes of it.

use super::sheets::{sheet, Kind, KINDS};
use super::Random;
use crate::model::sheet::{Shape, MOST_LEVELS, MOST_POINTS};
use crate::model::write::OUTPUT_BYTES;
use crate::model::{self, Curve};

pub const CURVES: [Curve; 2] = [Curve::Linear, Curve::Cubic];

/// The largest and the longest sheets there are, and sizes that leave spare bits.
pub const LARGE_SIZES: [(u64, u64); 8] = [
    (90, 91),
    (64, 128),
    (128, 64),
    (1, 8192),
    (8192, 1),
    (1, 4097),
    (4099, 1),
    (33, 65),
];

#[derive(Clone, Debug)]
pub struct Case {
    pub rows: u64,
    pub cols: u64,
    pub levels: u64,
    pub curve: Curve,
    pub step: u64,
    pub samples: Vec<i32>,
}

/// What writing left in its slices; the card without the untouched rest.
#[derive(Clone, Debug)]
pub struct Written {
    pub coefficients: Vec<i32>,
    pub values: Vec<i64>,
    pub card: Vec<u8>,
}

/// The ends of the range of steps, and others of every size.
pub fn step(random: &mut Random) -> u64 {
    match random.below(6) {
        0 => 0,
        1 => 1,
        2 => 65_535,
        3 => random.below(65_536),
        4 => random.below(1000),
        _ => random.below(8),
    }
}

/// A small size: a row, a column, or a few rows and columns.
pub fn small_size(random: &mut Random) -> (u64, u64) {
    match random.below(4) {
        0 => (1, 1 + random.below(40)),
        1 => (1 + random.below(40), 1),
        _ => (1 + random.below(12), 1 + random.below(12)),
    }
}

/// Sizes at which the layers of a spacing are just narrow or just not (docs/CARD.md, "The figure"): by
/// their columns beside few rows, by their rows beside few columns, and by both where that many points
/// are accepted. Beside s + 2 rows or columns a layer of the other direction has points too.
fn sizes_at_narrow_edge(s: u64) -> Vec<(u64, u64)> {
    let edge = [6 * s, 6 * s + 1];
    let mut sizes = Vec::new();
    for long in edge {
        for few in [1, 2, s + 2] {
            sizes.extend([(few, long), (long, few)]);
        }
        sizes.extend(edge.map(|other| (long, other)));
    }
    sizes.retain(|(rows, cols)| rows * cols <= MOST_POINTS);
    sizes
}

/// All of these, for every spacing of every number of levels.
pub fn shapes_at_narrow_edge() -> Vec<Shape> {
    let mut shapes = Vec::new();
    for levels in 1..=MOST_LEVELS {
        for power in 0..levels {
            let sizes = sizes_at_narrow_edge(1 << power).into_iter();
            shapes.extend(sizes.map(|(rows, cols)| Shape { rows, cols, levels }));
        }
    }
    shapes
}

impl Case {
    /// A case of this size with everything else random.
    pub fn of_size(random: &mut Random, rows: u64, cols: u64) -> Case {
        let kind = random.pick(&KINDS);
        Case::of_kind(random, kind, rows, cols)
    }

    /// A case of this size and kind of sheet with everything else random.
    pub fn of_kind(random: &mut Random, kind: Kind, rows: u64, cols: u64) -> Case {
        Case {
            rows,
            cols,
            levels: random.below(7),
            curve: random.pick(&CURVES),
            step: step(random),
            samples: sheet(random, kind, rows, cols),
        }
    }

    /// A case of this shape and curve with everything else random.
    pub fn of_shape(random: &mut Random, shape: Shape, curve: Curve) -> Case {
        Case {
            levels: shape.levels,
            curve,
            ..Case::of_size(random, shape.rows, shape.cols)
        }
    }

    pub fn small(random: &mut Random) -> Case {
        let (rows, cols) = small_size(random);
        Case::of_size(random, rows, cols)
    }

    pub fn count(&self) -> usize {
        (self.rows * self.cols) as usize
    }

    /// What the model writes of the case, which must not be refused; the rest of the output
    /// must be untouched.
    pub fn write(&self) -> Written {
        const FILLING: u8 = 0xA7;
        let mut coefficients = vec![-77; self.count()];
        let mut values = vec![-77; self.count()];
        let mut output = vec![FILLING; OUTPUT_BYTES];
        let length = model::write(
            &self.samples,
            self.rows,
            self.cols,
            self.levels,
            self.curve,
            self.step,
            &mut coefficients,
            &mut values,
            &mut output,
        )
        .expect("an accepted sheet is written");
        let rest = output.split_off(length as usize);
        assert!(rest.iter().all(|&byte| byte == FILLING));
        Written {
            coefficients,
            values,
            card: output,
        }
    }
}
