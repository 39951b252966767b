//! The same calls as they would be written for speed in safe Rust: layers walked as grids,
//! planes made and taken apart a byte at a time, nothing allocated. The benchmark sets the
//! proved calls beside them; the tests hold them to the model first.

mod card;
mod compare;
mod header;
mod layers;
mod losses;
mod planes;
mod planner;
mod roll;

pub use card::{preview, refine, show, write};
pub use compare::compare;
pub use planner::{plan_by_cells, plan_by_limit};
pub use roll::roll;

use crate::model::{Curve, Refusal};
use losses::Losses;

pub const LAYERS: usize = 13;
pub const PLACES: u64 = 23;
pub const CELL: usize = 32;

pub type Plan = [u64; LAYERS];

/// A header: what a card says of itself.
#[derive(Clone, Copy)]
pub struct Header {
    pub rows: usize,
    pub cols: usize,
    pub levels: usize,
    pub curve: Curve,
    pub step: u64,
    pub planes: Plan,
    pub cells: u64,
}

impl Header {
    pub fn points(&self) -> usize {
        self.rows * self.cols
    }

    pub fn layers(&self) -> usize {
        2 * self.levels + 1
    }

    /// Cells of one plane of a layer.
    pub fn width(&self, layer: usize) -> usize {
        layers::Grid::of(self.levels, layer)
            .size(self.rows, self.cols)
            .div_ceil(8 * CELL)
    }

    /// Cells of one plane of each layer, 0 past the last.
    pub fn widths(&self) -> [usize; LAYERS] {
        let mut widths = [0; LAYERS];
        for (layer, width) in widths.iter_mut().enumerate().take(self.layers()) {
            *width = self.width(layer);
        }
        widths
    }

    /// Does what stands before a layer grow in it? Not in a narrow one, and every empty one is narrow.
    pub fn grows(&self, layer: usize) -> bool {
        let grid = layers::Grid::of(self.levels, layer);
        self.curve == Curve::Cubic && !grid.is_narrow(self.rows, self.cols)
    }

    /// e plus the losses of the missing planes, carried through the layers.
    pub fn figure(&self, losses: &Losses, plan: &Plan) -> u64 {
        let (mut standing, mut first) = (0, 0);
        for (layer, &loaded) in plan.iter().enumerate().take(self.layers()) {
            let planes = self.planes[layer];
            let own = losses.of(first, planes - loaded) * (2 * self.step + 1);
            standing = carry(self.grows(layer), standing) + own;
            first += planes as usize;
        }
        self.step + standing
    }
}

/// What so many missing digits count as: halfway between the even places alone and the odd ones alone.
fn middle(missing: u64) -> i32 {
    let all = (1_i32 << missing) - 1;
    ((all & 0x5555_5555) - (all & 0x2AAA_AAAA)) >> 1
}

/// What stands before a layer, carried.
fn carry(grows: bool, standing: u64) -> u64 {
    if grows {
        (5 * standing).div_ceil(4)
    } else {
        standing
    }
}

fn refused<T>(number: u64) -> Result<T, Refusal> {
    Err(Refusal::plain(number))
}
