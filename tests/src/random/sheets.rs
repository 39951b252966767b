//! Sheets of samples of several kinds.

use super::Random;
use crate::model::sheet::LARGEST_SAMPLE;

const LARGEST: i64 = LARGEST_SAMPLE as i64;

#[derive(Clone, Copy, Debug, PartialEq, Eq)]
pub enum Kind {
    /// Every sample at one end of the range or the other.
    Ends,
    /// The ends in turn, like a chess board: the prediction is as wrong as it can be.
    Board,
    /// Ends in turn along lines at a random spacing, which strains the coarse layers.
    Stripes,
    /// Anything in the range.
    Noise,
    /// A slope with a slow bend and a little noise.
    Smooth,
    /// Small samples.
    Quiet,
    /// One value everywhere.
    Flat,
}

pub const KINDS: [Kind; 7] = [
    Kind::Ends,
    Kind::Board,
    Kind::Stripes,
    Kind::Noise,
    Kind::Smooth,
    Kind::Quiet,
    Kind::Flat,
];

fn end(high: bool) -> i64 {
    if high {
        LARGEST
    } else {
        -LARGEST
    }
}

/// A sheet of samples in row order, all within the range.
pub fn sheet(random: &mut Random, kind: Kind, rows: u64, cols: u64) -> Vec<i32> {
    let spacing = 1 << random.below(6);
    let slope_down = random.between(-3000, 3000);
    let slope_across = random.between(-3000, 3000);
    let bend = random.between(-40, 40);
    let middle = random.between(-500_000, 500_000);
    let noise = random.pick(&[0, 1, 20, 1000]);
    let flat = random.pick(&[0, 1, -1, LARGEST, -LARGEST, middle]);
    let mut samples = Vec::new();
    for row in 0..rows as i64 {
        for col in 0..cols as i64 {
            let sample = match kind {
                Kind::Ends => end(random.once_in(2)),
                Kind::Board => end((row + col) % 2 == 0),
                Kind::Stripes => end((row / spacing + col / spacing) % 2 == 0),
                Kind::Noise => random.between(-LARGEST, LARGEST),
                Kind::Smooth => {
                    let curve = bend * (row * row - col * col + row * col) / 8;
                    let slope = slope_down * row + slope_across * col;
                    middle + slope + curve + random.between(-noise, noise)
                }
                Kind::Quiet => random.between(-3, 3),
                Kind::Flat => flat,
            };
            samples.push(sample.clamp(-LARGEST, LARGEST) as i32);
        }
    }
    samples
}
