//! Coarse card, fine card: the points at which two cards of one size are apart (docs/CARD.md, "The calls").

use super::header::open;
use super::read::show;
use super::refusal::{self, Refusal};
use super::sheet::Shape;

/// What comparing answers.
#[derive(Clone, Copy, Debug, PartialEq, Eq)]
pub struct Compared {
    /// How many points are apart.
    pub apart: u64,
    /// Row and column of the first of them in row order; 0 and 0 where there is none.
    pub first: [u64; 2],
}

/// A card shown aside.
struct Shown {
    shape: Shape,
    figure: u64,
    coefficients: Vec<i32>,
    values: Vec<i64>,
}

/// Shows a card as it would be shown in these slices, and leaves them.
fn shown_aside(card: &[u8], coefficients: &[i32], values: &[i64]) -> Result<Shown, Refusal> {
    let (mut coefficients, mut values) = (coefficients.to_vec(), values.to_vec());
    let reached = show(card, &mut coefficients, &mut values)?;
    Ok(Shown {
        shape: open(card)?.shape(),
        figure: reached.figure,
        coefficients,
        values,
    })
}

/// Compares what two cards show: 1 for each point whose values differ by more than the two figures
/// together, 0 for the others.
pub fn compare(
    first: &[u8],
    second: &[u8],
    first_coefficients: &mut [i32],
    first_values: &mut [i64],
    second_coefficients: &mut [i32],
    second_values: &mut [i64],
    apart: &mut [u8],
) -> Result<Compared, Refusal> {
    // All that is refused is refused before a slice is filled.
    let one = shown_aside(first, first_coefficients, first_values)?;
    let other = shown_aside(second, second_coefficients, second_values)?;
    let size = |shape: Shape| (shape.rows, shape.cols);
    if size(one.shape) != size(other.shape) {
        return Err(Refusal::plain(refusal::SIZES));
    }
    if apart.len() != one.shape.count() {
        return Err(Refusal::plain(refusal::LENGTHS));
    }

    let mut compared = Compared {
        apart: 0,
        first: [0, 0],
    };
    for point in one.shape.points() {
        let place = one.shape.place(point);
        let difference = one.values[place].abs_diff(other.values[place]);
        let is_apart = difference > one.figure + other.figure;
        if is_apart && compared.apart == 0 {
            compared.first = [point.row, point.col];
        }
        compared.apart += u64::from(is_apart);
        apart[place] = u8::from(is_apart);
    }
    first_coefficients.copy_from_slice(&one.coefficients);
    first_values.copy_from_slice(&one.values);
    second_coefficients.copy_from_slice(&other.coefficients);
    second_values.copy_from_slice(&other.values);
    Ok(compared)
}
