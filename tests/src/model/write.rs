//! Writing a card (docs/CARD.md, "The calls").

use super::digits::{digits_needed, digits_of};
use super::header::print;
use super::losses::measured;
use super::planes::{bytes_of_plane, card_order, cells_in};
use super::predict::{predict, Curve};
use super::refusal::{self, Refusal};
use super::sheet::{Shape, LARGEST_SAMPLE, MOST_LEVELS, MOST_POINTS};
use super::steps::{coefficient, rebuilt, LARGEST_STEP};

/// The room that the output has to have.
pub const OUTPUT_BYTES: usize = 36_864;

/// Refusal 1. A product too large for u64 is too many points too.
fn check_size(rows: u64, cols: u64) -> Result<(), Refusal> {
    let points = rows.checked_mul(cols);
    match points {
        Some(points) if (1..=MOST_POINTS).contains(&points) => Ok(()),
        _ => Err(Refusal::plain(refusal::SHEET_SIZE)),
    }
}

/// Refusal 4, with the row and column of the first sample out of range.
fn check_samples(shape: Shape, samples: &[i32]) -> Result<(), Refusal> {
    let range = -LARGEST_SAMPLE..=LARGEST_SAMPLE;
    let wrong = shape
        .points()
        .find(|&point| !range.contains(&samples[shape.place(point)]));
    match wrong {
        None => Ok(()),
        Some(point) => Err(Refusal {
            number: refusal::SAMPLE_RANGE,
            details: [point.row, point.col],
        }),
    }
}

/// Writes the card to the front of the output and answers its length.
// The arguments are the call's own.
#[allow(clippy::too_many_arguments)]
pub fn write(
    samples: &[i32],
    rows: u64,
    cols: u64,
    levels: u64,
    curve: Curve,
    step: u64,
    coefficients: &mut [i32],
    values: &mut [i64],
    output: &mut [u8],
) -> Result<u64, Refusal> {
    check_size(rows, cols)?;
    if levels > MOST_LEVELS || step > LARGEST_STEP {
        return Err(Refusal::plain(refusal::LEVELS_OR_STEP));
    }
    let shape = Shape { rows, cols, levels };
    let lengths = [samples.len(), coefficients.len(), values.len()];
    if lengths != [shape.count(); 3] || output.len() < OUTPUT_BYTES {
        return Err(Refusal::plain(refusal::LENGTHS));
    }
    check_samples(shape, samples)?;

    // From here on nothing is refused, so the lent slices may be filled as we go.
    let mut layers = Vec::new();
    for layer in shape.layers() {
        let mut of_layer = Vec::new();
        for point in shape.points_of(layer) {
            let place = shape.place(point);
            // From rebuilt values, as a reader has to, and never from samples.
            let prediction = predict(values, shape, curve, layer, point);
            let q = coefficient(i64::from(samples[place]), prediction, step);
            values[place] = rebuilt(prediction, q, step);
            // 23 digits are enough for every sheet that is accepted, and they fit i32.
            coefficients[place] = i32::try_from(q).expect("a coefficient fits 23 digits");
            of_layer.push(q);
        }
        layers.push(of_layer);
    }

    let points: Vec<u64> = layers.iter().map(|layer| layer.len() as u64).collect();
    let planes: Vec<u64> = layers.iter().map(|layer| digits_needed(layer)).collect();
    let digits: Vec<Vec<Vec<u8>>> = layers
        .iter()
        .map(|layer| layer.iter().map(|&q| digits_of(q)).collect())
        .collect();

    let losses: Vec<Vec<u64>> = layers
        .iter()
        .zip(&planes)
        .map(|(layer, &planes)| measured(layer, planes))
        .collect();

    let cells = cells_in(&planes, &points);
    let mut card = print(shape, curve, step, &planes, Some(&losses), cells);
    for plane in card_order(&planes, &points) {
        let bits: Vec<bool> = digits[plane.layer]
            .iter()
            .map(|digits| digits.get(plane.place as usize) == Some(&1))
            .collect();
        card.extend(bytes_of_plane(&bits));
    }
    output[..card.len()].copy_from_slice(&card);
    Ok(card.len() as u64)
}
