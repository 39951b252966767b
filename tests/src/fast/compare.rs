//! Comparing: both cards are loaded before either is filled in, then the marks are made in one pass over the values.

use super::card::show_unless;
use super::refused;
use crate::model::{Compared, Refusal};

/// Points marked at a time; their number has to fit a byte.
const RUN: usize = 128;

/// Marks the values that differ by more than `most`. There is no branch in it: of `most` less the difference
/// and `most` with it one is below 0 where the values are further off, and neither comes near 2^63.
fn mark(first: &[i64], second: &[i64], most: i64, marks: &mut [u8]) {
    for ((mark, one), other) in marks.iter_mut().zip(first).zip(second) {
        let difference = one - other;
        let further = (most - difference) | (most + difference);
        *mark = (further as u64 >> 63) as u8;
    }
}

/// Marks all values, and answers how many are apart and the place of the first, or 0.
fn mark_all(first: &[i64], second: &[i64], most: i64, marks: &mut [u8]) -> (u64, usize) {
    let (mut apart, mut place) = (0, 0);
    let runs = first.chunks(RUN).zip(second.chunks(RUN));
    for (run, (marks, (first, second))) in marks.chunks_mut(RUN).zip(runs).enumerate() {
        mark(first, second, most, marks);
        let number: u8 = marks.iter().sum();
        if apart == 0 && number > 0 {
            place = run * RUN + marks.iter().position(|&mark| mark == 1).unwrap_or(0);
        }
        apart += u64::from(number);
    }
    (apart, place)
}

pub fn compare(
    first: &[u8],
    second: &[u8],
    first_coefficients: &mut [i32],
    first_values: &mut [i64],
    second_coefficients: &mut [i32],
    second_values: &mut [i64],
    apart: &mut [u8],
) -> Result<Compared, Refusal> {
    let mut most = 0;
    // The second card is shown once nothing is left to refuse the first one for.
    let (header, shown) = show_unless(first, first_coefficients, first_values, |one| {
        let (_, shown) = show_unless(second, second_coefficients, second_values, |other| {
            if (one.rows, one.cols) != (other.rows, other.cols) {
                return refused(13);
            }
            if apart.len() != one.points() {
                return refused(3);
            }
            Ok(())
        })?;
        most = shown.figure;
        Ok(())
    })?;
    most += shown.figure;
    let (apart, place) = mark_all(first_values, second_values, most as i64, apart);
    Ok(Compared {
        apart,
        first: [place / header.cols, place % header.cols].map(|at| at as u64),
    })
}
