//! Writing's refusals: 1, 2, 3 and 4.

use super::common::refusal;
use super::{B, Q, V};
use trace_card_tests::model::write::OUTPUT_BYTES;
use trace_card_tests::model::{write, Curve, Refusal};

/// Writes to filled slices of these lengths; the refusal must leave the filling.
#[allow(clippy::too_many_arguments)]
fn write_refused(
    samples: &[i32],
    rows: u64,
    cols: u64,
    levels: u64,
    step: u64,
    coefficients: usize,
    values: usize,
    output: usize,
) -> Refusal {
    let mut coefficients = vec![Q; coefficients];
    let mut values = vec![V; values];
    let mut output = vec![B; output];
    let answer = write(
        samples,
        rows,
        cols,
        levels,
        Curve::Cubic,
        step,
        &mut coefficients,
        &mut values,
        &mut output,
    );
    assert!(coefficients.iter().all(|&q| q == Q));
    assert!(values.iter().all(|&v| v == V));
    assert!(output.iter().all(|&b| b == B));
    answer.unwrap_err()
}

#[test]
fn writing_refuses_sizes() {
    let large = 1 << 32;
    let sizes = [
        (0, 0),
        (0, 5),
        (5, 0),
        (0, u64::MAX),
        (u64::MAX, 0),
        (1, 8193),
        (8193, 1),
        (91, 91),
        (1, u64::MAX),
        (u64::MAX, 1),
        (u64::MAX, u64::MAX),
        // Products that would come back into the range, were they cut to 64 bits.
        (large, large),
        (1 << 63, 2),
        (large + 1, large),
        (3, 12_297_829_382_473_034_411),
    ];
    assert_eq!(3_u64.wrapping_mul(12_297_829_382_473_034_411), 1);
    for (rows, cols) in sizes {
        let refused = write_refused(&[0], rows, cols, 0, 0, 1, 1, OUTPUT_BYTES);
        assert_eq!(refused, refusal(1, [0, 0]), "{rows} by {cols}");
    }
}

#[test]
fn writing_refuses_levels_and_steps() {
    for (levels, step) in [
        (7, 0),
        (0, 65_536),
        (u64::MAX, 0),
        (6, u64::MAX),
        (64, 65_536),
    ] {
        let refused = write_refused(&[0; 6], 2, 3, levels, step, 6, 6, OUTPUT_BYTES);
        assert_eq!(refused, refusal(2, [0, 0]));
    }
}

#[test]
fn writing_refuses_lengths() {
    for [samples, coefficients, values, output] in [
        [5, 6, 6, OUTPUT_BYTES],
        [7, 6, 6, OUTPUT_BYTES],
        [0, 6, 6, OUTPUT_BYTES],
        [6, 5, 6, OUTPUT_BYTES],
        [6, 7, 6, OUTPUT_BYTES],
        [6, 6, 5, OUTPUT_BYTES],
        [6, 6, 7, OUTPUT_BYTES],
        [6, 6, 6, OUTPUT_BYTES - 1],
        [6, 6, 6, 0],
    ] {
        let samples = vec![0; samples];
        let refused = write_refused(&samples, 2, 3, 6, 65_535, coefficients, values, output);
        assert_eq!(refused, refusal(3, [0, 0]));
    }
    // A longer output is no fault, and what follows the card is left alone.
    let mut output = vec![B; 40_000];
    let (mut coefficients, mut values) = ([Q; 6], [V; 6]);
    let length = write(
        &[0; 6],
        2,
        3,
        0,
        Curve::Linear,
        0,
        &mut coefficients,
        &mut values,
        &mut output,
    )
    .unwrap() as usize;
    let header = b"rows=2\ncols=3\nlevels=0\ncurve=linear\nstep=0\nplanes=0\nloss=\ncells=0\n";
    assert_eq!(output[..length], header[..]);
    assert!(output[length..].iter().all(|&b| b == B));
    assert_eq!((coefficients, values), ([0; 6], [0; 6]));
}

#[test]
fn writing_refuses_the_first_sample_out_of_range() {
    for wrong in [1_048_576, -1_048_576, i32::MAX, i32::MIN] {
        for first in 0..12 {
            let mut samples = [1_048_575; 12];
            samples[first..].fill(-1_048_575);
            samples[first] = wrong;
            if first + 3 < 12 {
                samples[first + 3] = i32::MIN;
            }
            let refused = write_refused(&samples, 4, 3, 2, 7, 12, 12, OUTPUT_BYTES);
            let (row, col) = (first as u64 / 3, first as u64 % 3);
            assert_eq!(refused, refusal(4, [row, col]));
        }
    }
}

#[test]
fn writing_refuses_in_turn() {
    // Every group of faults: the one with the lowest number is given.
    for faults in 1_u32..16 {
        let is_set = |number: u32| faults >> (number - 1) & 1 == 1;
        for variant in 0..3 {
            let rows = match (is_set(1), variant) {
                (false, _) => 2,
                (true, 0) => 0,
                (true, 1) => 2731,
                (true, _) => u64::MAX,
            };
            let (levels, step) = match (is_set(2), variant) {
                (false, _) => (6, 65_535),
                (true, 0) => (7, 0),
                (true, 1) => (0, 65_536),
                (true, _) => (u64::MAX, u64::MAX),
            };
            let (count, output) = match (is_set(3), variant) {
                (false, _) => (6, OUTPUT_BYTES),
                (true, 0) => (5, OUTPUT_BYTES),
                (true, 1) => (6, OUTPUT_BYTES - 1),
                (true, _) => (7, OUTPUT_BYTES),
            };
            let mut samples = vec![0; count];
            if is_set(4) {
                samples[4] = 1_048_576;
            }
            let refused = write_refused(&samples, rows, 3, levels, step, 6, 6, output);
            let number = u64::from(faults.trailing_zeros() + 1);
            let details = if number == 4 { [1, 1] } else { [0, 0] };
            assert_eq!(refused, refusal(number, details));
        }
    }
}
