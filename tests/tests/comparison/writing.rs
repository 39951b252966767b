//! Writing, and showing what was written, whole and half.

use super::both::{show, write, written, Slices};
use trace_card_tests::model::open;
use trace_card_tests::model::write::OUTPUT_BYTES as OUTPUT;
use trace_card_tests::random::cases::{Case, CURVES, LARGE_SIZES};
use trace_card_tests::random::sheets::{sheet, Kind, KINDS};
use trace_card_tests::random::Random;

#[test]
fn small_sheets() {
    let mut random = Random::new(501);
    for _ in 0..4000 {
        written(&Case::small(&mut random));
    }
}

#[test]
fn every_level_curve_and_kind_of_sheet() {
    let mut random = Random::new(502);
    for levels in 0..=6 {
        for curve in CURVES {
            for kind in KINDS {
                for step in [0, 1, 2, 1000, 65_535] {
                    for (rows, cols) in [(1, 1), (2, 3), (1, 40), (40, 1), (17, 33), (65, 9)] {
                        let samples = sheet(&mut random, kind, rows, cols);
                        let case = Case {
                            rows,
                            cols,
                            levels,
                            curve,
                            step,
                            samples,
                        };
                        let card = written(&case);
                        let header = open(&card).unwrap().header_length;
                        for length in [card.len(), (header + card.len()) / 2] {
                            let mut slices = Slices::new(case.count());
                            assert!(show(&card[..length], &mut slices).is_ok());
                        }
                    }
                }
            }
        }
    }
}

#[test]
fn the_largest_sheets() {
    let mut random = Random::new(503);
    for (rows, cols) in LARGE_SIZES {
        for kind in KINDS {
            written(&Case::of_kind(&mut random, kind, rows, cols));
        }
    }
    // All planes of all layers as full as they come.
    for curve in CURVES {
        for kind in [Kind::Ends, Kind::Board, Kind::Noise] {
            let samples = sheet(&mut random, kind, 64, 128);
            written(&Case {
                rows: 64,
                cols: 128,
                levels: 6,
                curve,
                step: 0,
                samples,
            });
        }
    }
}

/// Any numbers in any place: most are refused, each for the first reason there is.
#[test]
fn refusals_in_their_order() {
    let mut random = Random::new(504);
    let sizes = [
        0,
        1,
        2,
        3,
        90,
        91,
        92,
        8192,
        8193,
        1 << 32,
        1 << 33,
        u64::MAX,
    ];
    let mut seen = [0; 12];
    for _ in 0..6000 {
        let (rows, cols) = if random.once_in(3) {
            (random.pick(&sizes), random.pick(&sizes))
        } else {
            (1 + random.below(6), 1 + random.below(6))
        };
        let points = rows.checked_mul(cols).filter(|&points| points <= 9000);
        let points = points.unwrap_or(random.below(20)) as usize;
        let mut samples: Vec<i32> = (0..points)
            .map(|_| random.between(-50, 50) as i32)
            .collect();
        let mut lengths = [points; 2];
        let mut output = OUTPUT + random.below(3) as usize;
        match random.below(8) {
            0 => samples.push(0),
            1 => drop(samples.pop()),
            2 => lengths[0] += 1,
            3 => lengths[1] = lengths[1].saturating_sub(1),
            4 => output = OUTPUT - 1 - random.below(OUTPUT as u64) as usize,
            _ => {}
        }
        for _ in 0..random.below(3) {
            if !samples.is_empty() && random.once_in(2) {
                let place = random.below(samples.len() as u64) as usize;
                samples[place] = random.pick(&[
                    1_048_575,
                    1_048_576,
                    -1_048_575,
                    -1_048_576,
                    i32::MAX,
                    i32::MIN,
                ]);
            }
        }
        let levels = random.pick(&[0, 1, 2, 5, 6, 6, 7, u64::MAX]);
        let step = random.pick(&[0, 1, 77, 65_535, 65_536, u64::MAX]);
        let case = Case {
            rows,
            cols,
            levels,
            curve: random.pick(&CURVES),
            step,
            samples,
        };
        match write(&case, lengths, output) {
            Ok(_) => seen[0] += 1,
            Err(refusal) => seen[refusal.number as usize] += 1,
        }
    }
    assert!(seen[..5].iter().all(|&times| times > 100), "{seen:?}");
}
