//! Digits that a plan leaves out, every number of them in every layer: plain 0 in the coefficients handed back, and
//! their middle in the values (docs/CARD.md, "Plans, reading, refining").

use super::both::{read, refine, show, Slices};
use super::common::missing::{any_coefficients, every_missing, made_up, plain};
use super::common::plan;
use trace_card_tests::model::open;
use trace_card_tests::random::losses::any_kind;
use trace_card_tests::random::Random;

const CURVES: [&str; 2] = ["linear", "cubic"];

/// A row, a column, a sheet whose 13 layers all have points, and one with points of one layer alone; refined
/// from any coefficients too, those that no reading leaves.
#[test]
fn every_number_of_missing_digits() {
    let mut random = Random::new(651);
    for size in [(1, 1), (1, 65), (66, 1), (33, 34)] {
        for curve in CURVES {
            for step in [0, 1 + random.below(65_534), 65_535] {
                let (coefficients, card) = made_up(&mut random, size, 6, curve, step);
                let card = any_kind(&mut random, card);
                let opened = open(&card).unwrap();
                for plan in every_missing(&opened) {
                    let mut slices = Slices::new(coefficients.len());
                    read(&card, &plan, &mut slices).unwrap();
                    assert_eq!(slices.coefficients, plain(&opened, &plan, &coefficients));
                    let layer = random.below(13);
                    let any = any_coefficients(&mut random, coefficients.len());
                    let refined = refine(&card, &plan, layer, &mut Slices::holding(&any));
                    let further = opened.planes[layer as usize] > plan[layer as usize];
                    assert_eq!(refined.is_ok(), further);
                }
            }
        }
    }
}

/// From no planes to all 23 of every layer that has points, in any order: after each refinement all is as one
/// reading with the planes reached leaves it, and at the end as the card shows it.
#[test]
fn refined_from_no_planes_to_all() {
    let mut random = Random::new(652);
    for (size, levels) in [((1, 9), 1), ((9, 1), 3), ((4, 7), 2)] {
        for curve in CURVES {
            let step = random.below(65_536);
            let (coefficients, card) = made_up(&mut random, size, levels, curve, step);
            let card = any_kind(&mut random, card);
            let opened = open(&card).unwrap();
            let mut slices = Slices::new(coefficients.len());
            let mut reached = read(&card, &plan(&[]), &mut slices).unwrap();
            while reached.plan != plan(&opened.planes) {
                let layer = random.below(opened.planes.len() as u64);
                if let Ok(further) = refine(&card, &reached.plan, layer, &mut slices) {
                    reached = further;
                }
                let mut fresh = Slices::new(coefficients.len());
                let once = read(&card, &reached.plan, &mut fresh);
                assert_eq!((once, &fresh), (Ok(reached), &slices));
            }
            let mut whole = Slices::new(coefficients.len());
            assert_eq!(show(&card, &mut whole), Ok(reached));
            assert_eq!(slices, whole);
            assert_eq!(slices.coefficients, coefficients);
            assert_eq!(reached.figure, step);
        }
    }
}
