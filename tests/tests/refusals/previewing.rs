//! Previewing's refusals: those of refining, and 3 for the third slice beside the other two.

use super::common::previews::{any_preview, faulty_previews, Preview};
use super::common::{bench, plan, refusal};
use super::V;
use trace_card_tests::model::{open, preview, refine, Reached, Refusal};
use trace_card_tests::random::cases::{Case, LARGE_SIZES};
use trace_card_tests::random::Random;

/// Previews into a filled slice, which keeps the filling where the call is refused.
fn preview_on(given: &Preview) -> Result<(Reached, Vec<i64>), Refusal> {
    let [values, mut next] = given.lengths.map(|length| vec![V; length]);
    let (card, plan, coefficients) = (&given.card, &given.plan, &given.coefficients);
    match preview(card, plan, given.layer, coefficients, &values, &mut next) {
        Ok(reached) => Ok((reached, next)),
        Err(refused) => {
            assert!(next.iter().all(|&v| v == V));
            Err(refused)
        }
    }
}

/// Refines a copy of what a preview is given.
fn refine_copy(given: &Preview) -> Result<(Reached, Vec<i64>), Refusal> {
    let mut coefficients = given.coefficients.clone();
    let mut values = vec![V; given.lengths[0]];
    let (card, plan) = (&given.card, &given.plan);
    let reached = refine(card, plan, given.layer, &mut coefficients, &mut values)?;
    Ok((reached, values))
}

#[test]
fn previewing_refuses_in_turn() {
    for (given, refused) in faulty_previews() {
        assert_eq!(preview_on(&given), Err(refused), "{given:?}");
    }
}

#[test]
fn previewing_refuses_lengths() {
    let answer = |coefficients, values, next| {
        preview_on(&Preview {
            card: bench::card(),
            plan: plan(&[3]),
            layer: 0,
            coefficients: vec![1; coefficients],
            lengths: [values, next],
        })
    };
    for wrong in [0, 1, 4, 6, 10] {
        for [q, v, next] in [
            [wrong, 5, 5],
            [5, wrong, 5],
            [5, 5, wrong],
            [wrong, wrong, 5],
            [wrong, wrong, wrong],
        ] {
            assert_eq!(answer(q, v, next), Err(refusal(3, [0, 0])));
        }
    }
    let (_, next) = answer(5, 5, 5).unwrap();
    assert!(!next.contains(&V));
}

/// Cards cut and damaged at random, with any plan, layer and coefficients. A third slice of another length comes
/// after the opening and before all else.
#[test]
fn previewing_refuses_as_refining() {
    let mut random = Random::new(331);
    let mut cases: Vec<Case> = (0..5000).map(|_| Case::small(&mut random)).collect();
    cases.extend(LARGE_SIZES.map(|(rows, cols)| Case::of_size(&mut random, rows, cols)));
    let mut met = [0; 12];
    for case in cases {
        let points = case.count();
        let mut given = any_preview(&mut random, case.write().card, points);
        let opened = open(&given.card);
        for next in [points - 1, points, points + 1] {
            given.lengths[1] = next;
            let expected = match &opened {
                Err(refused) => Err(*refused),
                Ok(opened) if next != opened.shape().count() => Err(refusal(3, [0, 0])),
                Ok(_) => refine_copy(&given),
            };
            if next == points {
                let refused = expected.as_ref().err();
                met[refused.map_or(0, |refused| refused.number) as usize] += 1;
            }
            assert_eq!(preview_on(&given), expected, "{given:?}");
        }
    }
    for number in [0, 3, 5, 6, 7, 8, 9, 11] {
        assert!(met[number] > 50, "{met:?}");
    }
}
