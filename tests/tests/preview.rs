//! Previews by the model, held to readings with one plane more. `refusals/previewing.rs` has what is refused.

mod common;

use common::{figure_by_hand, refusal, sizes_of, whole_in};
use trace_card_tests::model::{open, preview, read, Reached};
use trace_card_tests::random::cases::{Case, LARGE_SIZES};
use trace_card_tests::random::losses::any_kind;
use trace_card_tests::random::plans::plan_within;
use trace_card_tests::random::Random;

/// Previews every layer, and one past the last, from a reading with some of the planes that are whole. Answers
/// how many were accepted.
fn check(random: &mut Random, card: &[u8], points: usize) -> usize {
    let opened = open(card).unwrap();
    let sizes = sizes_of(&opened);
    let whole = whole_in(&opened, card.len());
    let from = plan_within(random, &whole[..sizes.len()]);
    let (mut coefficients, mut values) = (vec![7; points], vec![7; points]);
    read(card, &from, &mut coefficients, &mut values).unwrap();
    let mut accepted = 0;
    for layer in 0..=sizes.len() {
        let mut next = vec![9; points];
        let asked = layer as u64;
        let answer = preview(card, &from, asked, &coefficients, &values, &mut next);
        if layer == sizes.len() || from[layer] == whole[layer] {
            assert_eq!(answer, Err(refusal(9, [asked, 0])));
            assert_eq!(next, vec![9; points]);
            continue;
        }
        let mut plan = from;
        plan[layer] += 1;
        let figure = figure_by_hand(&opened, &sizes, &plan);
        assert_eq!(answer, Ok(Reached { plan, figure }));
        let (mut fresh, mut expected) = (vec![5; points], vec![5; points]);
        read(card, &plan, &mut fresh, &mut expected).unwrap();
        assert_eq!(next, expected);
        accepted += 1;
    }
    accepted
}

#[test]
fn as_readings_with_one_plane_more() {
    let mut random = Random::new(661);
    let mut cases: Vec<Case> = (0..1000).map(|_| Case::small(&mut random)).collect();
    cases.extend(LARGE_SIZES.map(|(rows, cols)| Case::of_size(&mut random, rows, cols)));
    let mut accepted = 0;
    for case in cases {
        let card = any_kind(&mut random, case.write().card);
        let header = open(&card).unwrap().header_length;
        for length in [card.len(), random.length(header, card.len())] {
            accepted += check(&mut random, &card[..length], case.count());
        }
    }
    assert!(accepted > 2000, "{accepted}");
}
