//! Damaged headers through every call but writing.

use super::both::{
    compare, figure, plan_by_cells, plan_by_limit, preview, read, refine, roll, show, written,
    Slices, B,
};
use trace_card_tests::boundary::PLAN;
use trace_card_tests::model::open;
use trace_card_tests::random::cases::Case;
use trace_card_tests::random::damage::{damage_header, damaged_at};
use trace_card_tests::random::losses::{any_kind, old};
use trace_card_tests::random::Random;

/// Every call on the same bytes, from no planes, and both ways of comparing them with the card as it was
/// written. Answers whether they open.
fn every_call(card: &[u8], fine: &[u8], layer: u64, points: usize) -> bool {
    let none = [0; PLAN];
    // Coefficients out of range are refusal 11; refining and previewing want some that are not.
    let slices = Slices::holding(&vec![1; points]);
    let _ = show(card, &mut slices.clone());
    let _ = roll(card, &mut Slices::for_roll(points));
    for cards in [[card, fine], [fine, card]] {
        let mut slices = [(); 2].map(|()| Slices::new(points));
        let _ = compare(cards, &mut slices, &mut vec![B; points]);
    }
    let _ = read(card, &none, &mut slices.clone());
    let _ = refine(card, &none, layer, &mut slices.clone());
    let _ = preview(card, &none, layer, &mut slices.and_next(points));
    for asked in [layer, 70_000, u64::MAX] {
        let _ = plan_by_limit(card, asked);
        let _ = plan_by_cells(card, asked);
    }
    // No planes are a plan of every card.
    figure(card, &none).is_ok()
}

/// Each byte of some headers damaged; and the card cut there.
#[test]
fn headers_damaged_byte_by_byte() {
    let mut random = Random::new(532);
    let mut opened_anyway = 0;
    for round in 0..5 {
        // Every byte on the first card, some on the others.
        let (first, step) = if round == 0 { (0, 1) } else { (round, 9) };
        let mut bytes: Vec<u8> = (first..=255).step_by(step).collect();
        bytes.extend(b"0123456789,=\n-+ ");
        let mut case = Case::small(&mut random);
        // Few layers, so that the line of losses is not the most of the header.
        case.levels = u64::from(round % 2);
        let mut card = written(&case);
        if round > 2 {
            card = old(&card);
        }
        for position in 0..open(&card).unwrap().header_length {
            for damaged in damaged_at(&card, position, &bytes) {
                opened_anyway += u64::from(every_call(&damaged, &card, 0, case.count()));
            }
            assert!(!every_call(&card[..position], &card, 0, case.count()));
        }
        let longer = [&card[..], &[0]].concat();
        assert!(!every_call(&longer, &card, 0, case.count()));
    }
    assert!(opened_anyway > 20, "{opened_anyway}");
}

#[test]
fn headers_damaged_in_many_places() {
    let mut random = Random::new(533);
    for _ in 0..4000 {
        let case = Case::small(&mut random);
        let fine = any_kind(&mut random, written(&case));
        let header = open(&fine).unwrap().header_length;
        let mut card = fine.clone();
        damage_header(&mut random, &mut card, header);
        let length = random.length(0, card.len());
        every_call(&card, &fine, random.below(3), case.count());
        every_call(&card[..length], &fine, 0, case.count());
    }
}
