//! Reading and showing.

use super::both::{read, show, written, Slices};
use trace_card_tests::model::digits::weight;
use trace_card_tests::model::{open, planes::whole_planes, Plan};
use trace_card_tests::random::cases::{Case, CURVES, LARGE_SIZES};
use trace_card_tests::random::losses::any_kind;
use trace_card_tests::random::plans::plan_about;
use trace_card_tests::random::sheets::Kind;
use trace_card_tests::random::Random;

/// A plan that asks about as much as is whole; no planes where the card does not open.
fn plan_for(random: &mut Random, card: &[u8]) -> Plan {
    let whole = open(card).map_or(vec![], |opened| whole_planes(&opened, card));
    plan_about(random, &whole)
}

fn show_and_read(random: &mut Random, card: &[u8], points: usize) {
    let _ = show(card, &mut Slices::new(points));
    let plan = plan_for(random, card);
    let _ = read(card, &plan, &mut Slices::new(points));
}

#[test]
fn every_cut_of_small_cards() {
    let mut random = Random::new(511);
    for _ in 0..25 {
        let case = Case::small(&mut random);
        let card = any_kind(&mut random, written(&case));
        for length in 0..=card.len() {
            show_and_read(&mut random, &card[..length], case.count());
        }
    }
}

#[test]
fn cuts_of_the_largest_cards() {
    let mut random = Random::new(512);
    for (rows, cols) in LARGE_SIZES {
        for curve in CURVES {
            for kind in [Kind::Smooth, Kind::Noise] {
                let mut case = Case::of_kind(&mut random, kind, rows, cols);
                (case.curve, case.levels) = (curve, random.pick(&[3, 6]));
                let card = any_kind(&mut random, written(&case));
                let header = open(&card).unwrap().header_length;
                for _ in 0..4 {
                    let length = random.length(header, card.len());
                    show_and_read(&mut random, &card[..length], case.count());
                }
                show_and_read(&mut random, &card, case.count());
                show_and_read(&mut random, &card[..header - 1], case.count());
            }
        }
    }
}

/// Every group of eight digits, as the lowest, the middle and the highest of a coefficient, on a card made by hand: the
/// coefficients are the sums of their digits, one by one (docs/CARD.md, "Plans, reading, refining").
#[test]
fn every_group_of_eight_digits() {
    let words: Vec<u32> = (0..256)
        .chain((0..256).map(|group| group << 8))
        .chain((0..128).map(|group| group << 16))
        .collect();
    let cells = words.len().div_ceil(256);
    let total = 23 * cells;
    let mut card = format!(
        "rows=1\ncols={}\nlevels=0\ncurve=linear\nstep=0\nplanes=23\ncells={total}\n",
        words.len()
    )
    .into_bytes();
    for p in (0..23).rev() {
        let mut plane = vec![0; 32 * cells];
        for (i, word) in words.iter().enumerate() {
            plane[i / 8] |= ((word >> p & 1) as u8) << (i % 8);
        }
        card.extend(plane);
    }
    let mut slices = Slices::new(words.len());
    assert_eq!(show(&card, &mut slices).unwrap().figure, 0);
    let sums: Vec<i64> = words
        .iter()
        .map(|word| (0..23).filter(|p| word >> p & 1 == 1).map(weight).sum())
        .collect();
    assert_eq!(slices.values, sums);
    assert!(slices.coefficients.iter().map(|&q| i64::from(q)).eq(sums));
}

/// Damaged planes are refused only where the plan reads them, the first in card order.
#[test]
fn damaged_planes() {
    let mut random = Random::new(513);
    let (mut refused, mut taken) = (0, 0);
    for _ in 0..1500 {
        let case = Case::small(&mut random);
        let mut card = any_kind(&mut random, written(&case));
        let header = open(&card).unwrap().header_length;
        if card.len() == header {
            continue;
        }
        for _ in 0..1 + random.below(3) {
            let place = header + random.below((card.len() - header) as u64) as usize;
            match random.below(3) {
                0 => card[place] ^= 1 << random.below(8),
                1 => card[place] = 0,
                _ => card[place] = random.draw() as u8,
            }
        }
        let length = card.len() - random.pick(&[0, 0, 1, 32, 33]).min(card.len() - header);
        let card = &card[..length];
        for _ in 0..4 {
            let plan = plan_for(&mut random, card);
            match read(card, &plan, &mut Slices::new(case.count())) {
                Ok(_) => taken += 1,
                Err(refusal) => refused += u64::from(refusal.number == 8),
            }
        }
        let _ = show(card, &mut Slices::new(case.count()));
    }
    assert!(refused > 200 && taken > 200, "{refused} {taken}");
}

#[test]
fn other_lengths() {
    let mut random = Random::new(514);
    for _ in 0..300 {
        let case = Case::small(&mut random);
        let card = written(&case);
        let plan = plan_for(&mut random, &card);
        let n = case.count();
        for [q, v] in [
            [n + 1, n],
            [n, n + 1],
            [n - 1, n],
            [n, n - 1],
            [0, 0],
            [0, n],
        ] {
            let mut slices = Slices::of_lengths(q, v);
            let refused = show(&card, &mut slices).unwrap_err();
            assert_eq!(refused.number, 3);
            let refused = read(&card, &plan, &mut slices).unwrap_err();
            assert_eq!(refused.number, 3);
        }
    }
}
