//! Lists of refinements, refused ones among them.

use super::both::{read, refine, written, Slices};
use trace_card_tests::boundary::PLAN;
use trace_card_tests::model::{open, Plan};
use trace_card_tests::random::cases::{Case, CURVES, LARGE_SIZES};
use trace_card_tests::random::losses::any_kind;
use trace_card_tests::random::plans::plan_within;
use trace_card_tests::random::sheets::Kind;
use trace_card_tests::random::Random;

/// Refines in turn from a reading of no planes, each call with the plan and the slices that the
/// last accepted one left. Afterwards all is as one reading with the planes reached leaves it.
/// Answers how many calls were accepted.
fn refine_in_turn(random: &mut Random, card: &[u8], points: usize, calls: usize) -> usize {
    let mut slices = Slices::new(points);
    let mut plan: Plan = [0; PLAN];
    let Ok(mut reached) = read(card, &plan, &mut slices) else {
        return 0;
    };
    let mut accepted = 0;
    for _ in 0..calls {
        let layer = match random.below(20) {
            0 => random.draw(),
            _ => random.below(14),
        };
        if let Ok(now) = refine(card, &plan, layer, &mut slices) {
            reached = now;
            plan = now.plan;
            accepted += 1;
        }
    }
    let mut fresh = Slices::new(points);
    let once = read(card, &plan, &mut fresh);
    assert_eq!((once, fresh), (Ok(reached), slices));
    accepted
}

#[test]
fn small_cards_whole_and_cut() {
    let mut random = Random::new(521);
    let mut accepted = 0;
    for _ in 0..400 {
        let case = Case::small(&mut random);
        let card = any_kind(&mut random, written(&case));
        let header = open(&card).unwrap().header_length;
        let cut = if random.once_in(2) {
            random.length(header, card.len())
        } else {
            card.len()
        };
        accepted += refine_in_turn(&mut random, &card[..cut], case.count(), 30);
    }
    assert!(accepted > 1000, "{accepted}");
}

/// A damaged plane is met when it is asked for, and refused each time it is.
#[test]
fn damaged_cards() {
    let mut random = Random::new(522);
    let mut met = 0;
    for _ in 0..400 {
        let case = Case::small(&mut random);
        let mut card = any_kind(&mut random, written(&case));
        let header = open(&card).unwrap().header_length;
        if card.len() > header {
            let place = header + random.below((card.len() - header) as u64) as usize;
            card[place] ^= 1 << random.below(8);
        }
        refine_in_turn(&mut random, &card, case.count(), 30);
        // From no planes, one layer until it is refused, and then once more.
        let mut slices = Slices::new(case.count());
        let mut plan = [0; PLAN];
        let layer = random.below(3);
        if read(&card, &plan, &mut slices).is_err() {
            continue;
        }
        let refused = loop {
            match refine(&card, &plan, layer, &mut slices) {
                Ok(reached) => plan = reached.plan,
                Err(refusal) => break refusal,
            }
        };
        let again = refine(&card, &plan, layer, &mut slices);
        assert_eq!(again, Err(refused));
        met += u64::from(refused.number == 8);
    }
    assert!(met > 20, "{met}");
}

#[test]
fn the_largest_cards() {
    let mut random = Random::new(523);
    let mut accepted = 0;
    for (rows, cols) in LARGE_SIZES {
        for curve in CURVES {
            let mut case = Case::of_kind(&mut random, Kind::Noise, rows, cols);
            (case.curve, case.levels) = (curve, 6);
            let card = any_kind(&mut random, written(&case));
            accepted += refine_in_turn(&mut random, &card, case.count(), 12);
        }
    }
    assert!(accepted > 100, "{accepted}");
}

/// Coefficients that no reading made, at the ends of 23 digits and past them.
#[test]
fn coefficients_made_up() {
    let mut random = Random::new(524);
    let ends = [
        -2_796_202,
        -2_796_203,
        5_592_405,
        5_592_406,
        0,
        1,
        i32::MAX,
        i32::MIN,
    ];
    let (mut past, mut taken) = (0, 0);
    for _ in 0..1500 {
        let case = Case::small(&mut random);
        let card = written(&case);
        let opened = open(&card).unwrap();
        let plan = plan_within(&mut random, &opened.planes);
        let held = random.once_in(2);
        let coefficients: Vec<i32> = (0..case.count())
            .map(|_| match random.below(12) {
                0 if !held => random.pick(&ends),
                1 => random.pick(&[-2_796_202, 5_592_405]),
                _ => random.between(-2_796_202, 5_592_405) as i32,
            })
            .collect();
        let layer = random.below(opened.planes.len() as u64 + 1);
        let mut slices = Slices::holding(&coefficients);
        match refine(&card, &plan, layer, &mut slices) {
            Ok(_) => taken += 1,
            Err(refusal) => past += u64::from(refusal.number == 11),
        }
    }
    assert!(past > 100 && taken > 100, "{past} {taken}");
}

/// Plans that ask too much, and slices of other lengths.
#[test]
fn plans_and_lengths() {
    let mut random = Random::new(525);
    let mut met = [0; 12];
    for _ in 0..600 {
        let case = Case::small(&mut random);
        let card = written(&case);
        let n = case.count();
        let mut plan: Plan = [0; PLAN];
        if random.once_in(2) {
            plan[random.below(13) as usize] = random.pick(&[1, 22, 23, 24, u64::MAX]);
        }
        let layer = random.pick(&[0, 1, 2, 12, 13, u64::MAX]);
        let number = |mut slices: Slices| match refine(&card, &plan, layer, &mut slices) {
            Ok(_) => 0,
            Err(refusal) => refusal.number,
        };
        met[number(Slices::holding(&vec![1; n])) as usize] += 1;
        assert_eq!(number(Slices::of_lengths(n, n - 1)), 3);
        assert_eq!(number(Slices::of_lengths(n + 1, n)), 3);
    }
    assert!(met[0] > 50 && met[9] > 50, "{met:?}");
}
