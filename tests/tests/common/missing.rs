//! Cards of all the digits that there are, and plans that leave out every number of them.

use super::{card_with, layer_places, plan};
use trace_card_tests::model::digits::{digits_of, high, low, weight, MOST_DIGITS};
use trace_card_tests::model::{Opened, Plan};
use trace_card_tests::random::Random;

/// Any coefficients that 23 digits hold; sometimes the ends alone.
pub fn any_coefficients(random: &mut Random, points: usize) -> Vec<i32> {
    let (least, greatest) = (low(MOST_DIGITS), high(MOST_DIGITS));
    let ends = random.once_in(4);
    let any = |_| match ends {
        true => random.pick(&[least, greatest]) as i32,
        false => random.between(least, greatest) as i32,
    };
    (0..points).map(any).collect()
}

/// Any coefficients, in each layer one at the end that needs all 23 digits, and their card.
pub fn made_up(
    random: &mut Random,
    size: (u64, u64),
    levels: u64,
    curve: &str,
    step: u64,
) -> (Vec<i32>, Vec<u8>) {
    let mut coefficients = any_coefficients(random, (size.0 * size.1) as usize);
    for places in layer_places(size.0, size.1, levels) {
        if !places.is_empty() {
            coefficients[random.pick(&places)] = high(MOST_DIGITS) as i32;
        }
    }
    let card = card_with(size, levels, curve, step, &coefficients);
    (coefficients, card)
}

/// Plans with which every layer misses each number of its digits once, not all layers the same number.
pub fn every_missing(opened: &Opened) -> Vec<Plan> {
    let plan_of = |round: u64| {
        let layers = opened.planes.iter().zip(0..);
        let loaded = layers.map(|(&planes, layer)| (round + 5 * layer) % (planes + 1));
        plan(&loaded.collect::<Vec<_>>())
    };
    (0..=MOST_DIGITS).map(plan_of).collect()
}

/// The coefficients of a card of so many planes as a reading hands them back: without their lowest digits, as
/// many as the plan leaves out.
pub fn plain(opened: &Opened, plan: &Plan, coefficients: &[i32]) -> Vec<i32> {
    let mut plain = coefficients.to_vec();
    let layers = layer_places(opened.rows, opened.cols, opened.levels);
    for (layer, places) in layers.into_iter().enumerate() {
        let missing = opened.planes[layer] - plan[layer];
        for place in places {
            let digits = digits_of(coefficients[place].into()).into_iter().zip(0..);
            let loaded = digits.filter(|&(digit, p)| digit == 1 && p >= missing);
            plain[place] = loaded.map(|(_, p)| weight(p) as i32).sum();
        }
    }
    plain
}
