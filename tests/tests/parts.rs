//! The parts of the model against second ways of getting the same.

mod common;

use common::missing::{every_missing, made_up, plain};
use common::{layer_of, layer_places, loss_by_hand, middle_by_hand, plan, planes_on_card};
use trace_card_tests::model::digits::{digits_of, high, low, middle, weight};
use trace_card_tests::model::figure::{carry, is_narrow};
use trace_card_tests::model::losses::{closed, measured};
use trace_card_tests::model::predict::{cubic, linear, neighbours};
use trace_card_tests::model::sheet::Shape;
use trace_card_tests::model::{open, read, Curve, Plan};
use trace_card_tests::random::cases::{shapes_at_narrow_edge, Case, Written, CURVES, LARGE_SIZES};
use trace_card_tests::random::plans::plan_within;
use trace_card_tests::random::sheets::KINDS;
use trace_card_tests::random::Random;

#[test]
fn every_point_is_in_its_one_layer() {
    let sizes = [(1, 1), (1, 70), (70, 1), (9, 17), (64, 128), (90, 91)];
    for (rows, cols) in sizes {
        for levels in 0..=6 {
            let shape = Shape { rows, cols, levels };
            let expected = layer_places(rows, cols, levels);
            let layers = shape.layers();
            assert_eq!(layers.len() as u64, 1 + 2 * levels);
            let found: Vec<Vec<usize>> = layers
                .iter()
                .map(|&layer| {
                    let points = shape.points_of(layer);
                    points.iter().map(|&point| shape.place(point)).collect()
                })
                .collect();
            assert_eq!(found, expected, "{rows} by {cols}, {levels} levels");
            let held: usize = found.iter().map(Vec::len).sum();
            assert_eq!(held, shape.count());
        }
    }
}

#[test]
fn digits_are_the_only_ones_for_their_sum() {
    // Every group of up to 12 digits with a 1 on top has its own sum.
    for length in 0..=12_u32 {
        let groups = if length == 0 {
            0..1
        } else {
            1 << (length - 1)..1_u32 << length
        };
        for group in groups {
            let digits: Vec<u8> = (0..length).map(|p| (group >> p & 1) as u8).collect();
            let sum = (0..length).map(|p| i64::from(digits[p as usize]) * (-2_i64).pow(p));
            assert_eq!(digits_of(sum.sum()), digits);
        }
    }
}

#[test]
fn digits_add_up_to_their_number() {
    let mut random = Random::new(101);
    for _ in 0..20_000 {
        let q = random.between(-2_796_202, 5_592_405);
        let digits = digits_of(q);
        let sum: i64 = digits
            .iter()
            .enumerate()
            .map(|(p, &digit)| i64::from(digit) * weight(p as u64))
            .sum();
        assert_eq!(sum, q);
        assert!(digits.len() <= 23);
    }
}

/// Every group of so many digits: the ends, the middle between them, and how far from it any of them is.
#[test]
fn the_middle_and_the_most_that_is_lost() {
    for d in 0..=16 {
        let sums: Vec<i64> = (0..1_u64 << d)
            .map(|group| (0..d).filter(|p| group >> p & 1 == 1).map(weight).sum())
            .collect();
        let (least, greatest) = (*sums.iter().min().unwrap(), *sums.iter().max().unwrap());
        assert_eq!((low(d), high(d)), (least, greatest));
        let halves = least + greatest;
        assert!(2 * middle(d) <= halves && halves < 2 * (middle(d) + 1));
        let furthest = sums.iter().map(|sum| sum.abs_diff(middle(d))).max();
        assert_eq!(Some(closed(d)), furthest);
        // The furthest is the greatest, and the least is one nearer.
        assert_eq!(greatest.abs_diff(middle(d)), closed(d));
        assert_eq!(middle(d).abs_diff(least), closed(d).saturating_sub(1));
    }
    for d in 0..=23 {
        assert_eq!(middle(d), middle_by_hand(d));
        assert_eq!(closed(d), loss_by_hand(d));
    }
    let middles: Vec<i64> = (0..8).map(middle).collect();
    assert_eq!(middles, [0, 0, -1, 1, -3, 5, -11, 21]);
    assert_eq!(middle(23), 1_398_101);
}

/// Of any numbers, a few of them, so that most are further from the closed loss than a layer is.
#[test]
fn losses_are_the_least_numbers_that_hold() {
    let mut random = Random::new(107);
    let mut smaller = 0;
    for _ in 0..2000 {
        let digits = random.below(23);
        let of_layer: Vec<i64> = (0..1 + random.below(5))
            .map(|_| random.between(-(1 << digits), 1 << digits).max(-2_796_202))
            .collect();
        let losses = measured(&of_layer, 23);
        check_losses(&losses, &of_layer);
        smaller += losses.windows(2).filter(|pair| pair[1] < pair[0]).count();
    }
    // A longer drop loses less than a shorter one now and then.
    assert!(smaller > 1000, "{smaller}");
    assert_eq!(measured(&[], 23), [0; 23]);
    for d in 1..=23 {
        assert_eq!(measured(&[high(d)], d).last(), Some(&closed(d)));
        assert_eq!(measured(&[middle(d)], d).last(), Some(&0));
    }
}

#[test]
fn divisions_round_down_and_carries_up() {
    let mut random = Random::new(102);
    for _ in 0..20_000 {
        let [a, b, c, d] = [(); 4].map(|()| random.between(-2_000_000, 2_000_000));
        let sixteenths = -a + 9 * b + 9 * c - d;
        let predicted = cubic(a, b, c, d);
        assert!(16 * predicted <= sixteenths && sixteenths < 16 * (predicted + 1));
        let halves = b + c;
        let predicted = linear(b, c);
        assert!(2 * predicted <= halves && halves < 2 * (predicted + 1));
        let standing = random.below(1 << 40);
        let carried = carry(Curve::Cubic, standing);
        assert!(4 * carried >= 5 * standing && 4 * carried < 5 * standing + 4);
    }
}

/// Every layer but that of the anchors, by every point of it.
fn check_narrow_layers(shape: Shape) {
    for layer in shape.layers().into_iter().skip(1) {
        let points = shape.points_of(layer).into_iter();
        let mut seen = points.map(|point| neighbours(shape, layer, point));
        let some_has_four = seen.any(|seen| seen.iter().all(Option::is_some));
        assert_eq!(
            is_narrow(shape, layer),
            !some_has_four,
            "{shape:?} {layer:?}"
        );
    }
}

#[test]
fn a_layer_is_narrow_where_no_point_has_four_neighbours() {
    for levels in 1..=6 {
        for rows in 1..=30 {
            for cols in 1..=30 {
                check_narrow_layers(Shape { rows, cols, levels });
            }
        }
        for (rows, cols) in LARGE_SIZES {
            check_narrow_layers(Shape { rows, cols, levels });
        }
    }
    for shape in shapes_at_narrow_edge() {
        check_narrow_layers(shape);
    }
}

/// The prediction of a point from the values as they stand at the end: those it looks at
/// do not change any more once it is reached.
fn prediction(case: &Case, values: &[i64], row: u64, col: u64) -> i64 {
    let layer = layer_of(case.levels, row, col) as u64;
    if layer == 0 {
        return 0;
    }
    let s = 1_i64 << (case.levels - layer.div_ceil(2));
    let across = layer % 2 == 1;
    let (along, length) = if across {
        (col as i64, case.cols as i64)
    } else {
        (row as i64, case.rows as i64)
    };
    let at = |along: i64| {
        let place = if across {
            row as i64 * case.cols as i64 + along
        } else {
            along * case.cols as i64 + col as i64
        };
        values[place as usize]
    };
    let before = at(along - s);
    if along + s >= length {
        before
    } else if case.curve == Curve::Linear || along < 3 * s || along + 3 * s >= length {
        (before + at(along + s)) >> 1
    } else {
        let outer = at(along - 3 * s) + at(along + 3 * s);
        (9 * (before + at(along + s)) - outer) >> 4
    }
}

/// The fewest digits whose reach holds every q, by the ends of that reach.
fn digits_reaching(coefficients: &[i64]) -> u64 {
    let (mut digits, mut least, mut greatest) = (0, 0, 0);
    while coefficients.iter().any(|&q| q < least || q > greatest) {
        let weight = 1 << digits;
        if digits % 2 == 0 {
            greatest += weight;
        } else {
            least -= weight;
        }
        digits += 1;
    }
    digits
}

/// How far the d low digits of q are from their middle. They are the one number that d digits can be and that differs
/// from q by a multiple of 2^d.
fn away(d: u64, q: i64) -> u64 {
    let (least, numbers) = (low(d), 1_i64 << d);
    let digits = least + (q - least).rem_euclid(numbers);
    digits.abs_diff(middle_by_hand(d))
}

/// Every loss of a layer with these coefficients is met by one of them, and none is further off.
fn check_losses(losses: &[u64], of_layer: &[i64]) {
    for (&loss, d) in losses.iter().zip(1..) {
        let met = of_layer.iter().map(|&q| away(d, q)).max();
        assert_eq!(met, Some(loss), "{d} digits");
        assert!(loss <= loss_by_hand(d));
    }
}

fn check_by_the_rules(case: &Case, written: &Written) {
    let e = case.step as i64;
    let w = 2 * e + 1;
    for row in 0..case.rows {
        for col in 0..case.cols {
            let place = (row * case.cols + col) as usize;
            let predicted = prediction(case, &written.values, row, col);
            let q = i64::from(written.coefficients[place]);
            let over = i64::from(case.samples[place]) - predicted + e - q * w;
            assert!((0..w).contains(&over), "q is rounded down");
            assert_eq!(written.values[place], predicted + q * w);
        }
    }

    let opened = open(&written.card).unwrap();
    let layers = layer_places(case.rows, case.cols, case.levels);
    for (layer, places) in layers.iter().enumerate() {
        let of_layer: Vec<i64> = places
            .iter()
            .map(|&place| i64::from(written.coefficients[place]))
            .collect();
        assert_eq!(opened.planes[layer], digits_reaching(&of_layer));
        let losses = &opened.losses.as_ref().expect("a line of losses")[layer];
        assert_eq!(losses.len() as u64, opened.planes[layer]);
        check_losses(losses, &of_layer);
    }

    // The bits on the card add up to the coefficients, and there are no others.
    let mut sums = vec![0_i64; case.count()];
    let mut end_of_last = opened.header_length;
    for (layer, p, start, end) in planes_on_card(&opened) {
        for (i, &place) in layers[layer].iter().enumerate() {
            let bit = written.card[start + i / 8] >> (i % 8) & 1;
            sums[place] += i64::from(bit) * (-2_i64).pow(p as u32);
        }
        for spare in layers[layer].len()..8 * (end - start) {
            assert_eq!(written.card[start + spare / 8] >> (spare % 8) & 1, 0);
        }
        end_of_last = end;
    }
    let expected: Vec<i64> = written.coefficients.iter().map(|&q| i64::from(q)).collect();
    assert_eq!(sums, expected);
    assert_eq!(end_of_last, written.card.len());
}

/// A reading of a card with these settings and coefficients: those left hold plain digits, the missing ones 0, and
/// in the values they count as their middle.
fn check_reading(case: &Case, card: &[u8], whole: &[i32], plan: &Plan) {
    let opened = open(card).unwrap();
    let (mut coefficients, mut values) = (vec![7; whole.len()], vec![7; whole.len()]);
    read(card, plan, &mut coefficients, &mut values).unwrap();
    assert_eq!(coefficients, plain(&opened, plan, whole));
    let w = 2 * case.step as i64 + 1;
    for (place, &q) in coefficients.iter().enumerate() {
        let (row, col) = (place as u64 / case.cols, place as u64 % case.cols);
        let layer = layer_of(case.levels, row, col);
        let counted = i64::from(q) + middle_by_hand(opened.planes[layer] - plan[layer]);
        let predicted = prediction(case, &values, row, col);
        assert_eq!(values[place], predicted + counted * w);
    }
}

#[test]
fn readings_of_written_cards_follow_the_rules() {
    let mut random = Random::new(105);
    for _ in 0..1000 {
        let case = Case::small(&mut random);
        let written = case.write();
        let opened = open(&written.card).unwrap();
        for plan in [plan(&[]), plan_within(&mut random, &opened.planes)] {
            check_reading(&case, &written.card, &written.coefficients, &plan);
        }
    }
    for (rows, cols) in LARGE_SIZES {
        let case = Case::of_size(&mut random, rows, cols);
        let written = case.write();
        let plan = plan_within(&mut random, &open(&written.card).unwrap().planes);
        check_reading(&case, &written.card, &written.coefficients, &plan);
    }
}

/// Coefficients of all 23 digits in all layers that have points, with every number of them missing in each.
#[test]
fn readings_of_made_up_cards_follow_the_rules() {
    let mut random = Random::new(106);
    for (rows, cols) in [(1, 1), (1, 65), (66, 1), (33, 34)] {
        for (curve, name) in CURVES.into_iter().zip(["linear", "cubic"]) {
            let mut case = Case::of_size(&mut random, rows, cols);
            (case.levels, case.curve) = (6, curve);
            let (coefficients, card) = made_up(&mut random, (rows, cols), 6, name, case.step);
            for plan in every_missing(&open(&card).unwrap()) {
                check_reading(&case, &card, &coefficients, &plan);
            }
        }
    }
}

#[test]
fn small_cards_follow_the_rules() {
    let mut random = Random::new(103);
    for _ in 0..1500 {
        let case = Case::small(&mut random);
        check_by_the_rules(&case, &case.write());
    }
}

#[test]
fn large_cards_follow_the_rules() {
    let mut random = Random::new(104);
    for (rows, cols) in LARGE_SIZES {
        for kind in KINDS {
            let case = Case::of_kind(&mut random, kind, rows, cols);
            check_by_the_rules(&case, &case.write());
        }
    }
}

#[test]
fn the_widest_coefficients_need_all_digits() {
    // The ends of the range around a point at the other end: 20/16 of 1,048,575 is
    // 1,310,718.75, which is rounded down below 0 and the sample stands 1,048,575 above.
    let m = 1_048_575;
    let case = Case {
        rows: 1,
        cols: 7,
        levels: 1,
        curve: Curve::Cubic,
        step: 0,
        samples: vec![m, 0, -m, m, -m, 0, m],
    };
    let written = case.write();
    assert_eq!(written.coefficients[3], 1_310_719 + m);
    // The anchors' -1,048,575 is past the -699,050 that 21 digits reach, but not past the
    // -2,796,202 of 22; the coefficient above is past the 1,398,101 of 22.
    let opened = open(&written.card).unwrap();
    assert_eq!(opened.planes, [22, 23, 0]);
    check_by_the_rules(&case, &written);
}
