//! The calls written for speed give what the model gives, so that the benchmark compares like with like.

mod common;

use common::card_with;
use common::extremes::Sheet;
use common::missing::{any_coefficients, every_missing, made_up};
use common::previews::{any_preview, faulty_previews, Preview};
use trace_card_tests::fast;
use trace_card_tests::model::roll::page_bytes;
use trace_card_tests::model::write::OUTPUT_BYTES;
use trace_card_tests::model::{self, open, Compared, Plan, Reached, Refusal};
use trace_card_tests::random::cases::{shapes_at_narrow_edge, Case, CURVES, LARGE_SIZES};
use trace_card_tests::random::damage::{damage_header, damaged_at};
use trace_card_tests::random::losses::any_kind;
use trace_card_tests::random::sheets::Kind;
use trace_card_tests::random::Random;

type Show = fn(&[u8], &mut [i32], &mut [i64]) -> Result<Reached, Refusal>;
type Refine = fn(&[u8], &Plan, u64, &mut [i32], &mut [i64]) -> Result<Reached, Refusal>;
type Look = fn(&[u8], &Plan, u64, &[i32], &[i64], &mut [i64]) -> Result<Reached, Refusal>;
type Roll = fn(&[u8], &mut [i32], &mut [i64], &mut [u8]) -> Result<Reached, Refusal>;

/// The roll of a card, on a page that is long enough or about as long; sometimes with something else
/// that it is refused for.
fn check_roll(random: &mut Random, card: &[u8], points: usize) {
    let needed = page_bytes(points) as i64;
    let page = match random.below(4) {
        0 => needed + random.between(-60, 60),
        1 => needed + random.between(-1, 1),
        _ => needed,
    };
    let mut card = card.to_vec();
    if random.once_in(6) {
        let at = random.below(card.len() as u64) as usize;
        card[at] ^= 1 << random.below(8);
    }
    let points = points + usize::from(random.once_in(20));
    let left = |roll: Roll| {
        let (mut coefficients, mut values) = (vec![5; points], vec![5; points]);
        let mut page = vec![0xA7; page.max(0) as usize];
        let reached = roll(&card, &mut coefficients, &mut values, &mut page);
        (reached, coefficients, values, page)
    };
    assert_eq!(left(fast::roll), left(model::roll));
}

/// A preview as the model makes it. Answers what it came to.
fn check_preview(given: &Preview) -> Result<Reached, Refusal> {
    let left = |preview: Look| {
        let [values, mut next] = given.lengths.map(|length| vec![5; length]);
        let (card, plan, coefficients) = (&given.card, &given.plan, &given.coefficients);
        let reached = preview(card, plan, given.layer, coefficients, &values, &mut next);
        (reached, next)
    };
    let found = left(fast::preview);
    assert_eq!(found, left(model::preview));
    found.0
}

fn check(random: &mut Random, case: &Case) {
    let n = case.count();
    let (mut coefficients, mut values) = (vec![7; n], vec![7; n]);
    let mut output = vec![0xA7; OUTPUT_BYTES];
    let length = fast::write(
        &case.samples,
        case.rows,
        case.cols,
        case.levels,
        case.curve,
        case.step,
        &mut coefficients,
        &mut values,
        &mut output,
    );
    let written = case.write();
    assert_eq!(length, Ok(written.card.len() as u64));
    assert_eq!(output[..written.card.len()], written.card);
    assert_eq!(coefficients, written.coefficients);
    assert_eq!(values, written.values);

    let card = &any_kind(random, written.card);
    let opened = open(card).unwrap();
    let cut = &card[..random.length(opened.header_length, card.len())];
    let (mut theirs_q, mut theirs_v) = (vec![9; n], vec![9; n]);
    let shown = fast::show(cut, &mut coefficients, &mut values);
    assert_eq!(shown, model::show(cut, &mut theirs_q, &mut theirs_v));
    assert_eq!((&coefficients, &values), (&theirs_q, &theirs_v));

    check_roll(random, cut, n);

    let plan = shown.unwrap().plan;
    for layer in 0..=opened.planes.len() as u64 {
        let (mut q, mut v) = (coefficients.clone(), values.clone());
        let (mut theirs_q, mut theirs_v) = (coefficients.clone(), values.clone());
        let refined = fast::refine(card, &plan, layer, &mut q, &mut v);
        assert_eq!(
            refined,
            model::refine(card, &plan, layer, &mut theirs_q, &mut theirs_v)
        );
        assert_eq!((q, v), (theirs_q, theirs_v));
        let previewed = check_preview(&Preview {
            card: card.clone(),
            plan,
            layer,
            coefficients: coefficients.clone(),
            lengths: [n; 2],
        });
        assert_eq!(previewed, refined);
    }

    let digits = random.below(40);
    let limit = opened.step + random.below(1 << digits);
    assert_eq!(
        fast::plan_by_limit(cut, limit),
        model::plan_by_limit(cut, limit)
    );
    let cells = random.below(opened.cells + 2);
    assert_eq!(
        fast::plan_by_cells(cut, cells),
        model::plan_by_cells(cut, cells)
    );
}

/// Cards of 23 digits in every layer that has points, shown at any cut, and refined and previewed from any
/// coefficients with every number of digits missing.
#[test]
fn missing_digits_of_made_up_cards() {
    let mut random = Random::new(565);
    for size in [(1, 65), (66, 1), (33, 34)] {
        for (curve, step) in [("linear", 0), ("cubic", 1), ("cubic", 65_535)] {
            let (coefficients, card) = made_up(&mut random, size, 6, curve, step);
            let card = any_kind(&mut random, card);
            let opened = open(&card).unwrap();
            let points = coefficients.len();
            for plan in every_missing(&opened) {
                let cut = &card[..random.length(opened.header_length, card.len())];
                let left = |show: Show| {
                    let (mut q, mut v) = (vec![5; points], vec![5; points]);
                    (show(cut, &mut q, &mut v), q, v)
                };
                assert_eq!(left(fast::show), left(model::show));
                let layer = random.below(13);
                let any = any_coefficients(&mut random, points);
                let left = |refine: Refine| {
                    let (mut q, mut v) = (any.clone(), vec![5; points]);
                    (refine(&card, &plan, layer, &mut q, &mut v), q, v)
                };
                assert_eq!(left(fast::refine), left(model::refine));
                let previewed = check_preview(&Preview {
                    card: card.clone(),
                    plan,
                    layer,
                    coefficients: any,
                    lengths: [points; 2],
                });
                let further = opened.planes[layer as usize] > plan[layer as usize];
                assert_eq!(previewed.is_ok(), further);
            }
        }
    }
}

/// Right ones, those of damaged cards, with slices of other lengths, and every group of faults.
#[test]
fn previews_taken_and_refused() {
    let mut random = Random::new(566);
    let mut met = [0; 12];
    for _ in 0..3000 {
        let case = Case::small(&mut random);
        let card = any_kind(&mut random, case.write().card);
        let given = any_preview(&mut random, card, case.count());
        let refused = check_preview(&given).err();
        met[refused.map_or(0, |refused| refused.number) as usize] += 1;
    }
    for number in [0, 3, 5, 6, 7, 8, 9, 11] {
        assert!(met[number] > 30, "{met:?}");
    }
    for (given, refused) in faulty_previews() {
        assert_eq!(check_preview(&given), Err(refused));
    }
}

/// Values of every length, with both signs, up to the longest there are.
#[test]
fn rolls_of_made_up_cards() {
    let mut random = Random::new(562);
    for digits in 0..=22 {
        for step in [0, 1, 4, 49, 65_535] {
            for levels in [0, 3, 6] {
                let coefficient = |_| random.between(-(1 << digits), 1 << digits);
                let coefficients: Vec<i32> = (0..20 * 37)
                    .map(coefficient)
                    .map(|q| q.max(-2_796_202) as i32)
                    .collect();
                let card = card_with((20, 37), levels, "cubic", step, &coefficients);
                check_roll(&mut random, &card, 20 * 37);
            }
        }
    }
    let sheet = Sheet::new((64, 128), 6);
    for largest in [true, false] {
        check_roll(&mut random, &sheet.extreme(largest).card, 64 * 128);
    }
}

#[test]
fn as_the_model() {
    let mut random = Random::new(561);
    for _ in 0..1500 {
        let case = Case::small(&mut random);
        check(&mut random, &case);
    }
    for (rows, cols) in LARGE_SIZES {
        let case = Case::of_size(&mut random, rows, cols);
        check(&mut random, &case);
    }
    for shape in shapes_at_narrow_edge() {
        for curve in CURVES {
            let case = Case::of_shape(&mut random, shape, curve);
            check(&mut random, &case);
        }
    }
}

/// Coefficients near each other and far from it, many and few: whatever the digits, the losses are as measured by the
/// model, since the cards are alike.
#[test]
fn losses_of_every_number_of_digits() {
    let mut random = Random::new(567);
    for bits in 0..=21 {
        for (rows, cols) in [(1, 1), (1, 15), (3, 87), (17, 31), (64, 128)] {
            let (noise, rough) = (random.below(1 << bits) as i64, 1 << bits);
            let base = random.between(-500_000, 500_000);
            for most in [0, noise, rough] {
                let mut case = Case::of_size(&mut random, rows, cols);
                case.step = random.pick(&[0, 0, 1, 30]);
                for sample in &mut case.samples {
                    let near = base + random.between(-most, most);
                    *sample = near.clamp(-1_048_575, 1_048_575) as i32;
                }
                check(&mut random, &case);
            }
        }
    }
    for kind in [Kind::Ends, Kind::Board, Kind::Stripes] {
        for levels in 0..=6 {
            let mut case = Case::of_kind(&mut random, kind, 64, 128);
            (case.levels, case.step) = (levels, 0);
            check(&mut random, &case);
        }
    }
}

/// Headers of both kinds damaged at every byte and at some; whatever opens is planned alike.
#[test]
fn damaged_headers() {
    let mut random = Random::new(568);
    let plan = |card: &[u8]| {
        assert_eq!(fast::plan_by_cells(card, 3), model::plan_by_cells(card, 3));
    };
    for round in 0..400 {
        let card = Case::small(&mut random).write().card;
        let card = any_kind(&mut random, card);
        let header = open(&card).unwrap().header_length;
        for _ in 0..20 {
            let mut damaged = card.clone();
            damage_header(&mut random, &mut damaged, header);
            plan(&damaged);
            plan(&damaged[..random.length(0, header)]);
        }
        if round < 10 {
            for position in 0..header {
                for damaged in damaged_at(&card, position, b"0123456789,=\n-+ los") {
                    plan(&damaged);
                }
            }
        }
    }
}

type Compare = fn(
    &[u8],
    &[u8],
    &mut [i32],
    &mut [i64],
    &mut [i32],
    &mut [i64],
    &mut [u8],
) -> Result<Compared, Refusal>;

/// Compares in slices of these lengths, two for each card and one for the marks, as the model does. Answers
/// what it came to.
fn check_compare(
    [first, second]: [&[u8]; 2],
    lengths: [(usize, usize); 2],
    marks: usize,
) -> Result<Compared, Refusal> {
    let left = |compare: Compare| {
        let mut coefficients = lengths.map(|(length, _)| vec![5; length]);
        let mut values = lengths.map(|(_, length)| vec![5; length]);
        let mut marks = vec![0xA7; marks];
        let ([one_q, other_q], [one_v, other_v]) = (&mut coefficients, &mut values);
        let compared = compare(first, second, one_q, one_v, other_q, other_v, &mut marks);
        (compared, coefficients, values, marks)
    };
    let found = left(fast::compare);
    assert_eq!(found, left(model::compare));
    found.0
}

/// The same of two cards of so many points, sometimes with something that comparing them is refused for.
fn check_faulty(
    random: &mut Random,
    mut cards: [Vec<u8>; 2],
    points: [usize; 2],
) -> Result<Compared, Refusal> {
    for card in &mut cards {
        if random.once_in(8) {
            let at = random.below(card.len() as u64) as usize;
            match random.below(4) {
                0 => card.truncate(at),
                _ => card[at] ^= 1 << random.below(8),
            }
        }
    }
    let mut one_more = |points| points + usize::from(random.once_in(20));
    let lengths = points.map(|points| (one_more(points), one_more(points)));
    let marks = one_more(points[0]);
    check_compare(cards.each_ref().map(Vec::as_slice), lengths, marks)
}

/// How often comparisons gave no point apart, some, all of them, and each refusal.
#[derive(Debug, Default)]
struct Met {
    none: usize,
    some: usize,
    all: usize,
    refused: [usize; 14],
}

impl Met {
    fn count(&mut self, compared: Result<Compared, Refusal>, points: usize) {
        match compared {
            Ok(Compared { apart: 0, .. }) => self.none += 1,
            Ok(Compared { apart, .. }) if apart == points as u64 => self.all += 1,
            Ok(_) => self.some += 1,
            Err(refusal) => self.refused[refusal.number as usize] += 1,
        }
    }
}

/// Written cards whole and cut beside others, mostly of one size and often of sheets that are alike.
#[test]
fn comparisons_of_written_cards() {
    let mut random = Random::new(563);
    let mut cases: Vec<Case> = (0..3000).map(|_| Case::small(&mut random)).collect();
    cases.extend(LARGE_SIZES.map(|(rows, cols)| Case::of_size(&mut random, rows, cols)));
    let mut met = Met::default();
    for case in cases {
        let mut other = Case::of_size(&mut random, case.rows, case.cols);
        match random.below(8) {
            0 => other = Case::small(&mut random),
            1..=5 => {
                other.samples.clone_from(&case.samples);
                let place = random.below(other.count() as u64) as usize;
                other.samples[place] = random.between(-1_048_575, 1_048_575) as i32;
            }
            _ => {}
        }
        let points = [case.count(), other.count()];
        let cards = [case, other].map(|case| {
            let mut card = any_kind(&mut random, case.write().card);
            let header = open(&card).unwrap().header_length;
            if random.once_in(3) {
                card.truncate(random.length(header, card.len()));
            }
            card
        });
        met.count(check_faulty(&mut random, cards, points), points[0]);
    }
    let Met {
        none, some, all, ..
    } = met;
    assert!(none > 100 && some > 100 && all > 10, "{met:?}");
    for number in [3, 5, 6, 8, 13] {
        assert!(met.refused[number] > 10, "{met:?}");
    }
}

/// Any values, those at the ends of what a card can show among them, and points apart that begin and end
/// anywhere.
#[test]
fn comparisons_of_made_up_cards() {
    let mut random = Random::new(564);
    let mut met = Met::default();
    for _ in 0..600 {
        let (rows, cols) = random.pick(&[(1, 127), (128, 1), (1, 129), (20, 37), (16, 16), (1, 1)]);
        let points = (rows * cols) as usize;
        let one_in = random.pick(&[1, 2, 100, 1000, u64::MAX]);
        let cards = [(); 2].map(|()| {
            let coefficient = |_| match random.once_in(one_in) {
                true => random.between(-2_796_202, 5_592_405) as i32,
                false => 0,
            };
            let coefficients: Vec<i32> = (0..points).map(coefficient).collect();
            let (levels, step) = (random.pick(&[0, 0, 3, 6]), random.pick(&[0, 1, 65_535]));
            card_with((rows, cols), levels, "cubic", step, &coefficients)
        });
        met.count(check_faulty(&mut random, cards, [points; 2]), points);
    }
    let Met {
        none, some, all, ..
    } = met;
    assert!(none > 50 && some > 100 && all > 10, "{met:?}");
    let sheet = Sheet::new((64, 128), 6);
    let ends = [true, false].map(|largest| sheet.extreme(largest).card);
    for (one, other) in [(0, 0), (0, 1), (1, 0), (1, 1)] {
        let cards = [&ends[one][..], &ends[other]];
        let points = 64 * 128;
        check_compare(cards, [(points, points); 2], points).unwrap();
    }
}
