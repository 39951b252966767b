//! Previewing: each preview beside the refinement that it looks ahead to, and lists of both.

use super::both::{check, preview, read, refine, written, Slices, A, V};
use super::calls::{Call, Memory, Slice};
use super::common::missing::{any_coefficients, every_missing, made_up};
use super::common::previews::{any_preview, faulty_previews, Preview};
use trace_card_tests::boundary::{ANSWER, PLAN};
use trace_card_tests::model::planes::whole_planes;
use trace_card_tests::model::{open, Plan, Reached, Refusal};
use trace_card_tests::random::cases::{Case, CURVES, LARGE_SIZES};
use trace_card_tests::random::losses::any_kind;
use trace_card_tests::random::plans::plan_about;
use trace_card_tests::random::sheets::Kind;
use trace_card_tests::random::Random;

/// Previews, then refines the same slices. Both answer the same. An accepted preview has shown the values that the
/// refinement leaves, a refused one nothing, and neither has changed what the refinement starts from.
fn preview_and_refine(
    card: &[u8],
    plan: &Plan,
    layer: u64,
    slices: &mut Slices,
) -> Result<Reached, Refusal> {
    let before = slices.clone();
    let previewed = preview(card, plan, layer, slices);
    let next = std::mem::replace(&mut slices.next, before.next.clone());
    assert_eq!(*slices, before);
    let refined = refine(card, plan, layer, slices);
    assert_eq!(previewed, refined);
    let shown = if refined.is_ok() {
        &slices.values
    } else {
        &before.next
    };
    assert_eq!(next, *shown);
    refined
}

/// The same of slices that hold any coefficients.
fn look(card: &[u8], plan: &Plan, layer: u64, coefficients: &[i32]) -> Result<Reached, Refusal> {
    let mut slices = Slices::holding(coefficients).and_next(coefficients.len());
    preview_and_refine(card, plan, layer, &mut slices)
}

#[test]
fn every_cut_of_small_cards() {
    let mut random = Random::new(671);
    let (mut accepted, mut refused) = (0, 0);
    for _ in 0..25 {
        let case = Case::small(&mut random);
        let card = any_kind(&mut random, written(&case));
        for length in 0..=card.len() {
            let cut = &card[..length];
            let whole = open(cut).map_or(vec![], |opened| whole_planes(&opened, cut));
            let plan = plan_about(&mut random, &whole);
            let layer = random.below(whole.len() as u64 + 1);
            let coefficients = any_coefficients(&mut random, case.count());
            match look(cut, &plan, layer, &coefficients) {
                Ok(_) => accepted += 1,
                Err(_) => refused += 1,
            }
        }
    }
    assert!(accepted > 1000 && refused > 1000, "{accepted} {refused}");
}

/// What a list of calls comes to: the last answer, coefficients and values.
type End = (Reached, Vec<i32>, Vec<i64>);

/// Refines these layers in turn from a reading of no planes, each call with what the last accepted one left.
fn refine_in_turn(card: &[u8], points: usize, layers: &[u64]) -> End {
    let mut slices = Slices::new(points);
    let mut reached = read(card, &[0; PLAN], &mut slices).unwrap();
    for &layer in layers {
        reached = refine(card, &reached.plan, layer, &mut slices).unwrap_or(reached);
    }
    (reached, slices.coefficients, slices.values)
}

/// The same with a preview of each, and now and then one of any layer, whatever is refined afterwards. Answers how
/// many refinements were accepted too.
fn preview_in_turn(
    random: &mut Random,
    card: &[u8],
    points: usize,
    layers: &[u64],
) -> (End, usize) {
    let mut slices = Slices::new(points).and_next(points);
    let mut reached = read(card, &[0; PLAN], &mut slices).unwrap();
    let mut accepted = 0;
    for &layer in layers {
        while random.once_in(2) {
            let _ = preview(card, &reached.plan, random.below(14), &mut slices);
        }
        if let Ok(now) = preview_and_refine(card, &reached.plan, layer, &mut slices) {
            reached = now;
            accepted += 1;
        }
    }
    ((reached, slices.coefficients, slices.values), accepted)
}

/// A list of so many calls ends alike with previews and without. Answers how many refinements were accepted.
fn check_list(random: &mut Random, card: &[u8], points: usize, calls: usize) -> usize {
    let any_layer = |_| match random.below(20) {
        0 => random.draw(),
        _ => random.below(14),
    };
    let layers: Vec<u64> = (0..calls).map(any_layer).collect();
    let (end, accepted) = preview_in_turn(random, card, points, &layers);
    assert_eq!(end, refine_in_turn(card, points, &layers));
    accepted
}

/// Whole, cut, or with a damaged plane, which is refused each time it is asked for.
#[test]
fn lists_on_small_cards() {
    let mut random = Random::new(672);
    let mut accepted = 0;
    for _ in 0..300 {
        let case = Case::small(&mut random);
        let mut card = any_kind(&mut random, written(&case));
        let header = open(&card).unwrap().header_length;
        match random.below(3) {
            0 => card.truncate(random.length(header, card.len())),
            1 if card.len() > header => {
                let at = random.length(header, card.len() - 1);
                card[at] ^= 1 << random.below(8);
            }
            _ => {}
        }
        accepted += check_list(&mut random, &card, case.count(), 30);
    }
    assert!(accepted > 1000, "{accepted}");
}

#[test]
fn the_largest_cards() {
    let mut random = Random::new(673);
    let mut accepted = 0;
    for (rows, cols) in LARGE_SIZES {
        for curve in CURVES {
            let mut case = Case::of_kind(&mut random, Kind::Noise, rows, cols);
            (case.curve, case.levels) = (curve, 6);
            let card = any_kind(&mut random, written(&case));
            accepted += check_list(&mut random, &card, case.count(), 12);
        }
    }
    assert!(accepted > 100, "{accepted}");
}

/// Every number of digits missing in every layer, and coefficients that no reading leaves.
#[test]
fn every_number_of_missing_digits() {
    let mut random = Random::new(674);
    for size in [(1, 1), (1, 65), (66, 1), (33, 34)] {
        for (curve, step) in [("linear", 0), ("cubic", 1), ("cubic", 65_535)] {
            let (coefficients, card) = made_up(&mut random, size, 6, curve, step);
            let opened = open(&card).unwrap();
            for plan in every_missing(&opened) {
                let any = any_coefficients(&mut random, coefficients.len());
                let layer = random.below(13);
                let further = opened.planes[layer as usize] > plan[layer as usize];
                assert_eq!(look(&card, &plan, layer, &any).is_ok(), further);
            }
        }
    }
}

/// One coefficient at an end of 23 digits or past it, at every place of a sheet: at the point of any layer.
#[test]
fn ends_of_23_digits_at_every_place() {
    let mut random = Random::new(675);
    for (curve, size) in [("linear", (1, 40)), ("cubic", (9, 7))] {
        let (coefficients, card) = made_up(&mut random, size, 2, curve, 3);
        let opened = open(&card).unwrap();
        let layers: Vec<u64> = (0..5).filter(|&k| opened.planes[k as usize] > 0).collect();
        for place in 0..coefficients.len() {
            for (end, past) in [
                (5_592_405, false),
                (5_592_406, true),
                (i32::MAX, true),
                (-2_796_202, false),
                (-2_796_203, true),
                (i32::MIN, true),
            ] {
                let mut any = any_coefficients(&mut random, coefficients.len());
                any[place] = end;
                let answer = look(&card, &[0; PLAN], random.pick(&layers), &any);
                let refused = past.then_some(Refusal::plain(11));
                assert_eq!(answer.err(), refused);
            }
        }
    }
}

/// What a preview is given, in memory.
fn memory_of(given: Preview) -> Memory {
    let [values, next] = given.lengths.map(|length| vec![V; length]);
    Memory {
        card: given.card,
        plan: given.plan.to_vec(),
        coefficients: given.coefficients,
        values,
        next,
        answer: vec![A; ANSWER],
        ..Memory::default()
    }
}

/// Cards whole, cut and damaged, with any plan, layer and coefficients, and slices of other lengths: every refusal
/// that there is, and that of refining unless it is the third slice's.
#[test]
fn any_previews() {
    let mut random = Random::new(676);
    let mut cases: Vec<Case> = (0..4000).map(|_| Case::small(&mut random)).collect();
    cases.extend(LARGE_SIZES.map(|(rows, cols)| Case::of_size(&mut random, rows, cols)));
    let mut met = [0; 12];
    for case in cases {
        let card = any_kind(&mut random, written(&case));
        let given = any_preview(&mut random, card, case.count());
        let (layer, [values, next]) = (given.layer, given.lengths);
        let mut memory = memory_of(given);
        let mut copy = memory.clone();
        let number = check(Call::Preview { layer }, &mut memory);
        met[number as usize] += 1;
        if values == next {
            assert_eq!(check(Call::Refine { layer }, &mut copy), number);
            assert_eq!(memory.answer, copy.answer);
        }
    }
    for number in [0, 3, 5, 6, 7, 8, 9, 11] {
        assert!(met[number] > 50, "{met:?}");
    }
}

#[test]
fn refused_in_turn() {
    let mut met = [0; 12];
    for (given, refused) in faulty_previews() {
        let layer = given.layer;
        let mut memory = memory_of(given);
        let before = memory.clone();
        let number = check(Call::Preview { layer }, &mut memory);
        let [first, second] = refused.details;
        assert_eq!(number, refused.number);
        assert_eq!(memory.answer[..3], [number, first, second]);
        assert!(memory.answer[3..].iter().all(|&rest| rest == 0));
        memory.answer.clone_from(&before.answer);
        assert!(memory == before);
        met[number as usize] += 1;
    }
    for number in [3, 5, 6, 7, 8, 9, 11] {
        assert!(met[number] > 0, "{met:?}");
    }
}

/// Each slice one too short, one too long, empty or twice as long: 3, whatever is wrong with plan, layer, coefficients
/// and plane. An answer or a plan of another length comes before everything, and nothing is written.
#[test]
fn other_lengths() {
    let mut random = Random::new(677);
    let mut cases: Vec<Case> = (0..100).map(|_| Case::small(&mut random)).collect();
    cases.extend([(64, 128), (1, 8192), (8192, 1)].map(|(r, c)| Case::of_size(&mut random, r, c)));
    for case in cases {
        let (mut card, n) = (written(&case), case.count());
        let header = open(&card).unwrap().header_length;
        let mut plan: Plan = [0; PLAN];
        let mut coefficients = vec![1; n];
        let faulty = random.once_in(2);
        if faulty {
            card[header..].fill(0xFF);
            plan[random.below(13) as usize] = u64::MAX;
            coefficients[n - 1] = i32::MIN;
        }
        let memory = memory_of(Preview {
            card,
            plan,
            layer: 0,
            coefficients,
            lengths: [n; 2],
        });
        let call = Call::Preview {
            layer: if faulty { 13 } else { 0 },
        };
        let with = |slice, length| {
            let mut memory = memory.clone();
            memory.resize(slice, length);
            memory
        };
        for slice in [Slice::Coefficients, Slice::Values, Slice::Next] {
            for length in [n - 1, n + 1, 0, 2 * n] {
                assert_eq!(check(call, &mut with(slice, length)), 3);
            }
        }
        for (slice, right) in [(Slice::Answer, ANSWER), (Slice::Plan, PLAN)] {
            for length in [0, 1, right - 1, right + 1, 2 * right] {
                let mut other = with(slice, length);
                let before = other.clone();
                assert_eq!(check(call, &mut other), 3);
                assert!(other == before);
            }
        }
    }
}
