//! What is asked of writing, reading, refining and planning together (docs/CARD.md, "The three
//! demands"), of the model on random sheets.

mod common;

use common::{
    card_with, cells_by_hand, every_plan, fewer_backwards, figure_by_hand, furthest, plan, refusal,
    sizes_of, whole_in,
};
use trace_card_tests::model::digits::high;
use trace_card_tests::model::write::OUTPUT_BYTES;
use trace_card_tests::model::{
    figure, open, plan_by_limit, read, refine, show, write, Curve, Opened, Plan, Reached, Refusal,
    MAX_LAYERS,
};
use trace_card_tests::random::cases::{shapes_at_narrow_edge, Case, CURVES, LARGE_SIZES};
use trace_card_tests::random::losses;
use trace_card_tests::random::plans::plan_of_most;
use trace_card_tests::random::sheets::{sheet, Kind, KINDS};
use trace_card_tests::random::Random;

/// What a reading leaves and answers.
#[derive(Debug, PartialEq, Eq)]
struct Read {
    coefficients: Vec<i32>,
    values: Vec<i64>,
    reached: Reached,
}

fn left_by(
    case: &Case,
    call: impl FnOnce(&mut [i32], &mut [i64]) -> Result<Reached, Refusal>,
) -> Result<Read, Refusal> {
    let mut coefficients = vec![i32::MIN; case.count()];
    let mut values = vec![i64::MIN; case.count()];
    let reached = call(&mut coefficients, &mut values)?;
    Ok(Read {
        coefficients,
        values,
        reached,
    })
}

fn read_with(case: &Case, card: &[u8], plan: &Plan) -> Result<Read, Refusal> {
    left_by(case, |coefficients, values| {
        read(card, plan, coefficients, values)
    })
}

fn show_all(case: &Case, card: &[u8]) -> Result<Read, Refusal> {
    left_by(case, |coefficients, values| {
        show(card, coefficients, values)
    })
}

/// The line of losses of a card, without its end.
fn line_of(card: &[u8]) -> &[u8] {
    let mut lines = card.split(|&byte| byte == 10);
    lines.nth(6).expect("a line between planes and cells")
}

/// A whole card gives back what the writer left, and its values give back the card.
fn check_whole_card(case: &Case) {
    let written = case.write();
    let card = &written.card;
    let opened = open(card).unwrap();
    assert!(card.len() <= OUTPUT_BYTES && opened.cells <= 1012);
    assert_eq!(
        card.len(),
        opened.header_length + 32 * opened.cells as usize
    );
    assert_eq!(
        (opened.rows, opened.cols, opened.levels),
        (case.rows, case.cols, case.levels)
    );
    assert_eq!((opened.curve, opened.step), (case.curve, case.step));
    assert_eq!(card[..opened.header_length], opened.print());
    let losses: Vec<usize> = opened.losses.iter().flatten().map(Vec::len).collect();
    let planes: Vec<usize> = opened
        .planes
        .iter()
        .map(|&planes| planes as usize)
        .collect();
    assert_eq!(losses, planes);

    let full = read_with(case, card, &plan(&opened.planes)).unwrap();
    assert_eq!(full.coefficients, written.coefficients);
    assert_eq!(full.values, written.values);
    assert_eq!(full.reached.plan, plan(&opened.planes));
    assert_eq!(full.reached.figure, case.step);
    assert!(furthest(&full.values, &case.samples) <= case.step);
    assert_eq!(show_all(case, card).unwrap(), full);
    // What is read of a whole card is the same whatever its line of losses says, or where it has none.
    let old = losses::old(card);
    assert_eq!(open(&old).unwrap().losses, None);
    assert_eq!(old.len() + line_of(card).len() + 1, card.len());
    assert_eq!(show_all(case, &old).unwrap(), full);
    let other = losses::with_losses(card, &losses::most(&opened));
    assert_eq!(show_all(case, &other).unwrap(), full);

    // Written again from its own values the card is the same: what is left over in the
    // first division is then e, which is below w. Values past the range are refused. So a card with another line,
    // or with none, gets the measured one, and keeps all else.
    let range = -1_048_575..=1_048_575;
    match full.values.iter().position(|value| !range.contains(value)) {
        None => {
            let again = Case {
                samples: full.values.iter().map(|&value| value as i32).collect(),
                ..case.clone()
            };
            let again = again.write();
            assert_eq!(&again.card, card);
            assert_eq!(losses::with_line(&old, line_of(&again.card)), again.card);
            assert_eq!(again.values, written.values);
            assert_eq!(again.coefficients, written.coefficients);
        }
        Some(place) => {
            let samples: Vec<i32> = full.values.iter().map(|&value| value as i32).collect();
            let (row, col) = (place as u64 / case.cols, place as u64 % case.cols);
            let refused = write(
                &samples,
                case.rows,
                case.cols,
                case.levels,
                case.curve,
                case.step,
                &mut vec![0; case.count()],
                &mut vec![0; case.count()],
                &mut vec![0; OUTPUT_BYTES],
            );
            assert_eq!(refused, Err(refusal(4, [row, col])));
        }
    }
}

#[test]
fn small_cards_come_back() {
    let mut random = Random::new(201);
    for _ in 0..2000 {
        check_whole_card(&Case::small(&mut random));
    }
}

#[test]
fn large_cards_come_back() {
    let mut random = Random::new(202);
    let mut round = 0;
    for (rows, cols) in LARGE_SIZES {
        for levels in 0..=6 {
            for curve in CURVES {
                let kind = KINDS[round % KINDS.len()];
                let mut case = Case::of_kind(&mut random, kind, rows, cols);
                case.levels = levels;
                case.curve = curve;
                if let Some(&step) = [0, 1, 65_535].get(round % 5) {
                    case.step = step;
                }
                check_whole_card(&case);
                round += 1;
            }
        }
    }
}

#[test]
fn the_fullest_cards_stay_within_their_bounds() {
    // Samples at the ends of the range with the finest step need the most planes.
    let mut random = Random::new(203);
    for (rows, cols) in [(64, 128), (90, 91), (65, 126), (8192, 1), (1, 8192)] {
        for kind in [Kind::Ends, Kind::Board, Kind::Stripes, Kind::Noise] {
            for curve in CURVES {
                let samples = sheet(&mut random, kind, rows, cols);
                check_whole_card(&Case {
                    rows,
                    cols,
                    levels: 6,
                    curve,
                    step: 0,
                    samples,
                });
            }
        }
    }
}

/// A layer to refine: mostly one that can be, sometimes one that cannot.
fn layer_to_try(random: &mut Random, layers: usize) -> u64 {
    match random.below(8) {
        0 => layers as u64 + random.below(3),
        1 => random.pick(&[13, 64, 1 << 32, 1 << 63, u64::MAX]),
        _ => random.below(layers as u64),
    }
}

/// One list of refinements with refused calls among them; after each call the slices,
/// the plan and the figure are those of one fresh reading. Answers the last plan.
fn check_refinements(random: &mut Random, case: &Case, card: &[u8], calls: u64) -> Plan {
    let opened = open(card).unwrap();
    let sizes = sizes_of(&opened);
    let whole = whole_in(&opened, card.len());
    let layers = opened.planes.len();
    let mut reached = plan(&[]);
    for layer in 0..layers {
        reached[layer] = random.below(whole[layer] + 1) / 2;
    }
    let Read {
        mut coefficients,
        mut values,
        ..
    } = read_with(case, card, &reached).unwrap();
    for _ in 0..calls {
        let before = (coefficients.clone(), values.clone());
        if random.once_in(8) {
            // A call with a slice too short, and one with a plan that asks too much.
            let short = coefficients.len() - 1;
            let refused = refine(card, &reached, 0, &mut coefficients[..short], &mut values);
            assert_eq!(refused, Err(refusal(3, [0, 0])));
            let mut too_much = reached;
            let place = random.below(MAX_LAYERS as u64) as usize;
            too_much[place] = whole[place] + 1 + random.below(3);
            let refused = refine(card, &too_much, 0, &mut coefficients, &mut values);
            assert_eq!(refused, Err(refusal(9, [place as u64, 0])));
        }
        let layer = layer_to_try(random, layers);
        let answer = refine(card, &reached, layer, &mut coefficients, &mut values);
        let possible = layer < layers as u64 && reached[layer as usize] < whole[layer as usize];
        if possible {
            reached[layer as usize] += 1;
            let figure = figure_by_hand(&opened, &sizes, &reached);
            assert_eq!(
                answer,
                Ok(Reached {
                    plan: reached,
                    figure
                })
            );
        } else {
            assert_eq!(answer, Err(refusal(9, [layer, 0])));
            assert_eq!((&coefficients, &values), (&before.0, &before.1));
        }
        let fresh = read_with(case, card, &reached).unwrap();
        assert_eq!(fresh.coefficients, coefficients);
        assert_eq!(fresh.values, values);
        assert_eq!(fresh.reached.plan, reached);
        assert_eq!(
            fresh.reached.figure,
            figure_by_hand(&opened, &sizes, &reached)
        );
        assert!(furthest(&values, &case.samples) <= fresh.reached.figure);
    }
    reached
}

#[test]
fn refinements_of_small_cards_agree_with_a_fresh_reading() {
    let mut random = Random::new(204);
    let mut finished = 0;
    for round in 0..250 {
        let case = Case::small(&mut random);
        let mut card = case.write().card;
        if round % 2 == 0 {
            let header = open(&card).unwrap().header_length;
            card.truncate(random.length(header, card.len()));
        }
        let reached = check_refinements(&mut random, &case, &card, 60);
        finished += u64::from(reached == whole_in(&open(&card).unwrap(), card.len()));
    }
    // Some lists must get all the way to the end.
    assert!(finished > 10);
}

#[test]
fn refinements_of_large_cards_agree_with_a_fresh_reading() {
    let mut random = Random::new(205);
    for (rows, cols) in LARGE_SIZES {
        let case = Case::of_size(&mut random, rows, cols);
        let card = case.write().card;
        check_refinements(&mut random, &case, &card, 25);
    }
}

/// Showing the first bytes of a card that hold its header is never refused, uses the
/// planes whole in them, and keeps every value within the figure.
fn check_cut(case: &Case, opened: &Opened, sizes: &[usize], cut: &[u8]) {
    let shown = show_all(case, cut).expect("a cut card is shown");
    let whole = whole_in(opened, cut.len());
    let figure = figure_by_hand(opened, sizes, &whole);
    assert_eq!(
        shown.reached,
        Reached {
            plan: whole,
            figure
        }
    );
    let worst = furthest(&shown.values, &case.samples);
    assert!(worst <= figure, "{worst} past {figure} at {}", cut.len());
}

#[test]
fn every_cut_of_small_cards_is_shown_within_its_figure() {
    let mut random = Random::new(206);
    for round in 0..56 {
        let (rows, cols) = match round % 4 {
            0 => (1, 1 + random.below(30)),
            1 => (1 + random.below(30), 1),
            _ => (1 + random.below(9), 1 + random.below(9)),
        };
        let kind = KINDS[round % KINDS.len()];
        let mut case = Case::of_kind(&mut random, kind, rows, cols);
        case.levels = round as u64 % 7;
        let card = case.write().card;
        let opened = open(&card).unwrap();
        let sizes = sizes_of(&opened);
        for length in 0..opened.header_length {
            assert_eq!(
                show_all(&case, &card[..length]),
                Err(refusal(5, [0, 0])),
                "{length}"
            );
        }
        for length in opened.header_length..=card.len() {
            check_cut(&case, &opened, &sizes, &card[..length]);
        }
    }
}

fn check_random_cuts(random: &mut Random, case: &Case) {
    let card = case.write().card;
    let opened = open(&card).unwrap();
    let sizes = sizes_of(&opened);
    for _ in 0..6 {
        let length = random.length(opened.header_length, card.len());
        check_cut(case, &opened, &sizes, &card[..length]);
    }
}

#[test]
fn random_cuts_of_large_cards_are_shown_within_their_figure() {
    let mut random = Random::new(207);
    for (rows, cols) in LARGE_SIZES {
        for kind in KINDS {
            let case = Case::of_kind(&mut random, kind, rows, cols);
            check_random_cuts(&mut random, &case);
        }
    }
}

#[test]
fn random_cuts_at_the_edge_of_narrow_are_shown_within_their_figure() {
    let mut random = Random::new(211);
    for shape in shapes_at_narrow_edge() {
        for kind in KINDS {
            let mut case = Case::of_shape(&mut random, shape, Curve::Cubic);
            case.samples = sheet(&mut random, kind, case.rows, case.cols);
            check_random_cuts(&mut random, &case);
        }
    }
}

/// One row with one level, cubic, step 0, of which two planes of the anchors are missing: the values, how far
/// off they are, and the figure.
fn without_two_planes(samples: &[i32]) -> (Vec<i64>, u64, u64) {
    let case = Case {
        rows: 1,
        cols: samples.len() as u64,
        levels: 1,
        curve: Curve::Cubic,
        step: 0,
        samples: samples.to_vec(),
    };
    let card = case.write().card;
    // The samples between anchors are as predicted, so all planes are of layer 0: 1 is 1 in digits, -2 is
    // 10 and -3 is 1101.
    assert_eq!(open(&card).unwrap().planes, [4, 0, 0]);
    let shown = show_all(&case, &card[..card.len() - 64]).unwrap();
    let worst = furthest(&shown.values, samples);
    (shown.values, worst, shown.reached.figure)
}

/// Sheets with a value that is just as far off as the figure says, so no smaller one would hold.
#[test]
fn the_figure_is_used_up_by_narrow_sheets_and_others() {
    // loss(2) = 2. The anchors in columns 0, 2, 4 and 6 are -2, -3, 1 and -2. Their two low digits count as
    // -1: they are shown as -1, -5, -1 and -1. In seven columns column 3 has all four neighbours: it is
    // (2 - 27 + 9 + 2) / 16 rounded down, -1, and shown as (1 - 45 - 9 + 1) / 16 rounded down, -4. So 2 is
    // carried to 3.
    let (values, worst, figure) = without_two_planes(&[-2, -3, -3, -1, 1, -1, -2]);
    assert_eq!(values, [-1, -3, -5, -4, -1, -1, -1]);
    assert_eq!((worst, figure), (3, 3));
    // In six it has not: it is (-3 + 1) / 2 and shown as (-5 - 1) / 2, and column 5 is as column 4.
    let (values, worst, figure) = without_two_planes(&[-2, -3, -3, -1, 1, 1]);
    assert_eq!(values, [-1, -3, -5, -3, -1, -1]);
    assert_eq!((worst, figure), (2, 2));
}

/// A linear sheet of the greatest coefficients that so many digits hold, each sample a step above its value.
/// Their low digits are the greatest too, however many are missing. Rows and columns are multiples of 2^L (or
/// there is one row), so the last point is predicted from one point in every layer, and what the layers lose
/// is added up on the way to it.
#[test]
fn the_figure_is_used_up_at_every_cut_of_a_linear_sheet() {
    for ((rows, cols), levels, step, digits) in [
        ((1, 1), 0, 65_535, 3),
        ((1, 8), 3, 0, 15),
        ((4, 6), 1, 1, 13),
        ((8, 4), 2, 40, 9),
        ((64, 64), 6, 7, 11),
        ((1, 512), 6, 1000, 5),
    ] {
        let points = (rows * cols) as usize;
        let coefficients = vec![high(digits) as i32; points];
        let made = card_with((rows, cols), levels, "linear", step, &coefficients);
        let (mut q, mut values) = (vec![0; points], vec![0; points]);
        show(&made, &mut q, &mut values).unwrap();
        let above = values.iter().map(|value| value + step as i64);
        let case = Case {
            rows,
            cols,
            levels,
            curve: Curve::Linear,
            step,
            samples: above.map(|sample| sample as i32).collect(),
        };
        let card = case.write().card;
        assert_eq!(losses::old(&card), made);
        let opened = open(&card).unwrap();
        for length in (opened.header_length..=card.len()).step_by(32) {
            let shown = show_all(&case, &card[..length]).unwrap();
            let worst = furthest(&shown.values, &case.samples);
            assert_eq!(worst, shown.reached.figure, "{rows} by {cols}, {length}");
        }
    }
}

/// Any card shown within its own figure: pulled where its writer's losses are much smaller than the closed ones.
#[test]
fn figures_by_measured_losses_are_smaller_and_hold() {
    let mut random = Random::new(213);
    let (mut smaller, mut alike) = (0, 0);
    for _ in 0..1500 {
        let case = Case::small(&mut random);
        let card = case.write().card;
        let opened = open(&card).unwrap();
        let length = random.length(opened.header_length, card.len());
        let shown = show_all(&case, &card[..length]).unwrap();
        assert!(furthest(&shown.values, &case.samples) <= shown.reached.figure);
        let old = losses::old(&card);
        let cut = &old[..length - line_of(&card).len() - 1];
        let of_old = show_all(&case, cut).unwrap();
        assert_eq!(of_old.reached.plan, shown.reached.plan);
        assert_eq!(of_old.coefficients, shown.coefficients);
        assert_eq!(of_old.values, shown.values);
        assert!(shown.reached.figure <= of_old.reached.figure);
        match shown.reached.figure < of_old.reached.figure {
            true => smaller += 1,
            false => alike += 1,
        }
    }
    assert!(smaller > 300 && alike > 100, "{smaller} {alike}");
}

/// A limit worth asking for: the step, or about the figure of some plan.
fn limit_to_try(random: &mut Random, opened: &Opened, sizes: &[usize]) -> u64 {
    let some = plan_of_most(random, &opened.planes);
    let figure = figure_by_hand(opened, sizes, &some);
    match random.below(5) {
        0 => opened.step,
        1 => opened.step + random.below(10),
        2 => figure,
        3 => figure + 1,
        _ => figure.saturating_sub(1).max(opened.step),
    }
}

/// Planning by limit on a cut or whole card, and reading with that plan.
fn check_plan_by_limit(random: &mut Random, case: &Case, card: &[u8]) {
    let opened = open(card).unwrap();
    let sizes = sizes_of(&opened);
    let limit = limit_to_try(random, &opened, &sizes);
    let planned = plan_by_limit(card, limit).unwrap();
    assert!(planned.figure <= limit);
    assert_eq!(
        planned.figure,
        figure_by_hand(&opened, &sizes, &planned.plan)
    );
    assert_eq!(planned.cells, cells_by_hand(&sizes, &planned.plan));
    assert_eq!(figure(card, &planned.plan), Ok(planned.figure));

    let whole_reading = read_with(case, card, &planned.plan).unwrap();
    assert_eq!(whole_reading.reached.figure, planned.figure);
    assert!(furthest(&whole_reading.values, &case.samples) <= limit);

    // The planner does not look at the planes, so a cut changes nothing but the reading.
    let length = random.length(opened.header_length, card.len());
    let cut = &card[..length];
    assert_eq!(plan_by_limit(cut, limit), Ok(planned));
    let whole = whole_in(&opened, length);
    let missing = (0..MAX_LAYERS).find(|&layer| planned.plan[layer] > whole[layer]);
    match missing {
        None => assert_eq!(read_with(case, cut, &planned.plan), Ok(whole_reading)),
        Some(layer) => assert_eq!(
            read_with(case, cut, &planned.plan),
            Err(refusal(9, [layer as u64, 0]))
        ),
    }
}

#[test]
fn plans_by_limit_keep_small_cards_within_it() {
    let mut random = Random::new(208);
    for _ in 0..400 {
        let case = Case::small(&mut random);
        let card = case.write().card;
        for _ in 0..3 {
            check_plan_by_limit(&mut random, &case, &card);
        }
    }
}

#[test]
fn plans_by_limit_keep_large_cards_within_it() {
    let mut random = Random::new(209);
    for (rows, cols) in LARGE_SIZES {
        for _ in 0..4 {
            let case = Case::of_size(&mut random, rows, cols);
            let card = case.write().card;
            for _ in 0..2 {
                check_plan_by_limit(&mut random, &case, &card);
            }
        }
    }
}

#[test]
fn plans_by_limit_at_the_edge_of_narrow_keep_cards_within_it() {
    let mut random = Random::new(212);
    for shape in shapes_at_narrow_edge() {
        let case = Case::of_shape(&mut random, shape, Curve::Cubic);
        check_plan_by_limit(&mut random, &case, &case.write().card);
    }
}

#[test]
fn plans_by_limit_have_the_fewest_cells() {
    let mut random = Random::new(210);
    let mut searched = 0;
    while searched < 150 {
        let mut case = Case::small(&mut random);
        if random.once_in(2) {
            // Small samples leave few planes, so more layers can be searched.
            case.samples = sheet(&mut random, Kind::Quiet, case.rows, case.cols);
            case.step = random.below(2);
        }
        let card = case.write().card;
        let opened = open(&card).unwrap();
        let plans: u64 = opened.planes.iter().map(|planes| planes + 1).product();
        if plans > 20_000 {
            continue;
        }
        searched += 1;
        let sizes = sizes_of(&opened);
        let limit = limit_to_try(&mut random, &opened, &sizes);
        let planned = plan_by_limit(&card, limit).unwrap();
        for other in every_plan(&opened) {
            let figure = figure_by_hand(&opened, &sizes, &other);
            if figure > limit {
                continue;
            }
            let cells = cells_by_hand(&sizes, &other);
            let not_before = (planned.cells, planned.figure) < (cells, figure)
                || (planned.cells, planned.figure) == (cells, figure)
                    && !fewer_backwards(&other, &planned.plan);
            assert!(not_before, "{other:?} comes before {planned:?}");
        }
    }
}
