//! The model's planner: its two methods against each other, and both against the definition.

mod common;

use common::{
    card_of, cells_by_hand, every_plan, fewer_backwards, figure_by_hand, header_lines,
    layer_places, plan, refusal, sizes_of,
};
use trace_card_tests::model::planner::{exhaustive, front, plans_of, Goal, MOST_PLANS_TRIED};
use trace_card_tests::model::{figure, open, plan_by_cells, plan_by_limit, Curve, Opened, Planned};
use trace_card_tests::random::cases::{small_size, step, Case, CURVES, LARGE_SIZES};
use trace_card_tests::random::losses::{any_losses, most, old, with_losses};
use trace_card_tests::random::plans::plan_within;
use trace_card_tests::random::Random;

/// An old card's header as text. The planner goes by it as if every plane were there, so none is.
fn header(
    (rows, cols): (u64, u64),
    levels: u64,
    curve: Curve,
    step: u64,
    planes: &[u64],
) -> Vec<u8> {
    let sizes: Vec<usize> = layer_places(rows, cols, levels)
        .iter()
        .map(Vec::len)
        .collect();
    let cells = cells_by_hand(&sizes, &plan(planes));
    let curve = match curve {
        Curve::Linear => "linear",
        Curve::Cubic => "cubic",
    };
    card_of(
        &header_lines((rows, cols), levels, curve, step, planes, cells),
        &[],
    )
}

/// A size with layers of several cells, or a small one, whose planes are one cell each.
fn size_to_try(random: &mut Random) -> (u64, u64) {
    match random.below(8) {
        0 => random.pick(&LARGE_SIZES),
        1..=3 => (1 + random.below(60), 1 + random.below(60)),
        _ => small_size(random),
    }
}

/// A header of at most so many plans: random counts for layers that are not empty. It may be an old one, or have any
/// line of losses.
fn header_of_few_plans(random: &mut Random, most: u64) -> Vec<u8> {
    let (rows, cols) = size_to_try(random);
    let levels = random.below(7);
    let mut planes = vec![0; 1 + 2 * levels as usize];
    let mut plans = 1;
    let places = layer_places(rows, cols, levels);
    for _ in 0..2 * planes.len() {
        let layer = random.below(planes.len() as u64) as usize;
        let count = match random.below(3) {
            0 => random.below(24),
            _ => 1 + random.below(4),
        };
        let grown = plans / (planes[layer] + 1) * (count + 1);
        if !places[layer].is_empty() && grown <= most {
            planes[layer] = count;
            plans = grown;
        }
    }
    let curve = random.pick(&CURVES);
    let old = header((rows, cols), levels, curve, step(random), &planes);
    match random.below(3) {
        0 => old,
        _ => with_any_losses(random, &old),
    }
}

fn with_any_losses(random: &mut Random, card: &[u8]) -> Vec<u8> {
    let losses = any_losses(random, &open(card).unwrap());
    with_losses(card, &losses)
}

/// Limits and numbers of cells around those of plans, and the ends of what can be asked.
fn goals_to_try(random: &mut Random, opened: &Opened) -> Vec<Goal> {
    let e = opened.step;
    let mut limits = vec![0, e.saturating_sub(1), e, e + 1, e + 2, u64::MAX];
    let mut cells = vec![0, 1, opened.cells, opened.cells + 1, u64::MAX];
    let sizes = sizes_of(opened);
    for _ in 0..4 {
        let some = plan_within(random, &opened.planes);
        let figure = figure_by_hand(opened, &sizes, &some);
        limits.extend([figure.saturating_sub(1), figure, figure + 1]);
        limits.push(e + random.below(figure - e + 1));
        let own = cells_by_hand(&sizes, &some);
        cells.extend([own.saturating_sub(1), own, own + 1]);
    }
    let limits = limits.into_iter().map(Goal::Limit);
    limits.chain(cells.into_iter().map(Goal::Cells)).collect()
}

/// What the public calls answer for a goal.
fn answer(card: &[u8], goal: Goal) -> Option<Planned> {
    match goal {
        Goal::Limit(limit) => match plan_by_limit(card, limit) {
            Ok(planned) => Some(planned),
            Err(refused) => {
                assert_eq!(refused, refusal(10, [0, 0]));
                None
            }
        },
        Goal::Cells(cells) => Some(plan_by_cells(card, cells).unwrap()),
    }
}

/// Does the first answer come before the second (docs/CARD.md, "The planner")?
fn before(goal: Goal, first: &Planned, second: &Planned) -> bool {
    let by_cells = first.cells.cmp(&second.cells);
    let by_figure = first.figure.cmp(&second.figure);
    let order = match goal {
        Goal::Limit(_) => by_cells.then(by_figure),
        Goal::Cells(_) => by_figure.then(by_cells),
    };
    order.is_lt() || order.is_eq() && fewer_backwards(&first.plan, &second.plan)
}

/// The best of all plans, found one by one without the model.
fn by_definition(opened: &Opened, goal: Goal) -> Option<Planned> {
    let sizes = sizes_of(opened);
    let mut best: Option<Planned> = None;
    for plan in every_plan(opened) {
        let planned = Planned {
            plan,
            cells: cells_by_hand(&sizes, &plan),
            figure: figure_by_hand(opened, &sizes, &plan),
        };
        let meets = match goal {
            Goal::Limit(limit) => planned.figure <= limit,
            Goal::Cells(cells) => planned.cells <= cells,
        };
        if meets && best.is_none_or(|best| before(goal, &planned, &best)) {
            best = Some(planned);
        }
    }
    best
}

/// What is reported is the plan's own.
fn check_own(card: &[u8], opened: &Opened, sizes: &[usize], planned: &Planned) {
    assert_eq!(planned.cells, cells_by_hand(sizes, &planned.plan));
    assert_eq!(planned.figure, figure_by_hand(opened, sizes, &planned.plan));
    assert_eq!(figure(card, &planned.plan), Ok(planned.figure));
}

fn check_methods(card: &[u8], opened: &Opened, sizes: &[usize], goal: Goal) {
    let every = exhaustive(opened, goal);
    assert_eq!(front(opened, goal), every, "{goal:?}");
    assert_eq!(answer(card, goal), every, "{goal:?}");
    match every {
        Some(planned) => check_own(card, opened, sizes, &planned),
        None => assert!(matches!(goal, Goal::Limit(limit) if limit < opened.step)),
    }
}

#[test]
fn both_methods_agree() {
    let mut random = Random::new(401);
    for _ in 0..300 {
        let card = header_of_few_plans(&mut random, 1000);
        let opened = open(&card).unwrap();
        let sizes = sizes_of(&opened);
        for goal in goals_to_try(&mut random, &opened) {
            check_methods(&card, &opened, &sizes, goal);
        }
    }
}

#[test]
fn both_methods_agree_on_more_plans() {
    let mut random = Random::new(402);
    // So many that the public calls use the front.
    let mut cards = 0;
    while cards < 30 {
        let card = header_of_few_plans(&mut random, 100_000);
        let opened = open(&card).unwrap();
        if plans_of(&opened) <= MOST_PLANS_TRIED {
            continue;
        }
        cards += 1;
        let sizes = sizes_of(&opened);
        let goals = goals_to_try(&mut random, &opened);
        for _ in 0..8 {
            check_methods(&card, &opened, &sizes, random.pick(&goals));
        }
    }
}

#[test]
fn both_methods_are_the_definition() {
    let mut random = Random::new(403);
    for _ in 0..400 {
        let card = header_of_few_plans(&mut random, 400);
        let opened = open(&card).unwrap();
        for goal in goals_to_try(&mut random, &opened) {
            let best = by_definition(&opened, goal);
            assert_eq!(exhaustive(&opened, goal), best, "{goal:?}");
            assert_eq!(front(&opened, goal), best, "{goal:?}");
        }
    }
}

#[test]
fn every_number_of_cells_on_small_cards() {
    let mut random = Random::new(404);
    for _ in 0..40 {
        let card = header_of_few_plans(&mut random, 300);
        let opened = open(&card).unwrap();
        let sizes = sizes_of(&opened);
        let mut last = u64::MAX;
        for cells in 0..=opened.cells + 1 {
            check_methods(&card, &opened, &sizes, Goal::Cells(cells));
            let planned = plan_by_cells(&card, cells).unwrap();
            assert!(planned.cells <= cells && planned.figure <= last);
            last = planned.figure;
        }
        assert_eq!(last, opened.step);
    }
}

#[test]
fn ties_go_to_fewer_planes_from_the_last_layer_backwards() {
    // One row of five, linear, width 1: a plane of either layer is one cell, and losses
    // are 0 1 2 4. With 2,2 planes and 3 loaded, 2,1 and 1,2 both have figure 1.
    let card = header((1, 5), 1, Curve::Linear, 0, &[2, 2, 0]);
    let expected = Planned {
        plan: plan(&[2, 1]),
        cells: 3,
        figure: 1,
    };
    assert_eq!(plan_by_limit(&card, 1), Ok(expected));
    assert_eq!(plan_by_cells(&card, 3), Ok(expected));
    // Three by three: layer 0 has 4 points, layer 1 two, layer 2 three, one cell each. Of
    // the plans of one cell all have figure 2; the first in order loads layer 0.
    let card = header((3, 3), 1, Curve::Linear, 0, &[1, 1, 1]);
    let expected = Planned {
        plan: plan(&[1, 0, 0]),
        cells: 1,
        figure: 2,
    };
    assert_eq!(plan_by_limit(&card, 2), Ok(expected));
    assert_eq!(plan_by_cells(&card, 1), Ok(expected));
    // And of those of two cells the one without layer 2.
    let expected = Planned {
        plan: plan(&[1, 1, 0]),
        cells: 2,
        figure: 1,
    };
    assert_eq!(plan_by_limit(&card, 1), Ok(expected));
    assert_eq!(plan_by_cells(&card, 2), Ok(expected));
}

#[test]
fn the_smaller_figure_comes_before_the_order_of_layers() {
    // Losses are 0 1 2 4 8 16. With 2,5 planes no plane leaves 2 + 16; one cell leaves
    // 1 + 16 or 2 + 8. Both are within 17, and the smaller is in the later layer.
    let card = header((1, 5), 1, Curve::Linear, 0, &[2, 5, 0]);
    for (first, own) in [([0, 0], 18), ([1, 0], 17), ([0, 1], 10)] {
        assert_eq!(figure(&card, &plan(&first)), Ok(own));
    }
    let expected = Planned {
        plan: plan(&[0, 1]),
        cells: 1,
        figure: 10,
    };
    assert_eq!(plan_by_limit(&card, 17), Ok(expected));
    assert_eq!(plan_by_cells(&card, 1), Ok(expected));
}

/// A card with a line of losses goes by it, and by nothing else: where no number is above 0, nothing need be loaded, and
/// where each is as large as it may be, all is as on an old card.
#[test]
fn cards_go_by_their_own_losses() {
    let mut random = Random::new(407);
    for _ in 0..300 {
        let card = header_of_few_plans(&mut random, 1000);
        let opened = open(&card).unwrap();
        let (old, most) = (old(&card), most(&opened));
        let none = with_losses(&card, &vec![0; most.len()]);
        let closed = with_losses(&card, &most);
        assert_eq!(open(&old).unwrap().losses, None);
        for _ in 0..10 {
            let plan = plan_within(&mut random, &opened.planes);
            assert_eq!(figure(&none, &plan), Ok(opened.step));
            assert_eq!(figure(&closed, &plan), figure(&old, &plan));
        }
        let nothing = Planned {
            plan: plan(&[]),
            cells: 0,
            figure: opened.step,
        };
        for goal in goals_to_try(&mut random, &opened) {
            assert_eq!(answer(&closed, goal), answer(&old, goal));
            let refused = matches!(goal, Goal::Limit(limit) if limit < opened.step);
            let expected = (!refused).then_some(nothing);
            assert_eq!(answer(&none, goal), expected);
        }
    }
}

/// A longer drop may lose less than a shorter one, so a plan with fewer planes of a layer may have the smaller figure.
#[test]
fn losses_need_not_rise() {
    // One row of five, linear, width 1, and planes of one cell. Layer 0 loses 1, 0, 4 and 2 with one to four of its
    // planes missing, layer 1 loses 1 and 2.
    let card = header((1, 5), 1, Curve::Linear, 0, &[4, 2, 0]);
    let card = with_losses(&card, &[1, 0, 4, 2, 1, 2]);
    let figures = [4, 3, 2, 1, 0].map(|missing| figure(&card, &plan(&[4 - missing, 2])).unwrap());
    assert_eq!(figures, [2, 4, 0, 1, 0]);
    for (limit, first, cells, figure) in [
        // Two planes of layer 0 are enough, and a third would do harm.
        (0, &[2, 2][..], 4, 0),
        (1, &[2, 1], 3, 1),
        (2, &[2], 2, 2),
        // In one cell, one of layer 1; one of layer 0 would leave 6.
        (3, &[0, 1], 1, 3),
        (4, &[], 0, 4),
        (5, &[], 0, 4),
    ] {
        let planned = Planned {
            plan: plan(first),
            cells,
            figure,
        };
        assert_eq!(plan_by_limit(&card, limit), Ok(planned));
        assert_eq!(plan_by_cells(&card, cells), Ok(planned));
    }
    // More cells change nothing any more.
    assert_eq!(plan_by_cells(&card, u64::MAX), plan_by_limit(&card, 0));
}

#[test]
fn what_is_left_in_an_early_layer_costs_more_cubically() {
    // With s = 1 both 7 columns and 7 rows are more than 6s. So 1 left in layer 0 is carried to 2 and
    // then 3, 1 left in layer 1 to 2.
    let card = header((7, 7), 1, Curve::Cubic, 0, &[1, 1, 1]);
    for (first, own) in [([1, 1, 0], 1), ([1, 0, 1], 2), ([0, 1, 1], 3)] {
        assert_eq!(figure(&card, &plan(&first)), Ok(own));
    }
    // Within 3 one cell is enough: layer 1 leaves 1, carried to 2, and layer 2 adds 1.
    let best = plan_by_limit(&card, 3).unwrap();
    assert_eq!((best.plan, best.cells, best.figure), (plan(&[1]), 1, 3));
    let best = plan_by_limit(&card, 2).unwrap();
    assert_eq!((best.plan, best.cells, best.figure), (plan(&[1, 1]), 2, 1));
}

#[test]
fn what_is_left_costs_the_same_in_every_layer_of_a_narrow_sheet() {
    // With s = 1 both 6 columns and 6 rows are at most 6s, so 1 left in any layer stays 1. Of the plans
    // of as many cells, the last layers go without.
    let card = header((6, 6), 1, Curve::Cubic, 0, &[1, 1, 1]);
    for first in [[1, 1, 0], [1, 0, 1], [0, 1, 1]] {
        assert_eq!(figure(&card, &plan(&first)), Ok(1));
    }
    let best = plan_by_limit(&card, 1).unwrap();
    assert_eq!((best.plan, best.cells, best.figure), (plan(&[1, 1]), 2, 1));
    let best = plan_by_limit(&card, 2).unwrap();
    assert_eq!((best.plan, best.cells, best.figure), (plan(&[1]), 1, 2));
}

#[test]
fn columns_make_layers_across_narrow_and_rows_those_down() {
    // What 1 left in layer 0, 1 or 2 comes to. With 7 columns layer 1 carries 1 to 2; with 7 rows layer
    // 2 does. With 6 both leave it 1.
    for (size, left) in [((6, 7), [2, 1, 1]), ((7, 6), [2, 2, 1])] {
        let card = header(size, 1, Curve::Cubic, 0, &[1, 1, 1]);
        for (layer, own) in left.into_iter().enumerate() {
            let mut all_but_one = plan(&[1, 1, 1]);
            all_but_one[layer] = 0;
            assert_eq!(figure(&card, &all_but_one), Ok(own), "{size:?}, {layer}");
        }
    }
}

#[test]
fn more_cells_are_not_loaded_for_nothing() {
    // Planes that do not make the figure smaller are left: with all loaded but more cells
    // allowed, and with no planes at all.
    let card = header((1, 5), 1, Curve::Linear, 7, &[3, 0, 0]);
    let all = plan_by_cells(&card, u64::MAX).unwrap();
    assert_eq!((all.plan, all.cells, all.figure), (plan(&[3]), 3, 7));
    let card = header((90, 91), 6, Curve::Cubic, 7, &[0; 13]);
    for planned in [plan_by_cells(&card, u64::MAX), plan_by_limit(&card, 7)] {
        let planned = planned.unwrap();
        assert_eq!(
            (planned.plan, planned.cells, planned.figure),
            (plan(&[]), 0, 7)
        );
    }
}

/// On large cards, where not every plan can be tried, the two questions hold each other.
fn check_large(random: &mut Random, card: &[u8]) {
    let opened = open(card).unwrap();
    let sizes = sizes_of(&opened);
    let some = plan_within(random, &opened.planes);
    let limit = figure_by_hand(&opened, &sizes, &some);

    let by_limit = plan_by_limit(card, limit).unwrap();
    check_own(card, &opened, &sizes, &by_limit);
    assert!(by_limit.figure <= limit && by_limit.cells <= cells_by_hand(&sizes, &some));
    // Fewest cells: the smallest figure in one cell less is past the limit.
    if by_limit.cells > 0 {
        let less = plan_by_cells(card, by_limit.cells - 1).unwrap();
        check_own(card, &opened, &sizes, &less);
        assert!(less.figure > limit);
    }
    // And the smallest figure in as many cells is the one found.
    assert_eq!(plan_by_cells(card, by_limit.cells), Ok(by_limit));

    let cells = cells_by_hand(&sizes, &some);
    let by_cells = plan_by_cells(card, cells).unwrap();
    check_own(card, &opened, &sizes, &by_cells);
    assert!(by_cells.cells <= cells && by_cells.figure <= limit);
    assert_eq!(plan_by_limit(card, by_cells.figure), Ok(by_cells));
    // No random plan comes before either.
    for _ in 0..200 {
        let plan = plan_within(random, &opened.planes);
        let other = Planned {
            plan,
            cells: cells_by_hand(&sizes, &plan),
            figure: figure_by_hand(&opened, &sizes, &plan),
        };
        for (goal, best) in [
            (Goal::Limit(limit), by_limit),
            (Goal::Cells(cells), by_cells),
        ] {
            if goal.is_met_by(&other) {
                assert!(!before(goal, &other, &best));
            }
        }
    }
}

#[test]
fn large_cards_are_planned() {
    let mut random = Random::new(405);
    for (rows, cols) in LARGE_SIZES {
        for curve in CURVES {
            let case = Case {
                curve,
                levels: 6,
                ..Case::of_size(&mut random, rows, cols)
            };
            let card = case.write().card;
            check_large(&mut random, &card);
            let other = with_any_losses(&mut random, &card);
            check_large(&mut random, &other);
        }
    }
}

#[test]
fn the_fullest_headers_are_planned() {
    // Every layer that is not empty with all 23 planes, and the largest step.
    let mut random = Random::new(406);
    for (rows, cols) in LARGE_SIZES {
        for curve in CURVES {
            let planes: Vec<u64> = layer_places(rows, cols, 6)
                .iter()
                .map(|places| if places.is_empty() { 0 } else { 23 })
                .collect();
            let card = header((rows, cols), 6, curve, 65_535, &planes);
            assert!(open(&card).unwrap().cells <= 1012);
            check_large(&mut random, &card);
            let other = with_any_losses(&mut random, &card);
            check_large(&mut random, &other);
            let none = plan_by_cells(&card, 0).unwrap();
            assert_eq!((none.plan, none.cells), (plan(&[]), 0));
            let all = plan_by_limit(&card, 65_535).unwrap();
            assert_eq!((all.plan, all.figure), (plan(&planes), 65_535));
            let enough = plan_by_limit(&card, u64::MAX).unwrap();
            assert_eq!(enough, none);
        }
    }
}
