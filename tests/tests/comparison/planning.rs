//! Planning, against every plan on small cards and against the model's second method on large
//! ones; and the figure of a plan.

use super::both::{figure, hold_cells, hold_limit, written};
use super::common::every_plan;
use trace_card_tests::model::figure::figure_of;
use trace_card_tests::model::planes::cells_in;
use trace_card_tests::model::planner::{cells_of_plan, exhaustive, front, plans_of, Goal, Planned};
use trace_card_tests::model::{open, Opened, Refusal};
use trace_card_tests::random::cases::{Case, CURVES, LARGE_SIZES};
use trace_card_tests::random::losses::{any_kind, any_losses, old, with_losses};
use trace_card_tests::random::plans::plan_about;
use trace_card_tests::random::sheets::{sheet, Kind, KINDS};
use trace_card_tests::random::Random;

type Method = fn(&Opened, Goal) -> Option<Planned>;

fn check(card: &[u8], opened: &Opened, goal: Goal, method: Method) {
    let result = method(opened, goal).ok_or(Refusal::plain(10));
    match goal {
        Goal::Limit(limit) => hold_limit(card, limit, result),
        Goal::Cells(cells) => hold_cells(card, cells, result),
    }
}

/// Limits and numbers of cells at every edge: those of plans, one less and one more, and the
/// largest that a u64 holds.
fn check_goals(random: &mut Random, card: &[u8], method: Method, goals: usize) {
    let opened = open(card).unwrap();
    let step = opened.step;
    let mut limits = vec![
        0,
        step,
        step.saturating_sub(1),
        step + 1,
        u64::MAX,
        u64::MAX - 1,
        1 << 60,
    ];
    let mut cells = vec![
        0,
        1,
        opened.cells,
        opened.cells.saturating_sub(1),
        1012,
        1013,
        u64::MAX,
    ];
    for _ in 0..goals {
        let asked = random.below(opened.cells + 2);
        cells.push(asked);
        if let Some(planned) = method(&opened, Goal::Cells(asked)) {
            limits.extend([
                planned.figure,
                planned.figure + 1,
                planned.figure.saturating_sub(1),
            ]);
        }
        let digits = random.below(40);
        limits.push(step + random.below(1 << digits));
    }
    for limit in limits {
        check(card, &opened, Goal::Limit(limit), method);
    }
    for asked in cells {
        check(card, &opened, Goal::Cells(asked), method);
    }
}

/// Another plan with the cells and the figure of the one answered: only the last rule decides.
fn has_tie(opened: &Opened, goal: Goal) -> bool {
    let Some(best) = exhaustive(opened, goal) else {
        return false;
    };
    every_plan(opened).into_iter().any(|plan| {
        plan != best.plan
            && cells_of_plan(opened, &plan) == best.cells
            && figure_of(opened, &plan) == best.figure
    })
}

/// Few enough plans to try them all, and at least two layers to choose between.
fn is_worth_trying(opened: &Opened) -> bool {
    let loaded = opened.planes.iter().filter(|&&planes| planes > 0).count();
    loaded >= 2 && plans_of(opened) <= 3000
}

#[test]
fn every_plan_of_small_cards() {
    let mut random = Random::new(541);
    let mut tried = 0;
    while tried < 400 {
        let (rows, cols) = random.pick(&[(1, 3), (1, 9), (2, 2), (3, 5), (4, 4), (5, 1), (6, 3)]);
        let kind = random.pick(&[Kind::Quiet, Kind::Smooth, Kind::Noise]);
        let mut case = Case::of_kind(&mut random, kind, rows, cols);
        case.levels = 1 + random.below(3);
        let card = any_kind(&mut random, written(&case));
        if !is_worth_trying(&open(&card).unwrap()) {
            continue;
        }
        tried += 1;
        check_goals(&mut random, &card, exhaustive, 6);
    }
}

/// Headers with any counts: planes of one cell and of several, layers with no planes, empty
/// layers, large steps; and ties, which are counted.
#[test]
fn every_plan_of_made_up_headers() {
    let mut random = Random::new(542);
    let (mut tried, mut wide, mut ties) = (0, 0, 0);
    while tried < 400 {
        let mut case = if random.once_in(2) {
            Case::small(&mut random)
        } else {
            let (rows, cols) = random.pick(&[(40, 40), (64, 20), (33, 65), (1, 1000), (90, 91)]);
            Case::of_size(&mut random, rows, cols)
        };
        case.levels = random.below(4);
        let opened = open(&written(&case)).unwrap();
        let ends = [1, 2, 4, 9, 24];
        let planes: Vec<u64> = opened
            .points
            .iter()
            .map(|&points| {
                let end = if points == 0 { 1 } else { random.pick(&ends) };
                random.below(end)
            })
            .collect();
        let cells = cells_in(&planes, &opened.points);
        // An old card, or one with any losses, which need not rise.
        let old = Opened {
            planes,
            losses: None,
            cells,
            ..opened
        };
        let card = match random.below(3) {
            0 => old.print(),
            _ => with_losses(&old.print(), &any_losses(&mut random, &old)),
        };
        let opened = open(&card).unwrap();
        if !is_worth_trying(&opened) {
            continue;
        }
        tried += 1;
        wide += u64::from(opened.points.iter().any(|&points| points > 256));
        let goal = Goal::Cells(random.below(opened.cells + 1));
        ties += u64::from(has_tie(&opened, goal));
        check_goals(&mut random, &card, exhaustive, 6);
    }
    assert!(wide > 50 && ties > 20, "{wide} {ties}");
}

#[test]
fn the_largest_cards() {
    let mut random = Random::new(543);
    for (rows, cols) in LARGE_SIZES {
        for kind in KINDS {
            let card = written(&Case::of_kind(&mut random, kind, rows, cols));
            check_goals(&mut random, &card, front, 4);
            let losses = any_losses(&mut random, &open(&card).unwrap());
            let other = random.pick(&[0, 1]);
            let card = [old(&card), with_losses(&card, &losses)][other].clone();
            check_goals(&mut random, &card, front, 4);
        }
    }
    for curve in CURVES {
        for step in [0, 10, 65_535] {
            let samples = sheet(&mut random, Kind::Ends, 90, 91);
            let case = Case {
                rows: 90,
                cols: 91,
                levels: 6,
                curve,
                step,
                samples,
            };
            check_goals(&mut random, &written(&case), front, 10);
        }
    }
}

/// Planning looks at the header alone, so a cut card is planned as the whole one.
#[test]
fn cut_cards() {
    let mut random = Random::new(544);
    for _ in 0..200 {
        let case = Case::small(&mut random);
        let card = any_kind(&mut random, written(&case));
        let opened = open(&card).unwrap();
        let cut = &card[..random.length(opened.header_length, card.len())];
        let digits = random.below(30);
        let limit = opened.step + random.below(1 << digits);
        check(cut, &opened, Goal::Limit(limit), front);
        check(
            cut,
            &opened,
            Goal::Cells(random.below(opened.cells + 2)),
            front,
        );
    }
}

#[test]
fn figures_of_plans() {
    let mut random = Random::new(531);
    let mut cases: Vec<Case> = LARGE_SIZES
        .map(|(rows, cols)| Case::of_size(&mut random, rows, cols))
        .to_vec();
    cases.extend((0..400).map(|_| Case::small(&mut random)));
    let (mut accepted, mut refused) = (0, 0);
    for case in cases {
        let card = any_kind(&mut random, written(&case));
        let opened = open(&card).unwrap();
        for _ in 0..10 {
            let plan = plan_about(&mut random, &opened.planes);
            // The figure is of the header alone, whatever is left behind it.
            let length = random.length(opened.header_length, card.len());
            match figure(&card[..length], &plan) {
                Ok(_) => accepted += 1,
                Err(_) => refused += 1,
            }
        }
    }
    assert!(accepted > 100 && refused > 100, "{accepted} {refused}");
}
