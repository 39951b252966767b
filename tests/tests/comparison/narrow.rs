//! Sheets at the edge of narrow: the figure, showing and both plannings where a layer is just narrow or
//! just not (docs/CARD.md, "The figure"), across and down, at every spacing of all levels.

use super::both::{figure, plan_by_cells, plan_by_limit, show, written, Slices};
use super::common::{furthest, plan};
use trace_card_tests::model::header::print;
use trace_card_tests::model::open;
use trace_card_tests::model::planes::cells_in;
use trace_card_tests::random::cases::{shapes_at_narrow_edge, step, Case, CURVES};
use trace_card_tests::random::losses::{any_losses, old, with_losses};
use trace_card_tests::random::plans::plan_within;
use trace_card_tests::random::Random;

/// The figures of no planes and of some, and the plans within the second figure and in so many cells.
fn ask(random: &mut Random, card: &[u8]) {
    let opened = open(card).unwrap();
    let some = plan_within(random, &opened.planes);
    let [most, limit] = [plan(&[]), some].map(|plan| figure(card, &plan).unwrap());
    assert!(opened.step <= limit);
    // On an old card nothing is lost by loading more.
    assert!(opened.losses.is_some() || limit <= most);
    assert!(plan_by_limit(card, limit).unwrap().figure <= limit);
    let cells = random.below(opened.cells + 1);
    assert!(plan_by_cells(card, cells).unwrap().cells <= cells);
}

#[test]
fn written_cards_whole_and_cut() {
    let mut random = Random::new(571);
    for shape in shapes_at_narrow_edge() {
        for curve in CURVES {
            let case = Case::of_shape(&mut random, shape, curve);
            let card = written(&case);
            let header = open(&card).unwrap().header_length;
            let cut = random.length(header, card.len());
            for length in [header, cut, card.len()] {
                let mut slices = Slices::new(case.count());
                let shown = show(&card[..length], &mut slices).unwrap();
                assert!(furthest(&slices.values, &case.samples) <= shown.figure);
            }
            ask(&mut random, &card[..cut]);
            ask(&mut random, &old(&card));
        }
    }
}

/// Headers alone, with any number of planes in every layer that has points.
#[test]
fn made_up_headers() {
    let mut random = Random::new(572);
    for shape in shapes_at_narrow_edge() {
        let points = shape.layer_counts();
        for curve in CURVES {
            let planes: Vec<u64> = points
                .iter()
                .map(|&count| if count == 0 { 0 } else { random.below(24) })
                .collect();
            let cells = cells_in(&planes, &points);
            let header = print(shape, curve, step(&mut random), &planes, None, cells);
            ask(&mut random, &header);
            let losses = any_losses(&mut random, &open(&header).unwrap());
            ask(&mut random, &with_losses(&header, &losses));
        }
    }
}
