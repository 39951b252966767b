//! The bench card, the narrow example and the ends (docs/CARD.md, "Worked examples"), by both.

use super::both::{
    compare, figure, plan_by_cells, plan_by_limit, preview, read, refine, roll, show, write,
    written, Slices, B, V,
};
use super::common::{bench, narrow, plan, refusal};
use trace_card_tests::model::write::OUTPUT_BYTES;
use trace_card_tests::model::{Curve, Refusal};
use trace_card_tests::random::cases::Case;

/// Writing in slices of the right lengths.
fn write_sheet(
    (rows, cols): (u64, u64),
    levels: u64,
    step: u64,
    samples: Vec<i32>,
) -> Result<Vec<u8>, Refusal> {
    let case = Case {
        rows,
        cols,
        levels,
        curve: Curve::Linear,
        step,
        samples,
    };
    write(&case, [case.count(); 2], OUTPUT_BYTES)
}

#[test]
fn one_by_five_is_written() {
    let card = write_sheet((1, 5), 1, 1, bench::SAMPLES.to_vec());
    assert_eq!(card, Ok(bench::written_card()));
}

/// The bench card, which is an old one, and what is written now: the cards, their headers' lengths, and what their cuts
/// show.
fn both_cards() -> [(Vec<u8>, usize, [bench::Shown; 4]); 2] {
    [
        (bench::card(), bench::HEADER_BYTES, bench::shown()),
        (
            bench::written_card(),
            bench::WRITTEN_HEADER_BYTES,
            bench::written_shown(),
        ),
    ]
}

#[test]
fn their_cuts_are_shown_and_read() {
    for (card, header, shown) in both_cards() {
        check_cuts(&card, header, shown);
    }
}

fn check_cuts(card: &[u8], header: usize, shown: [bench::Shown; 4]) {
    for shown in shown {
        let cut = &card[..shown.length];
        let mut slices = Slices::new(5);
        assert_eq!(show(cut, &mut slices), Ok(shown.reached));
        assert_eq!(slices.coefficients, shown.coefficients);
        assert_eq!(slices.values, shown.values);
        let mut fresh = Slices::new(5);
        let read = read(cut, &shown.reached.plan, &mut fresh);
        assert_eq!((read, fresh), (Ok(shown.reached), slices));
        assert_eq!(figure(cut, &shown.reached.plan), Ok(shown.reached.figure));
    }
    let cut_in_header = show(&card[..header - 1], &mut Slices::new(5));
    assert_eq!(cut_in_header, Err(refusal(5, [0, 0])));
}

#[test]
fn its_cut_is_rolled() {
    let [_, shown, ..] = bench::shown();
    let mut slices = Slices::new(5).and_page(150 + 7);
    let reached = roll(&bench::card()[..shown.length], &mut slices);
    assert_eq!(reached, Ok(shown.reached));
    assert_eq!(slices.values, shown.values);
    assert_eq!(slices.page[..150], *bench::ROLL.as_bytes());
    assert_eq!(slices.page[150..], [B; 7]);
}

#[test]
fn it_is_compared() {
    let cards = [bench::card(), written(&bench::fine_sheet())];
    assert_eq!(cards[1], bench::fine_card());
    for expected in bench::compared() {
        let [first, second] = [0, 1].map(|card| &cards[card][..expected.lengths[card]]);
        // The same where the cards change places.
        for cards in [[first, second], [second, first]] {
            let mut slices = [(); 2].map(|()| Slices::new(5));
            let mut marks = vec![B; 5];
            let compared = compare(cards, &mut slices, &mut marks);
            assert_eq!(compared, Ok(expected.compared));
            assert_eq!(marks, expected.marks);
        }
    }
}

/// From no planes to the three of the first 160 bytes, or 177.
#[test]
fn their_cuts_are_refined_to_the_same() {
    for (card, _, [_, shown, ..]) in both_cards() {
        check_refined(&card[..shown.length], &shown);
    }
}

fn check_refined(cut: &[u8], shown: &bench::Shown) {
    let mut slices = Slices::new(5);
    let mut reached = read(cut, &plan(&[]), &mut slices).unwrap();
    for _ in 0..3 {
        reached = refine(cut, &reached.plan, 0, &mut slices).unwrap();
    }
    assert_eq!(reached, shown.reached);
    assert_eq!(slices.coefficients, shown.coefficients);
    assert_eq!(slices.values, shown.values);
    let refused = refine(cut, &reached.plan, 0, &mut slices);
    assert_eq!(refused, Err(refusal(9, [0, 0])));
}

/// From three planes of the anchors, which the whole card has and its first 160 bytes, or 177, too.
#[test]
fn one_plane_more_is_previewed() {
    let [old, written] = both_cards();
    for ((card, _, [_, shown, ..]), previewed) in [
        (old, bench::previewed()),
        (written, bench::written_previewed()),
    ] {
        check_previews(&card, &shown, previewed);
    }
}

fn check_previews(card: &[u8], shown: &bench::Shown, previewed: [bench::Previewed; 2]) {
    let from = shown.reached.plan;
    let mut slices = Slices::new(5).and_next(5);
    assert_eq!(read(card, &from, &mut slices), Ok(shown.reached));
    let mut look = |card: &[u8], layer| {
        let answer = preview(card, &from, layer, &mut slices);
        assert_eq!(slices.coefficients, shown.coefficients);
        assert_eq!(slices.values, shown.values);
        (answer, std::mem::replace(&mut slices.next, vec![V; 5]))
    };
    for expected in previewed {
        let found = look(card, expected.layer);
        assert_eq!(found, (Ok(expected.reached), expected.next.to_vec()));
        // Pulled, the card has no further plane.
        let found = look(&card[..shown.length], expected.layer);
        let refused = refusal(9, [expected.layer, 0]);
        assert_eq!(found, (Err(refused), vec![V; 5]));
    }
    let refused = Err(refusal(9, [2, 0]));
    assert_eq!(look(card, 2), (refused, vec![V; 5]));
}

#[test]
fn their_plans() {
    let card = bench::card();
    for (limit, planned) in bench::planned_by_limit() {
        assert_eq!(plan_by_limit(&card, limit), Ok(planned));
    }
    assert_eq!(plan_by_limit(&card, 0), Err(refusal(10, [0, 0])));
    for (cells, planned) in bench::planned_by_cells() {
        assert_eq!(plan_by_cells(&card, cells), Ok(planned));
    }
    let card = bench::written_card();
    for (limit, planned) in bench::written_planned_by_limit() {
        assert_eq!(plan_by_limit(&card, limit), Ok(planned));
    }
    assert_eq!(plan_by_limit(&card, 0), Err(refusal(10, [0, 0])));
    for (cells, planned) in bench::written_planned_by_cells() {
        assert_eq!(plan_by_cells(&card, cells), Ok(planned));
    }
}

#[test]
fn the_narrow_example() {
    narrow::check(figure, plan_by_limit, plan_by_cells);
}

#[test]
fn the_limits() {
    let flat = |rows: u64, cols: u64, step| {
        write_sheet((rows, cols), 3, step, vec![5; (rows * cols) as usize])
    };
    for (rows, cols) in [(1, 8192), (8192, 1), (64, 128)] {
        assert!(flat(rows, cols, 0).is_ok());
    }
    for (rows, cols) in [(1, 8193), (8193, 1), (3, 2731)] {
        assert_eq!(flat(rows, cols, 0), Err(refusal(1, [0, 0])));
    }
    assert!(flat(2, 3, 65_535).is_ok());
    assert_eq!(flat(2, 3, 65_536), Err(refusal(2, [0, 0])));
    let mut samples = vec![1_048_575; 6];
    assert!(write_sheet((2, 3), 1, 0, samples.clone()).is_ok());
    samples[4] = 1_048_576;
    samples[5] = -1_048_576;
    let refused = write_sheet((2, 3), 1, 0, samples);
    assert_eq!(refused, Err(refusal(4, [1, 1])));
}
