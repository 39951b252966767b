//! The bench card, the narrow example and the ends (docs/CARD.md, "Worked examples"), by the model;
//! `comparison/bench.rs` has the calls by the proved code too, and `document.rs` the document's own words.

mod common;

use common::{bench, card_of, header_lines, highest_first, narrow, plan, refusal};
use trace_card_tests::model::digits::{digits_of, weight};
use trace_card_tests::model::figure::carry;
use trace_card_tests::model::losses::closed;
use trace_card_tests::model::predict::cubic;
use trace_card_tests::model::program::{shown, trace, trace_compare};
use trace_card_tests::model::write::OUTPUT_BYTES;
use trace_card_tests::model::{
    figure, open, plan_by_cells, plan_by_limit, preview, read, refine, show, write, Curve, Opened,
    Reached, Refusal,
};
use trace_card_tests::random::losses;

#[test]
fn one_by_five_is_written() {
    let mut coefficients = [99; 5];
    let mut values = [99; 5];
    let mut output = vec![0x55; OUTPUT_BYTES];
    let length = write(
        &bench::SAMPLES,
        1,
        5,
        1,
        Curve::Linear,
        1,
        &mut coefficients,
        &mut values,
        &mut output,
    );
    assert_eq!(length, Ok(bench::WRITTEN_CARD_BYTES as u64));
    assert_eq!(coefficients, bench::COEFFICIENTS);
    assert_eq!(values, bench::VALUES);
    let rest = output.split_off(bench::WRITTEN_CARD_BYTES);
    assert_eq!(output, bench::written_card());
    // The bench card is an old one: it has not the line, and all else.
    assert_eq!(losses::old(&output), bench::card());
    assert!(rest.iter().all(|&byte| byte == 0x55));
}

#[test]
fn one_by_five_is_opened() {
    let opened = open(&bench::card()).unwrap();
    assert_eq!((opened.rows, opened.cols, opened.levels), (1, 5, 1));
    assert_eq!((opened.curve, opened.step), (Curve::Linear, 1));
    assert_eq!((&opened.planes[..], opened.cells), (&[5, 1, 0][..], 6));
    assert_eq!(opened.header_length, bench::HEADER_BYTES);
    assert_eq!(opened.losses, None);
    assert_eq!(opened.print(), card_of(&bench::LINES, &[]));
    let written = open(&bench::written_card()).unwrap();
    assert_eq!(written.header_length, bench::WRITTEN_HEADER_BYTES);
    let losses = vec![vec![1, 1, 3, 7, 5], vec![1], vec![]];
    assert_eq!(written.losses, Some(losses.clone()));
    assert_eq!(written.print(), card_of(&bench::written_lines(), &[]));
    // Nothing else of it is another.
    assert_eq!(
        written,
        Opened {
            losses: Some(losses),
            header_length: bench::WRITTEN_HEADER_BYTES,
            ..opened
        }
    );
}

#[test]
fn their_cuts_are_shown() {
    for (card, header, shown) in [
        (bench::card(), bench::HEADER_BYTES, bench::shown()),
        (
            bench::written_card(),
            bench::WRITTEN_HEADER_BYTES,
            bench::written_shown(),
        ),
    ] {
        for shown in shown {
            let (mut coefficients, mut values) = ([99; 5], [99; 5]);
            let reached = show(&card[..shown.length], &mut coefficients, &mut values);
            assert_eq!(reached, Ok(shown.reached));
            assert_eq!((coefficients, values), (shown.coefficients, shown.values));
            let figure = figure(&card, &shown.reached.plan);
            assert_eq!(figure, Ok(shown.reached.figure));
        }
        let cut_in_header = show(&card[..header - 1], &mut [99; 5], &mut [99; 5]);
        assert_eq!(cut_in_header, Err(refusal(5, [0, 0])));
    }
    let lengths = bench::written_shown().map(|shown| shown.length);
    assert_eq!(lengths, [273, 177, 176, 81]);
}

#[test]
fn its_cut_is_read_and_refined_to_the_same() {
    let card = &bench::card()[..160];
    let mut coefficients = [99; 5];
    let mut values = [99; 5];
    let none = read(card, &plan(&[]), &mut coefficients, &mut values).unwrap();
    assert_eq!((none.figure, values), (52, [15; 5]));
    let mut reached = none;
    for figure in [28, 16, 10] {
        // loss(4), loss(3), loss(2) are 8, 4, 2; times 3, plus 3 for layer 1, plus 1.
        reached = refine(card, &reached.plan, 0, &mut coefficients, &mut values).unwrap();
        assert_eq!(reached.figure, figure);
    }
    assert_eq!(
        reached,
        Reached {
            plan: plan(&[3]),
            figure: 10
        }
    );
    // The digits loaded are those of weights 16, -8 and 4. The two that are missing, from -2 to 1, count
    // as -1 in the values.
    assert_eq!(coefficients, [4, 0, 4, 0, 12]);
    assert_eq!(values, [9, 9, 9, 21, 33]);
    assert_eq!(
        refine(card, &reached.plan, 0, &mut coefficients, &mut values),
        Err(refusal(9, [0, 0]))
    );
    assert_eq!(figure(card, &plan(&[3])), Ok(10));
}

/// From three planes of the anchors, which the whole card has and its first 160 bytes, or 177, too.
fn check_previews(card: &[u8], shown: &bench::Shown, previewed: [bench::Previewed; 2]) {
    let from = shown.reached.plan;
    let (mut coefficients, mut values) = ([99; 5], [99; 5]);
    let reached = read(card, &from, &mut coefficients, &mut values);
    assert_eq!(reached, Ok(shown.reached));
    assert_eq!((coefficients, values), (shown.coefficients, shown.values));
    let look = |card: &[u8], layer| {
        let mut next = [99; 5];
        let answer = preview(card, &from, layer, &coefficients, &values, &mut next);
        (answer, next)
    };
    for expected in previewed {
        let found = look(card, expected.layer);
        assert_eq!(found, (Ok(expected.reached), expected.next));
        // Pulled, the card has no further plane.
        let found = look(&card[..shown.length], expected.layer);
        let refused = refusal(9, [expected.layer, 0]);
        assert_eq!(found, (Err(refused), [99; 5]));
    }
    assert_eq!(look(card, 2), (Err(refusal(9, [2, 0])), [99; 5]));
}

#[test]
fn one_plane_more_is_previewed() {
    let [_, shown, ..] = bench::shown();
    check_previews(&bench::card(), &shown, bench::previewed());
    let [_, shown, ..] = bench::written_shown();
    check_previews(&bench::written_card(), &shown, bench::written_previewed());
}

#[test]
fn its_plans() {
    let card = bench::card();
    for (limit, planned) in bench::planned_by_limit() {
        assert_eq!(plan_by_limit(&card, limit), Ok(planned));
        // The planner goes by the header alone.
        assert_eq!(plan_by_limit(&card[..64], limit), Ok(planned));
    }
    assert_eq!(figure(&card, &plan(&[3, 1])), Ok(7), "3,1,0 ties");
    assert_eq!(plan_by_limit(&card, 0), Err(refusal(10, [0, 0])));
    for (cells, planned) in bench::planned_by_cells() {
        assert_eq!(plan_by_cells(&card, cells), Ok(planned));
    }
}

#[test]
fn plans_of_the_card_written_now() {
    let card = bench::written_card();
    let header = &card[..bench::WRITTEN_HEADER_BYTES];
    for (limit, planned) in bench::written_planned_by_limit() {
        assert_eq!(plan_by_limit(&card, limit), Ok(planned));
        assert_eq!(plan_by_limit(header, limit), Ok(planned));
    }
    assert_eq!(plan_by_limit(&card, 0), Err(refusal(10, [0, 0])));
    for (cells, planned) in bench::written_planned_by_cells() {
        assert_eq!(plan_by_cells(&card, cells), Ok(planned));
    }
    // The first plane of the anchors leaves more lost than none, four no less than three.
    let figures = [0, 1, 2, 3, 4, 5].map(|planes| figure(&card, &plan(&[planes])));
    assert_eq!(figures, [19, 25, 13, 7, 7, 4].map(Ok));
}

#[test]
fn the_digits() {
    assert_eq!(highest_first(-1), "11");
    assert_eq!(highest_first(2), "110");
    assert_eq!(highest_first(5), "101");
    assert_eq!(highest_first(10), "11110");
}

#[test]
fn twenty_three_digits_reach_so_far() {
    // The odd places alone give the least, the even ones alone the greatest.
    let least: i64 = (0..23).filter(|p| p % 2 == 1).map(weight).sum();
    let greatest: i64 = (0..23).filter(|p| p % 2 == 0).map(weight).sum();
    assert_eq!((least, greatest), (-2_796_202, 5_592_405));
    assert!(digits_of(least).len() <= 23);
    assert!(digits_of(greatest).len() <= 23);
    assert!(digits_of(least - 1).len() > 23);
    assert!(digits_of(greatest + 1).len() > 23);
}

#[test]
fn cubic_prediction_and_carry() {
    assert_eq!(cubic(0, -1, 0, 0), -1);
    assert_eq!(carry(Curve::Cubic, 4), 5);
    assert_eq!(carry(Curve::Cubic, 5), 7);
    assert_eq!(carry(Curve::Linear, 4), 4);
}

#[test]
fn the_narrow_example() {
    narrow::check(figure, plan_by_limit, plan_by_cells);
}

#[test]
fn the_losses() {
    let losses: Vec<u64> = (0..6).map(closed).collect();
    assert_eq!(losses, [0, 1, 2, 4, 8, 16]);
}

/// Writes a sheet of zeros, with one sample replaced.
fn write_zeros(
    rows: u64,
    cols: u64,
    step: u64,
    replaced: Option<(usize, i32)>,
) -> Result<u64, Refusal> {
    let count = (rows * cols) as usize;
    let mut samples = vec![0; count];
    if let Some((place, sample)) = replaced {
        samples[place] = sample;
    }
    write(
        &samples,
        rows,
        cols,
        3,
        Curve::Cubic,
        step,
        &mut vec![0; count],
        &mut vec![0; count],
        &mut vec![0; OUTPUT_BYTES],
    )
}

#[test]
fn sizes_steps_and_samples_at_their_ends() {
    for (rows, cols) in [(64, 128), (1, 8192), (8192, 1), (2, 4096)] {
        assert_eq!(rows * cols, 8192);
        assert!(write_zeros(rows, cols, 0, None).is_ok());
    }
    for (rows, cols) in [(3, 2731), (2731, 3), (1, 8193), (8193, 1)] {
        assert_eq!(rows * cols, 8193);
        assert_eq!(write_zeros(rows, cols, 0, None), Err(refusal(1, [0, 0])));
    }
    assert!(write_zeros(2, 3, 65_535, None).is_ok());
    assert_eq!(write_zeros(2, 3, 65_536, None), Err(refusal(2, [0, 0])));
    for sample in [1_048_575, -1_048_575] {
        assert!(write_zeros(4, 7, 0, Some((2 * 7 + 5, sample))).is_ok());
    }
    for sample in [1_048_576, -1_048_576, i32::MAX, i32::MIN] {
        let refused = write_zeros(4, 7, 0, Some((2 * 7 + 5, sample)));
        assert_eq!(refused, Err(refusal(4, [2, 5])));
    }
}

#[test]
fn the_programs_print() {
    let card = bench::card();
    assert_eq!(
        shown(&card[..160]),
        "rows=1\ncols=5\nloaded=3,0,0\nfigure=10\nrow=9,9,9,21,33\n"
    );
    assert_eq!(shown(&card[..63]), "refused=5\n");
    for (length, text, status) in [(160, bench::ROLL, 0), (63, "refused=5\n", 1)] {
        assert_eq!(trace(&["roll"], &card[..length]), (text.into(), status));
    }
    assert_eq!(trace(&["show"], &card[..63]), ("refused=5\n".into(), 1));
    assert_eq!(trace(&["show"], &card), (shown(&card), 0));
    assert_eq!(trace(&["show", "roll"], &card), (String::new(), 2));
    for words in [&["compare"][..], &["compare", "one"]] {
        assert_eq!(trace(words, &card), (String::new(), 2));
    }
    // A value below 0 has its sign: -1 is 11 in digits; and each row has its line.
    let two_rows = card_of(&header_lines((2, 1), 0, "linear", 0, &[2], 2), &[2, 3]);
    assert_eq!(
        shown(&two_rows),
        "rows=2\ncols=1\nloaded=2\nfigure=0\nrow=1\nrow=-1\n"
    );
}

#[test]
fn the_program_prints_comparisons() {
    let (card, other) = (bench::card(), bench::fine_card());
    let apart = "apart=1\nfirst=0,4\n00001\n";
    let agree = "apart=0\nfirst=0,0\n00000\n";
    assert_eq!(trace_compare(&card, &other), (apart.into(), 0));
    assert_eq!(trace_compare(&card[..160], &other), (agree.into(), 0));
    // Each row has its line: the values 1 and -1 beside 0 and 0, then beside 1 and 0.
    let two_rows = card_of(&header_lines((2, 1), 0, "linear", 0, &[2], 2), &[2, 3]);
    let zeros = card_of(&header_lines((2, 1), 0, "cubic", 0, &[0], 0), &[]);
    let one = card_of(&header_lines((2, 1), 0, "cubic", 0, &[1], 1), &[1]);
    for (second, lines) in [
        (zeros, "apart=2\nfirst=0,0\n1\n1\n"),
        (one, "apart=1\nfirst=1,0\n0\n1\n"),
    ] {
        assert_eq!(trace_compare(&two_rows, &second), (lines.into(), 0));
    }
    // The first card's refusal, then the second's, then 13.
    let spoilt = card_of(&bench::LINES, &[0; 6]);
    for (first, second, number) in [
        (&card[..63], &spoilt[..], 5),
        (&spoilt, &card[..63], 8),
        (&card, &card[..63], 5),
        (&two_rows, &spoilt, 8),
        (&two_rows, &card, 13),
    ] {
        let refused = format!("refused={number}\n");
        assert_eq!(trace_compare(first, second), (refused, 1));
    }
}
