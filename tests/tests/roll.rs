//! The roll by the model (docs/CARD.md, "The roll"): its pages, read back by their fields.
//! `refusals/rolling.rs` has what it refuses.

mod common;

use common::extremes::Sheet;
use common::files;
use common::page::{lines_of, number_in, read_page};
use common::{bench, card_of, card_with, header_lines};
use trace_card_tests::model::digits::{GREATEST_COEFFICIENT, LEAST_COEFFICIENT};
use trace_card_tests::model::steps::LARGEST_STEP;
use trace_card_tests::model::{open, roll, show};
use trace_card_tests::random::cases::{Case, LARGE_SIZES};
use trace_card_tests::random::losses::any_kind;
use trace_card_tests::random::Random;

/// What stands behind the lines.
const BEHIND: u8 = 0xA7;

/// The page of a card that is accepted. It answers and leaves what showing does, and no byte
/// behind the lines has changed.
fn rolled(card: &[u8]) -> (Vec<i64>, Vec<u8>) {
    let count = open(card).unwrap().shape().count();
    let (mut coefficients, mut values) = (vec![7; count], vec![7; count]);
    let mut page = vec![BEHIND; 25 * (count + 1) + 40];
    let reached = roll(card, &mut coefficients, &mut values, &mut page).unwrap();
    let (mut shown_coefficients, mut shown_values) = (vec![9; count], vec![9; count]);
    let shown = show(card, &mut shown_coefficients, &mut shown_values).unwrap();
    assert_eq!(reached, shown);
    assert_eq!(
        (&coefficients, &values),
        (&shown_coefficients, &shown_values)
    );
    let behind = page.split_off(25 * (count + 1));
    assert_eq!(behind, [BEHIND; 40]);

    let (figure, lines) = read_page(&page);
    assert_eq!(figure, shown.figure as i64);
    assert_eq!(lines, lines_of(open(card).unwrap().cols, &values));
    (values, page)
}

fn text_of(card: &[u8]) -> String {
    String::from_utf8(rolled(card).1).unwrap()
}

#[test]
fn the_bench_card() {
    let page = text_of(&bench::card()[..160]);
    assert_eq!(page, bench::ROLL);
    assert_eq!((page.lines().count(), page.len()), (6, 150));
    assert_eq!(files::text("examples/bench-160.roll"), page);
}

/// Each value has its sign straight before it, and each row its number.
#[test]
fn signs_and_rows() {
    let card = card_with((3, 2), 0, "linear", 0, &[0, -1, 10, -10, 100, -2_796_202]);
    let expected = concat!(
        "                       0\n",
        "   0   0               0\n",
        "   0   1              -1\n",
        "   1   0              10\n",
        "   1   1             -10\n",
        "   2   0             100\n",
        "   2   1        -2796202\n",
    );
    assert_eq!(text_of(&card), expected);
}

/// A card of no planes shows zeros, whatever its size.
#[test]
fn the_longest_rows_and_columns() {
    for ((rows, cols), last) in [
        ((1, 8192), "   08191               0"),
        ((8192, 1), "8191   0               0"),
        ((64, 128), "  63 127               0"),
        ((1, 1), "   0   0               0"),
        ((1000, 8), " 999   7               0"),
        ((8, 1001), "   71000               0"),
    ] {
        let card = card_of(&header_lines((rows, cols), 0, "cubic", 9, &[0], 0), &[]);
        let page = text_of(&card);
        assert_eq!(page.lines().next(), Some("                       9"));
        assert_eq!(page.lines().last(), Some(last));
    }
}

#[test]
fn cards_whole_and_cut() {
    let mut random = Random::new(611);
    let mut cases: Vec<Case> = (0..1500).map(|_| Case::small(&mut random)).collect();
    cases.extend(LARGE_SIZES.map(|(rows, cols)| Case::of_size(&mut random, rows, cols)));
    let mut below_0 = 0;
    for case in cases {
        let card = any_kind(&mut random, case.write().card);
        let header = open(&card).unwrap().header_length;
        for length in [card.len(), random.length(header, card.len())] {
            let (values, _) = rolled(&card[..length]);
            below_0 += values.iter().filter(|&&value| value < 0).count();
        }
    }
    assert!(below_0 > 10_000, "{below_0}");
}

/// All coefficients at one end of 23 digits, and at the two in turn.
#[test]
fn coefficients_at_their_ends() {
    let ends = [GREATEST_COEFFICIENT, LEAST_COEFFICIENT];
    for (rows, cols) in LARGE_SIZES {
        for curve in ["linear", "cubic"] {
            for pattern in 0..4 {
                let end = |place: u64| match pattern {
                    0 | 1 => ends[pattern],
                    2 => ends[(place % 2) as usize],
                    _ => ends[((place / cols + place % cols) % 2) as usize],
                };
                let coefficients: Vec<i32> = (0..rows * cols).map(end).collect();
                let card = card_with((rows, cols), 6, curve, LARGEST_STEP, &coefficients);
                rolled(&card);
            }
        }
    }
}

/// The largest and the smallest value that any card gives sheets of these sizes. The last point of 64
/// by 128 is predicted from one point in every layer, so that nothing is averaged on the way to it.
#[test]
fn the_largest_and_the_smallest_value() {
    let width = 2 * LARGEST_STEP as i64 + 1;
    let corner = 13 * i64::from(GREATEST_COEFFICIENT) * width;
    let (mut largest, mut smallest) = (0, 0);
    for size in [(64, 128), (90, 91), (1, 8192)] {
        let sheet = Sheet::new(size, 6);
        for upper in [true, false] {
            let extreme = sheet.extreme(upper);
            let (values, _) = rolled(&extreme.card);
            let value = values[extreme.place];
            // Each prediction is rounded down once, and carries what was rounded before.
            assert!(value.abs_diff(extreme.value) < 70, "{value}");
            largest = largest.max(value);
            smallest = smallest.min(value);
        }
    }
    assert_eq!(largest, corner);
    assert_eq!(
        [largest, smallest].map(|value| value.to_string().len()),
        [13, 14]
    );
}

#[test]
fn fields_are_read() {
    for (field, number) in [
        ("   0", 0),
        ("8191", 8191),
        ("  -1", -1),
        ("-120", -120),
        ("             -907", -907),
        ("9223372036854775807", i64::MAX),
        ("-9223372036854775808", i64::MIN),
    ] {
        assert_eq!(number_in(field.as_bytes()), Some(number), "{field}");
    }
    for field in [
        "",
        "    ",
        "   -",
        " - 1",
        "  -0",
        "  01",
        "1   ",
        " 1 2",
        "  +1",
        " --1",
        "  1a",
        "\n  1",
        "9223372036854775808",
    ] {
        assert_eq!(number_in(field.as_bytes()), None, "{field}");
    }
}
