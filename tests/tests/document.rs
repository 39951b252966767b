//! The numbers in docs/CARD.md, and those of README's smooth hour: the model works them out, they
//! are put into the document's own words, and those are looked for there. So a rule that changes
//! fails here until the document is amended.

mod common;

use common::document::{
    digits, example, grouped, joined, listed, readme, says, section, shows, sum,
};
use common::{bench, files, hour, narrow, plan};
use trace_card_tests::boundary::ANSWER;
use trace_card_tests::model::digits::{
    digits_of, high, low, middle, weight, GREATEST_COEFFICIENT, LEAST_COEFFICIENT, MOST_DIGITS,
};
use trace_card_tests::model::figure::{carry, is_narrow, layer_carry};
use trace_card_tests::model::header::print;
use trace_card_tests::model::losses::{closed as loss, measured, said as loss_of};
use trace_card_tests::model::planes::{card_order, cells_of_plane, CELL_BYTES};
use trace_card_tests::model::predict::{cubic, predict};
use trace_card_tests::model::program::{trace, trace_compare};
use trace_card_tests::model::refusal::{
    BAD_PLANE, BYTES_AFTER, COEFFICIENT, HEADER_CUT, HEADER_LINE, LENGTHS, LEVELS_OR_STEP, LIMIT,
    PAGE, PLAN, SAMPLE_RANGE, SHEET_SIZE, SIZES,
};
use trace_card_tests::model::roll::{
    page_bytes, printed, COLUMN_PLACES, LINE_BYTES, LINE_PLACES, ROW_PLACES, VALUE_PLACES,
};
use trace_card_tests::model::sheet::{
    Layer, Point, Shape, LARGEST_SAMPLE, MOST_LEVELS, MOST_POINTS,
};
use trace_card_tests::model::steps::{coefficient, rebuilt, width, LARGEST_STEP};
use trace_card_tests::model::write::OUTPUT_BYTES;
use trace_card_tests::model::{
    compare, figure, open, plan_by_cells, plan_by_limit, preview, refine, roll, show, write,
    Compared, Curve, Opened, Plan, Planned, Reached, Refusal, MAX_LAYERS,
};
use trace_card_tests::random::cases::{Case, Written};
use trace_card_tests::random::losses::{most, old, with_losses};
use trace_card_tests::random::Random;

#[test]
fn rounding_below_0() {
    let words = format!("-9 / 16 rounded down is {}.", cubic(0, -1, 0, 0));
    says(&files::text("docs/CARD.md"), &words);
}

#[test]
fn the_sheet() {
    let part = section("1. The sheet");
    let (points, step) = (grouped(MOST_POINTS), grouped(LARGEST_STEP));
    let sample = grouped(LARGEST_SAMPLE);
    says(&part, &format!("*points*, is at most {points}."));
    says(&part, &format!("A sample is from -{sample} to {sample}."));
    says(&part, &format!("*levels* L, from 0 to {MOST_LEVELS};"));
    says(&part, &format!("*step* e, from 0 to {step}"));
}

/// Five rows and nine columns with two levels, and a sign that both go on.
#[test]
fn the_picture_of_layers() {
    let (rows, cols, levels) = (5, 9, 2);
    let shape = Shape { rows, cols, levels };
    let layer_of = |point| {
        let layers = shape.layers();
        layers.iter().position(|layer| layer.holds(point)).unwrap()
    };
    let layers: Vec<usize> = shape.points().map(layer_of).collect();
    let lines = layers.chunks(cols as usize).map(|row| joined(row, " "));
    let mut lines: Vec<String> = lines.collect();
    lines[0] += " ..";
    shows(&section("2. Layers"), &(lines.join("\n") + "\n..\n"));
}

#[test]
fn the_spacing_of_a_layer() {
    for levels in 0..=MOST_LEVELS {
        let (rows, cols) = (1, 1);
        let layers = Shape { rows, cols, levels }.layers();
        for (layer, k) in layers.into_iter().zip(0..).skip(1) {
            let s = 1 << (levels - u64::div_ceil(k, 2));
            let expected = if k % 2 == 1 {
                Layer::Across { s }
            } else {
                Layer::Down { s }
            };
            assert_eq!(layer, expected);
        }
    }
    let part = section("2. Layers");
    says(&part, "k/2 rounded up");
    says(&part, "across where k is odd and down where it is even.");
}

#[test]
fn the_coefficient() {
    let mut random = Random::new(700);
    for _ in 0..1000 {
        let [x, y] = [(); 2].map(|()| random.between(-1 << 20, 1 << 20));
        let step = random.below(LARGEST_STEP + 1);
        let (e, w) = (step as i64, 2 * step as i64 + 1);
        let q = (x - y + e).div_euclid(w);
        assert_eq!(
            (q, y + q * w),
            (coefficient(x, y, step), rebuilt(y, q, step))
        );
        assert!(x.abs_diff(y + q * w) <= step);
    }
    says(&section("1. The sheet"), "*width* w = 2e + 1.");
    let words = "q = (x - y + e) / w rounded down, and the *rebuilt value* is y + q × w. The \
                 rebuilt value is within e of x.";
    says(&section("4. Coefficients"), words);
}

#[test]
fn the_reach_of_digits() {
    // A 1 at every odd place and at no even one, and the other way.
    let reach = |n: u64| -> (i64, i64) {
        let (odd, even): (Vec<u64>, Vec<u64>) = (0..n).partition(|p| p % 2 == 1);
        let total = |places: Vec<u64>| places.into_iter().map(weight).sum();
        (total(odd), total(even))
    };
    for n in 0..=MOST_DIGITS {
        let [h, j] = [n / 2, n.div_ceil(2)].map(|half| 4_i64.pow(half as u32));
        assert_eq!((-2 * (h - 1) / 3, (j - 1) / 3), reach(n));
        assert_eq!((low(n), high(n)), reach(n));
        assert_eq!(middle(n), (low(n) + high(n)).div_euclid(2));
    }
    let part = section("5. Digits");
    let words = "n digits reach from low(n) = -2(4^h - 1)/3 to high(n) = (4^j - 1)/3, where h is \
                 n/2 rounded down and j is n/2 rounded up,";
    says(&part, words);
    let middles = joined(&(0..=5).map(middle).collect::<Vec<_>>(), ", ");
    let words = format!(
        "Their *middle* is middle(n) = (low(n) + high(n)) / 2 rounded down: {middles} for n = 0 to \
         5."
    );
    says(&part, &words);

    let (least, greatest) = reach(MOST_DIGITS);
    assert_eq!(least, LEAST_COEFFICIENT.into());
    assert_eq!(greatest, GREATEST_COEFFICIENT.into());
    let (least, greatest) = (grouped(least), grouped(greatest));
    let words = format!("{MOST_DIGITS} digits, from {least} to {greatest}, are enough");
    says(&part, &words);
}

#[test]
fn the_lowest_digit() {
    for q in -1000..=1000_i64 {
        let lowest = q.rem_euclid(2);
        let mut digits = vec![lowest as u8];
        digits.extend(digits_of((lowest - q) / 2));
        assert_eq!(digits[..digits_of(q).len()], digits_of(q));
    }
    let words = "Digit 0 of q is q mod 2, and the digits above it are those of (digit 0 - q) / 2.";
    says(&section("5. Digits"), words);
}

#[test]
fn the_cells_of_a_card() {
    let in_a_cell = 8 * CELL_BYTES;
    for n in 0..=MOST_POINTS {
        assert_eq!(cells_of_plane(n), n.div_ceil(in_a_cell));
    }
    let part = section("6. Planes");
    says(&part, &format!("*cells* of {CELL_BYTES} bytes,"));
    let words = format!("takes n / {in_a_cell} rounded up cells a plane;");
    says(&part, &words);

    // Each layer has at most one cell that is not full.
    let of_a_place = (MOST_POINTS + MAX_LAYERS as u64 * (in_a_cell - 1)) / in_a_cell;
    let cells = MOST_DIGITS * of_a_place;
    // No header is longer than this one, which no card has.
    let (rows, cols, levels) = (MOST_POINTS, MOST_POINTS, MOST_LEVELS);
    let shape = Shape { rows, cols, levels };
    let planes = [MOST_DIGITS; MAX_LAYERS];
    let losses = vec![(1..=MOST_DIGITS).map(loss).collect(); MAX_LAYERS];
    let header = print(
        shape,
        Curve::Linear,
        LARGEST_STEP,
        &planes,
        Some(&losses),
        cells,
    );
    assert!(header.len() + (cells * CELL_BYTES) as usize <= OUTPUT_BYTES);
    let (cells, bytes) = (grouped(cells), grouped(OUTPUT_BYTES));
    let words = format!("A card has at most {cells} cells and at most {bytes} bytes.");
    says(&section("7. The card"), &words);
}

#[test]
fn the_lines_of_a_header() {
    let part = section("7. The card");
    let header = open(&bench::written_card()).unwrap().print();
    for (line, number) in String::from_utf8(header).unwrap().lines().zip(1..) {
        let (key, _) = line.split_once('=').unwrap();
        says(&part, &format!("| {number} | `{key}` |"));
    }
    // An old card's header has all of these lines but one.
    let lines = bench::card().split(|&byte| byte == 10).count() - 1;
    assert_eq!(lines, 7);
    assert!(bench::LINES[lines - 1].starts_with(b"cells="));
    assert!(open(&bench::card()).unwrap().losses.is_none());
    let words = format!(
        "An *old card*, written before losses were measured, has no line `loss`, and its line \
         {lines} is `cells`. A card is an old one exactly where its line {lines} does not begin \
         with `loss=`."
    );
    says(&part, &words);
}

/// The numbers of the line for layer k and d = 1 to P_k, by their places in it.
#[test]
fn the_line_of_losses() {
    let mut random = Random::new(702);
    for _ in 0..100 {
        let card = Case::small(&mut random).write().card;
        let opened = open(&card).unwrap();
        let line = card.split(|&byte| byte == 10).nth(6).unwrap();
        let line = std::str::from_utf8(line).unwrap();
        let numbers: Vec<u64> = line["loss=".len()..]
            .split(',')
            .filter(|text| !text.is_empty())
            .map(|text| text.parse().unwrap())
            .collect();
        let mut place = 0;
        for (layer, &planes) in opened.planes.iter().enumerate() {
            for d in 1..=planes {
                assert_eq!(loss_of(&opened, layer, d), numbers[place]);
                assert!(numbers[place] <= loss(d));
                place += 1;
            }
            assert_eq!(loss_of(&opened, layer, 0), 0);
        }
        assert_eq!(place, numbers.len());
        let old = open(&old(&card)).unwrap();
        for (layer, &planes) in old.planes.iter().enumerate() {
            assert!((0..=planes).all(|d| loss_of(&old, layer, d) == loss(d)));
        }
    }
    let words = "for each layer in order, for d = 1 to P_k, its measured loss for d digits \
                 (section 9), commas between all of them; nothing where there are no planes |";
    says(&section("7. The card"), words);
    let part = section("9. The figure");
    let words = "Its *measured loss* for d digits is the largest distance met, over its points, \
                 between what the d low digits of the coefficient come to and middle(d). The \
                 writer measures it for d = 1 to P_k and puts it on the card (section 7). It is \
                 never above loss(d).";
    says(&part, words);
    let words = "loss_k(d) is what layer k of a card loses: 0 where d is 0, otherwise the number of \
                 its line `loss` for layer k and d; of an old card, which has no such line, loss(d).";
    says(&part, words);
    says(&part, "Then the layer adds its own loss_k(d) × w.");
}

#[test]
fn the_planes_before_a_plane() {
    let mut random = Random::new(701);
    for _ in 0..100 {
        let counts: Vec<u64> = (0..5).map(|_| random.below(MOST_DIGITS + 1)).collect();
        // A point a layer, so that a plane is a cell.
        for plane in card_order(&counts, &[1; 5]) {
            let before = |j: usize| {
                let first_not_before = plane.place + u64::from(j >= plane.layer);
                counts[j].saturating_sub(first_not_before)
            };
            assert_eq!(plane.first_cell, (0..5).map(before).sum());
        }
    }
    let part = section("7. The card");
    let words = "P_j - p planes where j < k, and P_j - p - 1 where not, or none where that is \
                 below 0.";
    says(&part, words);
    let words = format!("for each place p from {} down to 0,", MOST_DIGITS - 1);
    says(&part, &words);
}

#[test]
fn losses_and_carries() {
    assert_eq!(loss(0), 0);
    for d in 1..=MOST_DIGITS {
        assert_eq!(loss(d), 2_u64.pow(d as u32 - 1));
        assert_eq!(high(d).abs_diff(low(d)) + 1, 2_u64.pow(d as u32));
        assert_eq!(high(d) - middle(d), loss(d) as i64);
        assert_eq!(middle(d) - low(d), loss(d) as i64 - 1);
    }
    for m in 0..1000 {
        assert_eq!(carry(Curve::Linear, m), m);
        assert_eq!(carry(Curve::Cubic, m), (5 * m).div_ceil(4));
    }
    let losses: Vec<u64> = (0..=5).map(loss).collect();
    let losses = joined(&losses, ", ");
    let part = section("9. The figure");
    let words = format!(
        "loss(d) = 2^(d-1), and loss(0) = 0: {losses} for d = 0 to 5. (One digit or more make 2^d \
         numbers in a row, from 2^(d-1) - 1 below their middle to 2^(d-1) above it.)"
    );
    says(&part, &words);
    let words = "by the linear curve M stays M, and by the cubic one it becomes 5M / 4 rounded up";
    says(&part, words);
}

#[test]
fn narrow_layers_carry_unchanged() {
    let (levels, m) = (MOST_LEVELS, 100);
    let carried = |(rows, cols), layer| {
        let shape = Shape { rows, cols, levels };
        assert_eq!(layer_carry(shape, Curve::Linear, layer, m), m);
        layer_carry(shape, Curve::Cubic, layer, m)
    };
    for s in (0..levels).map(|power| 1 << power) {
        let ends = [6 * s, 6 * s + 1];
        // Whatever the length the other way.
        for other in ends {
            let across = ends.map(|cols| carried((other, cols), Layer::Across { s }));
            let down = ends.map(|rows| carried((rows, other), Layer::Down { s }));
            assert_eq!([across, down], [[m, carry(Curve::Cubic, m)]; 2]);
        }
    }
    let words = "But a *narrow* layer carries M unchanged, whatever the curve: a layer across is \
                 narrow where C is at most 6s, and a layer down where R is at most 6s. From 3s \
                 before a point to 3s after it there are 6s + 1 places, so none of its points has \
                 all four neighbours: each is predicted from two values or from one.";
    says(&section("9. The figure"), words);
}

#[test]
fn the_refusals() {
    let points = grouped(MOST_POINTS);
    let (step, bytes) = (grouped(LARGEST_STEP), grouped(OUTPUT_BYTES));
    let part = section("11. Refusals");
    for words in [
        format!("| {HEADER_CUT} | there is no byte 10"),
        format!("| {HEADER_LINE} | the line is not right: | which line, 1 to 8 |"),
        format!("lines 1 and 2: the size is not from 1 to {points}"),
        format!("R × C is above {points} |"),
        format!("the levels are above {MOST_LEVELS}; line 4: neither curve;"),
        format!("line 5: the step is above {step} |"),
        format!("a count above {MOST_DIGITS},"),
        "line 7, where it begins with `loss=`: not one number for each layer and each d from 1 to \
         P_k, or a number above 2^(d-1) |"
            .to_string(),
        "line 8 behind a line of losses, otherwise line 7: another number of cells than the counts \
         of line 6 make |"
            .to_string(),
        format!("| {BYTES_AFTER} | after all lines: there are bytes behind"),
        format!("**Writing.** {SHEET_SIZE}: R or C is 0, or R × C is above {points}."),
        format!("{LEVELS_OR_STEP}: L is above {MOST_LEVELS}, or e above {step}."),
        format!("{LENGTHS}: samples, coefficients or values are not R × C long,"),
        format!("has room for fewer than {bytes} bytes. {SAMPLE_RANGE}: a sample"),
        format!("Opening's; then {LENGTHS}: coefficients or values are not R × C long."),
        format!("{PLAN}: a layer is asked for more planes than are whole,"),
        format!("{BAD_PLANE}: a plane that the plan loads has a spare bit set,"),
        format!("so {PLAN} never applies to it."),
        format!("**Rolling.** All of showing's; then {PAGE}: the page is shorter"),
        format!("shorter than {LINE_BYTES} × (R × C + 1) bytes."),
        format!("in its own; then {SIZES}: rows or columns of the two differ; then"),
        format!("then {LENGTHS}: the bytes for the answer are not R × C."),
        format!("**Refining.** Opening's; {LENGTHS} as in reading; {PLAN}: the plan,"),
        format!("{COEFFICIENT}: a coefficient handed in is outside the range of {MOST_DIGITS}"),
        format!("{BAD_PLANE}: the new plane,"),
        format!("in the same order; {LENGTHS} also where the third slice is not R × C long."),
        format!("**Figure of a plan.** Opening's; {PLAN}: the plan loads more planes"),
        format!("by limit also {LIMIT}: E is below e."),
    ] {
        says(&part, &words);
    }
}

/// A value from its prediction, the coefficient handed back and the middle of the missing digits, at every point
/// of the pulled bench card.
#[test]
fn missing_digits() {
    let bench = Example::bench();
    let (shape, w) = (bench.opened.shape(), width(bench.case.step) as i64);
    for length in (bench.opened.header_length..=bench::CARD_BYTES).step_by(32) {
        let (coefficients, values, Reached { plan, .. }) = bench.pulled(length).unwrap();
        for (k, layer) in shape.layers().into_iter().enumerate() {
            let d = bench.opened.planes[k] - plan[k];
            for point in shape.points_of(layer) {
                let place = shape.place(point);
                let predicted = predict(&values, shape, bench.case.curve, layer, point);
                let counted = i64::from(coefficients[place]) + middle(d);
                assert_eq!(values[place], predicted + counted * w);
            }
        }
    }
    let part = section("8. Plans, reading, refining");
    let words = format!(
        "Of layer k the lowest d digits are *missing*, where d is P_k less the planes that the plan \
         loads of it. Each coefficient q is handed back as the sum of its digits (section 5), the \
         missing ones being 0. In the values they count as their middle: in layer order, each value \
         is its prediction from the values before, plus (q + middle(d)) × w. Where none are \
         missing, that is q × w, since middle(0) = {}.",
        middle(0)
    );
    says(&part, &words);
}

/// From no planes of the bench card to three, one at a time: each time all is as showing the first so many planes
/// leaves it.
#[test]
fn missing_digits_are_refined() {
    let bench = Example::bench();
    let (mut coefficients, mut values, none) = bench.pulled(64).unwrap();
    let mut reached = none;
    for length in [96, 128, 160] {
        let (card, before) = (&bench.written.card, reached.plan);
        reached = refine(card, &before, 0, &mut coefficients, &mut values).unwrap();
        let now = (coefficients.clone(), values.clone(), reached);
        assert_eq!(bench.pulled(length), Ok(now));
    }
    let words = "All values are made anew from the coefficients, as reading with the plan reached \
                 makes them: what is still missing of any layer counts as its middle.";
    says(&section("8. Plans, reading, refining"), words);
}

#[test]
fn plans_and_answers() {
    let part = section("8. Plans, reading, refining");
    says(&part, &format!("A *plan* is {MAX_LAYERS} numbers,"));
    let part = section("12. The calls");
    for words in [
        format!("fills `answer`, {ANSWER} numbers:"),
        format!("the {MAX_LAYERS} numbers of the plan"),
        format!("0 linear and 1 cubic; another is refusal {LEVELS_OR_STEP}."),
        format!("Where `answer` has not {ANSWER} numbers, or a plan"),
        format!("handed in not {MAX_LAYERS}, the function returns {LENGTHS} and writes nothing,"),
    ] {
        says(&part, &words);
    }
}

#[test]
fn the_roll() {
    for (rows, cols) in [(1, 1), (1, MOST_POINTS), (MOST_POINTS, 1), (64, 128)] {
        let levels = 0;
        let shape = Shape { rows, cols, levels };
        let text = printed(shape, u64::MAX, &vec![0; shape.count()]);
        assert_eq!(text.len() as u64, LINE_BYTES as u64 * (rows * cols + 1));
        assert!(text.lines().all(|line| line.len() == LINE_PLACES));
    }
    assert_eq!(ROW_PLACES + COLUMN_PLACES + VALUE_PLACES, LINE_PLACES);
    let part = section("12. The calls");
    for words in [
        format!("a printer of {LINE_PLACES} characters a line."),
        format!("The first line has the figure, right-aligned in {LINE_PLACES} places."),
        format!("its row in {ROW_PLACES} places, its column in {COLUMN_PLACES} and the"),
        format!("the value in {VALUE_PLACES}, each right-aligned."),
        "Byte 10 stands behind every line.".to_string(),
        format!("So the lines take {LINE_BYTES} × (R × C + 1) bytes:"),
    ] {
        says(&part, &words);
    }
    let words = format!("each line is exactly {LINE_PLACES} characters and byte 10,");
    says(&section("14. The three demands"), &words);
}

/// What a value can come to: each layer carries what stands before it, as the figure does where none is
/// narrow, and adds a coefficient and a middle times the width. A middle is one of the numbers that its digits
/// can be, so it is no larger than the largest coefficient.
#[test]
fn the_places_of_the_roll_are_enough() {
    for d in 0..=MOST_DIGITS {
        assert!((low(d)..=high(d)).contains(&middle(d)));
    }
    let largest = GREATEST_COEFFICIENT.max(-LEAST_COEFFICIENT) as u64;
    let own = 2 * largest * width(LARGEST_STEP);
    let most = (0..MAX_LAYERS).fold(0, |before, _| carry(Curve::Cubic, before) + own);
    let digits = VALUE_PLACES - 1;
    assert!(most < 10_u64.pow(digits as u32), "{most}");
    // The last row of a single column, and the last column of a single row.
    let last = (MOST_POINTS - 1).to_string();
    assert_eq!([ROW_PLACES, COLUMN_PLACES], [last.len(); 2]);
    let words = format!(
        "no value of any card that reading accepts has more than {VALUE_PLACES} characters with \
         its sign, since coefficients and middles of {MOST_DIGITS} digits, the largest width and \
         {MAX_LAYERS} layers cannot make one of more than {digits} digits; no row or column has more \
         than {ROW_PLACES}, and the figure, a 64-bit number, no more than {}.",
        u64::MAX.to_string().len()
    );
    says(&section("12. The calls"), &words);
}

/// The bench card and the finer one compared, each of them pulled at some byte: the answer and the bytes.
fn compared(lengths: [usize; 2]) -> (Compared, [u8; 5]) {
    let (first, second) = (bench::card(), bench::fine_card());
    let mut apart = [9; 5];
    let answer = compare(
        &first[..lengths[0]],
        &second[..lengths[1]],
        &mut [0; 5],
        &mut [0; 5],
        &mut [0; 5],
        &mut [0; 5],
        &mut apart,
    );
    (answer.unwrap(), apart)
}

const WHOLE: [usize; 2] = [bench::CARD_BYTES, bench::FINE_CARD_BYTES];
const PULLED: [usize; 2] = [160, bench::FINE_CARD_BYTES];

#[test]
fn the_comparison() {
    let ((_, bytes), (none, all_agree)) = (compared(WHOLE), compared(PULLED));
    let (agree, apart) = (bytes[0], bytes[4]);
    assert_eq!((all_agree, none.apart), ([agree; 5], 0));
    let part = section("12. The calls");
    for words in [
        "Two shown values *agree* where they differ by at most the sum of the two figures; \
         otherwise they are *apart*."
            .to_string(),
        format!("a byte is {agree} where they agree and {apart} where they are apart."),
        format!(
            "row and column of the first of them in row order, {} and {} where there is none.",
            none.first[0], none.first[1]
        ),
    ] {
        says(&part, &words);
    }
}

/// What the programs end with.
#[test]
fn the_program_trace() {
    let card = bench::card();
    let ends = |words: &[&str], card: &[u8]| trace(words, card).1;
    let [shown, rolled] = ["show", "roll"].map(|word| ends(&[word], &card));
    let refused = ends(&["roll"], &card[..63]);
    let listed = ends(&[], &card);
    assert_eq!((rolled, refused), (shown, ends(&["show"], &card[..63])));
    assert_eq!(
        [256, 63].map(|length| trace_compare(&card[..length], &card).1),
        [rolled, refused]
    );
    let part = section("12. The calls");
    for words in [
        "`trace show` prints what `show` prints of the card on standard input; `trace roll` prints \
         its roll's lines."
            .to_string(),
        format!("and the program ends with {refused}; otherwise it ends with {rolled}."),
        format!(
            "named on standard error, nothing is printed on standard output, and the program ends \
             with {listed}."
        ),
        format!(
            "printed on standard error, nothing on standard output, and the program ends with \
             {listed}."
        ),
    ] {
        says(&part, &words);
    }
}

/// The keys of the lines that `trace compare` prints, and the characters of the others.
#[test]
fn the_lines_of_a_comparison() {
    let (text, _) = trace_compare(&bench::card(), &bench::fine_card());
    let lines: Vec<&str> = text.lines().collect();
    let [apart, first, marks] = lines[..] else {
        panic!("{text}")
    };
    let key = |line: &str| line.split_inclusive('=').next().unwrap().to_string();
    assert_eq!(first.split(',').count(), 2);
    let (agree, is_apart) = (&marks[..1], &marks[4..]);
    assert_eq!(marks, agree.repeat(4) + is_apart);
    let words = format!(
        "prints `{}` and the number of points apart, `{}` with row, comma and column of the first, \
         and for each row a line of its bytes, the characters `{agree}` and `{is_apart}` with \
         nothing between them.",
        key(apart),
        key(first),
    );
    says(&section("12. The calls"), &words);
}

/// A worked example of one row and one level: what the model makes of it, and where it is told.
struct Example {
    case: Case,
    written: Written,
    opened: Opened,
    part: String,
}

/// Those at some columns.
fn at<T: Copy>(columns: &[usize], all: &[T]) -> Vec<T> {
    columns.iter().map(|&column| all[column]).collect()
}

/// A plan of the examples, which have three layers.
fn said(plan: &Plan) -> String {
    joined(&plan[..3], ",")
}

impl Example {
    /// As it is written now.
    fn new(title: &str, curve: Curve, step: u64, samples: &[i32]) -> Example {
        let case = Case {
            rows: 1,
            cols: samples.len() as u64,
            levels: 1,
            curve,
            step,
            samples: samples.to_vec(),
        };
        let written = case.write();
        Example {
            opened: open(&written.card).unwrap(),
            part: example(title),
            case,
            written,
        }
    }

    fn with_card(self, card: Vec<u8>) -> Example {
        let opened = open(&card).unwrap();
        let written = Written {
            card,
            ..self.written
        };
        Example {
            written,
            opened,
            ..self
        }
    }

    /// An old card.
    fn bench() -> Example {
        let written = Example::new("The bench card", Curve::Linear, 1, &bench::SAMPLES);
        let card = old(&written.written.card);
        written.with_card(card)
    }

    fn written_now() -> Example {
        let title = "The same samples, written now";
        Example::new(title, Curve::Linear, 1, &bench::SAMPLES)
    }

    /// What its layers lose, where a plan leaves planes out.
    fn lost(&self, plan: &Plan) -> [u64; 2] {
        [0, 1].map(|layer| loss_of(&self.opened, layer, self.opened.planes[layer] - plan[layer]))
    }

    fn fine() -> Example {
        let sheet = bench::fine_sheet();
        Example::new("Two cards", sheet.curve, sheet.step, &sheet.samples)
    }

    fn cubic() -> Example {
        Example::new("A cubic one", Curve::Cubic, 0, &[0, 5, -1, -7, 0, 3, 0])
    }

    fn says(&self, words: &str) {
        says(&self.part, words);
    }

    /// The columns of layers 0 and 1; layer 2 is empty.
    fn columns(&self) -> [Vec<usize>; 2] {
        let shape = self.opened.shape();
        let columns = |layer| -> Vec<usize> {
            let points = shape.points_of(layer).into_iter();
            points.map(|point| point.col as usize).collect()
        };
        let layers = shape.layers();
        assert_eq!(layers[1..], [Layer::Across { s: 1 }, Layer::Down { s: 1 }]);
        assert!(columns(layers[2]).is_empty());
        [columns(layers[0]), columns(layers[1])]
    }

    /// The sample, prediction, coefficient and value of a column of layer 1.
    fn across(&self, column: usize) -> [i64; 4] {
        let (shape, values) = (self.opened.shape(), &self.written.values);
        let (row, col) = (0, column as u64);
        let layer = Layer::Across { s: 1 };
        [
            self.case.samples[column].into(),
            predict(values, shape, self.case.curve, layer, Point { row, col }),
            self.written.coefficients[column].into(),
            values[column],
        ]
    }

    /// The coefficients that are not 0, by layers, with their digits.
    fn digits(&self) -> String {
        let mut coefficients = at(&self.columns().concat(), &self.written.coefficients);
        coefficients.retain(|&q| q != 0);
        digits(&coefficients.into_iter().map(i64::from).collect::<Vec<_>>())
    }

    fn header(&self) -> String {
        let header = &self.written.card[..self.opened.header_length];
        String::from_utf8(header.to_vec()).unwrap()
    }

    /// The planes in card order, those of a layer that follow each other together: "layer 1 at
    /// places 4, 3 and 2".
    fn planes(&self) -> Vec<String> {
        let planes = card_order(&self.opened.planes, &self.opened.points);
        let runs = planes.chunk_by(|one, next| one.layer == next.layer);
        runs.map(|run| {
            let places: Vec<u64> = run.iter().map(|plane| plane.place).collect();
            let noun = if run.len() == 1 { "place" } else { "places" };
            format!("layer {} at {noun} {}", run[0].layer, listed(&places))
        })
        .collect()
    }

    /// The first bytes of the cells; all others are 0.
    fn first_bytes(&self) -> Vec<u8> {
        let cells = self.written.card[self.opened.header_length..].chunks(CELL_BYTES as usize);
        cells
            .map(|cell| {
                assert!(cell[1..].iter().all(|&byte| byte == 0));
                cell[0]
            })
            .collect()
    }

    /// What is shown of the first bytes: coefficients, values, and the plan with its figure.
    fn pulled(&self, length: usize) -> Result<(Vec<i32>, Vec<i64>, Reached), Refusal> {
        let count = self.case.count();
        let (mut coefficients, mut values) = (vec![0; count], vec![0; count]);
        let bytes = &self.written.card[..length];
        let reached = show(bytes, &mut coefficients, &mut values)?;
        Ok((coefficients, values, reached))
    }
}

#[test]
fn the_bench_card_is_written() {
    let bench = Example::bench();
    let Written {
        coefficients,
        values,
        card,
    } = &bench.written;
    let (samples, e, w) = (&bench.case.samples, 1, width(1));
    let [anchors, others] = bench.columns();
    bench.says(&format!(
        "One row of five samples, {}; one level, linear, step {e}, so w = {w}. Layer 0 has the \
         columns {}, layer 1 (across, s = 1) the columns {}, and layer 2 (down) is empty.",
        joined(samples, " "),
        listed(&anchors),
        listed(&others),
    ));

    let quotient = |&column: &usize| {
        let (x, q) = (samples[column], coefficients[column]);
        format!("({x} + {e}) / {w} = {q}")
    };
    bench.says(&format!(
        "The anchors are predicted as 0: {} give the coefficients {}, and the values {}.",
        listed(&at(&anchors, samples)),
        listed(&anchors.iter().map(quotient).collect::<Vec<_>>()),
        listed(&at(&anchors, values)),
    ));
    for column in others {
        let (b, c) = (values[column - 1], values[column + 1]);
        let [x, y, q, value] = bench.across(column);
        bench.says(&format!(
            "Column {column} is predicted as ({b} + {c}) / 2 = {y}, so q = ({x} - {y} + {e}) / {w} \
             = {q} and the value is {value}.",
        ));
    }

    let Opened {
        planes,
        cells,
        header_length,
        ..
    } = &bench.opened;
    assert_eq!((planes[2], *cells), (0, planes.iter().sum()));
    bench.says(&format!(
        "Digits, highest first: {}. So layer 0 has {} planes, layer 1 has {}, layer 2 none: \
         {cells} planes of one cell each.",
        bench.digits(),
        planes[0],
        planes[1],
    ));
    bench.says(&format!(
        "The header has {header_length} bytes and the card {}:",
        card.len()
    ));
    shows(&bench.part, &bench.header());
}

#[test]
fn the_planes_of_the_bench_card() {
    let bench = Example::bench();
    let planes = bench.planes();
    let [first, second] = &planes[..] else {
        panic!("{planes:?}")
    };
    let bytes = bench.first_bytes();
    bench.says(&format!(
        "The planes are those of {first} and that of {second}. Their first bytes are {}, and all \
         other bytes are 0.",
        listed(&bytes),
    ));
    let weights = [0, 1, 2].map(|anchor| 1 << anchor);
    let at_place_2 = weights.iter().sum();
    assert_eq!(bytes[2], at_place_2);
    bench.says(&format!(
        "At place 2, for example, all three anchors have a 1: {} = {at_place_2}.",
        joined(&weights, " + "),
    ));
}

#[test]
fn the_bench_card_is_pulled() {
    let bench = Example::bench();
    let (e, w) = (1, width(1));
    let (coefficients, values, Reached { plan, figure }) = bench.pulled(160).unwrap();
    let [first, second] = [0, 1].map(|layer| bench.opened.planes[layer] - plan[layer]);
    let [anchors, _] = bench.columns();
    // The anchors' coefficients, and as they count in the values.
    let listed_at = |missing: u64, coefficients: &[i32]| {
        let plain = at(&anchors, coefficients);
        let counted = plain.iter().map(|&q| i64::from(q) + middle(missing));
        let counted = listed(&counted.collect::<Vec<_>>());
        (listed(&plain), counted)
    };
    let (plain, counted) = listed_at(first, &coefficients);
    bench.says(&format!(
        "Pulled at byte 160 it holds {} planes. The anchors' digits at places {} are missing, so \
         the coefficients are {plain}, and count as {counted} in the values, since middle({first}) \
         = {}. The one digit of layer 1 counts as middle({second}) = {}. The values are {} (in row \
         order), the plan is {} and the figure is {e} + (loss({first}) × {w} + loss({second}) × \
         {w}) = {e} + {} + {} = {figure}.",
        plan.iter().sum::<u64>(),
        listed(&(0..first).rev().collect::<Vec<_>>()),
        middle(first),
        middle(second),
        joined(&values, " "),
        said(&plan),
        loss(first) * w,
        loss(second) * w,
    ));

    let (coefficients, values, two) = bench.pulled(159).unwrap();
    let (plain, counted) = listed_at(bench.opened.planes[0] - two.plan[0], &coefficients);
    let (_, all_alike, none) = bench.pulled(64).unwrap();
    assert_eq!(none.plan, [0; MAX_LAYERS]);
    let all = bench.opened.planes[0];
    bench.says(&format!(
        "Pulled at byte 159 the third plane is not whole: plan {}, coefficients {plain}, which \
         count as {counted}, values {}, figure {}. At byte 64: no planes, the anchors count as \
         middle({all}) = {}, values {}, figure {}. At byte 63 the header is cut: refusal {}.",
        said(&two.plan),
        joined(&values, " "),
        two.figure,
        middle(all),
        joined(&all_alike, " "),
        none.figure,
        bench.pulled(63).unwrap_err().number,
    ));
}

#[test]
fn the_bench_card_is_rolled() {
    let bench = Example::bench();
    let count = bench.case.count();
    let mut page = vec![0; page_bytes(count)];
    let (mut coefficients, mut values) = (vec![0; count], vec![0; count]);
    let card = &bench.written.card[..160];
    roll(card, &mut coefficients, &mut values, &mut page).unwrap();
    let page = String::from_utf8(page).unwrap();
    assert_eq!(page.lines().count(), 6);
    bench.says(&format!(
        "Rolled, those 160 bytes make six lines, {} bytes:",
        page.len()
    ));
    shows(&bench.part, &page);
}

#[test]
fn the_bench_card_is_planned() {
    let bench = Example::bench();
    let card = &bench.written.card;
    let by_limit = |limit| plan_by_limit(card, limit).unwrap();
    let [ten, nine, one] = [10, 9, 1].map(by_limit);
    let tied = plan(&[3, 1]);
    assert_eq!(figure(card, &tied), Ok(nine.figure));
    assert_eq!(tied.iter().sum::<u64>(), nine.cells, "a plane is a cell");
    assert_eq!(one.cells, bench.opened.cells);
    bench.says(&format!(
        "By limit 10 the plan is {} with {} cells. By limit 9 it is {} with {} cells and the \
         figure {}; {} has the same cells and figure, and loads more of a later layer. By limit 1 \
         it is {}, all {} cells. By limit 0, refusal {}.",
        said(&ten.plan),
        ten.cells,
        said(&nine.plan),
        nine.cells,
        nine.figure,
        said(&tied),
        said(&one.plan),
        one.cells,
        plan_by_limit(card, 0).unwrap_err().number,
    ));
    let Planned { plan, figure, .. } = plan_by_cells(card, 5).unwrap();
    let plan = said(&plan);
    bench.says(&format!(
        "In 5 cells it is {plan} with the figure {figure}."
    ));
}

/// The measured losses of the bench card's samples, digit by digit.
#[test]
fn the_losses_of_the_same_samples() {
    let now = Example::written_now();
    let [anchors, others] = now.columns();
    let coefficients = |columns: &[usize]| -> Vec<i64> {
        let of_layer = at(columns, &now.written.coefficients);
        of_layer.into_iter().map(i64::from).collect()
    };
    let (first, second) = (coefficients(&anchors), coefficients(&others));
    let planes = &now.opened.planes;
    let digits = |q: i64, d: u64| (0..d).map(move |p| digits_of(q).get(p as usize) == Some(&1));
    let highest_first = |q: i64| -> String {
        let digits: Vec<bool> = digits(q, planes[0]).collect();
        let digits = digits.into_iter().rev();
        digits.map(|digit| if digit { '1' } else { '0' }).collect()
    };
    let written: Vec<String> = first.iter().map(|&q| highest_first(q)).collect();
    now.says(&format!(
        "The anchors' coefficients are {}, in five digits {}:",
        listed(&first),
        listed(&written),
    ));
    let come_to = |q: i64, d: u64| -> i64 {
        let places = digits(q, d).zip(0..);
        places
            .filter(|(digit, _)| *digit)
            .map(|(_, p)| weight(p))
            .sum()
    };
    let losses = measured(&first, planes[0]);
    for (&loss, d) in losses.iter().zip(1..) {
        let low: Vec<i64> = first.iter().map(|&q| come_to(q, d)).collect();
        let distance = low.iter().map(|low| low.abs_diff(middle(d))).max();
        assert_eq!(distance, Some(loss));
        now.says(&format!(
            "| {d} | {} | {} | {loss} |",
            listed(&low),
            middle(d),
        ));
    }
    assert!(losses[4] < losses[3]);
    assert_eq!(planes[1..], [1, 0]);
    let header = now.header();
    let lines: Vec<&str> = header.lines().collect();
    now.says(&format!(
        "All five lose less than four of them. The one digit of layer 1 is {} or {}, with the \
         middle {}: it loses {}. So `{}` stands behind `{}`, and `{}` is line 8: the header has {} \
         bytes and the card {}.",
        second[0],
        second[1],
        middle(1),
        measured(&second, 1)[0],
        lines[6],
        lines[5],
        lines[7],
        header.len(),
        now.written.card.len(),
    ));
}

#[test]
fn the_same_samples_are_pulled() {
    let (bench, now) = (Example::bench(), Example::written_now());
    let (e, w) = (1, width(1));
    let three = now.pulled(177).unwrap();
    let of_bench = bench.pulled(160).unwrap();
    assert_eq!(
        (&three.0, &three.1, three.2.plan),
        (&of_bench.0, &of_bench.1, of_bench.2.plan)
    );
    let [own, across] = now.lost(&three.2.plan);
    let [two, none] = [176, 81].map(|length| now.pulled(length).unwrap().2);
    assert_eq!(none.plan, [0; MAX_LAYERS]);
    now.says(&format!(
        "Pulled at byte 177 it holds {} planes: plan, coefficients and values are those of the bench \
         card pulled at byte 160, and the figure is {e} + ({own} × {w} + {across} × {w}) = {}. At \
         byte 176: plan {}, figure {}. At byte 81: no planes, figure {}. At byte 80 the header is \
         cut: refusal {}.",
        three.2.plan.iter().sum::<u64>(),
        three.2.figure,
        said(&two.plan),
        two.figure,
        none.figure,
        now.pulled(80).unwrap_err().number,
    ));
    let first = plan(&[1]);
    let more = figure(&now.written.card, &first).unwrap();
    let [own, across] = now.lost(&first);
    assert!(more > none.figure);
    now.says(&format!(
        "With the first plane of the anchors alone, plan {}, the figure is {e} + ({own} × {w} + \
         {across} × {w}) = {more}, more than with none.",
        said(&first),
    ));
}

#[test]
fn the_same_samples_are_planned() {
    let now = Example::written_now();
    let card = &now.written.card;
    let [nine, four, one] = [9, 4, 1].map(|limit| plan_by_limit(card, limit).unwrap());
    let other = plan(&[4, 1]);
    assert_eq!(figure(card, &other), Ok(four.figure));
    assert_eq!(
        other.iter().sum::<u64>(),
        four.cells + 1,
        "a plane is a cell"
    );
    assert_eq!(one.cells, now.opened.cells);
    let [least, most] = [1, 5].map(|cells| plan_by_cells(card, cells).unwrap());
    now.says(&format!(
        "By limit 9 the plan is {} with {} cells and the figure {}. By limit 4 it is {} with {} \
         cells and the figure {}; {} has the same figure and a cell more. By limit 1 it is {}, all \
         {} cells. By limit 0, refusal {}. In 1 cell it is {} with the figure {}, and in 5 cells {} \
         with the figure {}.",
        said(&nine.plan),
        nine.cells,
        nine.figure,
        said(&four.plan),
        four.cells,
        four.figure,
        said(&other),
        said(&one.plan),
        one.cells,
        plan_by_limit(card, 0).unwrap_err().number,
        said(&least.plan),
        least.figure,
        said(&most.plan),
        most.figure,
    ));
}

/// Another line is read by its own numbers, and written back as measured.
#[test]
fn another_line_for_the_same_samples() {
    let (bench, now) = (Example::bench(), Example::written_now());
    let closed = most(&now.opened);
    let card = with_losses(&now.written.card, &closed);
    for planes in 0..=now.opened.planes[0] {
        let plan = plan(&[planes]);
        assert_eq!(figure(&card, &plan), figure(&bench.written.card, &plan));
    }
    let (mut coefficients, mut values) = ([0; 5], [0; 5]);
    for card in [&card, &bench.written.card] {
        show(card, &mut coefficients, &mut values).unwrap();
        let again = Case {
            samples: values.map(|value| value as i32).to_vec(),
            ..now.case.clone()
        };
        assert_eq!(again.write().card, now.written.card);
    }
    now.says(&format!(
        "A card with the line `loss={}` in its place is read too, and has the figures of the bench \
         card. Its values written back give the card above, and so do those of the bench card.",
        joined(&closed, ","),
    ));
}

/// From three planes of its anchors, with a plane more of each layer.
#[test]
fn the_bench_card_is_previewed() {
    let bench = Example::bench();
    let (card, part) = (&bench.written.card, example("Look before refining"));
    let (coefficients, values, from) = bench.pulled(160).unwrap();
    let [anchors, others] = bench.columns();
    says(
        &part,
        &format!(
            "The whole bench card, read with {}, has the coefficients {} (in row order), the values \
             {} and the figure {}, as above.",
            said(&from.plan),
            joined(&coefficients, " "),
            joined(&values, " "),
            from.figure,
        ),
    );
    let look = |layer| -> Result<(Vec<i64>, Reached), Refusal> {
        let mut next = vec![0; values.len()];
        let reached = preview(card, &from.plan, layer, &coefficients, &values, &mut next)?;
        Ok((next, reached))
    };

    let (next, Reached { plan, figure }) = look(0).unwrap();
    let p = bench.opened.planes[0] - plan[0];
    let mut refined = coefficients.clone();
    refine(card, &from.plan, 0, &mut refined, &mut values.clone()).unwrap();
    assert_eq!(bench.first_bytes()[from.plan[0] as usize], 0b101);
    assert_eq!((p, middle(p)), (1, 0));
    says(
        &part,
        &format!(
            "A preview of layer 0 adds its plane at place {p}, in which the first and the third \
             anchor have a 1, of weight {}: {}. One digit is still missing, and middle({p}) = {}: \
             the anchors' values are {}, and the others are predicted as {}. So the third slice \
             holds {}, and the answer is the plan {} with the figure {figure}.",
            weight(p),
            listed(&at(&anchors, &refined)),
            middle(p),
            listed(&at(&anchors, &next)),
            listed(&at(&others, &next)),
            joined(&next, " "),
            said(&plan),
        ),
    );

    let (next, Reached { plan, figure }) = look(1).unwrap();
    assert_eq!(plan[1], bench.opened.planes[1]);
    says(
        &part,
        &format!(
            "A preview of layer 1 adds its one plane, in which column 1 has a 1. The anchors stay \
             {}, column 1 is {} and column 3 is {}: {}, and the answer is {} with the figure \
             {figure}.",
            listed(&at(&anchors, &values)),
            sum(values[1], next[1] - values[1]),
            next[3],
            joined(&next, " "),
            said(&plan),
        ),
    );
    let Refusal { number, details } = look(2).unwrap_err();
    says(
        &part,
        &format!(
            "A preview of layer 2 is refused ({number}, detail {}).",
            details[0]
        ),
    );
}

#[test]
fn the_finer_card_is_written() {
    let fine = Example::fine();
    let Written { values, card, .. } = &fine.written;
    let [anchors, others] = fine.columns();
    assert_eq!(others, [1, 3]);
    assert!(is_narrow(fine.opened.shape(), Layer::Across { s: 1 }));
    let predicted = |column: usize| {
        let [_, y, q, _] = fine.across(column);
        let (b, c) = (values[column - 1], values[column + 1]);
        format!("({b} + {c}) / 2 = {y}, so q = {q}")
    };
    fine.says(&format!(
        "The bench card beside one of {}: one row of five samples, one level, cubic, step 0, so w = \
         {}. Its anchors are {}. No point of a row of five has all four neighbours: column 1 is \
         predicted as {}, and column 3 as {}.",
        joined(&fine.case.samples, " "),
        width(0),
        listed(&at(&anchors, &fine.written.coefficients)),
        predicted(1),
        predicted(3),
    ));

    let header = fine.header();
    let lines: Vec<&str> = header.lines().collect();
    fine.says(&format!(
        "Digits, highest first: {}. So `{}`, `{}` and `{}`: the header has {} bytes and the card {}.",
        fine.digits(),
        lines[5],
        lines[6],
        lines[7],
        header.len(),
        card.len(),
    ));
    let planes = fine.planes();
    let in_turn = [2, 1, 0].map(|p| [0, 1].map(|layer| format!("layer {layer} at place {p}")));
    assert_eq!(planes[1], "layer 1 at place 3");
    assert_eq!(planes[2..], in_turn.concat());
    fine.says(&format!(
        "In card order the planes are those of {}, then at place 3 that of layer 1, and of both \
         layers in turn at places 2, 1 and 0. Their first bytes are {}.",
        planes[0],
        listed(&fine.first_bytes()),
    ));
}

#[test]
fn the_two_cards_are_compared() {
    let (bench, fine) = (Example::bench(), Example::fine());
    let (_, other, exact) = fine.pulled(bench::FINE_CARD_BYTES).unwrap();
    // The values of the bench card pulled there, its figure, and how far off the finer card's are.
    let beside = |length| {
        let (_, values, reached) = bench.pulled(length).unwrap();
        let off = values.iter().zip(&other);
        let off: Vec<u64> = off.map(|(one, other)| one.abs_diff(*other)).collect();
        (values, reached.figure, off)
    };

    let (values, figure, off) = beside(bench::CARD_BYTES);
    let (answer, bytes) = compared(WHOLE);
    let sum = figure + exact.figure;
    assert_eq!(answer.apart, 1);
    assert_eq!(off.iter().filter(|&&off| off == sum).count(), 3);
    fine.says(&format!(
        "Both whole, the bench card first: {} with the figure {figure} and {} with the figure {} \
         differ by {}. At most {sum} agrees: the bytes are {}, one point is apart, the first at row \
         {} and column {}. ({sum} is the sum exactly: three points agree by \"at most\" alone.)",
        joined(&values, " "),
        joined(&other, " "),
        exact.figure,
        listed(&off),
        joined(&bytes, " "),
        answer.first[0],
        answer.first[1],
    ));

    let (values, figure, off) = beside(160);
    let (answer, _) = compared(PULLED);
    assert_eq!(answer.apart, 0);
    assert_ne!(bench.case.samples[4], fine.case.samples[4]);
    fine.says(&format!(
        "The bench card pulled at byte 160, behind three planes of its anchors: {} with the figure \
         {figure} differ by {}. All points agree, though the samples at column 4 differ:",
        joined(&values, " "),
        listed(&off),
    ));
}

#[test]
fn the_cubic_example_is_written() {
    let cubic = Example::cubic();
    let [anchors, others] = cubic.columns();
    cubic.says(&format!(
        "One row of seven samples, {}; one level, cubic, step 0, so w = {}. The anchors are the \
         columns {}: the coefficients {}.",
        joined(&cubic.case.samples, " "),
        width(0),
        listed(&anchors),
        listed(&at(&anchors, &cubic.written.coefficients)),
    ));

    assert_eq!(others, [1, 3, 5]);
    let [a, b, c, d] = at(&anchors, &cubic.written.values)[..] else {
        panic!("{anchors:?}")
    };
    let [first, second, third] = [1, 3, 5].map(|column| cubic.across(column));
    let difference = |[x, y, ..]: [i64; 4]| sum(x, -y);
    cubic.says(&format!(
        "Column 1 has no neighbour 3 before it: ({}) / 2 rounded down is {}, and q = {} = {}. \
         Column 3 has all four: (-{a} + 9 × {b} + 9 × {c} - {d}) / 16 rounded down is {}, and q = \
         {} = {}. Column 5 has none 3 after it: ({}) / 2 = {}, and q = {}.",
        sum(a, b),
        first[1],
        difference(first),
        first[2],
        second[1],
        difference(second),
        second[2],
        sum(c, d),
        third[1],
        third[2],
    ));
}

#[test]
fn the_planes_of_the_cubic_example() {
    let cubic = Example::cubic();
    let header = cubic.header();
    let lines: Vec<&str> = header.lines().collect();
    cubic.says(&format!(
        "Digits, highest first: {}. So `{}` and `{}`, and between them `{}`.",
        cubic.digits(),
        lines[5],
        lines[7],
        lines[6],
    ));
    let planes = cubic.planes();
    let [first, second, third, fourth, fifth] = &planes[..] else {
        panic!("{planes:?}")
    };
    cubic.says(&format!(
        "In card order the planes are {first}; {second}, {third}; {fourth}, {fifth}. Their first \
         bytes are {}.",
        listed(&cubic.first_bytes()),
    ));
}

#[test]
fn the_figures_of_the_cubic_example() {
    let cubic = Example::cubic();
    let (none, some) = (plan(&[]), plan(&[1, 2]));
    let missing = |plan: &Plan| [0, 1].map(|layer| cubic.opened.planes[layer] - plan[layer]);
    let [first, second] = missing(&none);
    let (_, values, _) = cubic.pulled(cubic.opened.header_length).unwrap();
    let anchor = middle(first);
    let [anchors, others] = cubic.columns();
    assert!(at(&anchors, &values).iter().all(|&value| value == anchor));
    let other = anchor + middle(second);
    assert!(at(&others, &values).iter().all(|&value| value == other));
    cubic.says(&format!(
        "With no planes the anchors are middle({first}) = {anchor}, every other column is predicted \
         as {anchor} and adds middle({second}) = {}: the values are {}.",
        middle(second),
        joined(&values, " "),
    ));

    let carried = |lost| carry(Curve::Cubic, lost);
    let of = |example: &Example, plan| figure(&example.written.card, plan).unwrap();
    let ([own, across], [own_some, across_some]) = (cubic.lost(&none), cubic.lost(&some));
    cubic.says(&format!(
        "The figure is {}: layer 0 has lost {own}, which layer 1 carries to {} / 4 rounded up, {}, \
         and adds {across}. With {} it is {}: {own_some} is carried to {}, and layer 1 adds \
         {across_some}.",
        of(&cubic, &none),
        5 * own,
        carried(own),
        said(&some),
        of(&cubic, &some),
        carried(own_some),
    ));

    let card = old(&cubic.written.card);
    let cubic = cubic.with_card(card);
    let [_, second_of_some] = [0, 1].map(|layer| cubic.opened.planes[layer] - some[layer]);
    let ([own, across], [own_some, across_some]) = (cubic.lost(&none), cubic.lost(&some));
    cubic.says(&format!(
        "On an old card of these planes the figure with none of them is {}: loss({first}) = {own} is \
         carried to {} / 4 rounded up, {}, and loss({second}) = {across}. With {} it is {}: \
         {own_some} is carried to {}, and loss({second_of_some}) = {across_some}.",
        of(&cubic, &none),
        5 * own,
        carried(own),
        said(&some),
        of(&cubic, &some),
        carried(own_some),
    ));
}

#[test]
fn the_layers_of_the_narrow_example() {
    let opened = open(&narrow::header()).unwrap();
    let (shape, step) = (opened.shape(), opened.step);
    let Shape { rows, cols, levels } = shape;
    assert_eq!((rows, cols, opened.curve), (7, 5, Curve::Cubic));
    let [_, Layer::Across { s: first }, _, Layer::Across { s: second }, _] = opened.layers[..]
    else {
        panic!("{:?}", opened.layers)
    };
    let (narrow, others): (Vec<usize>, Vec<usize>) =
        (1..=4).partition(|&layer| is_narrow(shape, opened.layers[layer]));
    assert!(cols <= 6 * second && (6 * second + 1..=6 * first).contains(&rows));
    let words = format!(
        "Seven rows of five samples; {levels} levels, cubic, step {step}, so w = {}, and \
         `planes={}` on an old card. The {cols} columns are at most 6s where s = {first} and where s = {second}, \
         and the {rows} rows are at most {} and more than {}: layers {} are narrow, and layer {} \
         is not.",
        width(step),
        joined(&opened.planes, ","),
        6 * first,
        6 * second,
        listed(&narrow),
        listed(&others),
    );
    says(&example("A narrow one"), &words);
}

/// What layers 0 to 3 lose is added up as it is, since 1, 2 and 3 are narrow; layer 4 carries it.
#[test]
fn the_figures_of_the_narrow_example() {
    let card = narrow::header();
    let opened = open(&card).unwrap();
    // The sum of the losses, what it is carried to, the digits that layer 4 misses, and the figure.
    let told = |plan: &Plan| {
        let missing = |layer: usize| opened.planes[layer] - plan[layer];
        let lost = [0, 1, 2, 3].map(missing);
        let named = lost.map(|digits| format!("loss({digits})"));
        let losses = lost.map(loss);
        let stands: u64 = losses.iter().sum();
        let sum = format!(
            "{} = {} = {stands}",
            joined(&named, " + "),
            joined(&losses, " + ")
        );
        let carried = layer_carry(opened.shape(), opened.curve, opened.layers[4], stands);
        let figure = figure(&card, plan).unwrap();
        (sum, stands, carried, missing(4), figure)
    };
    let part = example("A narrow one");
    let (sum, stands, carried, missing, figure) = told(&plan(&[]));
    let words = format!(
        "With no planes {sum} stands after layer 3. Layer 4 carries it to {} / 4 rounded up, \
         {carried}, and adds loss({missing}) = {}: the figure is {figure}.",
        grouped(5 * stands),
        loss(missing),
    );
    says(&part, &words);
    let (sum, _, carried, missing, figure) = told(&plan(&[1; 5]));
    let words = format!(
        "With one plane of each layer {sum} stands there, which is carried to {carried}, and \
         loss({missing}) = {}: the figure is {figure}.",
        loss(missing),
    );
    says(&part, &words);
}

/// Writes one row with the same sample everywhere.
fn write_row(cols: u64, step: u64, sample: i32) -> Result<u64, Refusal> {
    let count = cols as usize;
    write(
        &vec![sample; count],
        1,
        cols,
        1,
        Curve::Linear,
        step,
        &mut vec![0; count],
        &mut vec![0; count],
        &mut vec![0; OUTPUT_BYTES],
    )
}

#[test]
fn the_ends() {
    assert!(write_row(MOST_POINTS, LARGEST_STEP, LARGEST_SAMPLE).is_ok());
    let (points, step, sample) = (MOST_POINTS + 1, LARGEST_STEP + 1, LARGEST_SAMPLE + 1);
    let refused = |written: Result<u64, Refusal>| written.unwrap_err().number;
    // What 4 comes to by the layer across and then the one down of a square sheet with one level.
    let carried = |size| {
        let (rows, cols, levels) = (size, size, 1);
        let shape = Shape { rows, cols, levels };
        let by = |layer, standing| layer_carry(shape, Curve::Cubic, layer, standing);
        let across = by(Layer::Across { s: 1 }, 4);
        (across, by(Layer::Down { s: 1 }, across))
    };
    let (across, down) = carried(7);
    assert_eq!(carried(6), (4, 4));
    let words = format!(
        "Digits: {}. Carried cubically by the layers across and down of a sheet of 7 by 7 with one \
         level, 4 becomes {across}, then {down}; those of one of 6 by 6 are narrow, and it stays 4. \
         {} points pass and {} are refused ({}); step {} passes and {} is refused ({}); a sample of \
         {} is refused ({}).",
        digits(&[-1, 2, 5, 10]),
        grouped(MOST_POINTS),
        grouped(points),
        refused(write_row(points, 0, 0)),
        grouped(LARGEST_STEP),
        grouped(step),
        refused(write_row(1, step, 0)),
        grouped(sample),
        refused(write_row(1, 0, sample)),
    );
    says(&example("Ends"), &words);
}

/// README's smooth hour, as an old card and as it is written now: pulled behind some of its cells, and planned by
/// two limits.
#[test]
fn the_smooth_hour() {
    let hour = hour::sheet();
    let now = hour.write().card;
    let before = old(&now);
    let part = readme("What a smooth hour gains: ", "For a printer of");
    let cells = open(&now).unwrap().cells;
    assert_eq!(hour.curve, Curve::Cubic);
    says(
        &part,
        &format!(
            "{} speeds of a motorway hour, in hundredths of km/h ({} minutes by {} seconds, {} \
             levels, cubic, step {}; `tests/tests/common/hour.rs` makes them), pulled behind so \
             many of its {cells} cells. The line has {} bytes, and the card {} with it.",
            grouped(hour.count()),
            hour.rows,
            hour.cols,
            hour.levels,
            hour.step,
            now.len() - before.len(),
            grouped(now.len()),
        ),
    );

    let row = |title: &str, numbers: [u64; 8]| {
        let numbers = joined(&numbers.map(grouped), " | ");
        says(&part, &format!("| {title} | {numbers} |"));
    };
    let there = [0, 20, 40, 60, 80, 100, 120, cells];
    // The bytes behind which so many cells end.
    let pulled = |card: &[u8], cells: u64| {
        let length = open(card).unwrap().header_length + (cells * CELL_BYTES) as usize;
        card[..length].to_vec()
    };
    // The figure, and how far the furthest value is from its sample.
    let shown = |card: &[u8]| {
        let (mut coefficients, mut values) = (vec![0; hour.count()], vec![0; hour.count()]);
        let reached = show(card, &mut coefficients, &mut values).unwrap();
        let off = values.iter().zip(&hour.samples);
        let off = off.map(|(value, &sample)| value.abs_diff(sample.into()));
        (reached.figure, off.max().unwrap())
    };
    let [shown_before, shown_now] =
        [&before, &now].map(|card| there.map(|cells| shown(&pulled(card, cells))));
    let off = shown_now.map(|(_, off)| off);
    assert_eq!(off, shown_before.map(|(_, off)| off));
    row("cells there", there);
    row("figure before", shown_before.map(|(figure, _)| figure));
    row("figure now", shown_now.map(|(figure, _)| figure));
    row("the furthest value is off by", off);

    let half = cells / 2;
    let names = ["examples/hour-half.card", "examples/hour-half-old.card"];
    assert_eq!(
        names.map(files::bytes),
        [&now, &before].map(|card| pulled(card, half))
    );
    let [first, second] = names;
    says(
        &part,
        &format!("(`{first}` and `{second}` are the column of {half} cells.)"),
    );
    // 1 km/h and 5 km/h.
    let [[one_now, one_before], [five_now, five_before]] = [100, 500]
        .map(|limit| [&now, &before].map(|card| plan_by_limit(card, limit).unwrap().cells));
    says(
        &part,
        &format!(
            "Planned by limit, 1 km/h takes {one_now} cells where it took {one_before}, and 5 km/h \
             {five_now} where it took {five_before}."
        ),
    );
}
