//! Comparing by the model (docs/CARD.md, "The calls"). `refusals/comparing.rs` has what it refuses.

mod common;

use common::{bench, card_with, figure_by_hand, sizes_of, whole_in};
use trace_card_tests::model::{compare, open, show, Compared};
use trace_card_tests::random::cases::{small_size, Case, LARGE_SIZES};
use trace_card_tests::random::losses::{any_kind, old};
use trace_card_tests::random::sheets::{sheet, Kind};
use trace_card_tests::random::Random;

/// The coefficients and values of a card that is accepted.
fn shown(card: &[u8]) -> (Vec<i32>, Vec<i64>) {
    let count = open(card).unwrap().shape().count();
    let (mut coefficients, mut values) = (vec![9; count], vec![9; count]);
    show(card, &mut coefficients, &mut values).unwrap();
    (coefficients, values)
}

/// One way round: each card is left as showing leaves it.
fn compared_once(first: &[u8], second: &[u8]) -> (Compared, Vec<u8>) {
    let count = open(first).unwrap().shape().count();
    let (mut one_q, mut one_v) = (vec![7; count], vec![7; count]);
    let (mut other_q, mut other_v) = (vec![7; count], vec![7; count]);
    let mut marks = vec![7; count];
    let compared = compare(
        first,
        second,
        &mut one_q,
        &mut one_v,
        &mut other_q,
        &mut other_v,
        &mut marks,
    );
    assert_eq!((one_q, one_v), shown(first));
    assert_eq!((other_q, other_v), shown(second));
    (compared.unwrap(), marks)
}

/// The marks of two cards that are accepted. The number and the first point are those of the marks, and
/// all of it is the same where the cards change places.
fn compared(first: &[u8], second: &[u8]) -> (Compared, Vec<u8>) {
    let (compared, marks) = compared_once(first, second);
    assert_eq!(compared_once(second, first), (compared, marks.clone()));
    assert!(marks.iter().all(|&mark| mark <= 1));
    let apart: Vec<usize> = (0..marks.len()).filter(|&at| marks[at] == 1).collect();
    assert_eq!(compared.apart, apart.len() as u64);
    let [row, col] = compared.first;
    let cols = open(first).unwrap().cols;
    let at = (row * cols + col) as usize;
    assert!(col < cols);
    assert_eq!(at, apart.first().copied().unwrap_or(0));
    (compared, marks)
}

fn marks(first: &[u8], second: &[u8]) -> Vec<u8> {
    compared(first, second).1
}

#[test]
fn the_bench_card_and_another() {
    let other = bench::fine_sheet().write().card;
    assert_eq!(other, bench::fine_card());
    let header = open(&other).unwrap().header_length;
    assert_eq!(
        (header, other.len()),
        (bench::FINE_HEADER_BYTES, bench::FINE_CARD_BYTES)
    );
    for expected in bench::compared() {
        let [length, other_length] = expected.lengths;
        let found = compared(&bench::card()[..length], &other[..other_length]);
        assert_eq!(found, (expected.compared, expected.marks.to_vec()));
    }
}

/// A card of one row without levels: each value is its coefficient times the width, and the figure of the
/// whole card is the step.
fn row(step: u64, coefficients: &[i32]) -> Vec<u8> {
    let size = (1, coefficients.len() as u64);
    card_with(size, 0, "linear", step, coefficients)
}

/// At most the sum: steps of 1 and 2 have widths of 3 and 5, and differences of 3 agree, though they
/// are more than either figure.
#[test]
fn the_sum_of_both_figures() {
    // 3 and 0, -3 and 0, 12 and 15, -12 and -15, 18 and 15: 3 off.
    let agree = [[1, 0], [-1, 0], [4, 3], [-4, -3], [6, 3]];
    // 9 and 5, -9 and -5, 6 and 10, -6 and -10, 21 and 25: 4 off.
    let apart = [[3, 1], [-3, -1], [2, 2], [-2, -2], [7, 5]];
    let coefficients = |which: usize| -> Vec<i32> {
        let pairs = agree.iter().chain(&apart);
        pairs.map(|pair| pair[which]).collect()
    };
    let (first, second) = (row(1, &coefficients(0)), row(2, &coefficients(1)));
    let (found, marks) = compared(&first, &second);
    assert_eq!(marks, [0, 0, 0, 0, 0, 1, 1, 1, 1, 1]);
    assert_eq!((found.apart, found.first), (5, [0, 5]));
}

/// Where both steps are 0, so are the figures of whole cards: equal values alone agree.
#[test]
fn figures_of_0() {
    let (first, second) = (row(0, &[5, 5, 5, -5, 0]), row(0, &[5, 4, 6, 5, 0]));
    assert_eq!(marks(&first, &second), [0, 1, 1, 1, 0]);
}

/// The figure of a cut card has the losses of its missing planes in it. Cut at byte 160 the bench card
/// shows 9, 9, 9, 21 and 33 with the figure 10, and cut behind its header 15 five times with the figure 52.
#[test]
fn figures_of_cut_cards() {
    let card = bench::card();
    // 10 off: 19, -1 and 31; 11 off: 20 and 44.
    let exact = row(0, &[19, 20, -1, 31, 44]);
    assert_eq!(marks(&card[..160], &exact), [0, 1, 0, 0, 1]);
    assert_eq!(marks(&card[..64], &exact), [0; 5]);
    // 52 off: 67 and -37.
    let exact = row(0, &[67, 68, -37, -38, 0]);
    assert_eq!(marks(&card[..64], &exact), [0, 1, 0, 1, 0]);
    // Width 7 and figure 3, so that 55 off agrees: 70, but not 77; -35, but not -42; 63.
    let coarse = row(3, &[10, 11, -5, -6, 9]);
    assert_eq!(marks(&card[..64], &coarse), [0, 1, 0, 1, 0]);
    // A cut on both sides: 16 and 52, or 16 and 10, are more than any two values are off.
    for lengths in [[159, 64], [159, 160]] {
        let [first, second] = lengths.map(|length| &card[..length]);
        assert_eq!(marks(first, second), [0; 5]);
    }
    // A card of no planes shows zeros with a figure of its step.
    let (none, some) = (row(2, &[0; 5]), row(0, &[2, 3, -2, -3, 0]));
    assert_eq!(marks(&none, &some), [0, 1, 0, 1, 0]);
}

/// The first in row order, wherever it stands; and those behind it are counted.
#[test]
fn the_first_point_apart() {
    let card = |coefficients: &[i32]| card_with((3, 4), 0, "cubic", 0, coefficients);
    let zeros = card(&[0; 12]);
    for at in 0..12 {
        for behind in 0..12 - at {
            let mut coefficients = [0; 12];
            coefficients[at] = 1;
            coefficients[12 - behind..].fill(-1);
            let (found, marks) = compared(&card(&coefficients), &zeros);
            assert_eq!(marks, coefficients.map(|q| u8::from(q != 0)));
            assert_eq!(found.apart, 1 + behind as u64);
            assert_eq!(found.first, [at as u64 / 4, at as u64 % 4]);
        }
    }
}

#[test]
fn the_last_point_of_the_largest_sheets() {
    for (rows, cols) in [(1, 8192), (8192, 1), (64, 128), (90, 91)] {
        let mut coefficients = vec![0; (rows * cols) as usize];
        let card = |coefficients: &[i32]| card_with((rows, cols), 0, "linear", 0, coefficients);
        let zeros = card(&coefficients);
        assert_eq!(compared(&zeros, &zeros).0.apart, 0);
        *coefficients.last_mut().unwrap() = 1;
        let (found, _) = compared(&zeros, &card(&coefficients));
        assert_eq!((found.apart, found.first), (1, [rows - 1, cols - 1]));
        coefficients.fill(-1);
        let (found, _) = compared(&zeros, &card(&coefficients));
        assert_eq!((found.apart, found.first), (rows * cols, [0, 0]));
    }
}

/// The figure that a card is shown with, from the planes that are whole in it.
fn figure_of(card: &[u8]) -> u64 {
    let opened = open(card).unwrap();
    let whole = whole_in(&opened, card.len());
    figure_by_hand(&opened, &sizes_of(&opened), &whole)
}

/// Cards of any coefficients, cut anywhere behind their headers: each mark by the values and figures
/// themselves, with differences from 0 up to the largest.
#[test]
fn coefficients_made_up() {
    let mut random = Random::new(631);
    let (mut agree, mut apart, mut at_the_sum) = (0, 0, 0);
    for _ in 0..3000 {
        let (rows, cols) = small_size(&mut random);
        let most = random.pick(&[3, 50, 1000, 2_796_202]);
        let [first, second] = [(); 2].map(|()| {
            let coefficients: Vec<i32> = (0..rows * cols)
                .map(|_| random.between(-most, most) as i32)
                .collect();
            let (levels, step) = (random.below(4), random.pick(&[0, 1, 2, 300, 65_535]));
            let curve = random.pick(&["linear", "cubic"]);
            let card = card_with((rows, cols), levels, curve, step, &coefficients);
            let mut card = any_kind(&mut random, card);
            let header = open(&card).unwrap().header_length;
            if random.once_in(2) {
                card.truncate(random.length(header, card.len()));
            }
            card
        });
        let most_apart = i128::from(figure_of(&first)) + i128::from(figure_of(&second));
        let (one, other) = (shown(&first).1, shown(&second).1);
        for ((mark, one), other) in marks(&first, &second).into_iter().zip(one).zip(other) {
            let difference = (i128::from(one) - i128::from(other)).abs();
            assert_eq!(mark == 1, difference > most_apart);
            agree += usize::from(mark == 0);
            apart += usize::from(mark == 1);
            at_the_sum += usize::from((most_apart..=most_apart + 1).contains(&difference));
        }
    }
    assert!(agree > 10_000 && apart > 10_000, "{agree} {apart}");
    assert!(at_the_sum > 500, "{at_the_sum}");
}

/// Two sheets of one size, each with settings of its own, that are equal at some points.
fn alike(random: &mut Random, (rows, cols): (u64, u64)) -> [Case; 2] {
    let kind = random.pick(&[
        Kind::Smooth,
        Kind::Quiet,
        Kind::Noise,
        Kind::Ends,
        Kind::Flat,
    ]);
    let mut cases = [(); 2].map(|()| Case::of_kind(random, kind, rows, cols));
    for case in &mut cases {
        // Small steps leave more apart.
        if random.once_in(2) {
            case.step = random.below(3);
        }
    }
    let others = sheet(random, Kind::Noise, rows, cols);
    let one_in = random.pick(&[1, 2, 10, u64::MAX]);
    let nearness = random.pick(&[3, 100, 5000]);
    let samples = cases[0].samples.clone();
    for (place, sample) in samples.into_iter().enumerate() {
        cases[1].samples[place] = if !random.once_in(one_in) {
            sample
        } else if random.once_in(2) {
            others[place]
        } else {
            let near = i64::from(sample) + random.between(-nearness, nearness);
            near.clamp(-1_048_575, 1_048_575) as i32
        };
    }
    cases
}

/// The card of a sheet, or that which an old writer would have written, whole or cut anywhere from the end of its
/// header on.
fn cut(random: &mut Random, case: &Case) -> Vec<u8> {
    let mut card = case.write().card;
    if random.once_in(3) {
        card = old(&card);
    }
    let header = open(&card).unwrap().header_length;
    let length = match random.below(4) {
        0 => card.len(),
        1 => random.length(header, card.len()),
        2 => header,
        // Late, so that few planes are missing.
        _ => card.len() - random.length(0, card.len() - header).min(200),
    };
    card.truncate(length);
    card
}

/// What the request promises: where two points are apart, the two samples did differ. And they are apart
/// where the samples differ by more than both figures twice.
#[test]
fn points_apart_did_differ() {
    let mut random = Random::new(632);
    let mut sizes: Vec<(u64, u64)> = (0..4000).map(|_| small_size(&mut random)).collect();
    sizes.extend(LARGE_SIZES);
    let (mut apart, mut equal, mut differ) = (0, 0, 0);
    for size in sizes {
        let cases = alike(&mut random, size);
        let [first, second] = cases.each_ref().map(|case| cut(&mut random, case));
        let both = figure_of(&first) + figure_of(&second);
        for (place, mark) in marks(&first, &second).into_iter().enumerate() {
            let [one, other] = cases.each_ref().map(|case| case.samples[place]);
            let difference = u64::from(one.abs_diff(other));
            assert!(mark == 0 || difference > 0);
            assert!(mark == 1 || difference <= 2 * both);
            match (mark, difference) {
                (1, _) => apart += 1,
                (_, 0) => equal += 1,
                _ => differ += 1,
            }
        }
    }
    assert!(apart > 10_000, "{apart}");
    assert!(equal > 10_000 && differ > 10_000, "{equal} {differ}");
}

/// Two cuts of one card agree everywhere, and so do any two cards of one sheet.
#[test]
fn cards_of_one_sheet() {
    let mut random = Random::new(633);
    for _ in 0..1000 {
        let (rows, cols) = small_size(&mut random);
        let [mut first, second] = alike(&mut random, (rows, cols));
        let cards = [(); 2].map(|()| cut(&mut random, &first));
        assert_eq!(compared(&cards[0], &cards[1]).0.apart, 0);
        first.samples.clone_from(&second.samples);
        let cards = [first, second].map(|case| cut(&mut random, &case));
        assert_eq!(compared(&cards[0], &cards[1]).0.apart, 0);
    }
}
