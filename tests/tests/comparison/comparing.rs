//! Comparing: every mark is worked out from what the two cards show too, apart from the model.

use super::both::{check, compare, show, written, Slices, A, B, Q, V};
use super::calls::{Call, Memory, Slice};
use super::common::card_with;
use super::common::extremes::Sheet;
use super::common::faults::faulty_comparisons;
use trace_card_tests::boundary::ANSWER;
use trace_card_tests::model::{open, Compared, Refusal};
use trace_card_tests::random::cases::{small_size, Case, CURVES, LARGE_SIZES};
use trace_card_tests::random::losses::any_kind;
use trace_card_tests::random::sheets::Kind;
use trace_card_tests::random::Random;

/// What a card shows in slices for so many points: the slices, and the figure.
fn shown(card: &[u8], points: usize) -> Result<(Slices, u64), Refusal> {
    let mut slices = Slices::new(points);
    let reached = show(card, &mut slices)?;
    Ok((slices, reached.figure))
}

/// Compares in slices for so many points of each card, the marks as the first. An accepted comparison leaves
/// each card as it is shown, each mark is that of its values and of both figures, and where the cards change
/// places nothing else does. A refused one is refused for the first card that is not shown, or with 13.
fn compare_in(cards: [&[u8]; 2], points: [usize; 2]) -> Result<Vec<u8>, Refusal> {
    let mut slices = points.map(Slices::new);
    let mut marks = vec![B; points[0]];
    let compared = compare(cards, &mut slices, &mut marks);
    let refused = |refusal| {
        assert_eq!(compared, Err(refusal));
        Err(refusal)
    };
    let shown = [0, 1].map(|card| shown(cards[card], points[card]));
    let [(first, first_figure), (second, second_figure)] = match shown {
        [Ok(first), Ok(second)] => [first, second],
        [Err(refusal), _] | [_, Err(refusal)] => return refused(refusal),
    };
    let opened = cards.map(|card| open(card).expect("a card that is shown opens"));
    let [size, other_size] = opened.map(|opened| (opened.rows, opened.cols));
    if size != other_size {
        return refused(Refusal::plain(13));
    }

    let most = i128::from(first_figure) + i128::from(second_figure);
    let is_apart = |place: usize| {
        let [one, other] = [&first, &second].map(|shown| i128::from(shown.values[place]));
        (one - other).abs() > most
    };
    let expected: Vec<u8> = (0..points[0]).map(|at| u8::from(is_apart(at))).collect();
    assert_eq!(marks, expected);
    let cols = size.1;
    let place = marks.iter().position(|&mark| mark == 1).unwrap_or(0) as u64;
    let apart = marks.iter().filter(|&&mark| mark == 1).count() as u64;
    let expected = Compared {
        apart,
        first: [place / cols, place % cols],
    };
    assert_eq!(compared, Ok(expected));
    assert_eq!(slices, [first.clone(), second.clone()]);

    let mut slices = points.map(Slices::new);
    let mut turned = vec![B; points[0]];
    let compared = compare([cards[1], cards[0]], &mut slices, &mut turned);
    assert_eq!((compared, &turned), (Ok(expected), &marks));
    assert_eq!(slices, [second, first]);
    Ok(marks)
}

/// A sheet of the same size with settings of its own, and samples that are equal, that differ in some places,
/// or all.
fn beside(random: &mut Random, case: &Case) -> Case {
    let mut other = Case::of_size(random, case.rows, case.cols);
    let one_in = random.pick(&[1, 3, 20, u64::MAX]);
    for (sample, same) in other.samples.iter_mut().zip(&case.samples) {
        if !random.once_in(one_in) {
            *sample = *same;
        }
    }
    other
}

/// How many comparisons had no point apart, some and all, and how many were refused.
#[derive(Debug, Default)]
struct Met {
    none: usize,
    some: usize,
    all: usize,
    refused: usize,
}

impl Met {
    fn count(&mut self, marks: &Result<Vec<u8>, Refusal>) {
        let met = match marks {
            Err(_) => &mut self.refused,
            Ok(marks) if !marks.contains(&1) => &mut self.none,
            Ok(marks) if !marks.contains(&0) => &mut self.all,
            Ok(_) => &mut self.some,
        };
        *met += 1;
    }
}

/// Each cut of a card beside the whole of another, and beside some cut of it.
#[test]
fn every_cut_of_small_cards() {
    let mut random = Random::new(641);
    let mut met = Met::default();
    for _ in 0..5 {
        let case = Case::small(&mut random);
        let other = beside(&mut random, &case);
        let points = [case.count(); 2];
        let [first, second] = [case, other].map(|case| any_kind(&mut random, written(&case)));
        for length in 0..=first.len() {
            let cut = random.length(0, second.len());
            for second in [&second[..], &second[..cut]] {
                met.count(&compare_in([&first[..length], second], points));
            }
        }
    }
    assert!(met.none > 500 && met.some > 500, "{met:?}");
    assert!(met.refused > 500, "{met:?}");
}

#[test]
fn made_cards() {
    let mut random = Random::new(642);
    let mut met = Met::default();
    for _ in 0..2000 {
        let case = Case::small(&mut random);
        let other = beside(&mut random, &case);
        let points = [case.count(); 2];
        let [first, second] = [case, other].map(|case| {
            let mut card = any_kind(&mut random, written(&case));
            let header = open(&card).unwrap().header_length;
            if random.once_in(3) {
                card.truncate(random.length(header, card.len()));
            }
            card
        });
        met.count(&compare_in([&first, &second], points));
    }
    assert!(met.none > 100 && met.some > 100, "{met:?}");
    assert!(met.all > 100 && met.refused == 0, "{met:?}");
}

#[test]
fn the_largest_cards() {
    let mut random = Random::new(643);
    let mut met = Met::default();
    for (rows, cols) in LARGE_SIZES {
        for curve in CURVES {
            for kind in [Kind::Smooth, Kind::Noise, Kind::Ends] {
                let mut case = Case::of_kind(&mut random, kind, rows, cols);
                (case.curve, case.levels) = (curve, random.pick(&[0, 3, 6]));
                let points = [case.count(); 2];
                let second = written(&beside(&mut random, &case));
                let [first, second] =
                    [written(&case), second].map(|card| any_kind(&mut random, card));
                let header = open(&first).unwrap().header_length;
                let cut = random.length(header, first.len());
                for length in [first.len(), cut, header] {
                    met.count(&compare_in([&first[..length], &second], points));
                }
            }
        }
    }
    assert!(
        met.none > 10 && met.some > 10 && met.refused == 0,
        "{met:?}"
    );
}

/// The last point of a sheet, and points at both ends of runs of every length, apart alone.
#[test]
fn single_points_apart() {
    let mut random = Random::new(644);
    for (rows, cols) in [(1, 300), (300, 1), (17, 16), (1, 1), (64, 128), (1, 8192)] {
        let points = (rows * cols) as usize;
        let zeros = card_with((rows, cols), 0, "linear", 0, &vec![0; points]);
        let mut places: Vec<usize> = (0..points.min(300)).collect();
        places.extend([points - 1, points / 2, random.below(points as u64) as usize]);
        for place in places {
            let mut coefficients = vec![0; points];
            coefficients[place] = random.pick(&[1, -1]);
            let card = card_with((rows, cols), 0, "cubic", 0, &coefficients);
            let marks = compare_in([&zeros, &card], [points; 2]).unwrap();
            assert_eq!(marks[place], 1);
            assert_eq!(marks.iter().filter(|&&mark| mark == 1).count(), 1);
        }
    }
}

/// Values at the ends of what any card shows, beside each other and beside those of a card of no planes.
#[test]
fn the_largest_and_the_smallest_values() {
    for size in [(64, 128), (90, 91), (1, 8192), (8192, 1)] {
        let points = (size.0 * size.1) as usize;
        let sheet = Sheet::new(size, 6);
        let [largest, smallest] = [true, false].map(|largest| sheet.extreme(largest));
        let none = card_with(size, 0, "linear", 0, &vec![0; points]);
        let cards = [&largest.card, &smallest.card, &none];
        for (one, other) in [(0, 1), (0, 2), (1, 2)] {
            let marks = compare_in([cards[one], cards[other]], [points; 2]).unwrap();
            assert!(marks.contains(&1));
        }
        for card in cards {
            let marks = compare_in([card, card], [points; 2]).unwrap();
            assert!(!marks.contains(&1));
        }
    }
}

/// Values whose difference is the sum of both figures, or one more or less.
#[test]
fn at_the_sum_of_both_figures() {
    let mut random = Random::new(645);
    let mut met = [0; 3];
    for _ in 0..500 {
        let cols = 1 + random.below(40);
        let steps = [(); 2].map(|()| random.pick(&[0, 1, 2, 3, 50, 65_535]));
        let sum = (steps[0] + steps[1]) as i64;
        let widths = steps.map(|step| 2 * step as i64 + 1);
        let mut off = Vec::new();
        let mut coefficients = [vec![], vec![]];
        for _ in 0..cols {
            // Without levels a value is its coefficient times the width. The second is about as far off as
            // the sum, one way or the other.
            let one = random.between(-20_000, 20_000);
            let aim = one * widths[0] + random.pick(&[-sum, sum]) + random.between(-1, 1);
            let other = aim.div_euclid(widths[1]).clamp(-2_796_202, 2_796_202);
            off.push((one * widths[0] - other * widths[1]).abs());
            coefficients[0].push(one as i32);
            coefficients[1].push(other as i32);
        }
        let [first, second] =
            [0, 1].map(|card| card_with((1, cols), 0, "linear", steps[card], &coefficients[card]));
        let marks = compare_in([&first, &second], [cols as usize; 2]).unwrap();
        for (mark, off) in marks.into_iter().zip(off) {
            assert_eq!(mark == 1, off > sum);
            if let Some(met) = met.get_mut((off - sum + 1) as usize) {
                *met += 1;
            }
        }
    }
    assert!(met.iter().all(|&times| times > 100), "{met:?}");
}

/// Sizes that differ in rows, in columns, or in both with as many points: 13, whatever the planes.
#[test]
fn other_sizes() {
    let mut random = Random::new(646);
    let mut as_many = 0;
    for _ in 0..1500 {
        let size = small_size(&mut random);
        let other = match random.below(4) {
            0 => (size.1, size.0),
            1 => (size.0 + 1, size.1),
            2 => (size.0, size.1 + 1),
            _ => small_size(&mut random),
        };
        let cases = [size, other].map(|(rows, cols)| Case::of_size(&mut random, rows, cols));
        let points = cases.each_ref().map(Case::count);
        let [first, second] = cases.map(|case| written(&case));
        let compared = compare_in([&first, &second], points);
        if size != other {
            assert_eq!(compared, Err(Refusal::plain(13)));
            as_many += usize::from(points[0] == points[1]);
        } else {
            assert!(compared.is_ok());
        }
    }
    assert!(as_many > 100, "{as_many}");
    for sizes in [[(64, 128), (128, 64)], [(1, 8192), (8192, 1)]] {
        let [first, second] = sizes.map(|(rows, cols)| {
            let mut case = Case::of_kind(&mut random, Kind::Ends, rows, cols);
            (case.levels, case.step) = (6, 0);
            written(&case)
        });
        let compared = compare_in([&first, &second], [8192; 2]);
        assert_eq!(compared, Err(Refusal::plain(13)));
    }
}

/// Damaged planes in either card or in both, of one size or of two: 8 before 13 and before the marks' 3.
#[test]
fn damaged_planes() {
    let mut random = Random::new(647);
    let mut met = [0; 14];
    for _ in 0..3000 {
        let case = Case::small(&mut random);
        let mut other = beside(&mut random, &case);
        if random.once_in(4) {
            other = Case::small(&mut random);
        }
        let points = [case.count(), other.count()];
        let [first, second] = [case, other].map(|case| {
            let mut card = written(&case);
            let header = open(&card).unwrap().header_length;
            let cells = (card.len() - header) as u64 / 32;
            // The first byte of some cells, or one that may be spare.
            for _ in 0..random.below(3) {
                if cells > 0 {
                    let cell = header + 32 * random.below(cells) as usize;
                    let byte = random.pick(&[0, 0, 0, 0, 0, 0, 1, 31]);
                    card[cell + byte] ^= 1 << random.below(8);
                }
            }
            card
        });
        let whole = compare_in([&first, &second], points);
        let number = whole.as_ref().err().map_or(0, |refusal| refusal.number);
        met[number as usize] += 1;
        // One mark too few or too many is the last thing that is refused.
        let mut slices = points.map(Slices::new);
        for marks in [points[0] - 1, points[0] + 1] {
            let refused = compare([&first, &second], &mut slices, &mut vec![B; marks]);
            let expected = whole.clone().err().unwrap_or(Refusal::plain(3));
            assert_eq!(refused, Err(expected));
        }
    }
    assert!(
        [0, 8, 13].iter().all(|&number| met[number] > 200),
        "{met:?}"
    );
}

#[test]
fn refused_in_turn() {
    for faulty in faulty_comparisons() {
        let [first, second] = &faulty.cards;
        let before = faulty.lengths.map(|(q, v)| Slices::of_lengths(q, v));
        let (mut slices, mut marks) = (before.clone(), vec![B; faulty.marks]);
        let refused = compare([first, second], &mut slices, &mut marks);
        assert_eq!(refused, Err(faulty.refused));
        assert_eq!((slices, marks), (before, vec![B; faulty.marks]));
    }
}

/// Every slice of a comparison one too short, one too long, or empty: 3, whether the planes are right or not,
/// but for the marks. An answer of another length comes before everything.
#[test]
fn other_lengths() {
    let mut random = Random::new(648);
    for _ in 0..100 {
        let case = Case::small(&mut random);
        let mut card = written(&case);
        let second = written(&beside(&mut random, &case));
        let n = case.count();
        let header = open(&card).unwrap().header_length;
        let spoilt = card.len() > header && random.once_in(2);
        if spoilt {
            // No sheet here has so many points that a plane has no spare bits.
            card[header..header + 32].fill(0xFF);
        }
        let memory = Memory {
            card,
            second,
            coefficients: vec![Q; n],
            values: vec![V; n],
            second_coefficients: vec![Q; n],
            second_values: vec![V; n],
            apart: vec![B; n],
            answer: vec![A; ANSWER],
            ..Memory::default()
        };
        let with = |slice, length| {
            let mut memory = memory.clone();
            memory.resize(slice, length);
            memory
        };
        for length in [n - 1, n + 1, 0, 2 * n + 1] {
            for slice in [Slice::Coefficients, Slice::Values] {
                assert_eq!(check(Call::Compare, &mut with(slice, length)), 3);
            }
            // A plane of the first card comes before the second's slices and the marks.
            let number = if spoilt { 8 } else { 3 };
            for slice in [Slice::SecondCoefficients, Slice::SecondValues, Slice::Apart] {
                assert_eq!(check(Call::Compare, &mut with(slice, length)), number);
            }
        }
        for length in [0, 1, ANSWER - 1, ANSWER + 1, 2 * ANSWER] {
            let mut other = with(Slice::Answer, length);
            let before = other.clone();
            assert_eq!(check(Call::Compare, &mut other), 3);
            assert!(other == before);
        }
    }
}
