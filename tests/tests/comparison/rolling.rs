//! Rolling: every page is read back by its fields too, apart from the model.

use super::both::{check, roll, show, written, Slices, A, B, Q, V};
use super::calls::{Call, Memory};
use super::common::card_with;
use super::common::extremes::Sheet;
use super::common::page::{lines_of, read_page};
use trace_card_tests::boundary::ANSWER;
use trace_card_tests::model::digits::{GREATEST_COEFFICIENT, LEAST_COEFFICIENT};
use trace_card_tests::model::{open, Refusal};
use trace_card_tests::random::cases::{Case, CURVES, LARGE_SIZES};
use trace_card_tests::random::losses::any_kind;
use trace_card_tests::random::sheets::Kind;
use trace_card_tests::random::Random;

/// Rolls on a page with some bytes too many. An accepted roll is as showing, its fields give back
/// what is shown, and the bytes behind the last line stay.
fn roll_with(card: &[u8], points: usize, behind: usize) -> Result<Vec<i64>, Refusal> {
    let needed = 25 * (points + 1);
    let mut slices = Slices::new(points).and_page(needed + behind);
    let reached = roll(card, &mut slices)?;
    let page = std::mem::take(&mut slices.page);
    assert_eq!(page[needed..], vec![B; behind]);
    let mut shown = Slices::new(points);
    assert_eq!(show(card, &mut shown), Ok(reached));
    assert_eq!(slices, shown);
    let (figure, lines) = read_page(&page[..needed]);
    assert_eq!(figure, reached.figure as i64);
    let cols = open(card).expect("a card that is rolled opens").cols;
    assert_eq!(lines, lines_of(cols, &shown.values));
    Ok(shown.values)
}

#[test]
fn every_cut_of_small_cards() {
    let mut random = Random::new(621);
    let (mut rolled, mut refused) = (0, 0);
    for _ in 0..25 {
        let case = Case::small(&mut random);
        let card = any_kind(&mut random, written(&case));
        for length in 0..=card.len() {
            let behind = random.pick(&[0, 0, 1, 24, 25, 26, 500]);
            match roll_with(&card[..length], case.count(), behind) {
                Ok(_) => rolled += 1,
                Err(_) => refused += 1,
            }
        }
    }
    assert!(rolled > 1000 && refused > 1000, "{rolled} {refused}");
}

#[test]
fn the_largest_cards() {
    let mut random = Random::new(622);
    for (rows, cols) in LARGE_SIZES {
        for curve in CURVES {
            for kind in [Kind::Smooth, Kind::Noise, Kind::Ends] {
                let mut case = Case::of_kind(&mut random, kind, rows, cols);
                (case.curve, case.levels) = (curve, random.pick(&[0, 3, 6]));
                let card = any_kind(&mut random, written(&case));
                let header = open(&card).unwrap().header_length;
                let cut = random.length(header, card.len());
                for length in [card.len(), cut, header] {
                    roll_with(&card[..length], case.count(), 40).unwrap();
                }
            }
        }
    }
}

/// Damaged planes: 8 comes before a short page, and what is taken is printed.
#[test]
fn damaged_planes() {
    let mut random = Random::new(623);
    let (mut refused, mut taken) = (0, 0);
    for _ in 0..1500 {
        let case = Case::small(&mut random);
        let mut card = written(&case);
        let header = open(&card).unwrap().header_length;
        if card.len() == header {
            continue;
        }
        // The first byte of some cells, or one that may be spare.
        for _ in 0..1 + random.below(3) {
            let cell = header + 32 * random.below((card.len() - header) as u64 / 32) as usize;
            let byte = random.pick(&[0, 0, 0, 0, 0, 0, 1, 31]);
            card[cell + byte] ^= 1 << random.below(8);
        }
        let n = case.count();
        let whole = roll_with(&card, n, 0);
        let short = roll(&card, &mut Slices::new(n).and_page(25 * n)).unwrap_err();
        match whole {
            Ok(_) => {
                assert_eq!(short, Refusal::plain(12));
                taken += 1;
            }
            Err(refusal) => {
                assert_eq!((refusal.number, short), (8, refusal));
                refused += 1;
            }
        }
    }
    assert!(refused > 200 && taken > 200, "{refused} {taken}");
}

/// Coefficients anywhere in 23 digits, many of them at an end: values of 1 to 12 digits, with both
/// signs.
#[test]
fn coefficients_made_up() {
    let mut random = Random::new(624);
    let ends = [GREATEST_COEFFICIENT, LEAST_COEFFICIENT];
    let mut met = [[0; 2]; 17];
    for _ in 0..600 {
        let (rows, cols) = random.pick(&[(1, 9), (9, 1), (3, 5), (12, 11), (33, 34)]);
        let digits = random.below(23);
        let near_0 = random.once_in(2);
        let coefficients: Vec<i32> = (0..rows * cols)
            .map(|_| match random.below(3) {
                _ if near_0 => random.between(-(1 << digits), 1 << digits).max(-2_796_202) as i32,
                0 => random.between(-2_796_202, 5_592_405) as i32,
                _ => random.pick(&ends),
            })
            .collect();
        let (levels, step) = (random.below(7), random.pick(&[0, 0, 1, 4, 49, 65_535]));
        let curve = random.pick(&["linear", "cubic"]);
        let card = card_with((rows, cols), levels, curve, step, &coefficients);
        let values = roll_with(&card, coefficients.len(), 3).unwrap();
        for value in values {
            met[value.unsigned_abs().to_string().len()][usize::from(value < 0)] += 1;
        }
    }
    assert!(met[1..=12].iter().flatten().all(|&n| n > 30), "{met:?}");
}

#[test]
fn the_largest_and_the_smallest_value() {
    for size in [(64, 128), (90, 91), (1, 8192), (8192, 1)] {
        let sheet = Sheet::new(size, 6);
        for largest in [true, false] {
            let extreme = sheet.extreme(largest);
            let values = roll_with(&extreme.card, (size.0 * size.1) as usize, 1).unwrap();
            // Each prediction is rounded down once, and carries what was rounded before.
            let value = values[extreme.place];
            assert!(value.abs_diff(extreme.value) < 70, "{value}");
        }
    }
}

/// Pages of every length about the one needed, and longer than any.
#[test]
fn page_lengths() {
    let mut random = Random::new(625);
    let mut cases: Vec<Case> = (0..60).map(|_| Case::small(&mut random)).collect();
    cases.extend([(64, 128), (1, 8192), (8192, 1)].map(|(r, c)| Case::of_size(&mut random, r, c)));
    for case in cases {
        let (card, n) = (written(&case), case.count());
        let needed = 25 * (n + 1);
        let near = needed - 27..=needed + 27;
        let near: Vec<usize> = if n > 1000 {
            vec![needed - 25, needed - 1, needed, needed + 1]
        } else {
            near.collect()
        };
        for page in near
            .into_iter()
            .chain([0, 1, 24, 25, needed / 2, 25 * 8193 + 100])
        {
            let mut slices = Slices::new(n).and_page(page);
            let answer = roll(&card, &mut slices);
            assert_eq!(answer.is_ok(), page >= needed);
            if let Err(refusal) = answer {
                assert_eq!(refusal, Refusal::plain(12));
                assert_eq!(slices, Slices::new(n).and_page(page));
            }
        }
    }
}

/// 3 comes before 8, and 8 before 12; an answer of another length before all of them.
#[test]
fn other_lengths() {
    let mut random = Random::new(626);
    for _ in 0..200 {
        let case = Case::small(&mut random);
        let mut card = written(&case);
        let n = case.count();
        let header = open(&card).unwrap().header_length;
        let spoilt = card.len() > header;
        if spoilt {
            // No sheet here has so many points that a plane has no spare bits.
            card[header..header + 32].fill(0xFF);
        }
        let needed = 25 * (n + 1);
        for page in [0, needed - 1, needed, needed + 1] {
            for (q, v) in [(n + 1, n), (n, n + 1), (n - 1, n), (n, n - 1), (0, 0)] {
                let mut slices = Slices::of_lengths(q, v).and_page(page);
                assert_eq!(roll(&card, &mut slices), Err(Refusal::plain(3)));
            }
            let answer = roll(&card, &mut Slices::new(n).and_page(page));
            let expected = match (spoilt, page < needed) {
                (true, _) => Some(8),
                (false, true) => Some(12),
                (false, false) => None,
            };
            assert_eq!(answer.err().map(|refusal| refusal.number), expected);
            for answer in [0, 1, ANSWER - 1, ANSWER + 1, 2 * ANSWER] {
                let mut memory = Memory {
                    card: card.clone(),
                    coefficients: vec![Q; n],
                    values: vec![V; n],
                    page: vec![B; page],
                    answer: vec![A; answer],
                    ..Memory::default()
                };
                let before = memory.clone();
                assert_eq!(check(Call::Roll, &mut memory), 3);
                assert!(memory == before);
            }
        }
    }
}
