//! Comparing's refusals: all of the first card's, all of the second's, 13, and 3 for the marks.

use super::common::faults::faulty_comparisons;
use super::common::{bench, card_of, card_with, header_lines, refusal};
use super::{compare_on, on_slices, B};
use trace_card_tests::model::{open, show};
use trace_card_tests::random::cases::{small_size, Case};
use trace_card_tests::random::Random;

/// A card of this size without planes.
fn no_planes((rows, cols): (u64, u64)) -> Vec<u8> {
    card_of(&header_lines((rows, cols), 0, "cubic", 7, &[0], 0), &[])
}

/// Rows or columns that differ, also where there are as many points; levels, curve, step and planes may.
#[test]
fn comparing_refuses_other_sizes() {
    for sizes in [
        [(1, 5), (5, 1)],
        [(1, 5), (1, 6)],
        [(1, 5), (2, 5)],
        [(3, 4), (4, 3)],
        [(2, 6), (3, 4)],
        [(1, 8192), (8192, 1)],
        [(64, 128), (128, 64)],
        [(1, 1), (1, 8192)],
    ] {
        for [one, other] in [sizes, [sizes[1], sizes[0]]] {
            let (first, second) = (no_planes(one), no_planes(other));
            let [n, other_n] = [one, other].map(|(rows, cols)| (rows * cols) as usize);
            let answer = compare_on([&first, &second], [(n, n), (other_n, other_n)], n);
            assert_eq!(answer, Err(refusal(13, [0, 0])), "{one:?} {other:?}");
            assert!(compare_on([&first, &first], [(n, n); 2], n).is_ok());
        }
    }
    let cards = [bench::card(), bench::fine_card()];
    for other in [
        no_planes((1, 5)),
        card_with((1, 5), 6, "linear", 65_535, &[1; 5]),
    ] {
        for card in &cards {
            assert!(compare_on([card, &other], [(5, 5); 2], 5).is_ok());
        }
    }
}

#[test]
fn comparing_refuses_lengths() {
    let cards = [bench::card(), bench::fine_card()];
    let cards = [&cards[0][..], &cards[1]];
    let expected = Err(refusal(3, [0, 0]));
    for wrong in [0, 1, 4, 6, 10] {
        for lengths in [
            [(wrong, 5), (5, 5)],
            [(5, wrong), (5, 5)],
            [(5, 5), (wrong, 5)],
            [(5, 5), (5, wrong)],
        ] {
            assert_eq!(compare_on(cards, lengths, 5), expected);
        }
        assert_eq!(compare_on(cards, [(5, 5); 2], wrong), expected);
    }
    let (_, marks) = compare_on(cards, [(5, 5); 2], 5).unwrap();
    assert!(!marks.contains(&B));
}

/// A slice is as long as its own card is large, whatever the other's size: 3 for each card comes before
/// 13, and the marks are looked at last.
#[test]
fn each_card_has_slices_of_its_own() {
    let cards = [bench::card(), no_planes((2, 4))];
    let cards = [&cards[0][..], &cards[1]];
    for apart in [0, 5, 8] {
        for (lengths, number) in [
            ([(5, 5), (8, 8)], 13),
            ([(5, 5), (5, 5)], 3),
            ([(8, 8), (8, 8)], 3),
            ([(8, 8), (5, 5)], 3),
        ] {
            let answer = compare_on(cards, lengths, apart);
            assert_eq!(answer, Err(refusal(number, [0, 0])));
        }
    }
}

#[test]
fn comparing_refuses_in_turn() {
    for faulty in faulty_comparisons() {
        let [first, second] = &faulty.cards;
        let answer = compare_on([first, second], faulty.lengths, faulty.marks);
        assert_eq!(answer, Err(faulty.refused));
    }
}

/// Cards cut and damaged at random: what each is refused for by itself, the first before the second.
#[test]
fn cards_damaged_at_random() {
    let mut random = Random::new(321);
    let mut met = [0; 14];
    for _ in 0..6000 {
        let size = small_size(&mut random);
        let sides = [(); 2].map(|()| {
            // Now and then of another size.
            let (rows, cols) = if random.once_in(6) {
                small_size(&mut random)
            } else {
                size
            };
            let case = Case::of_size(&mut random, rows, cols);
            let mut card = case.write().card;
            match random.below(8) {
                0 => card.truncate(random.length(0, card.len())),
                1 => card.push(0),
                2 | 3 => {
                    let at = random.below(card.len() as u64) as usize;
                    card[at] ^= 1 << random.below(8);
                }
                _ => {}
            }
            let points = case.count() + usize::from(random.once_in(12));
            (card, (points, points))
        });
        let [(first, lengths), (second, other_lengths)] = &sides;
        let own = sides.each_ref().map(|(card, lengths)| {
            let shown = on_slices(*lengths, |q, v| show(card, q, v));
            shown.map(|_| open(card).unwrap().shape())
        });
        let apart = (size.0 * size.1) as usize + usize::from(random.once_in(12));
        let answer = compare_on([first, second], [*lengths, *other_lengths], apart);
        let expected = match own {
            [Err(refused), _] | [_, Err(refused)] => Some(refused),
            [Ok(one), Ok(other)] if (one.rows, one.cols) != (other.rows, other.cols) => {
                Some(refusal(13, [0, 0]))
            }
            [Ok(one), _] if apart != one.count() => Some(refusal(3, [0, 0])),
            _ => None,
        };
        assert_eq!(answer.err(), expected);
        met[expected.map_or(0, |refused| refused.number) as usize] += 1;
    }
    for number in [0, 3, 5, 6, 7, 8, 13] {
        assert!(met[number] > 50, "{met:?}");
    }
}
