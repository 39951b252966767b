//! Rolling's refusals: those of showing, and then 12.

use super::common::{bench, refusal};
use super::{roll_on, B};
use trace_card_tests::model::Refusal;
use trace_card_tests::random::cases::{Case, LARGE_SIZES};
use trace_card_tests::random::Random;

/// What the bench card's roll takes.
const PAGE: usize = 25 * (5 + 1);

fn refused(card: &[u8], lengths: (usize, usize), page: usize) -> Refusal {
    roll_on(card, lengths, page).unwrap_err()
}

#[test]
fn rolling_refuses_short_pages() {
    let card = bench::card();
    for page in 0..PAGE {
        assert_eq!(refused(&card, (5, 5), page), refusal(12, [0, 0]));
        assert_eq!(refused(&card[..64], (5, 5), page), refusal(12, [0, 0]));
    }
    for more in [0, 1, 24, 25, 1000] {
        let page = roll_on(&card, (5, 5), PAGE + more).unwrap();
        assert!(!page[..PAGE].contains(&B));
        assert_eq!(page[PAGE..], vec![B; more]);
    }
}

#[test]
fn a_page_is_needed_for_every_point() {
    let mut random = Random::new(311);
    let mut cases: Vec<Case> = (0..200).map(|_| Case::small(&mut random)).collect();
    cases.extend(LARGE_SIZES.map(|(rows, cols)| Case::of_size(&mut random, rows, cols)));
    for case in cases {
        let (card, n) = (case.write().card, case.count());
        let needed = 25 * (n + 1);
        assert_eq!(refused(&card, (n, n), needed - 1), refusal(12, [0, 0]));
        assert_eq!(refused(&card, (n, n), 25 * n), refusal(12, [0, 0]));
        assert!(roll_on(&card, (n, n), needed).is_ok());
    }
}

/// Every group of faults: 5, 6 or 7, then 3, then 8, and 12 last.
#[test]
fn rolling_refuses_in_turn() {
    for faults in 1_u32..16 {
        let is_set = |fault: u32| faults >> fault & 1 == 1;
        for variant in 0..3 {
            let mut card = bench::card();
            if is_set(2) {
                // A spare bit, in one layer or the other, or a top plane with no 1.
                let (cell, byte) = [(3, 8), (5, 4), (5, 0)][variant];
                card[64 + 32 * cell] = byte;
            }
            if is_set(0) {
                match variant {
                    0 => card.truncate(63),
                    1 => card[0] = b'R',
                    _ => card.push(0),
                }
            }
            let lengths = if is_set(1) {
                [(4, 5), (5, 6), (0, 0)][variant]
            } else {
                (5, 5)
            };
            let page = if is_set(3) {
                [0, 25, PAGE - 1][variant]
            } else {
                PAGE
            };
            let expected = match faults.trailing_zeros() {
                0 => [refusal(5, [0, 0]), refusal(6, [1, 0]), refusal(7, [0, 0])][variant],
                1 => refusal(3, [0, 0]),
                2 => refusal(8, [[0, 1, 1][variant], 0]),
                _ => refusal(12, [0, 0]),
            };
            let answer = refused(&card, lengths, page);
            assert_eq!(answer, expected, "faults {faults:b}, variant {variant}");
        }
    }
}
