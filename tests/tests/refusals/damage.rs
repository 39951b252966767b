//! Damaged headers: whatever opens is a right header.

use super::common::{bench, planes_on_card};
use trace_card_tests::model::open;
use trace_card_tests::random::cases::Case;
use trace_card_tests::random::damage::{damage_header, damaged_at};
use trace_card_tests::random::losses;
use trace_card_tests::random::Random;

/// Opening damaged bytes never panics, refuses with 5, 6 or 7 only, and opens nothing that
/// the header's rules do not allow.
fn check_damaged(card: &[u8]) -> bool {
    match open(card) {
        Ok(opened) => {
            assert_eq!(opened.print(), card[..opened.header_length]);
            assert!(opened.rows >= 1 && opened.cols >= 1);
            assert!(opened.rows * opened.cols <= 8192);
            assert!(opened.levels <= 6 && opened.step <= 65_535);
            assert_eq!(opened.planes.len() as u64, 1 + 2 * opened.levels);
            assert!(opened.planes.iter().all(|&planes| planes <= 23));
            let lines = card[..opened.header_length].split(|&byte| byte == 10);
            assert_eq!(lines.count(), 7 + usize::from(opened.losses.is_some()) + 1);
            if let Some(told) = &opened.losses {
                let most = losses::most(&opened);
                assert_eq!(told.concat().len(), most.len());
                assert!(told
                    .concat()
                    .iter()
                    .zip(most)
                    .all(|(&loss, most)| loss <= most));
            }
            let end = planes_on_card(&opened).last().map(|&(.., end)| end);
            let end = end.unwrap_or(opened.header_length);
            assert_eq!(end, opened.header_length + 32 * opened.cells as usize);
            assert!(card.len() <= end);
            true
        }
        Err(refused) => {
            match refused.number {
                5 | 7 => assert_eq!(refused.details, [0, 0]),
                6 => {
                    assert!((1..=8).contains(&refused.details[0]));
                    assert_eq!(refused.details[1], 0);
                }
                other => panic!("opening refused with {other}"),
            }
            false
        }
    }
}

#[test]
fn headers_damaged_byte_by_byte() {
    let mut random = Random::new(303);
    let mut cards = vec![bench::card(), bench::written_card()];
    for _ in 0..8 {
        cards.push(Case::small(&mut random).write().card);
    }
    let bytes: Vec<u8> = (0..=255).collect();
    let mut opened_anyway = 0;
    for card in cards {
        let header = open(&card).unwrap().header_length;
        for position in 0..header {
            for damaged in damaged_at(&card, position, &bytes) {
                opened_anyway += u64::from(check_damaged(&damaged));
                // The header alone may be the right one of a shorter card.
                check_damaged(&damaged[..header.min(damaged.len())]);
            }
        }
    }
    // Some damage gives another right header, such as another step.
    assert!(opened_anyway > 100);
}

#[test]
fn headers_damaged_in_many_places() {
    let mut random = Random::new(304);
    for round in 0..60_000 {
        let (mut card, header) = match round % 2 {
            0 => (bench::card(), bench::HEADER_BYTES),
            _ => (bench::written_card(), bench::WRITTEN_HEADER_BYTES),
        };
        damage_header(&mut random, &mut card, header);
        let length = random.length(0, card.len());
        check_damaged(&card);
        check_damaged(&card[..length]);
    }
}
