//! Reading's and showing's refusals: 3, 9 and 8.

use super::common::{
    bench, card_of, header_lines, plan, planes_on_card, refusal, sizes_of, whole_in,
};
use super::{on_slices, read_on, show_on};
use trace_card_tests::model::{open, read, refine, show, Plan, MAX_LAYERS};
use trace_card_tests::random::cases::Case;
use trace_card_tests::random::plans::plan_of_most;
use trace_card_tests::random::Random;

#[test]
fn reading_refuses_lengths() {
    let card = bench::card();
    for lengths in [(4, 5), (6, 5), (5, 4), (5, 6), (0, 0), (6, 6), (4, 4)] {
        // The plan and the planes are wrong too, but 3 comes first.
        let mut spoilt = card.clone();
        spoilt[64] = 0xFF;
        let too_much = plan(&[6, 0, 0, 1]);
        let expected = Err(refusal(3, [0, 0]));
        assert_eq!(
            on_slices(lengths, |q, v| read(&spoilt, &too_much, q, v)),
            expected
        );
        assert_eq!(on_slices(lengths, |q, v| show(&spoilt, q, v)), expected);
        assert_eq!(
            on_slices(lengths, |q, v| refine(&spoilt, &too_much, 9, q, v)),
            expected
        );
    }
}

#[test]
fn reading_refuses_plans() {
    let card = bench::card();
    let refused = |card: &[u8], first: &[u64]| read_on(card, &plan(first), 5).unwrap_err();
    assert!(read_on(&card, &plan(&[5, 1]), 5).is_ok());
    assert_eq!(refused(&card, &[6]), refusal(9, [0, 0]));
    assert_eq!(refused(&card, &[u64::MAX, 2, 1, 1]), refusal(9, [0, 0]));
    assert_eq!(refused(&card, &[5, 2]), refusal(9, [1, 0]));
    assert_eq!(refused(&card, &[0, u64::MAX]), refusal(9, [1, 0]));
    assert_eq!(refused(&card, &[5, 1, 1]), refusal(9, [2, 0]));
    // Places past the last layer.
    for place in 3..MAX_LAYERS {
        for asked in [1, 23, u64::MAX] {
            let mut past = plan(&[5, 1]);
            past[place] = asked;
            assert_eq!(refused(&card, &past), refusal(9, [place as u64, 0]));
            past[12] = 1;
            assert_eq!(refused(&card, &past), refusal(9, [place as u64, 0]));
            past[1] = 2;
            assert_eq!(refused(&card, &past), refusal(9, [1, 0]));
        }
    }
    // On cuts a layer has its whole planes only.
    for length in 64..=256 {
        let cut = &card[..length];
        let cells = (length as u64 - 64) / 32;
        let anchors = cells.min(5);
        let across = cells - anchors;
        assert!(read_on(cut, &plan(&[anchors, across]), 5).is_ok());
        assert_eq!(refused(cut, &[anchors + 1]), refusal(9, [0, 0]));
        assert_eq!(refused(cut, &[0, across + 1]), refusal(9, [1, 0]));
        assert_eq!(refused(cut, &[anchors + 1, across + 1]), refusal(9, [0, 0]));
    }
}

#[test]
fn reading_refuses_the_plan_before_the_planes() {
    let mut card = bench::card();
    card[64] = 0;
    assert_eq!(
        read_on(&card, &plan(&[5, 2]), 5).unwrap_err(),
        refusal(9, [1, 0])
    );
    assert_eq!(
        read_on(&card, &plan(&[5, 1]), 5).unwrap_err(),
        refusal(8, [0, 0])
    );
}

#[test]
fn every_spare_bit_is_seen_in_planes_of_the_plan_only() {
    let card = bench::card();
    // The cells of the bench card: five of layer 0 with 3 points, one of layer 1 with 2.
    for cell in 0..6_usize {
        let layer = usize::from(cell == 5);
        let points = [3, 2][layer];
        for bit in points..256_usize {
            let mut spoilt = card.clone();
            spoilt[64 + 32 * cell + bit / 8] |= 1 << (bit % 8);
            let (with, without) = if layer == 0 {
                (plan(&[cell as u64 + 1]), plan(&[cell as u64, 1]))
            } else {
                (plan(&[0, 1]), plan(&[5, 0]))
            };
            let expected = refusal(8, [layer as u64, 0]);
            assert_eq!(read_on(&spoilt, &with, 5).unwrap_err(), expected);
            assert_eq!(show_on(&spoilt, 5).unwrap_err(), expected);
            let kept = read_on(&spoilt, &without, 5);
            assert_eq!(kept, read_on(&card, &without, 5));
            assert!(kept.is_ok());
            // A cut before the spoilt cell's end leaves it out of the show.
            let cut = 64 + 32 * cell + 31;
            assert_eq!(show_on(&spoilt[..cut], 5), show_on(&card[..cut], 5));
            assert_eq!(show_on(&spoilt[..cut + 1], 5).unwrap_err(), expected);
        }
    }
}

#[test]
fn a_top_plane_with_no_1_is_refused() {
    let card = bench::card();
    let with_first_byte = |cell: usize, byte: u8| {
        let mut spoilt = card.clone();
        spoilt[64 + 32 * cell] = byte;
        spoilt
    };
    let no_anchors = with_first_byte(0, 0);
    assert_eq!(show_on(&no_anchors, 5).unwrap_err(), refusal(8, [0, 0]));
    for planes in 1..=5 {
        let refused = read_on(&no_anchors, &plan(&[planes]), 5);
        assert_eq!(refused.unwrap_err(), refusal(8, [0, 0]));
    }
    assert!(read_on(&no_anchors, &plan(&[0, 1]), 5).is_ok());
    let no_across = with_first_byte(5, 0);
    assert_eq!(show_on(&no_across, 5).unwrap_err(), refusal(8, [1, 0]));
    assert!(read_on(&no_across, &plan(&[5]), 5).is_ok());
    assert!(show_on(&no_across[..255], 5).is_ok());
    // A lower plane may have no 1.
    for cell in 1..5 {
        assert!(show_on(&with_first_byte(cell, 0), 5).is_ok());
    }
    // Of 257 points, the 1 may be the last one alone; the next bit is a spare one.
    let lines = header_lines((1, 257), 0, "linear", 0, &[1], 2);
    let (_, coefficients, _) = show_on(&card_of(&lines, &[0, 1]), 257).unwrap();
    assert_eq!(coefficients[255..], [0, 1]);
    for first_bytes in [[0, 0], [0, 2], [0, 3], [1, 2]] {
        let refused = show_on(&card_of(&lines, &first_bytes), 257);
        assert_eq!(refused.unwrap_err(), refusal(8, [0, 0]));
    }
}

#[test]
fn the_first_wrong_plane_in_card_order_is_given() {
    // Layer 1 has its top plane before layer 0: the order is layer 1 at p 2, layers 0 and
    // 1 at p 1, layers 0 and 1 at p 0.
    let lines = header_lines((1, 5), 1, "cubic", 9, &[2, 3, 0], 5);
    // 128 is a spare bit, 1 is a point's; 0 is wrong for cells 0 and 1, the top planes.
    let refused =
        |cells: [u8; 5], first: &[u64]| match read_on(&card_of(&lines, &cells), &plan(first), 5) {
            Ok(_) => None,
            Err(refused) => {
                assert_eq!((refused.number, refused.details[1]), (8, 0));
                Some(refused.details[0])
            }
        };
    assert_eq!(refused([1, 1, 0, 0, 0], &[2, 3]), None);
    assert_eq!(refused([0, 0, 0, 0, 0], &[2, 3]), Some(1));
    assert_eq!(refused([0, 0, 0, 0, 0], &[2, 0]), Some(0));
    assert_eq!(refused([0, 0, 0, 0, 0], &[0, 1]), Some(1));
    assert_eq!(refused([0, 0, 0, 0, 0], &[0, 0]), None);
    assert_eq!(refused([1, 0, 128, 0, 0], &[2, 3]), Some(0));
    assert_eq!(refused([1, 0, 128, 0, 0], &[0, 3]), Some(1));
    assert_eq!(refused([1, 0, 128, 0, 0], &[0, 1]), None);
    assert_eq!(refused([1, 1, 128, 128, 0], &[2, 3]), Some(1));
    assert_eq!(refused([1, 1, 128, 128, 0], &[2, 1]), Some(0));
    assert_eq!(refused([1, 1, 0, 128, 128], &[2, 3]), Some(0));
    assert_eq!(refused([1, 1, 0, 128, 128], &[1, 3]), Some(1));
    assert_eq!(refused([1, 1, 0, 128, 128], &[1, 2]), None);
    assert_eq!(refused([128, 128, 0, 0, 0], &[2, 3]), Some(1));
}

/// The layer of the first wrong plane of a plan, looking at the bits one by one.
fn first_wrong_layer(card: &[u8], plan: &Plan) -> Option<usize> {
    let opened = open(card).unwrap();
    let sizes = sizes_of(&opened);
    for (layer, p, start, end) in planes_on_card(&opened) {
        let top = opened.planes[layer] - 1;
        if top - p >= plan[layer] {
            continue;
        }
        let ones: Vec<usize> = (0..8 * (end - start))
            .filter(|bit| card[start + bit / 8] & (1 << (bit % 8)) != 0)
            .collect();
        let spare = ones.last().is_some_and(|&last| last >= sizes[layer]);
        if spare || (p == top && ones.is_empty()) {
            return Some(layer);
        }
    }
    None
}

#[test]
fn planes_damaged_at_random() {
    let mut random = Random::new(305);
    let (mut refusals, mut readings) = (0, 0);
    for _ in 0..1500 {
        let case = Case::small(&mut random);
        let mut card = case.write().card;
        let opened = open(&card).unwrap();
        let planes = planes_on_card(&opened);
        if planes.is_empty() {
            continue;
        }
        for _ in 0..random.below(4) {
            let (_, _, start, end) = random.pick(&planes);
            match random.below(3) {
                0 => card[start..end].fill(0),
                1 => card[end - 1 - random.below(20) as usize] = 1 << random.below(8),
                _ => card[start] = random.draw() as u8,
            }
        }
        let length = if random.once_in(2) {
            card.len()
        } else {
            random.length(opened.header_length, card.len())
        };
        let cut = &card[..length];
        let whole = whole_in(&opened, length);
        let some = plan_of_most(&mut random, &whole);
        for (asked, answer) in [
            (some, read_on(cut, &some, case.count())),
            (whole, show_on(cut, case.count())),
        ] {
            match first_wrong_layer(&card, &asked) {
                Some(layer) => {
                    assert_eq!(answer.unwrap_err(), refusal(8, [layer as u64, 0]));
                    refusals += 1;
                }
                None => {
                    assert_eq!(answer.unwrap().0.plan, asked);
                    readings += 1;
                }
            }
        }
    }
    assert!(refusals > 200 && readings > 200);
}
