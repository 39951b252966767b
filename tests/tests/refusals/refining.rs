//! Refining's refusals: 3, 9 for the plan and then the layer, 11 and 8.

use super::common::{bench, plan, refusal};
use super::V;
use trace_card_tests::model::{refine, Plan, Reached, Refusal};

fn refine_on(
    card: &[u8],
    plan: &Plan,
    layer: u64,
    coefficients: &[i32],
    values: usize,
) -> Result<(Reached, Vec<i32>, Vec<i64>), Refusal> {
    let mut lent = coefficients.to_vec();
    let mut values = vec![V; values];
    match refine(card, plan, layer, &mut lent, &mut values) {
        Ok(reached) => Ok((reached, lent, values)),
        Err(refused) => {
            assert_eq!(lent, coefficients);
            assert!(values.iter().all(|&v| v == V));
            Err(refused)
        }
    }
}

#[test]
fn refining_refuses_in_turn() {
    // A card whose fourth plane of layer 0 has a spare bit: refining layer 0 from 3,0,0
    // comes to it. Every group of faults, the first of them given.
    let mut card = bench::card();
    card[64 + 3 * 32] |= 8;
    for faults in 1_u32..32 {
        let is_set = |fault: u32| faults >> fault & 1 == 1;
        for variant in 0..3_usize {
            let count = if is_set(0) { [4, 6, 0][variant] } else { 5 };
            let (place, asked) = [(0, 6), (1, u64::MAX), (12, 1)][variant];
            let mut from = plan(&[3]);
            if is_set(1) {
                from[place] = asked;
            }
            // Layer 2 is empty, layer 3 is past the last.
            let layer = if is_set(2) {
                [2, 3, u64::MAX][variant]
            } else {
                0
            };
            let mut coefficients = vec![0; count];
            if is_set(3) {
                if let Some(last) = coefficients.last_mut() {
                    *last = [5_592_406, -2_796_203, i32::MIN][variant];
                }
            }
            let mut given = card.clone();
            if !is_set(4) {
                given[64 + 3 * 32] = 5;
            }
            let expected = match faults.trailing_zeros() {
                0 => refusal(3, [0, 0]),
                1 => refusal(9, [place as u64, 0]),
                2 => refusal(9, [layer, 0]),
                3 => refusal(11, [0, 0]),
                _ => refusal(8, [0, 0]),
            };
            let answer = refine_on(&given, &from, layer, &coefficients, 5);
            assert_eq!(answer.unwrap_err(), expected, "faults {faults:b}");
        }
    }
    // With the values wrongly long, and with no fault at all.
    card[64 + 3 * 32] = 5;
    for values in [0, 4, 6] {
        let refused = refine_on(&card, &plan(&[3]), 0, &[0; 5], values);
        assert_eq!(refused.unwrap_err(), refusal(3, [0, 0]));
    }
    let (reached, coefficients, _) = refine_on(&card, &plan(&[3]), 0, &[0; 5], 5).unwrap();
    assert_eq!(reached.plan, plan(&[4]));
    // Byte 5 is points 0 and 2 of layer 0, at place p 1 of weight -2.
    assert_eq!(coefficients, [-2, 0, 0, 0, -2]);
}

#[test]
fn refining_refuses_layers() {
    let card = bench::card();
    let refused = |card: &[u8], first: &[u64], layer| {
        refine_on(card, &plan(first), layer, &[0; 5], 5).unwrap_err()
    };
    for layer in [2, 3, 12, 13, 14, 1 << 32, 1 << 63, u64::MAX] {
        assert_eq!(refused(&card, &[0], layer), refusal(9, [layer, 0]));
    }
    // No further plane.
    assert_eq!(refused(&card, &[5], 0), refusal(9, [0, 0]));
    assert_eq!(refused(&card, &[0, 1], 1), refusal(9, [1, 0]));
    // The next plane is not whole.
    assert_eq!(refused(&card[..95], &[0], 0), refusal(9, [0, 0]));
    assert_eq!(refused(&card[..159], &[2], 0), refusal(9, [0, 0]));
    assert_eq!(refused(&card[..255], &[5], 1), refusal(9, [1, 0]));
    assert!(refine_on(&card[..160], &plan(&[2]), 0, &[0; 5], 5).is_ok());
    // The plan is judged by the whole planes too, and before the layer.
    assert_eq!(refused(&card[..159], &[3], 7), refusal(9, [0, 0]));
    assert_eq!(refused(&card[..255], &[5, 1], 0), refusal(9, [1, 0]));
    assert_eq!(refused(&card, &[0, 0, 0, 0, 1], 9), refusal(9, [4, 0]));
}

#[test]
fn refining_takes_coefficients_of_23_digits_only() {
    let card = bench::card();
    for place in 0..5 {
        for wrong in [5_592_406, -2_796_203, i32::MAX, i32::MIN] {
            let mut coefficients = [0; 5];
            coefficients[place] = wrong;
            let refused = refine_on(&card, &plan(&[0]), 0, &coefficients, 5);
            assert_eq!(refused.unwrap_err(), refusal(11, [0, 0]));
        }
    }
    // At the ends of the range they are taken, and the new digit of weight 16 is added at
    // the third anchor. The width is 3. Of the anchors four digits are missing now, whose middle is -3.
    let (reached, coefficients, values) =
        refine_on(&card, &plan(&[0]), 0, &[5_592_405; 5], 5).unwrap();
    assert_eq!(reached.plan, plan(&[1]));
    let top = 5_592_405;
    assert_eq!(coefficients, [top, top, top, top, top + 16]);
    let v = 3 * i64::from(top);
    assert_eq!(values, [v - 9, 2 * v - 9, v - 9, 2 * v + 15, v + 39]);
    // A digit taken away at the lower end: the second plane has weight -8. The middle of the three that
    // are missing then is 1.
    let low = -2_796_202;
    let (reached, coefficients, values) = refine_on(&card, &plan(&[1]), 0, &[low; 5], 5).unwrap();
    assert_eq!(reached.plan, plan(&[2]));
    assert_eq!(coefficients, [low, low, low, low, low - 8]);
    let v = 3 * i64::from(low);
    assert_eq!(values, [v + 3, 2 * v + 3, v + 3, 2 * v - 9, v - 21]);
}

#[test]
fn refining_looks_at_the_new_plane_only() {
    let card = bench::card();
    // Spoil every cell in turn and refine to every cell of layer 0 and of layer 1.
    for spoilt_cell in 0..6_usize {
        for spoil in [0x80, 0] {
            let mut spoilt = card.clone();
            spoilt[64 + 32 * spoilt_cell] = spoil;
            for new_cell in 0..6_usize {
                let layer = u64::from(new_cell == 5);
                let from = plan(&[(new_cell as u64).min(5)]);
                let answer = refine_on(&spoilt, &from, layer, &[0; 5], 5);
                let top = new_cell == 0 || new_cell == 5;
                let wrong = new_cell == spoilt_cell && (spoil != 0 || top);
                if wrong {
                    assert_eq!(answer.unwrap_err(), refusal(8, [layer, 0]));
                } else {
                    assert!(answer.is_ok());
                }
            }
        }
    }
}
