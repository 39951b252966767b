//! Previews to try: with every group of faults and the refusal whose turn is first, and any.

use super::faults::{spoil_opening, spoil_plane, SPOILT_LAYERS};
use super::missing::any_coefficients;
use super::{bench, plan, refusal};
use trace_card_tests::model::planes::{whole_planes, CELL_BYTES};
use trace_card_tests::model::{open, Plan, Refusal};
use trace_card_tests::random::plans::plan_about;
use trace_card_tests::random::Random;

/// What a preview is given.
#[derive(Debug)]
pub struct Preview {
    pub card: Vec<u8>,
    pub plan: Plan,
    pub layer: u64,
    pub coefficients: Vec<i32>,
    /// How long the old values are, and the new ones.
    pub lengths: [usize; 2],
}

/// Coefficients that 23 digits do not reach.
const PAST: [i32; 4] = [5_592_406, -2_796_203, i32::MIN, i32::MAX];

/// The bench card, read with three planes of its anchors, and some faults, each in one of three ways.
fn faulty_preview(faults: [bool; 8], way: usize) -> (Preview, Option<Refusal>) {
    let [opening, q, old, new, too_much, no_layer, past, plane] = faults;
    let mut card = bench::card();
    let plane = plane.then(|| spoil_plane(&mut card, way));
    let opening = opening.then(|| spoil_opening(&mut card, way));
    let [q, old, new] = [q, old, new].map(|fault| if fault { [4, 6, 0][way] } else { 5 });
    let length = ([q, old, new] != [5; 3]).then_some(refusal(3, [0, 0]));

    let mut plan = plan(&[3]);
    let (place, asked) = [(0, 6), (1, u64::MAX), (12, 1)][way];
    let too_much = too_much.then(|| {
        plan[place] = asked;
        refusal(9, [place as u64, 0])
    });
    // Layer 2 is empty, layer 3 is past the last.
    let mut layer = SPOILT_LAYERS[way];
    let no_layer = no_layer.then(|| {
        layer = [2, 3, u64::MAX][way];
        refusal(9, [layer, 0])
    });
    let mut coefficients = vec![1; q];
    let past = past.then(|| {
        coefficients.fill(PAST[way]);
        refusal(11, [0, 0])
    });

    let in_turn = [opening, length, too_much, no_layer, past, plane];
    let given = Preview {
        card,
        plan,
        layer,
        coefficients,
        lengths: [old, new],
    };
    (given, in_turn.into_iter().flatten().next())
}

/// Every group of faults: 5, 6 or 7; 3 for coefficients, old values and new ones; 9 for the plan, then for the
/// layer; 11; and 8 last.
pub fn faulty_previews() -> Vec<(Preview, Refusal)> {
    let mut all = Vec::new();
    for faults in 1_u32..256 {
        let is_set = |fault: u32| faults >> fault & 1 == 1;
        for way in 0..3 {
            let (given, refused) = faulty_preview([0, 1, 2, 3, 4, 5, 6, 7].map(is_set), way);
            all.push((given, refused.expect("a fault is refused")));
        }
    }
    all
}

/// A card of so many points that may be cut or damaged, with a plan of about what is whole, mostly a layer that has
/// a plane more, any coefficients, and now and then one past the range or a slice of another length.
pub fn any_preview(random: &mut Random, mut card: Vec<u8>, points: usize) -> Preview {
    let header = open(&card).expect("a card as it was written").header_length;
    match random.below(10) {
        0 => card.truncate(random.length(0, card.len())),
        1 => card.push(0),
        2 => {
            let at = random.below(header as u64) as usize;
            card[at] ^= 1 << random.below(8);
        }
        3 | 4 => {
            // Spare bits, and top planes with no 1.
            for cell in card[header..].chunks_mut(CELL_BYTES as usize) {
                match random.below(3) {
                    0 => cell.fill(0),
                    1 => cell[random.below(CELL_BYTES) as usize] ^= 1 << random.below(8),
                    _ => {}
                }
            }
        }
        _ => {}
    }
    let whole = open(&card).map_or(vec![], |opened| whole_planes(&opened, &card));
    let plan = plan_about(random, &whole);
    let layers = whole.len() as u64;
    let has_more = |&layer: &u64| plan[layer as usize] < whole[layer as usize];
    let further: Vec<u64> = (0..layers).filter(has_more).collect();
    let layer = match further.is_empty() || random.once_in(8) {
        true => random.below(layers + 1),
        false => random.pick(&further),
    };
    let mut coefficients = any_coefficients(random, points);
    if random.once_in(8) {
        coefficients[random.below(points as u64) as usize] = random.pick(&PAST);
    }
    if random.once_in(20) {
        coefficients.push(0);
    }
    let lengths = [(); 2].map(|()| points + usize::from(random.once_in(20)));
    Preview {
        card,
        plan,
        layer,
        coefficients,
        lengths,
    }
}
