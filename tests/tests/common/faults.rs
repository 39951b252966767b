//! Faults of a card, and comparisons with every group of faults and the refusal whose turn is first.

use super::{bench, card_of, refusal};
use trace_card_tests::model::Refusal;

/// What a comparison is given, and what it is refused for.
pub struct Faulty {
    pub cards: [Vec<u8>; 2],
    /// Of the coefficients and the values that go with each card.
    pub lengths: [(usize, usize); 2],
    pub marks: usize,
    pub refused: Refusal,
}

/// One of the two cards, the lengths of its slices, and what it is refused for by itself.
struct Side {
    card: Vec<u8>,
    lengths: (usize, usize),
    refused: Option<Refusal>,
}

/// Spoils the opening of a card with the bench card's header, in one of three ways. Answers what it is refused for.
pub fn spoil_opening(card: &mut Vec<u8>, way: usize) -> Refusal {
    match way {
        0 => card.truncate(bench::HEADER_BYTES - 1),
        1 => card[0] = b'R',
        _ => card.push(0),
    }
    [refusal(5, [0, 0]), refusal(6, [1, 0]), refusal(7, [0, 0])][way]
}

/// The layers whose planes are spoilt, in each way.
pub const SPOILT_LAYERS: [u64; 3] = [0, 1, 1];

/// Spoils a plane of a card with the bench card's planes: a spare bit in the fourth plane of layer 0 or in that of
/// layer 1, or that one, a top plane, with no 1. Answers what it is refused for.
pub fn spoil_plane(card: &mut [u8], way: usize) -> Refusal {
    let (cell, byte) = [(3, 8), (5, 16), (5, 0)][way];
    card[bench::HEADER_BYTES + 32 * cell] = byte;
    refusal(8, [SPOILT_LAYERS[way], 0])
}

/// A row of 5 or 6 columns with the bench card's planes, and some faults of a card's own, each in one of
/// three ways: in opening, in the lengths, in a plane.
fn side(cols: usize, faults: [bool; 3], way: usize) -> Side {
    let [opening, length, plane] = faults;
    let mut lines = bench::LINES;
    let line = format!("cols={cols}");
    lines[1] = line.as_bytes();
    let mut card = card_of(&lines, &bench::CELLS);
    let plane = plane.then(|| spoil_plane(&mut card, way));
    let opening = opening.then(|| spoil_opening(&mut card, way));
    let lengths = if length {
        [(cols - 1, cols), (cols, cols + 1), (0, 0)][way]
    } else {
        (cols, cols)
    };
    let length = length.then_some(refusal(3, [0, 0]));
    Side {
        card,
        lengths,
        refused: opening.or(length).or(plane),
    }
}

/// Every group of faults, those of the two cards in all pairs of ways: 5, 6 or 7, then 3, then 8 of the
/// first card; the same of the second; then 13; and 3 for the marks last.
pub fn faulty_comparisons() -> Vec<Faulty> {
    let mut all = Vec::new();
    for faults in 1_u32..256 {
        let is_set = |fault: u32| faults >> fault & 1 == 1;
        let (sizes, marks) = (is_set(6), is_set(7));
        for (way, other_way) in (0..9).map(|ways| (ways / 3, ways % 3)) {
            let one = side(5, [0, 1, 2].map(is_set), way);
            let cols = if sizes { 6 } else { 5 };
            let other = side(cols, [3, 4, 5].map(is_set), other_way);
            let last = refusal(if sizes { 13 } else { 3 }, [0, 0]);
            all.push(Faulty {
                cards: [one.card, other.card],
                lengths: [one.lengths, other.lengths],
                marks: if marks { [0, 4, 6][way] } else { 5 },
                refused: one.refused.or(other.refused).unwrap_or(last),
            });
        }
    }
    all
}
