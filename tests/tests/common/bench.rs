//! The bench card (docs/CARD.md, "Worked examples"), put together by hand, and what is said of it there; what is written
//! for the same samples now, with a line of losses, which the bench card has not; and a finer card of its size, to
//! compare it with.

use super::{card_of, header_lines, plan};
use trace_card_tests::model::{Compared, Curve, Planned, Reached};
use trace_card_tests::random::cases::Case;

/// One row; one level, linear, step 1.
pub const SAMPLES: [i32; 5] = [10, 13, 11, 20, 30];

/// The anchors stand in columns 0, 2 and 4.
pub const COEFFICIENTS: [i32; 5] = [3, 1, 4, 0, 10];

/// As rebuilt.
pub const VALUES: [i64; 5] = [9, 13, 12, 21, 30];

/// Its lines without their ends.
pub const LINES: [&[u8]; 7] = [
    b"rows=1",
    b"cols=5",
    b"levels=1",
    b"curve=linear",
    b"step=1",
    b"planes=5,1,0",
    b"cells=6",
];

/// The first bytes of its planes, each of one cell.
pub const CELLS: [u8; 6] = [4, 4, 7, 5, 1, 1];

/// The page of the roll of its first 160 bytes.
pub const ROLL: &str = "                      10
   0   0               9
   0   1               9
   0   2               9
   0   3              21
   0   4              33
";

pub const HEADER_BYTES: usize = 64;
pub const CARD_BYTES: usize = 256;

pub fn card() -> Vec<u8> {
    card_of(&LINES, &CELLS)
}

/// The card with one of its lines, numbered from 1, replaced.
pub fn with_line(number: usize, line: &[u8]) -> Vec<u8> {
    let mut lines = LINES;
    lines[number - 1] = line;
    card_of(&lines, &CELLS)
}

/// What showing its first bytes gives.
pub struct Shown {
    pub length: usize,
    pub reached: Reached,
    /// Of plain digits, the missing ones 0.
    pub coefficients: [i32; 5],
    pub values: [i64; 5],
}

/// Whole, with three planes, with two and with none. With all of them the values are the rebuilt ones
/// and the figure is the step.
///
/// By hand, of 2,0,0: the two planes loaded are those of layer 0 at the places 4 and 3, whose weights
/// are 16 and -8. Both have the first byte 4 = 2^2, so the anchors 0 and 1 have no 1 in them, and
/// anchor 2 has one in each. The anchors' coefficients are 0, 0 and 16 - 8 = 8. Three digits are
/// missing, which can be from -2 to 5 and count as 3 / 2 rounded down, 1; predicted as 0 and with
/// w = 2 * 1 + 1 = 3, columns 0, 2 and 4 become 1 * 3 = 3, 3 and 9 * 3 = 27. Layer 1 has no plane, and
/// its one digit, 0 or 1, counts as 0, so its points are as predicted: column 1 is (3 + 3) / 2 = 3 and
/// column 3 is (3 + 27) / 2 = 15. Layer 2 is empty. Of no planes: five digits are from -10 to 21 and
/// count as 5, so every anchor becomes 15, and the others with them.
pub fn shown() -> [Shown; 4] {
    let shown = |length, first: &[u64], figure, coefficients, values| Shown {
        length,
        reached: Reached {
            plan: plan(first),
            figure,
        },
        coefficients,
        values,
    };
    [
        shown(256, &[5, 1], 1, COEFFICIENTS, VALUES),
        shown(160, &[3], 10, [4, 0, 4, 0, 12], [9, 9, 9, 21, 33]),
        shown(159, &[2], 16, [0, 0, 0, 0, 8], [3, 3, 3, 15, 27]),
        shown(64, &[], 52, [0; 5], [15; 5]),
    ]
}

/// What previewing one more plane of a layer gives, from the whole card read with three planes of its anchors.
pub struct Previewed {
    pub layer: u64,
    pub reached: Reached,
    pub next: [i64; 5],
}

/// By hand, from the anchors' coefficients 4, 4 and 12. The next plane of layer 0 is that at place 1, whose weight
/// is -2. Its first byte is 5 = 2^0 + 2^2, so the anchors 0 and 2 have a 1 in it: the coefficients are 2, 4 and 10.
/// The one digit that is missing counts as 0, so columns 0, 2 and 4 become 6, 12 and 30, and columns 1 and 3 are as
/// predicted, (6 + 12) / 2 = 9 and (12 + 30) / 2 = 21. The figure is 1 + 1 * 3 + 1 * 3 = 7.
///
/// The next plane of layer 1 is its only one, at place 0. Its first byte is 1, so of its two points the first,
/// column 1, has a 1 in it: predicted as (9 + 9) / 2 = 9 it becomes 9 + 3 = 12, and nothing else changes. The
/// figure is 1 + 2 * 3 = 7. Layer 2 has no plane.
pub fn previewed() -> [Previewed; 2] {
    let previewed = |layer, first: &[u64], next| Previewed {
        layer,
        reached: Reached {
            plan: plan(first),
            figure: 7,
        },
        next,
    };
    [
        previewed(0, &[4], [6, 9, 12, 21, 30]),
        previewed(1, &[3, 1], [9, 12, 9, 21, 33]),
    ]
}

fn planned(first: &[u64], cells: u64, figure: u64) -> Planned {
    Planned {
        plan: plan(first),
        cells,
        figure,
    }
}

/// Limits and what planning answers. Figures that are not said there are those of the cuts above.
pub fn planned_by_limit() -> [(u64, Planned); 3] {
    [
        (10, planned(&[3], 3, 10)),
        (9, planned(&[4], 4, 7)),
        (1, planned(&[5, 1], 6, 1)),
    ]
}

/// Numbers of cells and what planning answers.
pub fn planned_by_cells() -> [(u64, Planned); 1] {
    [(5, planned(&[5], 5, 4))]
}

/// What the writer puts between planes and cells for these samples. By hand: the anchors' coefficients 3, 4 and 10 are
/// 00111, 00100 and 11110 in digits. The lowest of them is 1, 0 and 0, whose middle is 0: at most 1 off. Two are -1, 0
/// and -2, whose middle is -1: 1. Three are 3, 4 and 2, with the middle 1: 3. Four are 3, 4 and -6, with the middle -3: 7.
/// Five are 3, 4 and 10, with the middle 5: 5, less than four. Of layer 1, 1 and 0 are at most 1 off.
pub const LOSSES: &[u8] = b"loss=1,1,3,7,5,1";

pub const WRITTEN_HEADER_BYTES: usize = 81;
pub const WRITTEN_CARD_BYTES: usize = 273;

/// Its lines, and with them the card that is written.
pub fn written_lines() -> Vec<&'static [u8]> {
    let mut lines = LINES.to_vec();
    lines.insert(6, LOSSES);
    lines
}

pub fn written_card() -> Vec<u8> {
    card_of(&written_lines(), &CELLS)
}

/// That card with one of its lines, numbered from 1, replaced.
pub fn written_with_line(number: usize, line: &[u8]) -> Vec<u8> {
    let mut lines = written_lines();
    lines[number - 1] = line;
    card_of(&lines, &CELLS)
}

/// The same planes of that card: plans, coefficients and values are those of the bench card, figures are by its own
/// losses. Two digits of layer 0 and the one of layer 1 leave 1 + (1 + 1) * 3, three leave 1 + (3 + 1) * 3, and all
/// five 1 + (5 + 1) * 3.
pub fn written_shown() -> [Shown; 4] {
    let figures = [1, 7, 13, 19];
    let mut shown = shown();
    for (shown, figure) in shown.iter_mut().zip(figures) {
        shown.length += WRITTEN_HEADER_BYTES - HEADER_BYTES;
        shown.reached.figure = figure;
    }
    shown
}

/// Previews of it from three planes of its anchors, as those of the bench card: the anchors lose 1 with two digits
/// missing and with one, so the plane at place 1 leaves the figure 7.
pub fn written_previewed() -> [Previewed; 2] {
    let mut previewed = previewed();
    previewed[1].reached.figure = 4;
    previewed
}

/// Plans of it. By hand, with a planes of layer 0 and b of layer 1 the figure is 1 and 3 times what is lost, which is
/// 5, 7, 3, 1, 1, 0 for a = 0 to 5 and 1, 0 for b: with no planes 19, with the first of layer 0 it is 25.
pub fn written_planned_by_limit() -> [(u64, Planned); 6] {
    [
        (9, planned(&[3], 3, 7)),
        (4, planned(&[3, 1], 4, 4)),
        (1, planned(&[5, 1], 6, 1)),
        (19, planned(&[], 0, 19)),
        (18, planned(&[0, 1], 1, 16)),
        (15, planned(&[2], 2, 13)),
    ]
}

pub fn written_planned_by_cells() -> [(u64, Planned); 4] {
    [
        (1, planned(&[0, 1], 1, 16)),
        (5, planned(&[3, 1], 4, 4)),
        (2, planned(&[2], 2, 13)),
        (6, planned(&[5, 1], 6, 1)),
    ]
}

/// Another row of five, which differs in the last column alone, on a finer card; one level, cubic, step 0.
pub fn fine_sheet() -> Case {
    Case {
        rows: 1,
        cols: 5,
        levels: 1,
        curve: Curve::Cubic,
        step: 0,
        samples: vec![10, 13, 11, 20, 38],
    }
}

pub const FINE_HEADER_BYTES: usize = 93;
pub const FINE_CARD_BYTES: usize = 445;

/// Its card. By hand: the anchors have the coefficients 10, 11 and 38. No point across has four
/// neighbours: column 1 is predicted as (10 + 11) / 2 = 10, so q = 3, and column 3 as (11 + 38) / 2 = 24,
/// so q = -4. Digits, highest first: 10 is 11110, 11 is 11111, 38 is 1111010; 3 is 111, -4 is 1100. The
/// planes are those of layer 0 at the places 6, 5 and 4, and from place 3 on of layers 0 and 1 in turn.
///
/// The losses: of layer 0 one digit is 0, 1, 0; two -2, -1, -2; three 2, 3, -2; four -6, -5, -10; five 10, 11, 6; six 10,
/// 11, -26; seven 10, 11, 38. The middles are 0, -1, 1, -3, 5, -11 and 21. Of layer 1 one digit is 1, 0; two -1, 0; three
/// 3, 4; four 3, -4.
pub fn fine_card() -> Vec<u8> {
    let mut lines = header_lines((1, 5), 1, "cubic", 0, &[7, 4, 0], 11).to_vec();
    lines.insert(6, "loss=1,1,3,7,6,22,17,1,1,3,6".to_string());
    card_of(&lines, &[4, 4, 7, 7, 2, 3, 3, 7, 1, 2, 1])
}

/// Some first bytes of the bench card and of the finer one: what comparing them gives, and the marks.
pub struct Comparison {
    pub lengths: [usize; 2],
    pub compared: Compared,
    pub marks: [u8; 5],
}

/// Whole, the finer card shows its samples, with the figure 0. Beside the bench card's values 9, 13, 12, 21
/// and 30 they are 1, 0, 1, 1 and 8 off, and the figure there is 1. Behind three planes of its anchors its
/// values are 9, 9, 9, 21 and 33, which is 1, 4, 2, 1 and 5 off, with the figure 10.
pub fn compared() -> [Comparison; 2] {
    let comparison = |length, apart, first, marks| Comparison {
        lengths: [length, FINE_CARD_BYTES],
        compared: Compared { apart, first },
        marks,
    };
    [
        comparison(256, 1, [0, 4], [0, 0, 0, 0, 1]),
        comparison(160, 0, [0, 0], [0; 5]),
    ]
}
