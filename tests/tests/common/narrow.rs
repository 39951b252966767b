//! The narrow example (docs/CARD.md, "Worked examples"), and what is said of it there.

use super::{card_of, header_lines, plan};
use trace_card_tests::model::{Plan, Planned, Refusal};

/// Its layers, of 35 points in all, have planes of one cell each: 9 + 4 + 7 + 2 + 4 = 26.
pub fn header() -> Vec<u8> {
    let lines = header_lines((7, 5), 2, "cubic", 0, &[9, 4, 7, 2, 4], 26);
    card_of(&lines, &[])
}

/// With no planes, and with one plane of each layer.
fn figures() -> [(Plan, u64); 2] {
    [(plan(&[]), 421), (plan(&[1; 5]), 211)]
}

/// Limits and what planning answers, which the document does not say. By hand: within 421 nothing need be
/// loaded, and within 420 one cell is enough. One plane of layer 0 leaves 128 + 8 + 64 + 2 = 202, which
/// is carried to 1,010 / 4 rounded up, 253, and 8: the figure is 261. One of layer 1, 2 or 3 leaves 326,
/// 298 or 329, and the figure is 416, 381 or 420; one of layer 4 leaves 413 + 4 = 417.
fn planned_by_limit() -> [(u64, Planned); 2] {
    let planned = |first: &[u64], cells, figure| Planned {
        plan: plan(first),
        cells,
        figure,
    };
    [(421, planned(&[], 0, 421)), (420, planned(&[1], 1, 261))]
}

type Figure = fn(&[u8], &Plan) -> Result<u64, Refusal>;
type Planning = fn(&[u8], u64) -> Result<Planned, Refusal>;

/// Calls that answer as is said.
pub fn check(figure: Figure, by_limit: Planning, by_cells: Planning) {
    let card = header();
    for (plan, own) in figures() {
        assert_eq!(figure(&card, &plan), Ok(own));
    }
    for (limit, planned) in planned_by_limit() {
        assert_eq!(by_limit(&card, limit), Ok(planned));
        assert_eq!(by_cells(&card, planned.cells), Ok(planned));
    }
}
