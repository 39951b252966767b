//! Refusals: a number with two details (docs/CARD.md, "Refusals").

/// A sheet without points, or with too many.
pub const SHEET_SIZE: u64 = 1;
/// Levels or a step that no sheet has.
pub const LEVELS_OR_STEP: u64 = 2;
/// A lent slice of a length that does not fit.
pub const LENGTHS: u64 = 3;
/// A sample out of range.
pub const SAMPLE_RANGE: u64 = 4;
/// The bytes end before a line of the header does.
pub const HEADER_CUT: u64 = 5;
/// A line of the header is wrong.
pub const HEADER_LINE: u64 = 6;
/// Bytes behind the last cell.
pub const BYTES_AFTER: u64 = 7;
/// A plane with a spare bit set, or a top plane with no 1.
pub const BAD_PLANE: u64 = 8;
/// More planes asked for than there are.
pub const PLAN: u64 = 9;
/// A limit that no plan meets.
pub const LIMIT: u64 = 10;
/// A coefficient that 23 digits do not reach.
pub const COEFFICIENT: u64 = 11;
/// A page too short for the lines of a roll.
pub const PAGE: u64 = 12;
/// Two cards of different sizes.
pub const SIZES: u64 = 13;

#[derive(Clone, Copy, Debug, PartialEq, Eq)]
pub struct Refusal {
    pub number: u64,
    pub details: [u64; 2],
}

impl Refusal {
    /// A refusal without details.
    pub fn plain(number: u64) -> Refusal {
        Refusal {
            number,
            details: [0, 0],
        }
    }

    /// A refusal with one detail: a line, a layer or a place of the plan.
    pub fn with(number: u64, detail: u64) -> Refusal {
        Refusal {
            number,
            details: [detail, 0],
        }
    }
}
