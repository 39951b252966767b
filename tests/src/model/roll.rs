//! The roll: what a card shows, in lines for a printer (docs/CARD.md, "The calls").

use super::header::open;
use super::read::{show, Reached};
use super::refusal::{self, Refusal};
use super::sheet::Shape;

/// The characters of a line, and those of the fields in a value's line.
pub const LINE_PLACES: usize = 24;
pub const ROW_PLACES: usize = 4;
pub const COLUMN_PLACES: usize = 4;
pub const VALUE_PLACES: usize = 16;
/// A line with its byte 10.
pub const LINE_BYTES: usize = LINE_PLACES + 1;

/// The bytes that the lines of so many points take: one line more, for the figure.
pub fn page_bytes(points: usize) -> usize {
    LINE_BYTES * (points + 1)
}

/// The text of a roll: a line with the figure, then one for each value, in row order.
pub fn printed(shape: Shape, figure: u64, values: &[i64]) -> String {
    let mut text = format!("{figure:>LINE_PLACES$}\n");
    for point in shape.points() {
        let (row, col) = (point.row, point.col);
        let value = values[shape.place(point)];
        text += &format!("{row:>ROW_PLACES$}{col:>COLUMN_PLACES$}{value:>VALUE_PLACES$}\n");
    }
    text
}

/// Shows a card and prints what it shows at the front of the page.
pub fn roll(
    card: &[u8],
    coefficients: &mut [i32],
    values: &mut [i64],
    page: &mut [u8],
) -> Result<Reached, Refusal> {
    // Shown aside, since the page is looked at last and a refusal leaves everything.
    let (mut found, mut shown) = (coefficients.to_vec(), values.to_vec());
    let reached = show(card, &mut found, &mut shown)?;
    let shape = open(card)?.shape();
    let needed = page_bytes(shape.count());
    if page.len() < needed {
        return Err(Refusal::plain(refusal::PAGE));
    }
    let text = printed(shape, reached.figure, &shown);
    coefficients.copy_from_slice(&found);
    values.copy_from_slice(&shown);
    // A value too wide for its places would stop the model here.
    page[..needed].copy_from_slice(text.as_bytes());
    Ok(reached)
}
