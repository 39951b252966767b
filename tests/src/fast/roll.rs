//! Rolling: showing, then the lines in one pass. Each begins as the blank line of its row, and digits
//! are put from the back of a field, two at a time.

use super::card::show_unless;
use super::refused;
use crate::model::{Reached, Refusal};

/// A line with its byte 10.
const LINE: usize = 25;
const BLANK: [u8; LINE] = *b"                        \n";

/// The digits of the numbers below 100.
const PAIRS: [[u8; 2]; 100] = {
    let mut pairs = [[0; 2]; 100];
    let mut number = 0;
    while number < 100 {
        pairs[number] = [b'0' + (number / 10) as u8, b'0' + (number % 10) as u8];
        number += 1;
    }
    pairs
};

/// Puts a number straight before a place, and answers where it begins.
fn put(line: &mut [u8; LINE], end: usize, mut number: u64) -> usize {
    let mut at = end;
    while number >= 100 {
        at -= 2;
        line[at..at + 2].copy_from_slice(&PAIRS[(number % 100) as usize]);
        number /= 100;
    }
    if number >= 10 {
        at -= 2;
        line[at..at + 2].copy_from_slice(&PAIRS[number as usize]);
    } else {
        at -= 1;
        line[at] = b'0' + number as u8;
    }
    at
}

pub fn roll(
    card: &[u8],
    coefficients: &mut [i32],
    values: &mut [i64],
    page: &mut [u8],
) -> Result<Reached, Refusal> {
    let (lines, _) = page.as_chunks_mut::<LINE>();
    let (header, reached) = show_unless(card, coefficients, values, |header| {
        if lines.len() <= header.points() {
            return refused(12);
        }
        Ok(())
    })?;
    let (first, lines) = lines.split_first_mut().expect("a line for the figure");
    *first = BLANK;
    put(first, 24, reached.figure);
    let rows = values.chunks_exact(header.cols);
    for (row, (values, lines)) in rows.zip(lines.chunks_exact_mut(header.cols)).enumerate() {
        let mut blank = BLANK;
        put(&mut blank, 4, row as u64);
        for (column, (&value, line)) in values.iter().zip(lines).enumerate() {
            *line = blank;
            put(line, 8, column as u64);
            let first = put(line, 24, value.unsigned_abs());
            if value < 0 {
                line[first - 1] = b'-';
            }
        }
    }
    Ok(reached)
}
