//! What the programs `show` and `trace` print for the card on their standard input, and `trace compare` for
//! the cards of two files (docs/CARD.md, "The calls").

use super::compare::compare;
use super::header::open;
use super::read::{show, Reached};
use super::refusal::Refusal;
use super::roll::{page_bytes, roll};
use super::sheet::Shape;

/// What `trace` prints on standard output, and what it ends with; a refused card gives one line.
pub fn trace(words: &[&str], card: &[u8]) -> (String, i32) {
    match words {
        ["show"] => ended(show_lines(card)),
        ["roll"] => ended(roll_lines(card)),
        ["compare", _, _] => unreachable!("the cards of files are compared, by trace_compare"),
        // The list of words, which is not printed here.
        _ => (String::new(), 2),
    }
}

/// The same of `trace compare` with the names of two files that hold these bytes.
pub fn trace_compare(first: &[u8], second: &[u8]) -> (String, i32) {
    ended(compare_lines(first, second))
}

fn ended(printed: Result<String, Refusal>) -> (String, i32) {
    match printed {
        Ok(text) => (text, 0),
        Err(refusal) => (format!("refused={}\n", refusal.number), 1),
    }
}

/// What `show` prints; it ends with 0 in every case.
pub fn shown(card: &[u8]) -> String {
    let (text, _) = trace(&["show"], card);
    text
}

/// The page of a roll in memory of the right size.
fn roll_lines(card: &[u8]) -> Result<String, Refusal> {
    let count = open(card)?.shape().count();
    let mut page = vec![0; page_bytes(count)];
    roll(card, &mut vec![0; count], &mut vec![0; count], &mut page)?;
    Ok(String::from_utf8(page).expect("a page is text"))
}

/// Sizes, planes loaded, figure, then a line of values for each row.
fn show_lines(card: &[u8]) -> Result<String, Refusal> {
    let opened = open(card)?;
    let count = opened.shape().count();
    let (mut coefficients, mut values) = (vec![0; count], vec![0; count]);
    let Reached { plan, figure } = show(card, &mut coefficients, &mut values)?;

    let loaded: Vec<String> = plan[..opened.planes.len()]
        .iter()
        .map(u64::to_string)
        .collect();
    let mut text = format!(
        "rows={}\ncols={}\nloaded={}\nfigure={figure}\n",
        opened.rows,
        opened.cols,
        loaded.join(",")
    );
    for row in values.chunks(opened.cols as usize) {
        let row: Vec<String> = row.iter().map(i64::to_string).collect();
        text += &format!("row={}\n", row.join(","));
    }
    Ok(text)
}

/// The points apart, the first of them, then a line for each row, a 0 or a 1 for each point.
fn compare_lines(first: &[u8], second: &[u8]) -> Result<String, Refusal> {
    // Memory of the right size for each card; where one does not open, that is for the call to say.
    let shape = |card| open(card).map(|opened| opened.shape());
    let [count, other_count] = [first, second].map(|card| shape(card).map_or(0, Shape::count));
    let mut apart = vec![0; count];
    let compared = compare(
        first,
        second,
        &mut vec![0; count],
        &mut vec![0; count],
        &mut vec![0; other_count],
        &mut vec![0; other_count],
        &mut apart,
    )?;

    let [row, col] = compared.first;
    let mut text = format!("apart={}\nfirst={row},{col}\n", compared.apart);
    for marks in apart.chunks(shape(first)?.cols as usize) {
        let marks: Vec<String> = marks.iter().map(u8::to_string).collect();
        text += &format!("{}\n", marks.concat());
    }
    Ok(text)
}
