//! Cards with other lines of losses than the writer's, and with none, as old cards are.

use super::Random;
use crate::model::{open, Opened};

/// The line of losses of a card, among its lines; an old card has none. They end with the line of cells.
fn lines_of(card: &[u8]) -> (Vec<&[u8]>, Option<usize>) {
    let header = open(card).expect("a right card").header_length;
    let lines: Vec<&[u8]> = card[..header].split_inclusive(|&byte| byte == 10).collect();
    let at = lines.iter().position(|line| line.starts_with(b"loss="));
    (lines, at)
}

/// The card without its line of losses: an old one.
pub fn old(card: &[u8]) -> Vec<u8> {
    let (mut lines, at) = lines_of(card);
    let header: usize = lines.iter().map(|line| line.len()).sum();
    if let Some(at) = at {
        lines.remove(at);
    }
    [&lines.concat(), &card[header..]].concat()
}

/// The card with a line of these numbers in the place of its own, or where an old one has none.
pub fn with_losses(card: &[u8], losses: &[u64]) -> Vec<u8> {
    let numbers: Vec<String> = losses.iter().map(u64::to_string).collect();
    with_line(card, format!("loss={}", numbers.join(",")).as_bytes())
}

/// The same with any line, right or wrong, given without its end.
pub fn with_line(card: &[u8], line: &[u8]) -> Vec<u8> {
    let card = old(card);
    let (mut lines, _) = lines_of(&card);
    let header: usize = lines.iter().map(|line| line.len()).sum();
    let line = [line, b"\n"].concat();
    lines.insert(lines.len() - 1, &line);
    [&lines.concat(), &card[header..]].concat()
}

/// The most that each number of a card's line may be: for each layer 1, 2, 4 and so on.
pub fn most(opened: &Opened) -> Vec<u64> {
    let of_layer = |&planes: &u64| (0..planes).map(|place| 1 << place);
    opened.planes.iter().flat_map(of_layer).collect()
}

/// Numbers that a line may hold, most of which no writer measures: none lost, the closed losses, or any, so that
/// longer drops lose less than shorter ones as often as not.
pub fn any_losses(random: &mut Random, opened: &Opened) -> Vec<u64> {
    let most = most(opened);
    let kind = random.below(4);
    let number = |most: u64| match kind {
        0 => 0,
        1 => most,
        2 => random.pick(&[0, most / 2, most.saturating_sub(1), most]),
        _ => random.below(most + 1),
    };
    most.into_iter().map(number).collect()
}

/// A card as it was written, an old one, or one with another line.
pub fn any_kind(random: &mut Random, card: Vec<u8>) -> Vec<u8> {
    match random.below(4) {
        0 => old(&card),
        1 => with_losses(&card, &any_losses(random, &open(&card).unwrap())),
        _ => card,
    }
}
