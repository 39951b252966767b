//! The card's header, printed (docs/CARD.md, "The card") and opened ("Refusals").

use super::digits::MOST_DIGITS;
use super::losses::closed;
use super::planes::{cells_in, CELL_BYTES};
use super::predict::Curve;
use super::refusal::{self, Refusal};
use super::sheet::{Layer, Shape, MOST_LEVELS, MOST_POINTS};
use super::steps::LARGEST_STEP;

/// What a header says, with what follows from it at once.
#[derive(Clone, Debug, PartialEq, Eq)]
pub struct Opened {
    pub rows: u64,
    pub cols: u64,
    pub levels: u64,
    pub curve: Curve,
    pub step: u64,
    /// P_k, 1 + 2L of them.
    pub planes: Vec<u64>,
    /// What each layer loses where 1, 2, .. P_k planes of it are missing; an old card does not say.
    pub losses: Option<Vec<Vec<u64>>>,
    pub cells: u64,
    /// Bytes of the lines with their ends.
    pub header_length: usize,
    /// The layers, from the shape.
    pub layers: Vec<Layer>,
    /// Points of each layer, from the shape.
    pub points: Vec<u64>,
}

impl Opened {
    pub fn shape(&self) -> Shape {
        Shape {
            rows: self.rows,
            cols: self.cols,
            levels: self.levels,
        }
    }

    /// The header bytes that say just this.
    pub fn print(&self) -> Vec<u8> {
        print(
            self.shape(),
            self.curve,
            self.step,
            &self.planes,
            self.losses.as_deref(),
            self.cells,
        )
    }
}

/// Numbers with commas between.
fn joined(numbers: &[u64]) -> String {
    let numbers: Vec<String> = numbers.iter().map(u64::to_string).collect();
    numbers.join(",")
}

/// The eight lines with their ends; the seven of an old card, which has no losses.
pub fn print(
    shape: Shape,
    curve: Curve,
    step: u64,
    planes: &[u64],
    losses: Option<&[Vec<u64>]>,
    cells: u64,
) -> Vec<u8> {
    let curve = match curve {
        Curve::Linear => "linear",
        Curve::Cubic => "cubic",
    };
    let mut lines = vec![
        format!("rows={}", shape.rows),
        format!("cols={}", shape.cols),
        format!("levels={}", shape.levels),
        format!("curve={curve}"),
        format!("step={step}"),
        format!("planes={}", joined(planes)),
    ];
    lines.extend(losses.map(|losses| format!("loss={}", joined(&losses.concat()))));
    lines.push(format!("cells={cells}"));
    lines
        .iter()
        .flat_map(|line| [line.as_bytes(), &[10]].concat())
        .collect()
}

/// A number written in the one right way, and at most `most`. One too long for u64 fails to
/// parse, so it is wrong and never wraps.
fn number(text: &[u8], most: u64) -> Option<u64> {
    let all_digits = !text.is_empty() && text.iter().all(u8::is_ascii_digit);
    let leading_zero = text.len() > 1 && text[0] == b'0';
    if !all_digits || leading_zero {
        return None;
    }
    let value: u64 = std::str::from_utf8(text).ok()?.parse().ok()?;
    (value <= most).then_some(value)
}

/// The number of a line `key=number`.
fn keyed_number(line: &[u8], key: &str, most: u64) -> Option<u64> {
    number(line.strip_prefix(key.as_bytes())?, most)
}

/// A size as its own line allows it; the product is looked at in line 2.
fn size(line: &[u8], key: &str) -> Option<u64> {
    keyed_number(line, key, MOST_POINTS).filter(|&size| size > 0)
}

fn curve_line(line: &[u8]) -> Option<Curve> {
    match line {
        b"curve=linear" => Some(Curve::Linear),
        b"curve=cubic" => Some(Curve::Cubic),
        _ => None,
    }
}

/// The counts of line 6, one for each layer; an empty layer has no planes.
fn planes_line(line: &[u8], points: &[u64]) -> Option<Vec<u64>> {
    let list = line.strip_prefix(b"planes=")?;
    let counts: Option<Vec<u64>> = list
        .split(|&byte| byte == b',')
        .map(|text| number(text, MOST_DIGITS))
        .collect();
    let counts = counts?;
    let right_number = counts.len() == points.len();
    let empty_layer_has_planes = counts
        .iter()
        .zip(points)
        .any(|(&count, &points)| points == 0 && count > 0);
    (right_number && !empty_layer_has_planes).then_some(counts)
}

/// What a line of losses begins with.
const LOSSES: &[u8] = b"loss=";

/// The numbers of a line of losses, for each layer in turn one for each number of missing planes, and none above the
/// closed loss.
fn losses_line(line: &[u8], planes: &[u64]) -> Option<Vec<Vec<u64>>> {
    let list = line.strip_prefix(LOSSES)?;
    // With no number there is no text at all, which is not one text with nothing in it.
    let mut texts = list
        .split(|&byte| byte == b',')
        .skip(list.is_empty().into());
    let mut losses = Vec::new();
    for &count in planes {
        let of_layer: Option<Vec<u64>> = (1..=count)
            .map(|missing| number(texts.next()?, closed(missing)))
            .collect();
        losses.push(of_layer?);
    }
    texts.next().is_none().then_some(losses)
}

/// Takes the next line off the bytes: 5 where it has no end, and only then 6.
fn take_line<T>(
    rest: &mut &[u8],
    line_number: u64,
    check: impl FnOnce(&[u8]) -> Option<T>,
) -> Result<T, Refusal> {
    let end = rest
        .iter()
        .position(|&byte| byte == 10)
        .ok_or(Refusal::plain(refusal::HEADER_CUT))?;
    let line = &rest[..end];
    *rest = &rest[end + 1..];
    check(line).ok_or(Refusal::with(refusal::HEADER_LINE, line_number))
}

/// Opening a card, the first step of every call but writing.
pub fn open(card: &[u8]) -> Result<Opened, Refusal> {
    let mut rest = card;
    let rows = take_line(&mut rest, 1, |line| size(line, "rows="))?;
    let cols = take_line(&mut rest, 2, |line| {
        size(line, "cols=").filter(|&cols| rows * cols <= MOST_POINTS)
    })?;
    let levels = take_line(&mut rest, 3, |line| {
        keyed_number(line, "levels=", MOST_LEVELS)
    })?;
    let curve = take_line(&mut rest, 4, curve_line)?;
    let step = take_line(&mut rest, 5, |line| {
        keyed_number(line, "step=", LARGEST_STEP)
    })?;
    let shape = Shape { rows, cols, levels };
    let points = shape.layer_counts();
    let planes = take_line(&mut rest, 6, |line| planes_line(line, &points))?;
    let total = cells_in(&planes, &points);
    // An old card goes on with its cells.
    let (losses, last_line) = if rest.starts_with(LOSSES) {
        let losses = take_line(&mut rest, 7, |line| losses_line(line, &planes))?;
        (Some(losses), 8)
    } else {
        (None, 7)
    };
    let cells = take_line(&mut rest, last_line, |line| {
        keyed_number(line, "cells=", total).filter(|&cells| cells == total)
    })?;
    if rest.len() as u64 > cells * CELL_BYTES {
        return Err(Refusal::plain(refusal::BYTES_AFTER));
    }
    Ok(Opened {
        rows,
        cols,
        levels,
        curve,
        step,
        planes,
        losses,
        cells,
        header_length: card.len() - rest.len(),
        layers: shape.layers(),
        points,
    })
}
