//! Cards put together by hand, second ways of getting what the model says, written apart from
//! it, and the project's files and its document.

// Each test file uses some of these.
#![allow(dead_code)]

pub mod bench;
pub mod document;
pub mod extremes;
pub mod faults;
pub mod files;
pub mod hour;
pub mod losses;
pub mod missing;
pub mod narrow;
pub mod page;
pub mod previews;

use trace_card_tests::model::digits::digits_of;
use trace_card_tests::model::{Curve, Opened, Plan, Refusal, MAX_LAYERS};

pub fn refusal(number: u64, details: [u64; 2]) -> Refusal {
    Refusal { number, details }
}

/// A plan of these first places, 0 after them.
pub fn plan(first: &[u64]) -> Plan {
    let mut plan = [0; MAX_LAYERS];
    plan[..first.len()].copy_from_slice(first);
    plan
}

/// The digits of a coefficient, highest first.
pub fn highest_first(q: i64) -> String {
    let digits = digits_of(q).into_iter().rev();
    digits.map(|digit| digit.to_string()).collect()
}

/// The seven lines of an old card's header, without their ends.
pub fn header_lines(
    (rows, cols): (u64, u64),
    levels: u64,
    curve: &str,
    step: u64,
    planes: &[u64],
    cells: u64,
) -> [String; 7] {
    let planes: Vec<String> = planes.iter().map(u64::to_string).collect();
    [
        format!("rows={rows}"),
        format!("cols={cols}"),
        format!("levels={levels}"),
        format!("curve={curve}"),
        format!("step={step}"),
        format!("planes={}", planes.join(",")),
        format!("cells={cells}"),
    ]
}

/// The bytes of any lines, each given without its end, and of cells, each given by its first
/// byte, with 0 for the others.
pub fn card_of<Line: AsRef<[u8]>>(lines: &[Line], cells: &[u8]) -> Vec<u8> {
    let mut card = Vec::new();
    for line in lines {
        card.extend_from_slice(line.as_ref());
        card.push(10);
    }
    for &first in cells {
        card.push(first);
        card.extend([0; 31]);
    }
    card
}

/// The power of two in a row or column number, no higher than the levels.
fn power(number: u64, levels: u64) -> u64 {
    u64::from(number.trailing_zeros()).min(levels)
}

/// The layer of a point, from the powers of two in its row and column: the lower of the
/// two tells the spacing, and a row with the higher one stands across.
pub fn layer_of(levels: u64, row: u64, col: u64) -> usize {
    let (down, across) = (power(row, levels), power(col, levels));
    let lower = down.min(across);
    if lower == levels {
        0
    } else {
        let pair = 2 * (levels - 1 - lower);
        (pair + if down > across { 1 } else { 2 }) as usize
    }
}

/// The places in the sheet of each layer's points.
pub fn layer_places(rows: u64, cols: u64, levels: u64) -> Vec<Vec<usize>> {
    let mut places = vec![Vec::new(); 1 + 2 * levels as usize];
    for place in 0..(rows * cols) as usize {
        let (row, col) = (place as u64 / cols, place as u64 % cols);
        places[layer_of(levels, row, col)].push(place);
    }
    places
}

/// An old card with any coefficients that 23 digits hold, those that no writer leaves too.
pub fn card_with(
    (rows, cols): (u64, u64),
    levels: u64,
    curve: &str,
    step: u64,
    coefficients: &[i32],
) -> Vec<u8> {
    let layers: Vec<Vec<Vec<u8>>> = layer_places(rows, cols, levels)
        .iter()
        .map(|places| {
            let digits = |&place: &usize| digits_of(coefficients[place].into());
            places.iter().map(digits).collect()
        })
        .collect();
    let longest = |layer: &Vec<Vec<u8>>| layer.iter().map(Vec::len).max().unwrap_or(0);
    let planes: Vec<u64> = layers.iter().map(|layer| longest(layer) as u64).collect();
    let mut cells = Vec::new();
    for p in (0..23).rev() {
        for layer in layers.iter().filter(|layer| longest(layer) > p) {
            let mut plane = vec![0; 32 * layer.len().div_ceil(256)];
            for (i, digits) in layer.iter().enumerate() {
                plane[i / 8] |= digits.get(p).unwrap_or(&0) << (i % 8);
            }
            cells.extend(plane);
        }
    }
    let count = cells.len() as u64 / 32;
    let lines = header_lines((rows, cols), levels, curve, step, &planes, count);
    [card_of(&lines, &[]), cells].concat()
}

/// The layer, place p, first byte and end of each plane, in card order.
pub fn planes_on_card(opened: &Opened) -> Vec<(usize, u64, usize, usize)> {
    let places = layer_places(opened.rows, opened.cols, opened.levels);
    let mut planes: Vec<(u64, usize)> = Vec::new();
    for (layer, &count) in opened.planes.iter().enumerate() {
        planes.extend((0..count).map(|p| (p, layer)));
    }
    planes.sort_by_key(|&(p, layer)| (22 - p, layer));
    let mut at = opened.header_length;
    let mut found = Vec::new();
    for (p, layer) in planes {
        let end = at + 32 * places[layer].len().div_ceil(256);
        found.push((layer, p, at, end));
        at = end;
    }
    found
}

/// Planes whole in the first `length` bytes.
pub fn whole_in(opened: &Opened, length: usize) -> Plan {
    let mut whole = [0; MAX_LAYERS];
    for (layer, _, _, end) in planes_on_card(opened) {
        if end <= length {
            whole[layer] += 1;
        }
    }
    whole
}

/// Halfway between the odd places alone and the even ones alone, rounded down.
pub fn middle_by_hand(d: u64) -> i64 {
    let both_ends: i64 = (0..d).map(|p| (-2_i64).pow(p as u32)).sum();
    both_ends >> 1
}

/// The most that d digits are from their middle. They make 2^d numbers in a row, so the ends are 2^d - 1 apart,
/// and the further of them is half of that away, rounded up.
pub fn loss_by_hand(d: u64) -> u64 {
    ((1_u64 << d) - 1).div_ceil(2)
}

/// Has a point of the layer all four neighbours? If any has, the one 3 spacings from the edge has: it
/// is the first with a neighbour 3 spacings before it, and has the most room after it.
fn has_four_neighbours(opened: &Opened, layer: usize) -> bool {
    let spacing = 1 << (opened.levels - layer.div_ceil(2) as u64);
    let length = [opened.rows, opened.cols][layer % 2];
    let point = 3 * spacing;
    point + 3 * spacing < length
}

/// What a layer loses by its d low digits: a number of its card's line, in which those of the layers before it come
/// first; of an old card the most that there is.
fn loss_told(opened: &Opened, layer: usize, d: u64) -> u64 {
    match (&opened.losses, d) {
        (_, 0) => 0,
        (None, _) => loss_by_hand(d),
        (Some(losses), _) => {
            let before: u64 = opened.planes[..layer].iter().sum();
            let mut numbers = losses.iter().flatten().copied();
            numbers.nth((before + d - 1) as usize).unwrap()
        }
    }
}

/// What stands after the first layers, seen from the last of them.
fn standing(opened: &Opened, sizes: &[usize], plan: &Plan, layer: usize) -> u64 {
    let lost = loss_told(opened, layer, opened.planes[layer] - plan[layer]);
    let own = lost * (2 * opened.step + 1);
    if layer == 0 {
        return own;
    }
    let before = standing(opened, sizes, plan, layer - 1);
    if sizes[layer] == 0 {
        before
    } else if opened.curve == Curve::Cubic && has_four_neighbours(opened, layer) {
        // 5M/4 rounded up is M and a quarter of it, the quarter rounded up.
        before + before.div_ceil(4) + own
    } else {
        before + own
    }
}

/// The points of each layer, counted without the model.
pub fn sizes_of(opened: &Opened) -> Vec<usize> {
    layer_places(opened.rows, opened.cols, opened.levels)
        .iter()
        .map(Vec::len)
        .collect()
}

pub fn figure_by_hand(opened: &Opened, sizes: &[usize], plan: &Plan) -> u64 {
    opened.step + standing(opened, sizes, plan, sizes.len() - 1)
}

pub fn cells_by_hand(sizes: &[usize], plan: &Plan) -> u64 {
    sizes
        .iter()
        .zip(plan)
        .map(|(&size, &planes)| planes * size.div_ceil(256) as u64)
        .sum()
}

/// Every plan of a card.
pub fn every_plan(opened: &Opened) -> Vec<Plan> {
    let mut plans = vec![[0; MAX_LAYERS]];
    for (layer, &count) in opened.planes.iter().enumerate() {
        plans = plans
            .into_iter()
            .flat_map(|plan| {
                (0..=count).map(move |planes| {
                    let mut plan = plan;
                    plan[layer] = planes;
                    plan
                })
            })
            .collect();
    }
    plans
}

/// Does the first plan come before the second by the last of the rules: from the last layer
/// backwards, fewer planes?
pub fn fewer_backwards(first: &Plan, second: &Plan) -> bool {
    for layer in (0..MAX_LAYERS).rev() {
        if first[layer] != second[layer] {
            return first[layer] < second[layer];
        }
    }
    false
}

/// The greatest distance between values and samples.
pub fn furthest(values: &[i64], samples: &[i32]) -> u64 {
    assert_eq!(values.len(), samples.len());
    values
        .iter()
        .zip(samples)
        .map(|(&value, &sample)| value.abs_diff(i64::from(sample)))
        .max()
        .unwrap()
}
