//! Planes from words laid in layer order, and words from planes.

use super::layers::Grid;
use super::{Header, Plan, CELL, LAYERS, PLACES};

/// Room for the words of every layer, each in whole cells: 23 planes of all layers are at most
/// 1,012 cells, so one plane of each is at most 44.
pub const WORDS: usize = 44 * 8 * CELL;

/// q and the weights of the odd places together: digit p of q is bit p, turned over at odd p.
pub const OFFSET: i32 = 2_796_202;

/// Lays the words of the coefficients, and answers the digits that each layer needs.
pub fn gather(header: &Header, coefficients: &[i32], words: &mut [u32; WORDS]) -> Plan {
    let (rows, cols) = (header.rows, header.cols);
    let mut planes = [0; LAYERS];
    let mut start = 0;
    for (layer, planes) in planes.iter_mut().enumerate().take(header.layers()) {
        let grid = Grid::of(header.levels, layer);
        let size = grid.size(rows, cols);
        let (mut least, mut most) = (0, 0);
        for (word, at) in words[start..].iter_mut().zip(grid.places(rows, cols)) {
            let q = coefficients[at];
            least = least.min(q);
            most = most.max(q);
            *word = (q + OFFSET) as u32;
        }
        *planes = digits_needed(least, most);
        start += size.div_ceil(8 * CELL) * 8 * CELL;
    }
    planes
}

/// The fewest digits that hold all numbers from `least` to `most`.
fn digits_needed(least: i32, most: i32) -> u64 {
    let (mut evens, mut odds) = (0, 0);
    let mut digits = 0;
    while most > evens || least < -odds {
        if digits % 2 == 0 {
            evens += 1 << digits;
        } else {
            odds += 1 << digits;
        }
        digits += 1;
    }
    digits
}

/// Puts all planes in card order.
pub fn put(words: &[u32; WORDS], planes: &Plan, widths: &[usize; LAYERS], mut out: &mut [u8]) {
    for p in (0..PLACES).rev() {
        let turn = if p % 2 == 1 { 0xFF } else { 0 };
        let mut start = 0;
        for layer in 0..LAYERS {
            let bytes = widths[layer] * CELL;
            if planes[layer] > p {
                let (plane, rest) = out.split_at_mut(bytes);
                for (byte, eight) in plane.iter_mut().zip(words[start..].chunks_exact(8)) {
                    let mut bits = 0;
                    for (j, word) in eight.iter().enumerate() {
                        bits |= (word >> p & 1) << j;
                    }
                    *byte = bits as u8 ^ turn;
                }
                out = rest;
            }
            start += 8 * bytes;
        }
    }
}

/// Is a plane of `size` points fine: spare bits 0, and a 1 where it is the top one?
pub fn is_fine(plane: &[u8], size: usize, top: bool) -> bool {
    let full = size / 8;
    let spare = plane[full..].iter().enumerate().all(|(i, &byte)| {
        let own = if i == 0 { (1u8 << (size % 8)) - 1 } else { 0 };
        byte & !own == 0
    });
    spare && (!top || plane.iter().any(|&byte| byte != 0))
}

/// The four bits of each half byte, at place p.
fn halves(p: u64) -> [[u32; 4]; 16] {
    std::array::from_fn(|half| std::array::from_fn(|j| (half as u32 >> j & 1) << p))
}

/// Adds the planes of the plan to the words; the layer of the first that is not fine.
pub fn load(
    header: &Header,
    body: &[u8],
    plan: &Plan,
    words: &mut [u32; WORDS],
) -> Result<(), u64> {
    let widths = header.widths();
    let mut sizes = [0; LAYERS];
    for (layer, size) in sizes.iter_mut().enumerate().take(header.layers()) {
        *size = Grid::of(header.levels, layer).size(header.rows, header.cols);
    }
    let mut at = 0;
    for p in (0..PLACES).rev() {
        let halves = halves(p);
        let mut start = 0;
        for layer in 0..header.layers() {
            let bytes = widths[layer] * CELL;
            let planes = header.planes[layer];
            if planes > p {
                if planes - p <= plan[layer] {
                    let plane = &body[at..at + bytes];
                    if !is_fine(plane, sizes[layer], p + 1 == planes) {
                        return Err(layer as u64);
                    }
                    let own = &plane[..sizes[layer].div_ceil(8)];
                    for (byte, eight) in own.iter().zip(words[start..].chunks_exact_mut(8)) {
                        let (low, high) = eight.split_at_mut(4);
                        for (word, bit) in low.iter_mut().zip(halves[usize::from(byte % 16)]) {
                            *word |= bit;
                        }
                        for (word, bit) in high.iter_mut().zip(halves[usize::from(byte / 16)]) {
                            *word |= bit;
                        }
                    }
                }
                at += bytes;
            }
            start += 8 * bytes;
        }
    }
    Ok(())
}

/// The number whose negabinary digits are the word's bits.
fn number(word: u32) -> i32 {
    const ODD: u32 = 0xAAAA_AAAA;
    (word ^ ODD).wrapping_sub(ODD) as i32
}

/// The coefficients of the words, at their points' places.
pub fn spread(header: &Header, words: &[u32; WORDS], coefficients: &mut [i32]) {
    let mut start = 0;
    for layer in 0..header.layers() {
        let mut i = start;
        Grid::of(header.levels, layer).each_place(header.rows, header.cols, |at| {
            coefficients[at] = number(words[i]);
            i += 1;
        });
        start += header.width(layer) * 8 * CELL;
    }
}
