//! Planes: their bits and cells (docs/CARD.md, "Planes"), their order on the card and which are
//! whole ("The card").

use super::digits::MOST_DIGITS;
use super::header::Opened;
use super::plan::Plan;
use super::refusal::{self, Refusal};

pub const CELL_BYTES: u64 = 32;

/// The cells of one plane of a layer with so many points: one bit a point.
pub fn cells_of_plane(points: u64) -> u64 {
    points.div_ceil(8).div_ceil(CELL_BYTES)
}

/// The cells of so many planes of each layer.
pub fn cells_in(counts: &[u64], points: &[u64]) -> u64 {
    counts
        .iter()
        .zip(points)
        .map(|(&count, &points)| count * cells_of_plane(points))
        .sum()
}

/// One plane on the card.
#[derive(Clone, Copy, Debug, PartialEq, Eq)]
pub struct Plane {
    pub layer: usize,
    /// The p of the weight (-2)^p.
    pub place: u64,
    /// Cells before it, counted from the header's end.
    pub first_cell: u64,
    pub cells: u64,
}

/// All planes of a card in card order: the high places first, and of each place the coarse layers.
pub fn card_order(planes: &[u64], points: &[u64]) -> Vec<Plane> {
    let mut order = Vec::new();
    let mut first_cell = 0;
    for place in (0..MOST_DIGITS).rev() {
        for (layer, &count) in planes.iter().enumerate() {
            if count > place {
                let cells = cells_of_plane(points[layer]);
                order.push(Plane {
                    layer,
                    place,
                    first_cell,
                    cells,
                });
                first_cell += cells;
            }
        }
    }
    order
}

/// The bytes of a plane with these digits of its points; spare bits are 0.
pub fn bytes_of_plane(bits: &[bool]) -> Vec<u8> {
    let mut bytes = vec![0; (cells_of_plane(bits.len() as u64) * CELL_BYTES) as usize];
    for (i, _) in bits.iter().enumerate().filter(|(_, &bit)| bit) {
        bytes[i / 8] += 1 << (i % 8);
    }
    bytes
}

/// The bits of a plane's bytes, those of the points first and then the spare ones.
pub fn bits_of_plane(bytes: &[u8]) -> Vec<bool> {
    (0..8 * bytes.len())
        .map(|i| bytes[i / 8] >> (i % 8) & 1 == 1)
        .collect()
}

/// Are all cells of the plane in the bytes given?
pub fn is_whole(opened: &Opened, card: &[u8], plane: &Plane) -> bool {
    let bytes_there = (card.len() - opened.header_length) as u64;
    (plane.first_cell + plane.cells) * CELL_BYTES <= bytes_there
}

/// How many planes of each layer are whole in the bytes given.
pub fn whole_planes(opened: &Opened, card: &[u8]) -> Vec<u64> {
    let mut whole = vec![0; opened.planes.len()];
    for plane in card_order(&opened.planes, &opened.points) {
        if is_whole(opened, card, &plane) {
            whole[plane.layer] += 1;
        }
    }
    whole
}

/// The planes that a plan loads, in card order: so many of each layer from the top.
pub fn planes_of_plan(opened: &Opened, plan: &Plan) -> Vec<Plane> {
    card_order(&opened.planes, &opened.points)
        .into_iter()
        .filter(|plane| plane.place + plan[plane.layer] >= opened.planes[plane.layer])
        .collect()
}

/// The digits that a whole plane gives the points of its layer, or refusal 8 with its layer.
pub fn digits_in_plane(opened: &Opened, card: &[u8], plane: &Plane) -> Result<Vec<bool>, Refusal> {
    let start = opened.header_length + (plane.first_cell * CELL_BYTES) as usize;
    let end = start + (plane.cells * CELL_BYTES) as usize;
    let mut bits = bits_of_plane(&card[start..end]);
    let spare = bits.split_off(opened.points[plane.layer] as usize);
    let spare_bit_set = spare.contains(&true);
    let is_top = plane.place + 1 == opened.planes[plane.layer];
    if spare_bit_set || (is_top && !bits.contains(&true)) {
        return Err(Refusal::with(refusal::BAD_PLANE, plane.layer as u64));
    }
    Ok(bits)
}
