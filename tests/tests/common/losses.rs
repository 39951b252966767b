//! Lines of losses, right and wrong, for the bench card's planes and for the largest header.

use super::{card_of, header_lines, layer_places};

/// Wrong in line 7. The bench card's planes have five losses of at most 1, 2, 4, 8 and 16, and one of at most 1.
pub const WRONG_LINES: &[&str] = &[
    // A wrong number of them.
    "loss=",
    "loss=1",
    "loss=1,1,3,7,5",
    "loss=1,1,3,7,5,1,0",
    "loss=1,1,3,7,5,1,1",
    "loss=1,1,3,7,5,",
    "loss=1,1,3,7,5,1,",
    "loss=,1,1,3,7,5,1",
    "loss=,1,3,7,5,1",
    "loss=1,1,,7,5,1",
    "loss=,",
    "loss=,,,,,",
    // One above 2^(d-1), of any length.
    "loss=2,1,3,7,5,1",
    "loss=1,3,3,7,5,1",
    "loss=1,1,5,7,5,1",
    "loss=1,1,3,9,5,1",
    "loss=1,1,3,7,17,1",
    "loss=1,1,3,7,5,2",
    "loss=1,1,3,7,5,16",
    "loss=1,1,3,7,5,256",
    "loss=4294967297,1,3,7,5,1",
    "loss=1,1,3,7,5,4294967296",
    "loss=18446744073709551617,1,3,7,5,1",
    "loss=1,1,3,7,5,18446744073709551616",
    "loss=1,1,3,7,5,9999999999999999999999999999999999999999",
    // Numbers wrongly written.
    "loss=01,1,3,7,5,1",
    "loss=1,1,3,7,5,01",
    "loss=1,1,3,7,5,00",
    "loss=+1,1,3,7,5,1",
    "loss=1,1,3,7,5,-1",
    "loss=1,1,3,7,5,-0",
    "loss=1,1,3,7,5,1 ",
    "loss=1, 1,3,7,5,1",
    "loss= 1,1,3,7,5,1",
    "loss=1;1;3;7;5;1",
    "loss=1,1,3,7,5,1\r",
    "loss=1,1,3,7,5,x",
    "loss==1,1,3,7,5,1",
    "loss=1,1,3,7,5,1.",
    // Lines that are not known by their start, and no cells either.
    "loss",
    "loss:1,1,3,7,5,1",
    "los=1,1,3,7,5,1",
    "losses=1,1,3,7,5,1",
    "Loss=1,1,3,7,5,1",
    " loss=1,1,3,7,5,1",
    "",
];

/// Right, but not as the writer measures them: at their ends, and rising or not.
pub const OTHER_LINES: &[&str] = &[
    "loss=0,0,0,0,0,0",
    "loss=1,2,4,8,16,1",
    "loss=1,0,4,0,16,0",
    "loss=0,2,1,8,0,1",
];

/// The most losses that a card can have, each as large as it may be: 23 for each of 13 layers.
pub fn longest() -> Vec<u64> {
    (0..13)
        .flat_map(|_| (0..23).map(|place| 1 << place))
        .collect()
}

/// The header of a sheet whose 13 layers all have 23 planes, with these losses.
pub fn longest_header(losses: &[u64]) -> Vec<u8> {
    let layers = layer_places(64, 128, 6).into_iter();
    let cells = layers.map(|places| 23 * places.len().div_ceil(256) as u64);
    let mut lines = header_lines((64, 128), 6, "cubic", 65_535, &[23; 13], cells.sum()).to_vec();
    let numbers: Vec<String> = losses.iter().map(u64::to_string).collect();
    lines.insert(6, format!("loss={}", numbers.join(",")));
    card_of(&lines, &[])
}

/// Those with the one at a place one larger, missing, and there twice.
pub fn wrong_at(losses: &[u64], place: usize) -> [Vec<u64>; 3] {
    let [mut larger, mut missing, mut twice] = [(); 3].map(|()| losses.to_vec());
    larger[place] += 1;
    missing.remove(place);
    twice.insert(place, losses[place]);
    [larger, missing, twice]
}
