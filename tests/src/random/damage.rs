//! Cards with damaged headers.

use super::Random;

/// Some bytes of the header replaced: by any byte, a digit, another byte of the header, or one
/// that has a meaning there.
pub fn damage_header(random: &mut Random, card: &mut [u8], header: usize) {
    for _ in 0..1 + random.below(5) {
        let position = random.below(header as u64) as usize;
        card[position] = match random.below(4) {
            0 => random.draw() as u8,
            1 => b'0' + random.below(10) as u8,
            2 => card[random.below(header as u64) as usize],
            _ => random.pick(b"=,\n"),
        };
    }
}

/// The card with the byte at a place replaced by each of these, with one put in before it,
/// without it, and with it and the next in turn.
pub fn damaged_at(card: &[u8], position: usize, bytes: &[u8]) -> Vec<Vec<u8>> {
    let mut damaged = Vec::new();
    for &byte in bytes {
        let mut replaced = card.to_vec();
        replaced[position] = byte;
        damaged.push(replaced);
    }
    for byte in *b"019,=+- \n\r\0\xFF" {
        let mut longer = card.to_vec();
        longer.insert(position, byte);
        damaged.push(longer);
    }
    let mut shorter = card.to_vec();
    shorter.remove(position);
    damaged.push(shorter);
    let mut swapped = card.to_vec();
    if position + 1 < card.len() {
        swapped.swap(position, position + 1);
    }
    damaged.push(swapped);
    damaged
}
