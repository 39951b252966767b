//! Digits to the base -2 (docs/CARD.md, "Digits").

/// Places run from 22 down to 0.
pub const MOST_DIGITS: u64 = 23;
/// The ends of what so many digits reach.
pub const LEAST_COEFFICIENT: i32 = -2_796_202;
pub const GREATEST_COEFFICIENT: i32 = 5_592_405;

/// The digits of q, lowest place first, none beyond the highest 1: dividing by -2
/// again and again, each time leaving 0 or 1.
pub fn digits_of(q: i64) -> Vec<u8> {
    let mut digits = Vec::new();
    let mut rest = q;
    while rest != 0 {
        let digit = rest.rem_euclid(2);
        digits.push(digit as u8);
        rest = (rest - digit) / -2;
    }
    digits
}

/// The weight of a place, (-2)^p.
pub fn weight(place: u64) -> i64 {
    (-2_i64).pow(place as u32)
}

/// The least that so many digits can be: a 1 at every odd place, and at no other.
pub fn low(digits: u64) -> i64 {
    -2 * (4_i64.pow(digits as u32 / 2) - 1) / 3
}

/// The greatest: a 1 at every even place, and at no other.
pub fn high(digits: u64) -> i64 {
    (4_i64.pow(digits.div_ceil(2) as u32) - 1) / 3
}

/// The middle of what so many digits can be, for which they count in a value where they are missing.
pub fn middle(digits: u64) -> i64 {
    (low(digits) + high(digits)).div_euclid(2)
}

/// The fewest digits that hold every one of these: 0 where all are 0, and where there is none.
pub fn digits_needed(coefficients: &[i64]) -> u64 {
    coefficients
        .iter()
        .map(|&q| digits_of(q).len() as u64)
        .max()
        .unwrap_or(0)
}
