//! Every refusal of the model: its number, its details, its turn, and the slices it leaves alone.

#[path = "../common/mod.rs"]
mod common;

mod asking;
mod comparing;
mod damage;
mod header;
mod previewing;
mod reading;
mod refining;
mod rolling;
mod writing;

use common::bench;
use trace_card_tests::model::{
    compare, figure, open, plan_by_cells, plan_by_limit, preview, read, refine, roll, show,
    Compared, Plan, Reached, Refusal, MAX_LAYERS,
};

// The filling of lent slices, which a refusal must leave.
const Q: i32 = -1234;
const V: i64 = -5678;
const B: u8 = 0xA7;

/// Runs a reading call on filled slices of these lengths; they keep the filling where it
/// is refused.
fn on_slices(
    lengths: (usize, usize),
    call: impl FnOnce(&mut [i32], &mut [i64]) -> Result<Reached, Refusal>,
) -> Result<(Reached, Vec<i32>, Vec<i64>), Refusal> {
    let mut coefficients = vec![Q; lengths.0];
    let mut values = vec![V; lengths.1];
    match call(&mut coefficients, &mut values) {
        Ok(reached) => Ok((reached, coefficients, values)),
        Err(refusal) => {
            assert!(coefficients.iter().all(|&q| q == Q));
            assert!(values.iter().all(|&v| v == V));
            Err(refusal)
        }
    }
}

fn read_on(
    card: &[u8],
    plan: &Plan,
    points: usize,
) -> Result<(Reached, Vec<i32>, Vec<i64>), Refusal> {
    on_slices((points, points), |q, v| read(card, plan, q, v))
}

fn show_on(card: &[u8], points: usize) -> Result<(Reached, Vec<i32>, Vec<i64>), Refusal> {
    on_slices((points, points), |q, v| show(card, q, v))
}

/// Rolls on filled slices of these lengths and a filled page, which keeps the filling where the
/// call is refused. Answers the page.
fn roll_on(card: &[u8], lengths: (usize, usize), page: usize) -> Result<Vec<u8>, Refusal> {
    let mut page = vec![B; page];
    match on_slices(lengths, |q, v| roll(card, q, v, &mut page)) {
        Ok(_) => Ok(page),
        Err(refusal) => {
            assert!(page.iter().all(|&b| b == B));
            Err(refusal)
        }
    }
}

/// Compares on filled slices of these lengths, two for each card and one for the marks, which keep the
/// filling where the call is refused. Answers the marks too.
fn compare_on(
    cards: [&[u8]; 2],
    lengths: [(usize, usize); 2],
    apart: usize,
) -> Result<(Compared, Vec<u8>), Refusal> {
    let mut coefficients = lengths.map(|(length, _)| vec![Q; length]);
    let mut values = lengths.map(|(_, length)| vec![V; length]);
    let mut marks = vec![B; apart];
    let [first_coefficients, second_coefficients] = &mut coefficients;
    let [first_values, second_values] = &mut values;
    let compared = compare(
        cards[0],
        cards[1],
        first_coefficients,
        first_values,
        second_coefficients,
        second_values,
        &mut marks,
    );
    match compared {
        Ok(compared) => Ok((compared, marks)),
        Err(refusal) => {
            assert!(coefficients.concat().iter().all(|&q| q == Q));
            assert!(values.concat().iter().all(|&v| v == V));
            assert!(marks.iter().all(|&b| b == B));
            Err(refusal)
        }
    }
}

/// Every call but writing opens the card first, whatever else it was handed.
fn all_refuse(card: &[u8], expected: Refusal) {
    let absurd = [u64::MAX; MAX_LAYERS];
    assert_eq!(open(card), Err(expected));
    assert_eq!(
        on_slices((3, 0), |q, v| read(card, &absurd, q, v)),
        Err(expected)
    );
    assert_eq!(on_slices((0, 3), |q, v| show(card, q, v)), Err(expected));
    assert_eq!(roll_on(card, (0, 3), 0), Err(expected));
    let fine = bench::card();
    let compared = compare_on([card, b""], [(0, 3), (3, 0)], 1);
    assert_eq!(compared, Err(expected));
    // Of a second card, once the first is found right.
    let compared = compare_on([&fine, card], [(5, 5), (3, 0)], 1);
    assert_eq!(compared, Err(expected));
    assert_eq!(
        on_slices((2, 1), |q, v| refine(card, &absurd, u64::MAX, q, v)),
        Err(expected)
    );
    let previewed = on_slices((2, 1), |q, next| {
        preview(card, &absurd, u64::MAX, q, &[V; 3], next)
    });
    assert_eq!(previewed, Err(expected));
    assert_eq!(figure(card, &absurd), Err(expected));
    assert_eq!(plan_by_limit(card, 0), Err(expected));
    assert_eq!(plan_by_cells(card, 0), Err(expected));
}
