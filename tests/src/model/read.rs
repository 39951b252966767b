//! Reading, showing and refining (docs/CARD.md, "Plans, reading, refining").

use super::digits::{weight, GREATEST_COEFFICIENT, LEAST_COEFFICIENT};
use super::figure::figure_of;
use super::header::{open, Opened};
use super::plan::{check_plan, missing_of, plan_of, Plan};
use super::planes::{card_order, digits_in_plane, planes_of_plan, whole_planes, Plane};
use super::refusal::{self, Refusal};
use super::steps::rebuild;

/// What these calls answer: the plan reached and its figure.
#[derive(Clone, Copy, Debug, PartialEq, Eq)]
pub struct Reached {
    pub plan: Plan,
    pub figure: u64,
}

/// Refusal 3, lengths.
fn check_lengths(opened: &Opened, coefficients: &[i32], values: &[i64]) -> Result<(), Refusal> {
    let count = opened.shape().count();
    if coefficients.len() != count || values.len() != count {
        return Err(Refusal::plain(refusal::LENGTHS));
    }
    Ok(())
}

/// The places in the sheet of each layer's points, in row order.
fn places_of_layers(opened: &Opened) -> Vec<Vec<usize>> {
    let shape = opened.shape();
    let places = |layer| {
        let points = shape.points_of(layer).into_iter();
        points.map(|point| shape.place(point)).collect()
    };
    shape.layers().into_iter().map(places).collect()
}

/// Adds the digits of one plane to the coefficients at its layer's places.
fn add_plane(plane: &Plane, digits: &[bool], places: &[usize], coefficients: &mut [i32]) {
    for (&place, &digit) in places.iter().zip(digits) {
        if digit {
            coefficients[place] += weight(plane.place) as i32;
        }
    }
}

/// Puts these coefficients and their values into the lent slices: the digits that the plan leaves out are 0 in
/// the coefficients, and in the values they count as their middle.
fn leave(
    opened: &Opened,
    plan: &Plan,
    found: &[i32],
    coefficients: &mut [i32],
    values: &mut [i64],
) -> Reached {
    let missing = missing_of(&opened.planes, plan);
    let (shape, curve, step) = (opened.shape(), opened.curve, opened.step);
    values.copy_from_slice(&rebuild(shape, curve, step, found, &missing));
    coefficients.copy_from_slice(found);
    Reached {
        plan: *plan,
        figure: figure_of(opened, plan),
    }
}

/// Reading, once the plan is known to ask whole planes only.
fn read_whole_planes(
    opened: &Opened,
    card: &[u8],
    plan: &Plan,
    coefficients: &mut [i32],
    values: &mut [i64],
) -> Result<Reached, Refusal> {
    // Digits that are not loaded stay 0 here.
    let mut found = vec![0; opened.shape().count()];
    let places = places_of_layers(opened);
    // In card order, so that the first plane found wrong is the one refused.
    for plane in planes_of_plan(opened, plan) {
        let digits = digits_in_plane(opened, card, &plane)?;
        add_plane(&plane, &digits, &places[plane.layer], &mut found);
    }
    Ok(leave(opened, plan, &found, coefficients, values))
}

/// Reads a card with a plan.
pub fn read(
    card: &[u8],
    plan: &Plan,
    coefficients: &mut [i32],
    values: &mut [i64],
) -> Result<Reached, Refusal> {
    let opened = open(card)?;
    check_lengths(&opened, coefficients, values)?;
    check_plan(plan, &whole_planes(&opened, card))?;
    read_whole_planes(&opened, card, plan, coefficients, values)
}

/// Reads a card with all planes that are whole in the bytes.
pub fn show(card: &[u8], coefficients: &mut [i32], values: &mut [i64]) -> Result<Reached, Refusal> {
    let opened = open(card)?;
    check_lengths(&opened, coefficients, values)?;
    let plan = plan_of(&whole_planes(&opened, card));
    read_whole_planes(&opened, card, &plan, coefficients, values)
}

/// Adds the next plane of one layer to the coefficients, and makes all values anew.
pub fn refine(
    card: &[u8],
    plan: &Plan,
    layer: u64,
    coefficients: &mut [i32],
    values: &mut [i64],
) -> Result<Reached, Refusal> {
    let opened = open(card)?;
    check_lengths(&opened, coefficients, values)?;
    let whole = whole_planes(&opened, card);
    check_plan(plan, &whole)?;

    // Past the last layer, or with no further plane that is whole: those that are whole are never
    // more than P_k.
    let refused = Refusal::with(refusal::PLAN, layer);
    let k = usize::try_from(layer).map_err(|_| refused)?;
    let whole_of_layer = *whole.get(k).ok_or(refused)?;
    if plan[k] >= whole_of_layer {
        return Err(refused);
    }

    // The coefficients handed in are judged, all of them, before the new plane is.
    let range = LEAST_COEFFICIENT..=GREATEST_COEFFICIENT;
    if coefficients.iter().any(|q| !range.contains(q)) {
        return Err(Refusal::plain(refusal::COEFFICIENT));
    }

    let place = opened.planes[k] - 1 - plan[k];
    let plane = card_order(&opened.planes, &opened.points)
        .into_iter()
        .find(|plane| plane.layer == k && plane.place == place)
        .expect("the next plane of a layer is on the card");
    let digits = digits_in_plane(&opened, card, &plane)?;

    let mut found = coefficients.to_vec();
    add_plane(&plane, &digits, &places_of_layers(&opened)[k], &mut found);
    let mut reached = *plan;
    reached[k] += 1;
    Ok(leave(&opened, &reached, &found, coefficients, values))
}
