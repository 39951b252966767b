//! How far a value may stand from its sample (docs/CARD.md, "The figure").

use super::header::{open, Opened};
use super::losses::said;
use super::plan::{check_plan, missing_of, Plan};
use super::predict::Curve;
use super::refusal::Refusal;
use super::sheet::{Layer, Shape};
use super::steps::width;

/// What an error becomes by a curve in a point that is predicted from values so far off.
pub fn carry(curve: Curve, standing: u64) -> u64 {
    match curve {
        Curve::Linear => standing,
        Curve::Cubic => (5 * standing).div_ceil(4),
    }
}

/// A layer across is narrow by the columns, and one down by the rows.
pub fn is_narrow(shape: Shape, layer: Layer) -> bool {
    match layer {
        Layer::Anchors { .. } => false,
        Layer::Across { s } => shape.cols <= 6 * s,
        Layer::Down { s } => shape.rows <= 6 * s,
    }
}

/// What an error becomes in a layer of a sheet: a narrow one leaves it, whatever the curve.
pub fn layer_carry(shape: Shape, curve: Curve, layer: Layer, standing: u64) -> u64 {
    if is_narrow(shape, layer) {
        standing
    } else {
        carry(curve, standing)
    }
}

/// What stands after a layer, from what stood before it, with `missing` planes of it
/// not loaded.
pub fn standing_after(opened: &Opened, layer: usize, standing: u64, missing: u64) -> u64 {
    let own = said(opened, layer, missing) * width(opened.step);
    if layer == 0 {
        // Anchors are predicted from nothing, so there is nothing to carry.
        own
    } else if opened.points[layer] == 0 {
        standing
    } else {
        let (shape, curve) = (opened.shape(), opened.curve);
        layer_carry(shape, curve, opened.layers[layer], standing) + own
    }
}

/// The figure of a plan that loads no more than the header's counts.
pub fn figure_of(opened: &Opened, plan: &Plan) -> u64 {
    let mut standing = 0;
    for (layer, missing) in missing_of(&opened.planes, plan).into_iter().enumerate() {
        standing = standing_after(opened, layer, standing, missing);
    }
    opened.step + standing
}

/// The figure of a plan. The plan is held against the header's counts: the planes need not be
/// there.
pub fn figure(card: &[u8], plan: &Plan) -> Result<u64, Refusal> {
    let opened = open(card)?;
    check_plan(plan, &opened.planes)?;
    Ok(figure_of(&opened, plan))
}
