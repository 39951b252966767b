//! Writing, showing, refining and previewing.

use super::header::{open, print};
use super::layers::{quantize, rebuild, rebuild_layers, Grid};
use super::losses::Losses;
use super::planes::{gather, is_fine, load, put, spread, OFFSET, WORDS};
use super::{refused, Header, Plan, CELL, LAYERS, PLACES};
use crate::model::{Curve, Reached, Refusal};

#[allow(clippy::too_many_arguments)]
pub fn write(
    samples: &[i32],
    rows: u64,
    cols: u64,
    levels: u64,
    curve: Curve,
    step: u64,
    coefficients: &mut [i32],
    values: &mut [i64],
    output: &mut [u8],
) -> Result<u64, Refusal> {
    if rows == 0 || cols == 0 || rows > 8192 || cols > 8192 || rows * cols > 8192 {
        return refused(1);
    }
    if levels > 6 || step > 65_535 {
        return refused(2);
    }
    let (rows, cols, levels) = (rows as usize, cols as usize, levels as usize);
    let points = rows * cols;
    if samples.len() != points
        || coefficients.len() != points
        || values.len() != points
        || output.len() < 36_864
    {
        return refused(3);
    }
    if let Some(at) = samples
        .iter()
        .position(|x| !(-1_048_575..=1_048_575).contains(x))
    {
        return Err(Refusal {
            number: 4,
            details: [(at / cols) as u64, (at % cols) as u64],
        });
    }
    let mut header = Header {
        rows,
        cols,
        levels,
        curve,
        step,
        planes: [0; LAYERS],
        cells: 0,
    };
    quantize(&header, samples, coefficients, values);
    let mut words = [OFFSET as u32; WORDS];
    header.planes = gather(&header, coefficients, &mut words);
    let widths = header.widths();
    header.cells = header
        .planes
        .iter()
        .zip(widths)
        .map(|(&count, width)| count * width as u64)
        .sum();
    let losses = measure(&header, &words);
    let length = print(&header, &losses, output);
    let end = length + header.cells as usize * CELL;
    put(&words, &header.planes, &widths, &mut output[length..end]);
    Ok(end as u64)
}

/// What the layers lose, by their words.
fn measure(header: &Header, words: &[u32; WORDS]) -> Losses {
    let mut losses = Losses::none();
    let mut start = 0;
    for layer in 0..header.layers() {
        let size = Grid::of(header.levels, layer).size(header.rows, header.cols);
        losses.measure(&words[start..start + size], header.planes[layer]);
        start += size.next_multiple_of(8 * CELL);
    }
    losses
}

/// The planes that are whole in the bytes behind the header.
fn whole(header: &Header, body: &[u8]) -> Plan {
    let widths = header.widths();
    let mut whole = [0; LAYERS];
    let mut end = 0;
    for p in (0..PLACES).rev() {
        for layer in 0..header.layers() {
            if header.planes[layer] > p {
                end += widths[layer] * CELL;
                if end > body.len() {
                    return whole;
                }
                whole[layer] += 1;
            }
        }
    }
    whole
}

/// Shows a card, unless something of the header is refused once its planes are found fine.
pub fn show_unless(
    card: &[u8],
    coefficients: &mut [i32],
    values: &mut [i64],
    check: impl FnOnce(&Header) -> Result<(), Refusal>,
) -> Result<(Header, Reached), Refusal> {
    let mut losses = Losses::none();
    let (header, body) = open(card, &mut losses)?;
    if coefficients.len() != header.points() || values.len() != header.points() {
        return refused(3);
    }
    let plan = whole(&header, body);
    let mut words = [0; WORDS];
    load(&header, body, &plan, &mut words).map_err(|layer| Refusal::with(8, layer))?;
    check(&header)?;
    spread(&header, &words, coefficients);
    rebuild(&header, &plan, coefficients, values);
    let figure = header.figure(&losses, &plan);
    Ok((header, Reached { plan, figure }))
}

pub fn show(card: &[u8], coefficients: &mut [i32], values: &mut [i64]) -> Result<Reached, Refusal> {
    let (_, reached) = show_unless(card, coefficients, values, |_| Ok(()))?;
    Ok(reached)
}

/// The next plane of a layer, found fine, and the plan that it leads to.
struct NextPlane<'a> {
    header: Header,
    layer: usize,
    bytes: &'a [u8],
    weight: i32,
    reached: Reached,
}

impl<'a> NextPlane<'a> {
    /// Refused as refining is; the slices for values have these lengths.
    fn of(
        card: &'a [u8],
        plan: &Plan,
        layer: u64,
        coefficients: &[i32],
        values: &[usize],
    ) -> Result<NextPlane<'a>, Refusal> {
        let mut losses = Losses::none();
        let (header, body) = open(card, &mut losses)?;
        let points = header.points();
        if coefficients.len() != points || values.iter().any(|&length| length != points) {
            return refused(3);
        }
        let whole = whole(&header, body);
        if let Some(place) = (0..plan.len()).find(|&k| plan[k] > whole[k]) {
            return Err(Refusal::with(9, place as u64));
        }
        let k = layer as usize;
        if layer >= header.layers() as u64 || plan[k] == whole[k] {
            return Err(Refusal::with(9, layer));
        }
        if coefficients
            .iter()
            .any(|q| !(-2_796_202..=5_592_405).contains(q))
        {
            return refused(11);
        }
        let p = header.planes[k] - plan[k] - 1;
        let widths = header.widths();
        let before: u64 = (0..header.layers())
            .map(|j| {
                let above = if j < k { p } else { p + 1 };
                widths[j] as u64 * header.planes[j].saturating_sub(above)
            })
            .sum();
        let at = before as usize * CELL;
        let bytes = &body[at..at + widths[k] * CELL];
        let size = Grid::of(header.levels, k).size(header.rows, header.cols);
        if !is_fine(bytes, size, p + 1 == header.planes[k]) {
            return Err(Refusal::with(8, layer));
        }
        let weight = if p.is_multiple_of(2) {
            1 << p
        } else {
            -(1 << p)
        };
        let mut plan = *plan;
        plan[k] += 1;
        let figure = header.figure(&losses, &plan);
        Ok(NextPlane {
            header,
            layer: k,
            bytes,
            weight,
            reached: Reached { plan, figure },
        })
    }

    /// Every place of the layer, with what the plane adds to the coefficient there.
    #[inline(always)]
    fn each_term(&self, mut visit: impl FnMut(usize, i32)) {
        let grid = Grid::of(self.header.levels, self.layer);
        let mut i = 0;
        grid.each_place(self.header.rows, self.header.cols, |at| {
            let digit = i32::from(self.bytes[i / 8] >> (i % 8) & 1);
            visit(at, digit * self.weight);
            i += 1;
        });
    }
}

pub fn refine(
    card: &[u8],
    plan: &Plan,
    layer: u64,
    coefficients: &mut [i32],
    values: &mut [i64],
) -> Result<Reached, Refusal> {
    let plane = NextPlane::of(card, plan, layer, coefficients, &[values.len()])?;
    plane.each_term(|at, term| coefficients[at] += term);
    rebuild(&plane.header, &plane.reached.plan, coefficients, values);
    Ok(plane.reached)
}

/// Nothing is copied: what the plane adds is put onto the rebuilt values of its layer, since no point of a layer looks
/// at another, and before the layers behind it are rebuilt.
pub fn preview(
    card: &[u8],
    plan: &Plan,
    layer: u64,
    coefficients: &[i32],
    values: &[i64],
    next: &mut [i64],
) -> Result<Reached, Refusal> {
    let lengths = [values.len(), next.len()];
    let plane = NextPlane::of(card, plan, layer, coefficients, &lengths)?;
    let (header, plan) = (&plane.header, &plane.reached.plan);
    let (behind, end) = (plane.layer + 1, header.layers());
    rebuild_layers(header, plan, 0..behind, coefficients, next);
    let width = 2 * header.step as i64 + 1;
    plane.each_term(|at, term| next[at] += i64::from(term) * width);
    rebuild_layers(header, plan, behind..end, coefficients, next);
    Ok(plane.reached)
}
