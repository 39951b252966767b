//! Planning by a table: the least that the first k layers can stand at in exactly c cells.

use super::header::open;
use super::losses::Losses;
use super::{carry, refused, Header, Plan, LAYERS, PLACES};
use crate::model::{Planned, Refusal};

/// From no cell to 1,012.
const ROW: usize = 1013;
/// Stands where no plan has just so many cells; more than any plan leaves.
const NONE: u64 = 1 << 60;

struct Table {
    least: [[u64; ROW]; LAYERS + 1],
    widths: [usize; LAYERS],
    grows: [bool; LAYERS],
    /// What a layer adds where so many of its planes are loaded.
    charges: [[u64; PLACES as usize + 1]; LAYERS],
}

fn charges(header: &Header, losses: &Losses) -> [[u64; PLACES as usize + 1]; LAYERS] {
    let mut charges = [[0; PLACES as usize + 1]; LAYERS];
    let mut first = 0;
    for (charges, planes) in charges.iter_mut().zip(header.planes) {
        for (charge, missing) in charges.iter_mut().zip((0..=planes).rev()) {
            *charge = losses.of(first, missing) * (2 * header.step + 1);
        }
        first += planes as usize;
    }
    charges
}

fn fill(header: &Header, losses: &Losses) -> Table {
    let mut table = Table {
        least: [[NONE; ROW]; LAYERS + 1],
        widths: header.widths(),
        grows: std::array::from_fn(|layer| layer < header.layers() && header.grows(layer)),
        charges: charges(header, losses),
    };
    table.least[0][0] = 0;
    let mut reach = 0;
    for layer in 0..LAYERS {
        let (width, grows) = (table.widths[layer], table.grows[layer]);
        let (before, after_it) = table.least.split_at_mut(layer + 1);
        let (from, to) = (&before[layer], &mut after_it[0]);
        for loaded in 0..=header.planes[layer] as usize {
            let (used, charge) = (loaded * width, table.charges[layer][loaded]);
            let row = to[used..=used + reach].iter_mut();
            for (entry, &standing) in row.zip(&from[..=reach]) {
                *entry = (*entry).min(carry(grows, standing) + charge);
            }
        }
        reach += header.planes[layer] as usize * width;
    }
    table
}

/// The plan in so many cells, from the last layer backwards with the fewest planes.
fn trace(header: &Header, table: &Table, mut cells: usize) -> Plan {
    let mut plan = [0; LAYERS];
    for layer in (0..LAYERS).rev() {
        let (width, grows) = (table.widths[layer], table.grows[layer]);
        let standing = table.least[layer + 1][cells];
        let loaded = (0..=header.planes[layer] as usize)
            .find(|&loaded| {
                let (used, charge) = (loaded * width, table.charges[layer][loaded]);
                used <= cells && carry(grows, table.least[layer][cells - used]) + charge == standing
            })
            .expect("an entry comes from some count");
        plan[layer] = loaded as u64;
        cells -= loaded * width;
    }
    plan
}

fn planned(header: &Header, table: &Table, cells: usize) -> Planned {
    Planned {
        plan: trace(header, table, cells),
        cells: cells as u64,
        figure: header.step + table.least[LAYERS][cells],
    }
}

pub fn plan_by_limit(card: &[u8], limit: u64) -> Result<Planned, Refusal> {
    let mut losses = Losses::none();
    let (header, _) = open(card, &mut losses)?;
    if limit < header.step {
        return refused(10);
    }
    let room = (limit - header.step).min(NONE - 1);
    let table = fill(&header, &losses);
    let cells = table.least[LAYERS]
        .iter()
        .position(|&standing| standing <= room);
    Ok(planned(&header, &table, cells.expect("all planes meet it")))
}

pub fn plan_by_cells(card: &[u8], most: u64) -> Result<Planned, Refusal> {
    let mut losses = Losses::none();
    let (header, _) = open(card, &mut losses)?;
    let table = fill(&header, &losses);
    let row = &table.least[LAYERS][..=most.min(ROW as u64 - 1) as usize];
    let cells = (0..row.len())
        .min_by_key(|&cells| row[cells])
        .expect("a row has entries");
    Ok(planned(&header, &table, cells))
}
