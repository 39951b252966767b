//! The shape of a sheet (docs/CARD.md, "The sheet"), its layers and their points in row order
//! ("Layers").

pub const MOST_POINTS: u64 = 8192;
pub const MOST_LEVELS: u64 = 6;
/// The least is as far below 0.
pub const LARGEST_SAMPLE: i32 = 1_048_575;

#[derive(Clone, Copy, Debug, PartialEq, Eq)]
pub struct Shape {
    pub rows: u64,
    pub cols: u64,
    pub levels: u64,
}

#[derive(Clone, Copy, Debug, PartialEq, Eq)]
pub struct Point {
    pub row: u64,
    pub col: u64,
}

#[derive(Clone, Copy, Debug, PartialEq, Eq)]
pub enum Layer {
    Anchors { multiple: u64 },
    Across { s: u64 },
    Down { s: u64 },
}

fn is_odd_multiple(number: u64, of: u64) -> bool {
    number.is_multiple_of(of) && (number / of) % 2 == 1
}

impl Layer {
    /// Does the layer hold this point?
    pub fn holds(self, point: Point) -> bool {
        let Point { row, col } = point;
        match self {
            Layer::Anchors { multiple } => {
                row.is_multiple_of(multiple) && col.is_multiple_of(multiple)
            }
            Layer::Across { s } => row.is_multiple_of(2 * s) && is_odd_multiple(col, s),
            Layer::Down { s } => is_odd_multiple(row, s) && col.is_multiple_of(s),
        }
    }
}

impl Shape {
    /// All points, in row order.
    pub fn points(self) -> impl Iterator<Item = Point> {
        (0..self.rows).flat_map(move |row| (0..self.cols).map(move |col| Point { row, col }))
    }

    /// How many points the sheet has. Only asked of shapes already found small enough.
    pub fn count(self) -> usize {
        (self.rows * self.cols) as usize
    }

    /// Where a point stands in the sheet's slices.
    pub fn place(self, point: Point) -> usize {
        (point.row * self.cols + point.col) as usize
    }

    /// The layers, the coarsest first.
    pub fn layers(self) -> Vec<Layer> {
        let mut layers = vec![Layer::Anchors {
            multiple: 1 << self.levels,
        }];
        for power in (0..self.levels).rev() {
            let s = 1 << power;
            layers.push(Layer::Across { s });
            layers.push(Layer::Down { s });
        }
        layers
    }

    /// The points of a layer, in row order.
    pub fn points_of(self, layer: Layer) -> Vec<Point> {
        self.points().filter(|&point| layer.holds(point)).collect()
    }

    /// The number of points of each layer; some may have none.
    pub fn layer_counts(self) -> Vec<u64> {
        self.layers()
            .into_iter()
            .map(|layer| self.points_of(layer).len() as u64)
            .collect()
    }
}
