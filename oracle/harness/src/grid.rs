//! Descriptions of blanks with a question about their grid, and camlib's answers.
use crate::generate::Gen;
use oracle::dexel::{DexelGrid, DexelStock, DexelStockSpec, opened as rust};

/// "mm", and units that are refused.
pub const UNITS: [&str; 5] = ["mm", "m", "mmm", "cm", "mn"];

/// A description, and where its grid is asked: an axis, a ray along it, a boundary of cells and a coordinate.
#[derive(Clone, Debug)]
pub struct Query {
    pub version: u32,
    /// a place in `UNITS`
    pub units: usize,
    pub min: [f64; 3],
    pub max: [f64; 3],
    pub cell: f64,
    pub max_rays: u64,
    pub max_intervals: u64,
    pub axis: usize,
    pub index: u64,
    pub i: u64,
    pub x: f64,
}

/// Where the description is refused all but the number is 0, and where it is accepted the number is 0.
#[derive(Clone, Debug, Default)]
pub struct Answer {
    pub refused: u64,
    pub cells: [u64; 3],
    pub steps: [f64; 3],
    pub rays: u64,
    pub total: u64,
    pub center: [f64; 2],
    pub bound: f64,
    pub cell: u64,
    pub number: u64,
}

impl Query {
    /// The box from `min` to `max` with the budgets that it needs.
    pub fn new(min: [f64; 3], max: [f64; 3], cell: f64) -> Self {
        let mut q =
            Self { version: 1, units: 0, min, max, cell, max_rays: 0, max_intervals: 0, axis: 0, index: 0, i: 0, x: max[0] };
        q.max_rays = q.needed();
        q.max_intervals = 2 * q.max_rays;
        q
    }

    pub fn spec(&self) -> DexelStockSpec {
        DexelStockSpec {
            version: self.version,
            units: UNITS[self.units].into(),
            ..rust::spec(self.min, self.max, self.cell, self.max_rays as usize, self.max_intervals as usize)
        }
    }

    /// The rays of the grid where the largest budgets would do, else 1.
    pub fn needed(&self) -> u64 {
        let spec = rust::spec(self.min, self.max, self.cell, u32::MAX as usize, usize::MAX);
        spec.grid().map_or(1, |g| g.total_rays() as u64)
    }

    pub fn answer(&self) -> Answer {
        match self.spec().grid() {
            Err(e) => Answer { refused: rust::grid_code(&e) as u64, ..Answer::default() },
            Ok(g) => self.of_grid(g),
        }
    }

    fn of_grid(&self, g: DexelGrid) -> Answer {
        let stock = rust::stock(self.spec(), 0, [vec![], vec![], vec![]]);
        let w = self.axis;
        // as in `Kernel::rays`
        let cell = ((self.x - self.min[w]) / g.step_mm[w]).floor().clamp(0., (g.cells[w] - 1) as f64) as usize;
        Answer {
            refused: 0,
            cells: g.cells.map(|n| n as u64),
            steps: g.step_mm,
            rays: g.rays(w) as u64,
            total: g.total_rays() as u64,
            center: stock.ray_center(w, self.index as usize),
            bound: stock.cell_bound(w, self.i as usize),
            cell: cell as u64,
            number: (0..w).map(|a| g.rays(a) as u64).sum::<u64>() + self.index,
        }
    }
}

fn nudged(g: &mut Gen, x: f64) -> f64 {
    match g.below(3) {
        0 => x,
        1 => x.next_up(),
        _ => x.next_down(),
    }
}

/// n, one more, one less, or another number.
fn near(g: &mut Gen, n: u64) -> u64 {
    match g.below(10) {
        0..=3 => n,
        4..=5 => n + 1,
        6..=7 => n - 1,
        8 => g.below(1 << 33),
        _ => g.pick(&[0, 1, u32::MAX as u64, u32::MAX as u64 + 1, 1 << 53, (1 << 53) + 1, u64::MAX]),
    }
}

/// Both ends of a side at any place: the least extent, or up to six cells.
fn fine_side(g: &mut Gen, cell: f64) -> [f64; 2] {
    let lo = match g.below(4) {
        0 => 0.,
        1 => g.within(-1e6, 1e6),
        2 => g.pick(&[-1e6, 1e6 - 1e-4]),
        _ => g.scale(1e-6, 1e5),
    };
    let extent = match g.below(3) {
        0 => 1e-6,
        1 => cell * (1 + g.below(5)) as f64,
        _ => cell * g.within(0.1, 6.),
    };
    let hi = lo + nudged(g, extent);
    [lo, nudged(g, hi)]
}

/// A blank of a few of the smallest cells, so of the finest steps.
pub fn fine(g: &mut Gen) -> Query {
    let (least, wide) = (nudged(g, 1e-5), g.within(1e-5, 2e-5));
    let cell = g.pick(&[1e-5, least, wide]);
    let sides = [(); 3].map(|_| fine_side(g, cell));
    Query::new(sides.map(|s| s[0]), sides.map(|s| s[1]), cell)
}

fn shape(g: &mut Gen) -> Query {
    let of = |f: &mut dyn FnMut() -> f64| -> [f64; 3] { [f(), f(), f()] };
    match g.below(5) {
        // whole numbers, with cells that fit or nearly fit
        0 | 1 => {
            let min = of(&mut || g.below(25) as f64 - 12.);
            let max = min.map(|x| x + (1 + g.below(20)) as f64);
            Query::new(min, max, g.pick(&[0.1, 0.3, 0.5, 1., 2.5, 3., 7.]))
        }
        // any place, cells of about a twentieth
        2 => {
            let extent = g.scale(1e-6, 1000.);
            let min = of(&mut || g.within(-1000., 1000.));
            let max = min.map(|x| x + extent * g.within(0.5, 1.5));
            let cell = (extent / g.within(1., 20.)).clamp(1e-5, 1e6);
            Query::new(min, max, nudged(g, cell))
        }
        // up to the largest box, and cells down to the smallest
        3 => {
            let a = of(&mut || g.within(-1e6, 1e6));
            let b = of(&mut || g.within(-1e6, 1e6));
            let cell = g.scale(1e-5, 1e6);
            Query::new([0, 1, 2].map(|k| a[k].min(b[k])), [0, 1, 2].map(|k| a[k].max(b[k])), cell)
        }
        // at the limits
        _ => {
            let min = of(&mut || {
                let x = g.pick(&[0., -1e6, 1e6 - 1.]);
                nudged(g, x)
            });
            let max = min.map(|x| if x < 1. && x > -1. { nudged(g, 1e-6) } else { nudged(g, x.abs()) });
            let cell = g.pick(&[1e-5, 1e6, 1e-6, 2e6]);
            Query::new(min, max, nudged(g, cell))
        }
    }
}

pub fn query(g: &mut Gen) -> Query {
    let q = shape(g);
    varied(g, q)
}

/// A question about a blank of a few of the smallest cells.
pub fn fine_query(g: &mut Gen) -> Query {
    let q = fine(g);
    varied(g, q)
}

/// The same blank with budgets that are met or missed, now and then another fault, and asked at a place.
fn varied(g: &mut Gen, mut q: Query) -> Query {
    q.max_rays = near(g, q.max_rays);
    q.max_intervals = near(g, q.max_intervals);
    if g.once_in(20) {
        match g.below(6) {
            0 => q.version = g.pick(&[0, 2]),
            1 => q.units = 1 + g.below(4) as usize,
            2 => q.min[g.below(3) as usize] = g.double(),
            3 => q.max[g.below(3) as usize] = g.double(),
            _ => q.cell = g.double(),
        }
    }
    q.axis = g.below(3) as usize;
    if let Ok(grid) = q.spec().grid() {
        q.index = g.below(grid.rays(q.axis) as u64);
        q.i = g.below(grid.cells[q.axis] as u64 + 2);
        let bound = q.min[q.axis] + q.i as f64 * grid.step_mm[q.axis];
        q.x = if g.once_in(8) { g.double() } else { nudged(g, bound) };
    }
    q
}

/// Document 01's examples: box 0 to 10, cell 3, its budgets one short, and the least extent.
pub fn edges() -> Vec<Query> {
    let cube = |to: f64, cell: f64| Query::new([0.; 3], [to; 3], cell);
    let ten = cube(10., 3.);
    let least = cube(1e-6, 1.);
    vec![
        ten.clone(),
        Query { max_rays: 47, ..ten.clone() },
        Query { max_intervals: 95, ..ten.clone() },
        Query { x: 10., i: 4, ..ten.clone() },
        least.clone(),
        Query { max: [1e-6f64.next_down(); 3], ..least },
        Query { units: 3, ..ten.clone() },
        Query { version: 2, ..ten },
    ]
}

/// A box and a grid over it, and a place along an axis: the index of a ray, or a boundary of cells.
#[derive(Clone, Debug)]
pub struct Place {
    pub min: [f64; 3],
    pub max: [f64; 3],
    pub grid: DexelGrid,
    pub axis: usize,
    pub at: u64,
}

impl Place {
    fn stock(&self) -> DexelStock {
        rust::stock_over(rust::spec(self.min, self.max, 1., 1, 1), self.grid)
    }

    pub fn ray_center(&self) -> [f64; 2] {
        self.stock().ray_center(self.axis, self.at as usize)
    }

    pub fn cell_bound(&self) -> f64 {
        self.stock().cell_bound(self.axis, self.at as usize)
    }
}

/// A grid that `grid` accepts, or one with any numbers but at least one cell along each axis.
fn place(g: &mut Gen, at: impl Fn(&mut Gen, &DexelGrid, usize) -> u64) -> Place {
    let axis = g.below(3) as usize;
    let q = query(g);
    let (min, max, grid) = match q.spec().grid() {
        Ok(grid) => (q.min, q.max, grid),
        Err(_) => {
            let mut three = || -> [f64; 3] { [g.double(), g.double(), g.double()] };
            let (min, max, step_mm) = (three(), three(), three());
            let mut cells = || 1 + (g.u64() >> (1 + g.below(63))) as usize;
            (min, max, DexelGrid { cells: [cells(), cells(), cells()], step_mm })
        }
    };
    let at = at(g, &grid, axis);
    Place { min, max, grid, axis, at }
}

/// A ray along the axis, the last one among them, or any number.
pub fn center_place(g: &mut Gen) -> Place {
    place(g, |g, grid, axis| {
        let [u, v] = DexelGrid::cross(axis);
        let rays = (grid.cells[u] as u64).saturating_mul(grid.cells[v] as u64);
        match g.below(8) {
            0 => rays - 1,
            1 => g.u64() >> g.below(64),
            _ => g.below(rays),
        }
    })
}

/// A boundary along the axis, the box's faces among them, or any number.
pub fn bound_place(g: &mut Gen) -> Place {
    place(g, |g, grid, axis| {
        let cells = grid.cells[axis] as u64;
        match g.below(8) {
            0 => g.pick(&[0, 1, cells - 1, cells, cells + 1]),
            1 => g.u64() >> g.below(64),
            _ => g.below(cells),
        }
    })
}

/// Every ray and boundary of document 01's box 0 to 10 with cell 3, and one past the last.
pub fn places() -> Vec<Place> {
    let grid = Query::new([0.; 3], [10.; 3], 3.).spec().grid().unwrap();
    let at = |axis: usize, at: u64| Place { min: [0.; 3], max: [10.; 3], grid, axis, at };
    (0..3).flat_map(|axis| (0..=16).map(move |k| at(axis, k))).collect()
}
