//! Opens the private items of dexel.rs. Each function calls camlib's own of that name and does no more.
use super::*;

pub type List = Vec<[f64; 2]>;

pub fn normalize(spans: List) -> List {
    super::normalize(spans)
}

pub fn subtract(a: &[[f64; 2]], b: &[[f64; 2]]) -> List {
    super::subtract(a, b)
}

pub fn intersect(a: &[[f64; 2]], b: &[[f64; 2]]) -> List {
    super::intersect(a, b)
}

pub fn contains(outer: &[[f64; 2]], inner: &[[f64; 2]]) -> bool {
    super::contains(outer, inner)
}

pub fn overlaps(a: &[[f64; 2]], b: &[[f64; 2]]) -> bool {
    super::overlaps(a, b)
}

pub fn ray(possible: List, certain: List) -> Ray {
    Ray { possible: Spans::from_vec(possible), certain: Spans::from_vec(certain) }
}

pub fn valid(ray: &Ray, lo: f64, hi: f64) -> bool {
    ray.valid(lo, hi)
}

pub fn spec(min_mm: Vec3, max_mm: Vec3, cell_size_mm: f64, max_rays: usize, max_intervals: usize) -> DexelStockSpec {
    DexelStockSpec {
        version: 1,
        units: "mm".into(),
        model: DexelModel::TriDexel,
        min_mm,
        max_mm,
        cell_size_mm,
        max_rays,
        max_intervals,
    }
}

/// Which of `grid`'s four errors this is, by its text: 1 description, 2 rays, 3 intervals, 4 step.
pub fn grid_code(error: &str) -> u32 {
    if error.starts_with("dexel stock needs version 1/mm") {
        1
    } else if error.contains(" rays, more than max_rays ") {
        2
    } else if error.contains(" intervals for the uncut box") {
        3
    } else {
        assert_eq!(error, "dexel cells are below supported numerical resolution");
        4
    }
}

/// A stock with these rays and this generation, unchecked.
pub fn stock(spec: DexelStockSpec, generation: u64, rays: [Vec<Ray>; 3]) -> DexelStock {
    let grid = spec.grid().unwrap();
    let intervals = rays.iter().flatten().map(|r| r.intervals()).sum();
    let view = Stock::new(spec.view_spec().unwrap()).unwrap();
    DexelStock { spec, grid, rays, intervals, generation, view }
}

/// A stock with no rays over any grid, to ask where its rays and cells are.
pub fn stock_over(spec: DexelStockSpec, grid: DexelGrid) -> DexelStock {
    let view = StockSpec {
        version: 1,
        units: spec.units.clone(),
        min_mm: spec.min_mm,
        max_mm: spec.max_mm,
        cell_size_mm: spec.cell_size_mm,
        max_cells: 0,
    };
    DexelStock { spec, grid, rays: [vec![], vec![], vec![]], intervals: 0, generation: 0, view: Stock::new(view).unwrap() }
}

/// The interval total after the changes, or the refusal: 13 a change turned away, 10 the budget.
pub fn validate(stock: &DexelStock, changes: &[RayChange]) -> Result<usize, u32> {
    stock.validate(changes).map(|(_, n)| n).map_err(|e| if e.contains("max_intervals") { 10 } else { 13 })
}

pub fn commit_rays(stock: &mut DexelStock, changes: &[RayChange], intervals: usize) -> Result<(), String> {
    stock.commit_rays(changes, intervals)
}

/// The changes at `base_generation` as `apply_delta` takes them (the view follows): 14, 13, 10, 15.
pub fn apply(stock: &mut DexelStock, base_generation: u64, changes: &[RayChange]) -> Result<(), u32> {
    let view = stock.validate(changes).map_or(vec![], |(v, _)| v);
    let delta = DexelDelta {
        base_generation,
        motion_id: 1,
        operation: "op".into(),
        fraction: 1.,
        changes: changes.to_vec(),
        view: StockDelta { changes: view },
        stats: DexelSweepStats::default(),
    };
    stock.apply_delta(&delta).map_err(|e| {
        if e.contains("generation mismatch") {
            14
        } else if e.contains("max_intervals") {
            10
        } else if e.contains("generation overflow") {
            15
        } else {
            assert!(e.starts_with("dexel delta: invalid ray order"), "{e}");
            13
        }
    })
}

pub fn interval_total(stock: &DexelStock) -> usize {
    stock.intervals
}

/// `mod sweep` is private in the text; its opened items are reached from here.
pub use super::sweep::opened as sweep;
