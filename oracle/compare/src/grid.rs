//! The grid of a blank against camlib's: refusals, cells and steps, and for an accepted description the functions over its grid.
use crate::{
    function::{Function, Outcome, Words},
    strips,
};
use harness::{
    generate::Gen,
    grid::{Answer, Place, Query, UNITS, bound_place, center_place, edges, fine_query, places, query},
};
use tridexel::raw;
pub use tridexel::raw::RawSpec as DexelStockSpec;

#[derive(Clone, Copy)]
#[repr(C)]
pub struct DexelGrid {
    pub c0: u64,
    pub c1: u64,
    pub c2: u64,
    pub s0: f64,
    pub s1: f64,
    pub s2: f64,
}

#[derive(Clone, Copy)]
#[repr(C)]
pub struct RayCenter {
    pub u: f64,
    pub v: f64,
}

mod inner {
    use super::{DexelGrid, DexelStockSpec, RayCenter};
    unsafe extern "C" {
        pub fn tridexel_inner_rays(g: DexelGrid, axis: u8) -> u64;
        pub fn tridexel_inner_total_rays(g: DexelGrid) -> u64;
        pub fn tridexel_inner_ray_number(g: DexelGrid, axis: u8, index: u64) -> u64;
        pub fn tridexel_inner_ray_center(spec: DexelStockSpec, g: DexelGrid, axis: u8, index: u64) -> RayCenter;
        pub fn tridexel_inner_cell_bound(spec: DexelStockSpec, g: DexelGrid, axis: u8, i: u64) -> f64;
        pub fn tridexel_inner_cell_at(spec: DexelStockSpec, g: DexelGrid, axis: u8, x: f64) -> u64;
    }
}

/// The description as the port takes it.
pub fn described(q: &Query) -> DexelStockSpec {
    DexelStockSpec {
        version: q.version,
        min_mm: q.min,
        max_mm: q.max,
        cell_size_mm: q.cell,
        max_rays: q.max_rays,
        max_intervals: q.max_intervals,
    }
}

pub fn grid(spec: DexelStockSpec, units: &[u8], counts: &mut [u64; 3], steps: &mut [f64; 3]) -> u32 {
    unsafe { raw::tridexel_grid(spec, units.as_ptr(), units.len(), counts, steps) }
}

/// What the numbers are before a call: a refused one leaves them, and the payloads of NaNs too.
const BEFORE: ([u64; 3], [f64; 3]) = ([0xdead_beef; 3], [f64::from_bits(0x7ff8_dead_beef_0001); 3]);

/// The port's answer. What the exports ask of a grid holds of each that `tridexel_grid` accepts; a query's index is one of its rays.
pub fn port(q: &Query) -> Answer {
    let spec = described(q);
    let (mut cells, mut steps) = BEFORE;
    let refused = grid(spec, UNITS[q.units].as_bytes(), &mut cells, &mut steps);
    if refused != 0 {
        let kept = cells == BEFORE.0 && steps.map(f64::to_bits) == BEFORE.1.map(f64::to_bits);
        let (cells, steps) = if kept { ([0; 3], [0.; 3]) } else { (cells, steps) };
        return Answer { refused: refused as u64, cells, steps, ..Answer::default() };
    }
    let g = DexelGrid { c0: cells[0], c1: cells[1], c2: cells[2], s0: steps[0], s1: steps[1], s2: steps[2] };
    let w = q.axis as u8;
    unsafe {
        let rays = inner::tridexel_inner_rays(g, w);
        if rays <= q.index {
            return Answer { cells, steps, rays, ..Answer::default() };
        }
        let center = inner::tridexel_inner_ray_center(spec, g, w, q.index);
        Answer {
            refused: 0,
            cells,
            steps,
            rays,
            total: inner::tridexel_inner_total_rays(g),
            center: [center.u, center.v],
            bound: inner::tridexel_inner_cell_bound(spec, g, w, q.i),
            cell: inner::tridexel_inner_cell_at(spec, g, w, q.x),
            number: inner::tridexel_inner_ray_number(g, w, q.index),
        }
    }
}

impl Words for Answer {
    fn words(&self) -> String {
        let numbers = [self.rays, self.total, self.cell, self.number];
        let doubles = [self.center[0], self.center[1], self.bound];
        format!("{} {} {} {} {}", self.refused, self.cells.words(), self.steps.words(), numbers.words(), doubles.words())
    }
}

impl Words for Query {
    fn words(&self) -> String {
        let budgets = [self.max_rays, self.max_intervals];
        let ask = [self.axis as u64, self.index, self.i];
        let ends = (self.min.to_vec(), self.max.to_vec(), self.cell);
        format!("{} {} {} {} {} {}", self.version, UNITS[self.units], ends.words(), budgets.words(), ask.words(), self.x.words())
    }
}

impl Words for Place {
    fn words(&self) -> String {
        let cells = self.grid.cells.map(|n| n as u64);
        let ends = (self.min.to_vec(), self.max.to_vec());
        format!("{} {} {} {} {}", ends.words(), cells.words(), self.grid.step_mm.words(), self.axis, self.at)
    }
}

/// The box, which is all that the functions over a grid read of a description, and the grid.
fn over(p: &Place) -> (DexelStockSpec, DexelGrid) {
    let spec = DexelStockSpec { version: 1, min_mm: p.min, max_mm: p.max, cell_size_mm: 1., max_rays: 1, max_intervals: 1 };
    let [c0, c1, c2] = p.grid.cells.map(|n| n as u64);
    let [s0, s1, s2] = p.grid.step_mm;
    (spec, DexelGrid { c0, c1, c2, s0, s1, s2 })
}

/// A place has at least one cell along each axis, which `ray_center` asks for.
fn compare_center(p: &Place) -> Outcome {
    let (spec, g) = over(p);
    let port = unsafe { inner::tridexel_inner_ray_center(spec, g, p.axis as u8, p.at) };
    strips::answers((0, p.ray_center()), (0, [port.u, port.v]))
}

fn compare_bound(p: &Place) -> Outcome {
    let (spec, g) = over(p);
    let port = unsafe { inner::tridexel_inner_cell_bound(spec, g, p.axis as u8, p.at) };
    strips::answers((0, [p.cell_bound(), 0.]), (0, [port, 0.]))
}

fn question(g: &mut Gen) -> Query {
    if g.once_in(4) { fine_query(g) } else { query(g) }
}

fn compare_grid(q: &Query) -> Outcome {
    let (rust, port) = (q.answer().words(), port(q).words());
    if rust == port { Outcome::Same } else { Outcome::differs(None, rust, port) }
}

pub fn functions() -> Vec<Function> {
    vec![
        Function::new("grid", edges(), question, compare_grid),
        Function::new("ray_center", places(), center_place, compare_center),
        Function::new("cell_bound", places(), bound_place, compare_bound),
    ]
}
