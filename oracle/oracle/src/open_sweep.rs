//! Opens the private items of dexel/sweep.rs. Each function calls camlib's own of that name and does no more.
use super::*;
use crate::{dexel::opened::List, stock::Never};

pub fn frame(axis: Axis) -> ([usize; 3], [f64; 3]) {
    axis.frame()
}

pub fn disk_strip(c: [f64; 2], rho: f64, y0: f64, y1: f64) -> Option<[f64; 2]> {
    super::disk_strip(c, rho, y0, y1)
}

pub fn polygon_strip(poly: [[f64; 2]; 4], y0: f64, y1: f64) -> Option<[f64; 2]> {
    super::polygon_strip(poly, y0, y1)
}

pub fn stadium_strip(a: [f64; 2], b: [f64; 2], rho: f64, y0: f64, y1: f64) -> Option<[f64; 2]> {
    super::stadium_strip(a, b, rho, y0, y1)
}

/// `stadium_strip` with the plan length as an input (package `oracle_len` only).
pub fn stadium_strip_of(length: f64, a: [f64; 2], b: [f64; 2], rho: f64, y0: f64, y1: f64) -> Option<[f64; 2]> {
    crate::PLAN_LENGTH.set(Some(length));
    let strip = super::stadium_strip(a, b, rho, y0, y1);
    crate::PLAN_LENGTH.set(None);
    strip
}

pub fn spans_meet(p: &[[f64; 2]], s: [f64; 2]) -> bool {
    super::spans_meet(p, s)
}

pub fn cut_radius(tool: &PreparedAssembly, h: f64) -> f64 {
    Profile::new(tool).unwrap().cut_radius(h)
}

pub fn cut_max(tool: &PreparedAssembly, h0: f64, h1: f64) -> Option<f64> {
    Profile::new(tool).unwrap().cut_max(h0, h1)
}

pub fn cut_min(tool: &PreparedAssembly, h0: f64, h1: f64) -> Option<f64> {
    Profile::new(tool).unwrap().cut_min(h0, h1)
}

/// A cutter's profile, made once for many heights.
pub struct Heights<'a>(Profile<'a>);

impl<'a> Heights<'a> {
    pub fn new(tool: &'a PreparedAssembly) -> Self {
        Heights(Profile::new(tool).unwrap())
    }

    pub fn cut_max(&self, h0: f64, h1: f64) -> Option<f64> {
        self.0.cut_max(h0, h1)
    }

    pub fn cut_min(&self, h0: f64, h1: f64) -> Option<f64> {
        self.0.cut_min(h0, h1)
    }
}

pub fn refuses(tool: &PreparedAssembly) -> bool {
    Profile::new(tool).is_err()
}

fn kernel(stock: &DexelStock, axis: Axis, guard: f64, visits: u64, max_visits: u64) -> Kernel<'_> {
    let (perm, sign) = axis.frame();
    Kernel { stock, perm, sign, guard, visits, max_visits }
}

pub fn local(stock: &DexelStock, axis: Axis, p: Vec3) -> Vec3 {
    kernel(stock, axis, 0., 0, 0).local(p)
}

pub fn local_axis(stock: &DexelStock, axis: Axis, a: usize) -> usize {
    kernel(stock, axis, 0., 0, 0).local_axis(a)
}

pub fn world(stock: &DexelStock, axis: Axis, i: usize, s: [f64; 2]) -> [f64; 2] {
    kernel(stock, axis, 0., 0, 0).world(i, s)
}

/// The rays that `Kernel::rays` visits, in order: index, local centre, half extents. None: over the budget.
pub fn rays(
    stock: &DexelStock,
    axis: Axis,
    a: usize,
    ranges: [[f64; 2]; 3],
    max_visits: u64,
) -> Option<Vec<(usize, Vec3, Vec3)>> {
    let mut out = vec![];
    let mut k = kernel(stock, axis, 0., 0, max_visits);
    k.rays(a, ranges, &Never, |_, r| {
        out.push((r.index, r.center, r.half));
        Ok(())
    })
    .ok()?;
    Some(out)
}

#[derive(Clone, Copy, Debug, PartialEq)]
pub struct WorldChord {
    pub a: Vec3,
    pub b: Vec3,
    pub e: f64,
    /// The plan length, read by package `oracle_len` only; None: `hypot`.
    pub length: Option<f64>,
}

/// A log entry of the port: a hit ray, in visiting order. A chord visits a ray of an axis at most once.
#[derive(Clone, Copy, Debug, PartialEq)]
pub struct Entry {
    pub axis: usize,
    pub index: usize,
    pub outer: [f64; 2],
    pub inner: Option<[f64; 2]>,
}

/// `across` for one chord and one world axis. `visits` is the kernel's counter.
/// False: the visit budget ended; what was hit until then is in `log`.
#[allow(clippy::too_many_arguments)]
pub fn across(
    stock: &DexelStock,
    tool: &PreparedAssembly,
    axis: Axis,
    guard: f64,
    c: WorldChord,
    a: usize,
    visits: &mut u64,
    max_visits: u64,
    log: &mut Vec<Entry>,
) -> bool {
    let profile = Profile::new(tool).unwrap();
    let mut k = kernel(stock, axis, guard, *visits, max_visits);
    let chord = Chord { a: k.local(c.a), b: k.local(c.b), e: c.e };
    let la = k.local_axis(a);
    let mut hits = BTreeMap::new();
    crate::PLAN_LENGTH.set(c.length);
    let done = DexelStock::across(&mut k, &profile, &chord, a, la, &mut hits, &Never).is_ok();
    crate::PLAN_LENGTH.set(None);
    *visits = k.visits;
    for (index, h) in hits {
        assert_eq!(h.outer.len(), 1);
        assert!(h.inner.len() <= 1);
        log.push(Entry { axis: a, index, outer: h.outer[0], inner: h.inner.first().copied() });
    }
    done
}

/// The lateral sweep as document 01 orders it: chords in order, for each the two world axes other than the tool's.
/// The visit total, or None where the budget ends.
pub fn sweep(
    stock: &DexelStock,
    tool: &PreparedAssembly,
    axis: Axis,
    guard: f64,
    chords: &[WorldChord],
    max_visits: u64,
    log: &mut Vec<Entry>,
) -> Option<u64> {
    let mut visits = 0;
    let parallel = axis.frame().0[2];
    for c in chords {
        for a in (0..3).filter(|a| *a != parallel) {
            if !across(stock, tool, axis, guard, *c, a, &mut visits, max_visits, log) {
                return None;
            }
        }
    }
    Some(visits)
}

/// The hits of a log as the merge loop takes them.
pub struct Grouped([BTreeMap<usize, Hits>; 3]);
pub fn group(log: &[Entry]) -> Grouped {
    let mut hits: [BTreeMap<usize, Hits>; 3] = Default::default();
    for e in log {
        let h = hits[e.axis].entry(e.index).or_default();
        h.outer.push(e.outer);
        h.inner.extend(e.inner);
    }
    Grouped(hits)
}

/// The merge loop. None: one more changed ray than `max_changed`.
pub fn merge(stock: &DexelStock, hits: Grouped, max_changed: usize) -> Option<Vec<RayChange>> {
    let options = SweepOptions {
        tolerance_mm: 1e-3,
        max_tip_step_mm: 1.,
        max_segments: 1,
        max_cell_visits: 0,
        max_changed_cells: max_changed,
    };
    stock.merge_loop(hits.0, options, &Never).ok()
}

/// The merge loop over the one ray of a one-cell stock: the new possible and certain lists, or None where it stays.
pub fn merge_one(stock: &DexelStock, outer: List, inner: List) -> Option<(List, List)> {
    let mut hits: [BTreeMap<usize, Hits>; 3] = Default::default();
    hits[0].insert(0, Hits { outer, inner });
    let changes = merge(stock, Grouped(hits), 1).unwrap();
    let c = changes.into_iter().next()?;
    Some((c.after.possible.as_slice().to_vec(), c.after.certain.as_slice().to_vec()))
}
