//! The sweep against camlib's `across` over chords and axes. Plan lengths go in as numbers, so camlib's text is that of package `oracle_len`.
//! Its refusals are judged by document 01's words, since camlib has the budget only.
mod cases;
mod reaching;
mod touching;

use crate::{
    cutter::{self, Tool, assembled},
    explained::Explained,
    function::{Function, Outcome, Words},
    grid::DexelStockSpec,
    reached::Reached,
};
pub use cases::{any, chord, small, wide};
use harness::{Pair, grid::UNITS, lent::Lent, same};
use oracle_len::dexel::{
    Axis, DexelStock, DexelStockSpec as RustSpec, Ray,
    opened::{self as rust, sweep as rust_sweep},
};
pub use reaching::WANTED;
use tridexel::raw;

pub const AXES: [Axis; 6] = [Axis::PosX, Axis::NegX, Axis::PosY, Axis::NegY, Axis::PosZ, Axis::NegZ];
const CHORD: usize = 8;
const ENTRY: usize = 6;

/// A stock in its lent cells, a tool, chords, budgets, and one fault at the most.
#[derive(Clone, Debug)]
pub struct Case {
    pub version: u32,
    /// a place in `UNITS`
    pub units: usize,
    pub min: [f64; 3],
    pub max: [f64; 3],
    pub cell: f64,
    pub max_rays: u64,
    pub max_intervals: u64,
    /// the rays' lists, by axis
    pub rays: [Vec<(Vec<Pair>, Vec<Pair>)>; 3],
    pub spans: Vec<f64>,
    pub links: Vec<u64>,
    pub heads: Vec<u64>,
    pub intervals: u64,
    /// the store is as the rays say
    pub sound: bool,
    /// poisoned cells after the spans, the links and the heads
    pub over: usize,
    pub axis: u64,
    pub tool: Tool,
    /// the tool is as camlib's constructor makes it
    pub prepared: bool,
    pub guard: f64,
    pub chords: Vec<f64>,
    pub budget: u64,
    pub log: usize,
}

impl Words for Case {
    fn words(&self) -> String {
        let described = [self.version as u64, self.units as u64];
        let budgets =
            [self.max_rays, self.max_intervals, self.intervals, self.axis, self.tool.kind, self.budget, self.log as u64];
        format!(
            "{} {} {} {} {} {} {} {} {} {} {} {}",
            described.words(),
            self.min.words(),
            self.max.words(),
            self.cell.words(),
            budgets.words(),
            self.spans.words(),
            self.links.words(),
            self.heads.words(),
            self.tool.own.words(),
            self.tool.c.numbers().words(),
            self.guard.words(),
            self.chords.words()
        )
    }
}

/// A stock over a box with no rays, to ask where its rays are; None where the box is refused.
fn stock_over(min: [f64; 3], max: [f64; 3], cell: f64) -> Option<DexelStock> {
    let spec = rust::spec(min, max, cell, u32::MAX as usize, usize::MAX);
    let grid = spec.grid().ok()?;
    Some(rust::stock_over(spec, grid))
}

/// The whole chords of these cells.
fn world_chords(cells: &[f64]) -> Vec<rust_sweep::WorldChord> {
    let (chunks, _) = cells.as_chunks::<CHORD>();
    let chord =
        |c: &[f64; CHORD]| rust_sweep::WorldChord { a: [c[0], c[1], c[2]], b: [c[3], c[4], c[5]], e: c[6], length: Some(c[7]) };
    chunks.iter().map(chord).collect()
}

/// Document 01's refusal 7.
pub fn chord_fault(axis: Axis, guard: f64, chords: &[f64]) -> bool {
    let perm = rust_sweep::frame(axis).0;
    let fault = |c: &rust_sweep::WorldChord| {
        let plan = [0, 1].map(|i| (c.b[perm[i]] - c.a[perm[i]]).abs());
        let larger = plan[0].max(plan[1]);
        let length = c.length.unwrap();
        c.a.iter().chain(&c.b).any(|x| !x.is_finite() || x.abs() > 2e6)
            || c.e.is_nan()
            || c.e < 0.
            || c.e > 1000.
            || length.is_nan()
            || length < larger
            || length > 2. * larger
    };
    guard.is_nan() || guard <= 0. || guard > 1. || world_chords(chords).iter().any(fault)
}

impl Case {
    fn tool_axis(&self) -> Axis {
        AXES[self.axis as usize]
    }

    /// Its number names no axis, or no shape.
    fn nameless(&self) -> bool {
        self.axis >= AXES.len() as u64 || self.tool.kind >= cutter::SHAPES
    }

    fn spec(&self) -> RustSpec {
        RustSpec {
            version: self.version,
            units: UNITS[self.units].into(),
            ..rust::spec(self.min, self.max, self.cell, self.max_rays as usize, self.max_intervals as usize)
        }
    }

    fn stock(&self) -> DexelStock {
        let rays = |a: usize| -> Vec<Ray> { self.rays[a].iter().map(|(p, c)| rust::ray(p.clone(), c.clone())).collect() };
        rust::stock(self.spec(), 0, [rays(0), rays(1), rays(2)])
    }

    /// The refusals that are found before a ray is visited, in document 01's order.
    fn early(&self) -> u32 {
        let grid = match self.spec().grid() {
            Ok(g) => g,
            Err(e) => return rust::grid_code(&e),
        };
        let n = self.max_intervals as usize;
        if self.spans.len() / 2 < n || self.links.len() / 2 < n || self.heads.len() < 2 * grid.total_rays() {
            return 12;
        }
        if !self.chords.len().is_multiple_of(CHORD) || !self.sound {
            return 11;
        }
        match cutter::refusal(&self.tool).0 {
            5 => 5,
            _ if self.nameless() => 6,
            0 if chord_fault(self.tool_axis(), self.guard, &self.chords) => 7,
            k => k as u32,
        }
    }

    /// The refusal or 0, the entries and the visit total, by camlib.
    pub fn rust(&self) -> (u32, Vec<rust_sweep::Entry>, u64) {
        let early = self.early();
        if early != 0 {
            return (early, vec![], 0);
        }
        let mut log = vec![];
        let stock = self.stock();
        let tool = assembled!(oracle_len, &self.tool);
        let visits =
            rust_sweep::sweep(&stock, &tool, self.tool_axis(), self.guard, &world_chords(&self.chords), self.budget, &mut log);
        match visits {
            _ if log.len() > self.log / ENTRY => (16, vec![], 0),
            None => (8, vec![], 0),
            Some(v) => (0, log, v),
        }
    }
}

/// A stock's cells, a tool and chords as the port takes them.
#[derive(Clone, Copy)]
pub struct Lending<'a> {
    pub spec: DexelStockSpec,
    pub units: &'a str,
    pub spans: &'a [f64],
    pub links: &'a [u64],
    pub heads: &'a [u64],
    pub intervals: u64,
    pub axis: u64,
    pub tool: &'a Tool,
    pub guard: f64,
    pub chords: &'a [f64],
    pub budget: u64,
}

/// The port's refusal or 0; the log and both totals are written in place.
pub fn port(l: &Lending, log: &mut [f64], entries: &mut usize, visits: &mut u64) -> u32 {
    unsafe {
        raw::tridexel_sweep(
            l.spec,
            l.units.as_ptr(),
            l.units.len(),
            l.spans.as_ptr(),
            l.spans.len(),
            l.links.as_ptr(),
            l.links.len(),
            l.heads.as_ptr(),
            l.heads.len(),
            l.intervals,
            l.axis,
            l.tool.kind,
            l.tool.own[0],
            l.tool.own[1],
            l.tool.c,
            l.guard,
            l.chords.as_ptr(),
            l.chords.len(),
            l.budget,
            log.as_mut_ptr(),
            log.len(),
            entries,
            visits,
        )
    }
}

/// A version 1 description.
pub fn spec(min: [f64; 3], max: [f64; 3], cell: f64, max_rays: u64, max_intervals: u64) -> DexelStockSpec {
    DexelStockSpec { version: 1, min_mm: min, max_mm: max, cell_size_mm: cell, max_rays, max_intervals }
}

/// The log as the port must leave it, where it was written.
pub fn logged(entries: &[rust_sweep::Entry], len: usize) -> Vec<f64> {
    let mut out: Vec<f64> = entries
        .iter()
        .flat_map(|e| {
            let inner = e.inner.unwrap_or([0.; 2]);
            [e.axis as f64, e.index as f64, e.outer[0], e.outer[1], inner[0], inner[1]]
        })
        .collect();
    out.resize(len, 0.);
    out
}

/// Whether a cell of the log is no computed end: an axis, an index, a cell of no inner, or one past the entries. Such a
/// zero is plus zero.
fn given(entries: &[rust_sweep::Entry], cell: usize) -> bool {
    entries.get(cell / ENTRY).is_none_or(|e| match cell % ENTRY {
        0 | 1 => true,
        2 | 3 => false,
        _ => e.inner.is_none(),
    })
}

/// The buffers of a case that are only read, between guard cells.
struct Buffers {
    spans: Lent<f64>,
    links: Lent<u64>,
    heads: Lent<u64>,
    chords: Lent<f64>,
}

impl Buffers {
    fn new(c: &Case) -> Self {
        Buffers {
            spans: Lent::of(&c.spans, c.over),
            links: Lent::of(&c.links, c.over),
            heads: Lent::of(&c.heads, c.over),
            chords: Lent::of(&c.chords, 0),
        }
    }

    fn lending<'a>(&'a self, c: &'a Case) -> Lending<'a> {
        Lending {
            spec: DexelStockSpec { version: c.version, ..spec(c.min, c.max, c.cell, c.max_rays, c.max_intervals) },
            units: UNITS[c.units],
            spans: self.spans.read(),
            links: self.links.read(),
            heads: self.heads.read(),
            intervals: c.intervals,
            axis: c.axis,
            tool: &c.tool,
            guard: c.guard,
            chords: self.chords.read(),
            budget: c.budget,
        }
    }

    fn untouched(&self, c: &Case) -> bool {
        let store = self.spans.untouched(&c.spans) && self.links.untouched(&c.links) && self.heads.untouched(&c.heads);
        store && self.chords.untouched(&c.chords)
    }
}

type Port = fn(&Lending, &mut [f64], &mut usize, &mut u64) -> u32;

/// Calls with every buffer between guard cells and a poisoned log, and looks at the number, both totals and every cell.
pub fn compare_sweep(c: &Case, port: Port, reached: &mut Reached) -> Outcome {
    const ENTRIES: usize = 0xdead;
    const VISITS: u64 = 0xbeef;
    let buffers = Buffers::new(c);
    let mut log: Lent<f64> = Lent::new(c.log);
    let (mut entries, mut visits) = (ENTRIES, VISITS);
    let refusal = port(&buffers.lending(c), log.cells(), &mut entries, &mut visits);
    let (want, list, total) = c.rust();
    reaching::count(c, want, &list, total, reached);
    let expected = logged(&list, c.log);
    let bits = |i: usize| log.read()[i].to_bits() == expected[i].to_bits();
    let number = |i: usize| !given(&list, i) && same(log.read()[i], expected[i]);
    let kept = (entries, visits) == (ENTRIES, VISITS);
    let written = match want {
        0 => (entries, visits) == (list.len(), total) && log.guarded() && (0..c.log).all(|i| bits(i) || number(i)),
        8 | 16 => kept && log.zero(0),
        _ => kept && log.untouched(&[]),
    };
    let alike = refusal == want && buffers.untouched(c) && written;
    if alike && (want != 0 || (0..c.log).all(bits)) {
        return Outcome::Same;
    }
    let text = |k: u32, n: usize, v: u64, l: &[f64]| format!("{k} {n} {v} {}", l.words());
    let meant = alike.then_some(Explained::Zeros);
    Outcome::differs(meant, text(want, list.len(), total, &expected), text(refusal, entries, visits, log.read()))
}

pub fn functions() -> Vec<Function> {
    vec![Function::counting("sweep", WANTED, vec![], any, |c, reached| compare_sweep(c, port, reached))]
}
