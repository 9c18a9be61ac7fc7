//! Generated sweeps: of a few cells and small numbers, which collide, and over the whole domain, where rays are often
//! touched exactly.
use super::{AXES, CHORD, Case, ENTRY, stock_over, touching};
use crate::cutter::{self, Tool};
use harness::{
    Pair,
    generate::Gen,
    grid::UNITS,
    wide::{self, LEAST, MOST},
};
use oracle_len::dexel::{Axis, opened::sweep as rust_sweep};

/// What is swept: a box, a tool along an axis, chords and a guard.
pub struct Scene {
    pub min: [f64; 3],
    pub max: [f64; 3],
    pub cell: f64,
    pub axis: u64,
    pub tool: Tool,
    /// the tool is as camlib's constructor makes it
    pub prepared: bool,
    pub guard: f64,
    pub chords: Vec<f64>,
}

impl Scene {
    /// Gives the tool this cutting length, where there is such a tool.
    pub fn cut_along(&mut self, length: f64) {
        if length > 0. {
            self.tool.c.cutting_length_mm = length;
            self.tool.c.overall_length_mm = self.tool.c.overall_length_mm.max(length);
            self.prepared = false;
        }
    }
}

/// A box of a few cells, often with small whole numbers.
fn blank(g: &mut Gen) -> ([f64; 3], [f64; 3], f64) {
    let number =
        |g: &mut Gen, most: u64| if g.once_in(2) { (g.below(2 * most) + 1) as f64 / 2. } else { g.within(0.1, most as f64) };
    let min = [0; 3].map(|_| if g.once_in(2) { g.below(11) as f64 - 5. } else { g.within(-5., 5.) });
    let max = [0, 1, 2].map(|i| min[i] + number(g, 8));
    let cell = if g.once_in(6) { 20. } else { number(g, 4).max(1.) };
    (min, max, cell)
}

/// Uncut, cut away, or cut in pieces.
fn lists(g: &mut Gen, lo: f64, hi: f64) -> (Vec<Pair>, Vec<Pair>) {
    match g.below(4) {
        0 => (vec![[lo, hi]], vec![[lo, hi]]),
        1 => (vec![], vec![]),
        2 => {
            let (a, b) = (g.within(lo, hi), g.within(lo, hi));
            let p = if a < b { vec![[a, b]] } else { vec![[lo, hi]] };
            (p.clone(), if g.once_in(2) { p } else { vec![] })
        }
        _ => g.ray(lo, hi),
    }
}

fn guard(g: &mut Gen) -> f64 {
    match g.below(40) {
        0 => g.pick(&[0., -0., 1f64.next_up(), f64::NAN, -1.]),
        1 => 1.,
        2..=20 => 0.001,
        _ => g.scale(1e-9, 1.),
    }
}

/// A coordinate in, at or near the box along an axis.
fn coordinate(g: &mut Gen, lo: f64, hi: f64) -> f64 {
    match g.below(12) {
        0 => lo,
        1 => hi,
        2 => g.within(-40., 40.),
        3 => (lo + hi) / 2.,
        4 | 5 => g.within(lo, hi).round(),
        _ => g.within(lo - 6., hi + 6.),
    }
}

/// The plan length of a chord with these local plan differences, within document 01's limits.
pub fn plan_length(d: [f64; 2]) -> f64 {
    let larger = d[0].abs().max(d[1].abs());
    d[0].hypot(d[1]).max(larger).min(2. * larger)
}

/// A chord with these coordinates and errors, now and then of another plan length, or with a coordinate at or past the limit.
fn chord_of(g: &mut Gen, axis: Axis, at: impl Fn(&mut Gen, usize) -> f64, error: impl Fn(&mut Gen) -> f64) -> [f64; CHORD] {
    let a = [0, 1, 2].map(|i| at(g, i));
    let b = match g.below(6) {
        0 => a,
        _ => [0, 1, 2].map(|i| if g.once_in(3) { a[i] } else { at(g, i) }),
    };
    let perm = rust_sweep::frame(axis).0;
    let plan = [0, 1].map(|i| b[perm[i]] - a[perm[i]]);
    let larger = plan[0].abs().max(plan[1].abs());
    let length = match g.below(60) {
        0 => g.pick(&[larger, 2. * larger]),
        1 => g.pick(&[larger.next_down(), (2. * larger).next_up(), f64::NAN, -1.]),
        2 => larger * (1. + g.unit()),
        _ => plan_length(plan),
    };
    let mut c = [a[0], a[1], a[2], b[0], b[1], b[2], error(g), length];
    if g.once_in(100) {
        c[g.below(6) as usize] = g.pick(&[f64::NAN, f64::INFINITY, -2e6, 2e6f64.next_up(), -2e6f64.next_up()]);
    }
    c
}

fn error(g: &mut Gen) -> f64 {
    match g.below(60) {
        0 => g.pick(&[-1e-9, 1000., 1000f64.next_up(), f64::NAN]),
        1..=20 => 0.,
        _ => g.scale(1e-6, 0.5),
    }
}

/// A chord near a small box.
pub fn chord(g: &mut Gen, axis: Axis, min: [f64; 3], max: [f64; 3]) -> [f64; CHORD] {
    chord_of(g, axis, |g, i| coordinate(g, min[i], max[i]), error)
}

fn small_scene(g: &mut Gen) -> Scene {
    let (min, max, cell) = blank(g);
    let axis = g.below(6);
    let tool = if g.once_in(8) { cutter::any(g) } else { cutter::likely(g) };
    let guard = guard(g);
    let chords = (0..g.below(4)).flat_map(|_| chord(g, AXES[axis as usize], min, max)).collect();
    Scene { min, max, cell, axis, tool, prepared: false, guard, chords }
}

// ---- the whole domain

/// How seldom a blank has some ten thousand rays.
const LARGE: u64 = 400;

/// A tool as camlib's constructor makes it, or another; often of a size between the cell's and the blank's.
fn wide_tool(g: &mut Gen, cell: f64, size: f64) -> (Tool, bool) {
    let radius = match g.below(4) {
        0 => g.scale(LEAST, MOST),
        _ => g.scale(cell / 10., 10. * size.max(cell)),
    };
    match g.below(8) {
        0 => (cutter::any(g), false),
        1 | 2 => (cutter::in_proportion(g, radius), false),
        _ => (cutter::prepared(g, radius), true),
    }
}

fn wide_guard(g: &mut Gen, radius: f64) -> f64 {
    match g.below(40) {
        0 => g.pick(&[0., -0., 1f64.next_up(), f64::NAN, -1.]),
        1 => 1.,
        2..=9 => g.scale(1e-12, 1.),
        _ => (radius * g.scale(1e-9, 0.1)).clamp(f64::MIN_POSITIVE, 1.),
    }
}

fn wide_error(g: &mut Gen, radius: f64) -> f64 {
    match g.below(40) {
        0 => g.pick(&[-1e-9, 1000f64.next_up(), f64::NAN]),
        1 => 1000.,
        2..=4 => g.scale(1e-12, 1000.),
        5..=19 => 0.,
        _ => (radius * g.scale(1e-9, 0.5)).min(1000.),
    }
}

/// A coordinate in or at the side [lo, hi], at zero, so far before or past the side, or anywhere.
fn wide_coordinate(g: &mut Gen, [lo, hi]: Pair, [before, past]: Pair) -> f64 {
    let x = match g.below(24) {
        0 | 1 => lo,
        2 | 3 => hi,
        4 => 0.,
        5 => g.within(-2. * MOST, 2. * MOST),
        6 | 7 => (lo + hi) / 2.,
        8..=13 => g.within(lo, hi),
        _ => g.within(lo - before, hi + past),
    };
    x.clamp(-2. * MOST, 2. * MOST)
}

/// A chord from where the tool can reach the box.
fn wide_chord(g: &mut Gen, s: &Scene) -> [f64; CHORD] {
    let axis = AXES[s.axis as usize];
    let (perm, sign) = rust_sweep::frame(axis);
    let (radius, cutting) = (s.tool.c.radius, s.tool.c.cutting_length_mm);
    let reach = |i: usize| match () {
        _ if i != perm[2] => [radius, radius],
        _ if sign[2] > 0. => [cutting, 0.],
        _ => [0., cutting],
    };
    let mut c = chord_of(g, axis, |g, i| wide_coordinate(g, [s.min[i], s.max[i]], reach(i)), |g| wide_error(g, radius));
    g.sign_zeros(&mut c);
    c
}

fn wide_scene(g: &mut Gen) -> Scene {
    let wide::Blank { min, max, cell } = if g.once_in(LARGE) { wide::large_blank(g) } else { wide::blank(g) };
    let size = (0..3).map(|i| max[i] - min[i]).fold(0., f64::max);
    let (tool, prepared) = wide_tool(g, cell, size);
    let guard = wide_guard(g, tool.c.radius);
    let mut s = Scene { min, max, cell, axis: g.below(6), tool, prepared, guard, chords: vec![] };
    for _ in 0..g.pick(&[1, 1, 1, 1, 2, 2, 3, 0]) {
        let chord = wide_chord(g, &s);
        s.chords.extend(chord);
    }
    if g.once_in(3) {
        touching::touch(g, &mut s);
    }
    s
}

// ---- from a scene to a case

/// Lays the lists in records of any order.
fn lay(g: &mut Gen, c: &mut Case) {
    let n = c.max_intervals as usize;
    let mut free: Vec<usize> = (0..n).collect();
    for i in (1..n).rev() {
        free.swap(i, g.below(i as u64 + 1) as usize);
    }
    c.spans = vec![0.; 2 * n];
    c.links = vec![0; 2 * n];
    c.heads.clear();
    c.intervals = 0;
    let all: Vec<Vec<Pair>> = c.rays.iter().flatten().flat_map(|(p, q)| [p.clone(), q.clone()]).collect();
    for (j, list) in all.iter().enumerate() {
        let mut next = 0;
        for s in list.iter().rev() {
            let i = free.pop().unwrap();
            c.spans[2 * i..2 * i + 2].copy_from_slice(s);
            c.links[2 * i] = next;
            c.links[2 * i + 1] = j as u64 + 1;
            next = i as u64 + 1;
            c.intervals += 1;
        }
        c.heads.push(next);
    }
}

/// One fault of the description, the store, the chords or the numbers of the axis and the shape, or a buffer that is too short.
fn spoil(g: &mut Gen, c: &mut Case) {
    let rays = c.heads.len() as u64 / 2;
    match g.below(13) {
        0 => {
            c.intervals += 1;
            c.sound = false;
        }
        1 => {
            let i = g.below(c.heads.len() as u64) as usize;
            c.heads[i] = if c.heads[i] == 0 { 1 } else { 0 };
            c.sound = false;
        }
        2 => {
            c.spans.pop();
        }
        3 => {
            c.heads.pop();
        }
        4 => c.chords.push(1.),
        5 => c.links.truncate(c.links.len() - 2),
        6 => c.max_rays = 0,
        7 => c.max_rays = rays - 1,
        8 => c.version = g.pick(&[0, 2, u32::MAX]),
        9 => c.units = 1 + g.below(UNITS.len() as u64 - 1) as usize,
        10 => c.axis = g.pick(&[6, 7, u64::MAX]),
        11 => c.tool.kind = g.pick(&[9, 10, u64::MAX]),
        _ => c.max_intervals = 2 * rays - 1,
    }
}

/// The lists of a ray between these bounds.
type Lists = fn(&mut Gen, f64, f64) -> (Vec<Pair>, Vec<Pair>);

/// Puts rays with these lists into their store; nothing where the description is refused.
fn with_rays(g: &mut Gen, c: &mut Case, lists: Lists) {
    let Some(grid) = stock_over(c.min, c.max, c.cell).map(|s| s.grid()) else { return };
    let uncut = g.once_in(3);
    for a in 0..3 {
        let (lo, hi) = (c.min[a], c.max[a]);
        let full = || (vec![[lo, hi]], vec![[lo, hi]]);
        c.rays[a] = (0..grid.rays(a)).map(|_| if uncut { full() } else { lists(g, lo, hi) }).collect();
    }
    let used: usize = c.rays.iter().flatten().map(|(p, q)| p.len() + q.len()).sum();
    c.max_rays = grid.total_rays() as u64 + g.below(2);
    c.max_intervals = (used as u64).max(2 * c.max_rays) + g.below(4);
    lay(g, c);
}

/// A budget and a log that suffice, just suffice, or just do not; cells past the store, and now and then a fault.
fn with_rooms(g: &mut Gen, c: &mut Case) {
    c.budget = u64::MAX;
    c.log = usize::MAX / 16;
    let (_, list, visits) = c.rust();
    c.budget = match g.below(8) {
        0 => visits.saturating_sub(1),
        1 => g.below(visits + 1),
        2 => visits,
        3 => 0,
        4 => u64::MAX,
        _ => visits + g.below(3),
    };
    let full = ENTRY * list.len();
    c.log = match g.below(8) {
        0 => full.saturating_sub(1),
        1 => g.below(full as u64 + 1) as usize,
        2 => 0,
        3 => full,
        _ => full + g.below(14) as usize,
    };
    if g.once_in(4) {
        c.over = 1 + g.below(3) as usize;
    }
    if g.once_in(14) {
        c.over = 0;
        spoil(g, c);
    }
}

fn case_of(g: &mut Gen, s: Scene, lists: Lists) -> Case {
    let mut c = Case {
        version: 1,
        units: 0,
        min: s.min,
        max: s.max,
        cell: s.cell,
        max_rays: 100_000,
        max_intervals: 1_000_000,
        rays: Default::default(),
        spans: vec![],
        links: vec![],
        heads: vec![],
        intervals: 0,
        sound: true,
        over: 0,
        axis: s.axis,
        tool: s.tool,
        prepared: s.prepared,
        guard: s.guard,
        chords: s.chords,
        budget: 0,
        log: 0,
    };
    with_rays(g, &mut c, lists);
    if !c.heads.is_empty() {
        with_rooms(g, &mut c);
    }
    c
}

/// A sweep of a few cells and small numbers.
pub fn small(g: &mut Gen) -> Case {
    g.size = 3;
    let s = small_scene(g);
    case_of(g, s, lists)
}

/// The same, with zeros of either sign.
fn small_signed(g: &mut Gen) -> Case {
    g.size = 3;
    let mut s = small_scene(g);
    for cells in [&mut s.min[..], &mut s.max, &mut s.chords] {
        g.sign_zeros(cells);
    }
    case_of(g, s, lists)
}

/// A sweep anywhere in the domain.
pub fn wide(g: &mut Gen) -> Case {
    g.size = 3;
    let s = wide_scene(g);
    case_of(g, s, wide::ray_within)
}

pub fn any(g: &mut Gen) -> Case {
    match g.below(4) {
        0 => small(g),
        1 => small_signed(g),
        _ => wide(g),
    }
}
