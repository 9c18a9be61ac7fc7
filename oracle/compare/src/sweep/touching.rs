//! Rays that the swept tool touches exactly: a disc or a side of the stadium ends at the edge of the ray's section, the
//! cutting part ends at it, or the rectangle of visited rays ends at a face of the box. `touch` makes a scene with one,
//! `count` finds them.
use super::{
    AXES, CHORD, Case,
    cases::{Scene, plan_length},
    chord_fault, stock_over,
};
use crate::{
    cutter::{self, assembled},
    reached::Reached,
};
use harness::generate::Gen;
use oracle_len::dexel::{
    Axis, DexelStock,
    opened::sweep::{self as rust, Heights},
};

pub const KINDS: [&str; 5] = ["disc", "side", "tip", "top", "face"];

/// A chord in the tool's frame.
#[derive(Clone, Copy)]
struct Local {
    ends: [[f64; 3]; 2],
    e: f64,
    length: f64,
}

impl Local {
    fn new(axis: Axis, c: &[f64; CHORD]) -> Self {
        let (perm, sign) = rust::frame(axis);
        let end = |p: &[f64]| [0, 1, 2].map(|i| sign[i] * p[perm[i]]);
        Local { ends: [end(&c[..3]), end(&c[3..6])], e: c[6], length: c[7] }
    }

    /// The chord's cells, its plan length by `hypot`.
    fn cells(&self, axis: Axis) -> [f64; CHORD] {
        let (perm, sign) = rust::frame(axis);
        let mut c = [0.; CHORD];
        for (k, end) in self.ends.iter().enumerate() {
            for i in 0..3 {
                c[3 * k + perm[i]] = sign[i] * end[i];
            }
        }
        let [a, b] = self.ends;
        (c[6], c[7]) = (self.e, plan_length([b[0] - a[0], b[1] - a[1]]));
        c
    }

    fn span(&self, i: usize) -> [f64; 2] {
        let [a, b] = self.ends;
        [a[i].min(b[i]), a[i].max(b[i])]
    }

    /// The ranges that camlib's `across` visits rays in, for rays along local axis `la`.
    fn ranges(&self, la: usize, radius: f64, cutting: f64) -> [[f64; 2]; 3] {
        let (o, pad) = (1 - la, radius + self.e);
        let (across, up) = (self.span(o), self.span(2));
        let mut ranges = [[0.; 2]; 3];
        ranges[o] = [across[0] - pad, across[1] + pad];
        ranges[2] = [up[0] - self.e, up[1] + cutting + self.e];
        ranges
    }

    /// The heights on the tool between which a ray's section lies, over the chord.
    fn window(&self, s: &Section) -> [f64; 2] {
        let up = self.span(2);
        [s.z[0] - up[1] - self.e, s.z[1] - up[0] + self.e]
    }
}

/// The edges of a ray's section: across the tool's axis, and along it.
struct Section {
    y: [f64; 2],
    z: [f64; 2],
}

fn section(o: usize, center: [f64; 3], half: [f64; 3]) -> Section {
    let edges = |i: usize| [center[i] - half[i], center[i] + half[i]];
    Section { y: edges(o), z: edges(2) }
}

/// The heights of a stadium's corners over the chord between these heights.
fn corners(y: [f64; 2], n: f64) -> [f64; 4] {
    [y[0] + n, y[1] + n, y[1] - n, y[0] - n]
}

/// What the stadium of radius rho does to a section, by the tests of `disk_strip` and `polygon_strip`: whether a disc,
/// a side touches an edge.
fn stadium_touches(c: &Local, la: usize, rho: f64, s: &Section) -> [bool; 2] {
    let o = 1 - la;
    let y = [c.ends[0][o], c.ends[1][o]];
    let disc = y.iter().any(|y| (*y < s.y[0] && s.y[0] - y == rho) || (*y > s.y[1] && y - s.y[1] == rho));
    let n = (c.ends[1][la] - c.ends[0][la]) / c.length * rho;
    let side = c.length > 0. && corners(y, n).iter().any(|y| s.y.contains(y));
    [disc, side]
}

/// Counts the faces at which the visited rectangle of a chord ends, for rays along local axis `la`.
fn count_faces(c: &Case, stock: &DexelStock, la: usize, ranges: [[f64; 2]; 3], reached: &mut Reached) {
    let axis = AXES[c.axis as usize];
    for i in [1 - la, 2] {
        let w = rust::frame(axis).0[i];
        let [lo, hi] = rust::world(stock, axis, i, ranges[i]);
        reached.count_if(hi == c.min[w] || lo == c.max[w], "touching", "face");
    }
}

/// Counts how a ray with this section is touched.
fn count_ray(chord: &Local, la: usize, s: &Section, heights: &Heights, cutting: f64, reached: &mut Reached) {
    let [low, high] = chord.window(s);
    reached.count_if(high == 0., "touching", "tip");
    reached.count_if(low == cutting, "touching", "top");
    if let Some(widest) = heights.cut_max(low, high) {
        let [disc, side] = stadium_touches(chord, la, widest + chord.e, s);
        reached.count_if(disc, "touching", "disc");
        reached.count_if(side, "touching", "side");
    }
}

/// Counts the rays that an accepted sweep touches, and the faces that its rectangles touch.
pub fn count(c: &Case, stock: &DexelStock, reached: &mut Reached) {
    let axis = AXES[c.axis as usize];
    let tool = assembled!(oracle_len, &c.tool);
    let heights = Heights::new(&tool);
    let cutting = c.tool.c.cutting_length_mm;
    let chords = c.chords.as_chunks::<CHORD>().0.iter().map(|cells| Local::new(axis, cells));
    for (chord, la) in chords.flat_map(|chord| [(chord, 0), (chord, 1)]) {
        let ranges = chord.ranges(la, c.tool.c.diameter_mm / 2., cutting);
        count_faces(c, stock, la, ranges, reached);
        let rays = rust::rays(stock, axis, rust::frame(axis).0[la], ranges, u64::MAX).expect("no budget");
        for (_, center, half) in rays {
            count_ray(&chord, la, &section(1 - la, center, half), &heights, cutting, reached);
        }
    }
}

/// The guess or one of the doubles around it, where this holds.
fn near(guess: f64, holds: impl Fn(f64) -> bool) -> Option<f64> {
    let (mut up, mut down) = (guess, guess);
    for _ in 0..4 {
        for x in [up, down] {
            if holds(x) {
                return Some(x);
            }
        }
        (up, down) = (up.next_up(), down.next_down());
    }
    None
}

/// Changes the first chord, or the tool's radius or cutting length, so that some ray is touched, where a double allows
/// it. Where the tool or the chord is refused nothing is touched.
pub fn touch(g: &mut Gen, s: &mut Scene) {
    let (Some(stock), Some(cells)) = (stock_over(s.min, s.max, s.cell), s.chords.first_chunk().copied()) else { return };
    let axis = AXES[s.axis as usize];
    if cutter::refusal(&s.tool).0 != 0 || chord_fault(axis, s.guard, &cells) {
        return;
    }
    let la = g.below(2) as usize;
    let a = rust::frame(axis).0[la];
    let everywhere = [[f64::NEG_INFINITY, f64::INFINITY]; 3];
    let rays = rust::rays(&stock, axis, a, everywhere, u64::MAX).expect("no budget");
    let (_, center, half) = g.pick(&rays);
    let section = section(1 - la, center, half);
    let mut chord = Local::new(axis, &cells);
    match g.below(4) {
        0 => touch_end(g, &mut chord, s, &section),
        1 => touch_face(g, &mut chord, s, la),
        2 => touch_side(g, &mut chord, s, la, &section),
        _ => touch_disc(g, &mut chord, s, la, &section),
    }
    s.chords[..CHORD].copy_from_slice(&chord.cells(axis));
}

/// The tip or the top of the cutting part is level with an edge of the section.
fn touch_end(g: &mut Gen, c: &mut Local, s: &mut Scene, section: &Section) {
    let climb = c.span(2)[1] - c.span(2)[0];
    let e = c.e;
    let cutting = s.tool.c.cutting_length_mm;
    let [low, high] = section.z;
    let found = if g.once_in(2) {
        near(high + e, |z| high - z + e == 0.).map(|z| [z, z + climb])
    } else {
        near(low - e - cutting, |z| low - z - e == cutting).map(|z| [z - climb, z])
    };
    match found {
        Some(z) => (c.ends[0][2], c.ends[1][2]) = (z[0], z[1]),
        // no height has this cutting length exactly, but some cutting length has this height
        None => s.cut_along(low - c.span(2)[1] - e),
    }
}

/// The visited rectangle ends at a face of the box.
fn touch_face(g: &mut Gen, c: &mut Local, s: &Scene, la: usize) {
    let (perm, sign) = rust::frame(AXES[s.axis as usize]);
    let o = 1 - la;
    let w = perm[o];
    let pad = s.tool.c.diameter_mm / 2. + c.e;
    let mut faces = [sign[o] * s.min[w], sign[o] * s.max[w]];
    faces.sort_by(f64::total_cmp);
    let found =
        if g.once_in(2) { near(faces[0] - pad, |y| y + pad == faces[0]) } else { near(faces[1] + pad, |y| y - pad == faces[1]) };
    if let Some(y) = found {
        (c.ends[0][o], c.ends[1][o]) = (y, y);
    }
}

/// Brings the widest part of the tool to the section's height, and tells the radius there.
fn level(c: &mut Local, s: &Scene, section: &Section) -> Option<f64> {
    let z = (section.z[0] + section.z[1]) / 2. - s.tool.c.tip_height;
    (c.ends[0][2], c.ends[1][2]) = (z, z);
    let [low, high] = c.window(section);
    let tool = assembled!(oracle_len, &s.tool);
    Heights::new(&tool).cut_max(low, high)
}

/// A level chord along the ray, or a plunge, whose disc ends at an edge of the section.
fn touch_disc(g: &mut Gen, c: &mut Local, s: &mut Scene, la: usize, section: &Section) {
    let Some(widest) = level(c, s, section) else { return };
    let (o, e, [low, high]) = (1 - la, c.e, section.y);
    let rho = widest + e;
    let below = g.once_in(2);
    let gap = |y: f64| if below { low - y } else { y - high };
    let guess = if below { low - rho } else { high + rho };
    let y = near(guess, |y| gap(y) == rho).unwrap_or(guess);
    (c.ends[0][o], c.ends[1][o]) = (y, y);
    // no place has this radius exactly, but some radius has this place
    if gap(y) != rho
        && let Some(r) = near(gap(y) - e, |r| r > 0. && r + e == gap(y))
    {
        (s.tool.c.radius, s.tool.c.diameter_mm) = (r, 2. * r);
        s.prepared = false;
    }
}

/// A chord at an angle whose stadium has a corner at an edge of the section.
fn touch_side(g: &mut Gen, c: &mut Local, s: &Scene, la: usize, section: &Section) {
    let Some(widest) = level(c, s, section) else { return };
    let (o, rho) = (1 - la, widest + c.e);
    let ends = c.ends.map(|p| [p[la], p[o]]);
    let rise = ends[1][1] - ends[0][1];
    let edge = g.pick(&section.y);
    let moved = |y: f64| {
        let d = [ends[1][0] - ends[0][0], (y + rise) - y];
        let n = d[0] / plan_length(d) * rho;
        (n, y + n == edge || y - n == edge)
    };
    let (n, _) = moved(ends[0][1]);
    if let Some(y) = near(edge - n, |y| moved(y).1) {
        (c.ends[0][o], c.ends[1][o]) = (y, y + rise);
    }
}
