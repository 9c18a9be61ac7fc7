//! Blanks and lists over the whole domain of document 01: sizes from 1e-5 to 2e6, places to ±1e6, both zeros, now and
//! then some ten thousand rays.
use crate::{
    Pair,
    generate::{Gen, paired},
    store::small_spec,
};
use oracle::dexel::{DexelStockSpec, opened as rust};

/// The least size of a cell, and the limit of a bound.
pub const LEAST: f64 = 1e-5;
pub const MOST: f64 = 1e6;

/// A box and its cell size.
#[derive(Clone, Copy, Debug)]
pub struct Blank {
    pub min: [f64; 3],
    pub max: [f64; 3],
    pub cell: f64,
}

/// Where a side of this length begins: at a zero, below it, so that it ends there, at a limit, or anywhere.
fn corner(g: &mut Gen, length: f64) -> f64 {
    let x = match g.below(9) {
        0 => 0.,
        1 => -length,
        2 => -length * g.unit(),
        3 => -MOST,
        4 => MOST - length,
        5 | 6 => g.scale(LEAST, MOST),
        7 => -g.scale(LEAST, MOST),
        _ => g.within(-MOST, MOST),
    };
    x.clamp(-MOST, MOST - length)
}

/// The box of these sides, somewhere, with zeros of either sign.
fn placed(g: &mut Gen, sides: [f64; 3], cell: f64) -> Blank {
    let mut min = sides.map(|length| corner(g, length));
    let mut max = [0, 1, 2].map(|i| (min[i] + sides[i]).min(MOST));
    g.sign_zeros(&mut min);
    g.sign_zeros(&mut max);
    Blank { min, max, cell: cell.clamp(LEAST, MOST) }
}

/// A box of any size and proportion with a few cells, now and then with some more.
pub fn blank(g: &mut Gen) -> Blank {
    let size = g.scale(LEAST, 2. * MOST);
    let sides = [0; 3].map(|_| match g.below(4) {
        0 => size,
        1 => g.scale(2e-6, size),
        _ => size * g.within(0.2, 1.),
    });
    let cells = if g.once_in(32) { g.within(5., 40.) } else { g.pick(&[0.5, 1., 2., 3., 4., 5.]) };
    placed(g, sides, size / cells)
}

/// A box of some ten thousand rays.
pub fn large_blank(g: &mut Gen) -> Blank {
    let size = g.scale(200. * LEAST, 2. * MOST);
    let sides = [0; 3].map(|_| size * g.within(0.8, 1.));
    let cells = g.within(65., 110.);
    placed(g, sides, size / cells)
}

impl Blank {
    /// The box with a budget a little above what the uncut store needs.
    pub fn spec(&self, g: &mut Gen) -> DexelStockSpec {
        let Blank { min, max, cell } = *self;
        let rays = rust::spec(min, max, cell, u32::MAX as usize, usize::MAX).grid().expect("a blank").total_rays();
        let spare = g.below(4 * rays as u64 + 1) as usize;
        rust::spec(min, max, cell, rays + g.below(2) as usize, 2 * rays + spare)
    }
}

/// A small blank or one of any size, and once in `large` one of some ten thousand rays.
pub fn any_spec(g: &mut Gen, large: u64) -> DexelStockSpec {
    match g.below(4) {
        _ if g.once_in(large) => large_blank(g).spec(g),
        0 => small_spec(g),
        _ => blank(g).spec(g),
    }
}

/// An end within the bounds: one of them, next to one, a zero, near one by size, on a lattice, or anywhere.
pub fn end_within(g: &mut Gen, lo: f64, hi: f64) -> f64 {
    let x = match g.below(12) {
        0 => lo,
        1 => hi,
        2 => lo.next_up(),
        3 => hi.next_down(),
        4 => 0.,
        5 => lo + (hi - lo) * g.scale(1e-9, 1.),
        6 | 7 => lo + (hi - lo) * (g.below(9) as f64 / 8.),
        _ => g.within(lo, hi),
    };
    x.clamp(lo, hi)
}

/// A sound list of at most `size` pairs within the bounds.
pub fn list_within(g: &mut Gen, lo: f64, hi: f64) -> Vec<Pair> {
    paired((0..2 * g.count()).map(|_| end_within(g, lo, hi)).collect())
}

/// A ray valid within its bounds, uncut, cut away or cut in pieces; its zeros have either sign.
pub fn ray_within(g: &mut Gen, lo: f64, hi: f64) -> (Vec<Pair>, Vec<Pair>) {
    let mut p = match g.below(5) {
        0 => vec![],
        1 | 2 => vec![[lo, hi]],
        _ => list_within(g, lo, hi),
    };
    let mut c = match g.below(4) {
        0 => vec![],
        1 => p.clone(),
        _ => rust::intersect(&p, &list_within(g, lo, hi)),
    };
    g.sign_zeros(p.as_flattened_mut());
    g.sign_zeros(c.as_flattened_mut());
    (p, c)
}

/// Hits on a ray: pairs with ends of its list, of its bounds, or somewhat past them, some of them empty or reversed.
pub fn hits_within(g: &mut Gen, list: &[Pair], lo: f64, hi: f64) -> Vec<Pair> {
    let past = (hi - lo) * g.pick(&[0., 0.1, 1.]);
    let ends = list.as_flattened();
    let end = |g: &mut Gen| match g.below(3) {
        0 if !ends.is_empty() => {
            let x = g.pick(ends);
            g.pick(&[x, x, x.next_up(), x.next_down()])
        }
        _ => end_within(g, lo - past, hi + past),
    };
    let mut out: Vec<Pair> = (0..g.count()).map(|_| [end(g), end(g)]).collect();
    for s in &mut out {
        if !g.once_in(8) {
            *s = [s[0].min(s[1]), s[0].max(s[1])];
        }
    }
    g.sign_zeros(out.as_flattened_mut());
    out
}
