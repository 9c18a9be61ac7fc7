//! The one-ray merge: refusals by document 01, lists by camlib's merge loop; and its test of a ray against camlib's `Ray::valid`.
use crate::{
    explained::Explained,
    function::{Function, Outcome, Words},
    reached::{DECADES, Group, NUMBERS, Reached, count_decade, decade, minus_zero},
    spans::{any_list, choose_size, is_sound, room, sound_list, with_odd_end},
};
use harness::{
    Pair, flat,
    generate::Gen,
    lent::Lent,
    pairs, same, settled,
    wide::{self, LEAST, MOST},
};
use oracle::dexel::opened::{self as rust, sweep};
use tridexel::raw;

/// A ray within its bounds and the hits on it.
#[derive(Clone, Debug)]
pub struct Ray {
    pub bounds: Pair,
    pub possible: Vec<f64>,
    pub certain: Vec<f64>,
    pub outer: Vec<f64>,
    pub inner: Vec<f64>,
}

/// For possible and certain: 1 where the list moved, and how many pairs it has.
#[derive(Clone, Copy, Debug, PartialEq)]
pub struct Parts {
    pub moved: [u32; 2],
    pub pairs: [usize; 2],
}

const POISON: Parts = Parts { moved: [0xdead_beef; 2], pairs: [0xdead_beef; 2] };

pub fn merge(lists: [&[f64]; 4], [lo, hi]: Pair, work: &mut [f64], parts: &mut Parts) -> u32 {
    let [p, c, o, i] = lists;
    unsafe {
        raw::tridexel_merge(
            p.as_ptr(),
            p.len(),
            c.as_ptr(),
            c.len(),
            lo,
            hi,
            o.as_ptr(),
            o.len(),
            i.as_ptr(),
            i.len(),
            work.as_mut_ptr(),
            work.len(),
            &mut parts.moved,
            &mut parts.pairs,
        )
    }
}

impl Ray {
    pub fn lists(&self) -> [&[f64]; 4] {
        [&self.possible, &self.certain, &self.outer, &self.inner]
    }

    /// Document 01's work pairs, as doubles: 4 per pair of the ray and 8 per hit pair.
    pub fn work(&self) -> usize {
        let [p, c, o, i] = self.lists().map(|l| l.len() / 2);
        2 * (4 * (p + c) + 8 * (o + i))
    }

    /// Document 01's valid ray.
    pub fn valid(&self) -> bool {
        let [lo, hi] = self.bounds;
        let fits = |l: &[f64]| is_sound(l) && l.iter().all(|x| lo <= *x && *x <= hi);
        fits(&self.possible) && fits(&self.certain) && rust::contains(&pairs(&self.possible), &pairs(&self.certain))
    }

    /// The refusal that document 01 asks for, 0 for none.
    pub fn refusal(&self, room: usize) -> u32 {
        if room / 2 < self.work() / 2 {
            12
        } else if self.outer.len() % 2 == 1 || self.inner.len() % 2 == 1 || !self.valid() {
            11
        } else {
            0
        }
    }

    /// Whether every end of the answer is settled as data: normalising leaves no choice of a zero in either list of hits.
    pub fn settled(&self) -> bool {
        settled(&pairs(&self.outer)) && settled(&pairs(&self.inner))
    }

    /// Both lists after camlib's merge loop.
    pub fn merged(&self) -> [Vec<Pair>; 2] {
        let before = [pairs(&self.possible), pairs(&self.certain)];
        let ray = rust::ray(before[0].clone(), before[1].clone());
        let spec = rust::spec([0.; 3], [1.; 3], 1., 3, 6);
        let stock = rust::stock(spec, 0, [vec![ray], vec![], vec![]]);
        let after = sweep::merge_one(&stock, pairs(&self.outer), pairs(&self.inner));
        after.map_or(before, |(p, c)| [p, c])
    }
}

impl Words for Ray {
    fn words(&self) -> String {
        format!("{} {}", self.bounds.words(), self.lists().map(<[f64]>::to_vec).words())
    }
}

/// Equal as numbers: Rust's own test of whether a list moved.
fn moved(before: &[f64], after: &[Pair]) -> bool {
    pairs(before) != after
}

type Port = fn([&[f64]; 4], Pair, &mut [f64], &mut Parts) -> u32;

/// What merges reach.
pub const WANTED: &[Group] = &[
    ("refused", &["accepted", "11", "12"]),
    // of the accepted ones
    ("moved", &["none", "possible", "certain", "both"]),
    ("compared", &["by bits", "as numbers"]),
    ("zero end", &["ray", "outer", "inner", "ray and hits"]),
    ("minus zero", &["bound", "ray", "outer", "inner", "work"]),
    ("pairs", &["1", "10", "100", "1000"]),
    ("bound", &DECADES),
    ("work", &["exact", "longer"]),
];

fn count_merge(ray: &Ray, room: usize, after: &[Vec<Pair>; 2], moves: [bool; 2], reached: &mut Reached) {
    reached.count("moved", ["none", "possible", "certain", "both"][moves[0] as usize + 2 * moves[1] as usize]);
    reached.count("compared", if ray.settled() { "by bits" } else { "as numbers" });
    let own = [&ray.possible[..], &ray.certain].concat();
    let [outer, inner] = [&ray.outer, &ray.inner].map(|l| flat(&rust::normalize(pairs(l))));
    let zero = |l: &[f64]| l.contains(&0.);
    reached.count_if(zero(&own), "zero end", "ray");
    reached.count_if(zero(&outer), "zero end", "outer");
    reached.count_if(zero(&inner), "zero end", "inner");
    reached.count_if(zero(&own) && (zero(&outer) || zero(&inner)), "zero end", "ray and hits");
    for (cells, what) in [(&ray.bounds[..], "bound"), (&own, "ray"), (&outer, "outer"), (&inner, "inner")] {
        reached.count_if(minus_zero(cells), "minus zero", what);
    }
    reached.count_if(after.iter().zip(moves).any(|(l, m)| m && minus_zero(&flat(l))), "minus zero", "work");
    reached.count("pairs", count_decade(ray.lists().iter().map(|l| l.len() / 2).sum()));
    reached.count("bound", decade(ray.bounds[0].abs().max(ray.bounds[1].abs())));
    reached.count("work", if room == ray.work() { "exact" } else { "longer" });
}

/// Calls with lists between guard cells and a poisoned work buffer, and looks at the number, the answer and every cell:
/// by bits where every end is settled, else as numbers.
pub fn compare_merge((ray, room): &(Ray, usize), port: Port, reached: &mut Reached) -> Outcome {
    let lent = ray.lists().map(|l| Lent::of(l, 0));
    let mut work = Lent::<f64>::new(*room);
    let mut parts = POISON;
    let code = port(std::array::from_fn(|k| lent[k].read()), ray.bounds, work.cells(), &mut parts);
    let kept = lent.iter().zip(ray.lists()).all(|(l, before)| l.untouched(before));
    let number = ray.refusal(*room);
    reached.count("refused", NUMBERS[number as usize]);
    let (meant, rust) = match number {
        0 => {
            let after = ray.merged();
            let moves = [moved(&ray.possible, &after[0]), moved(&ray.certain, &after[1])];
            count_merge(ray, *room, &after, moves, reached);
            let want = Parts { moved: moves.map(u32::from), pairs: after.each_ref().map(Vec::len) };
            let cells: Vec<f64> = after.iter().zip(moves).filter(|(_, m)| *m).flat_map(|(l, _)| flat(l)).collect();
            let laid = code == 0 && kept && parts == want && cells.len() <= *room && work.zero(cells.len());
            let each = || cells.iter().zip(work.read());
            if laid && each().all(|(w, c)| w.to_bits() == c.to_bits()) {
                return Outcome::Same;
            }
            let zeros = laid && !ray.settled() && each().all(|(w, c)| same(*w, *c));
            let meant = zeros.then_some(Explained::Zeros);
            (meant, format!("0, {want:?}, work {}, zeros past it", cells.words()))
        }
        number => {
            if code == number && parts == POISON && work.untouched(&[]) && kept {
                return Outcome::Same;
            }
            (None, format!("{number}, nothing written"))
        }
    };
    let written = if kept { "" } else { ", an input was written" };
    Outcome::differs(meant, rust, format!("{code}, {parts:?}, work {}{written}", work.read().words()))
}

/// `Ray::valid` by the number that a merge without hits gives.
pub fn compare_valid(ray: &Ray, port: Port) -> Outcome {
    let [p, c, _, _] = ray.lists();
    let whole = p.len() % 2 == 0 && c.len() % 2 == 0;
    let [lo, hi] = ray.bounds;
    let rust = whole && rust::valid(&rust::ray(pairs(p), pairs(c)), lo, hi);
    let mut work = vec![0.; ray.work()];
    let port = port([p, c, &[], &[]], ray.bounds, &mut work, &mut POISON.clone());
    if port == if rust { 0 } else { 11 } {
        return Outcome::Same;
    }
    let infinite = p.iter().chain(c).any(|x| x.is_infinite());
    let meant = (infinite && port == 0 && ray.valid()).then_some(Explained::InfiniteEnds);
    Outcome::differs(meant, rust.to_string(), port.to_string())
}

/// Mostly ordinary bounds, now and then infinite, reversed, or any doubles.
fn bounds(g: &mut Gen) -> Pair {
    match g.below(16) {
        0 => [f64::NEG_INFINITY, f64::INFINITY],
        1 => [g.double(), g.double()],
        2 => [-0., 0.],
        _ => {
            let lo = g.below(12) as f64 - 12.;
            [lo, lo + (1 + g.below(24)) as f64]
        }
    }
}

/// A ray of small numbers, valid in most cases, with arbitrary hits, whose ends are often those of the ray.
fn small_ray(g: &mut Gen) -> Ray {
    choose_size(g);
    let bounds = bounds(g);
    let [lo, hi] = bounds;
    let (mut possible, mut certain) = {
        let p = g.sound_within(lo, hi);
        let near = g.sound_near(&p);
        let c = rust::intersect(&p, &near);
        (flat(&p), flat(&c))
    };
    match g.below(32) {
        0 => possible = sound_list(g),
        1 => certain = sound_list(g),
        2 => possible = any_list(g),
        3 => certain = flat(&g.unsound()),
        4 => std::mem::swap(&mut possible, &mut certain),
        5 if !possible.is_empty() => {
            let k = g.below(possible.len() as u64) as usize;
            possible[k] = g.double();
        }
        _ => {}
    }
    let hits = |g: &mut Gen| {
        let mut l = any_list(g);
        for k in 0..l.len() {
            if !possible.is_empty() && g.once_in(3) {
                let x = g.pick(&possible);
                l[k] = g.pick(&[x, x, x.next_up(), x.next_down()]);
            }
        }
        l
    };
    let outer = hits(g);
    let inner = match g.below(4) {
        0 => vec![],
        1 => outer.clone(),
        _ => hits(g),
    };
    Ray {
        bounds,
        possible: with_odd_end(g, possible),
        certain: with_odd_end(g, certain),
        outer: with_odd_end(g, outer),
        inner: with_odd_end(g, inner),
    }
}

/// The bounds of a ray along a side of any blank, or about zero.
fn wide_bounds(g: &mut Gen) -> Pair {
    if g.once_in(4) {
        return [-g.scale(LEAST, MOST), g.scale(LEAST, MOST)];
    }
    let side = g.below(3) as usize;
    let blank = wide::blank(g);
    [blank.min[side], blank.max[side]]
}

/// A ray of any size with hits on it, now and then very many; once in 16 it has a fault.
fn wide_ray(g: &mut Gen) -> Ray {
    choose_size(g);
    if g.once_in(2048) {
        g.size = 2000;
    }
    let bounds = wide_bounds(g);
    let [lo, hi] = bounds;
    let (mut p, mut c) = wide::ray_within(g, lo, hi);
    let outer = wide::hits_within(g, &p, lo, hi);
    let inner = match g.below(4) {
        0 => vec![],
        1 => outer.clone(),
        _ => wide::hits_within(g, &p, lo, hi),
    };
    match g.below(64) {
        0 => std::mem::swap(&mut p, &mut c),
        1 => c = wide::list_within(g, lo, hi),
        2 => p = wide::list_within(g, lo - (hi - lo), hi),
        3 => p.reverse(),
        _ => {}
    }
    let mut r = Ray { bounds, possible: flat(&p), certain: flat(&c), outer: flat(&outer), inner: flat(&inner) };
    if g.once_in(32) {
        r.outer.push(0.);
    }
    r
}

/// Any ray; the zeros of a small one often have either sign.
pub fn ray(g: &mut Gen) -> Ray {
    if g.once_in(2) {
        return wide_ray(g);
    }
    let mut r = small_ray(g);
    if g.once_in(2) {
        for list in [&mut r.possible, &mut r.certain, &mut r.outer, &mut r.inner] {
            g.sign_zeros(list);
        }
        g.sign_zeros(&mut r.bounds);
    }
    r
}

/// The ray and a work buffer that is one double short, exact, or longer.
fn with_room(g: &mut Gen, ray: Ray) -> (Ray, usize) {
    let room = room(g, ray.work());
    (ray, room)
}

pub fn small_ray_and_room(g: &mut Gen) -> (Ray, usize) {
    let ray = small_ray(g);
    with_room(g, ray)
}

pub fn ray_and_room(g: &mut Gen) -> (Ray, usize) {
    let ray = ray(g);
    with_room(g, ray)
}

/// Document 01's example, a hit that misses, a hit that takes all, inner out of outer, and rays that are not valid.
fn rays() -> Vec<Ray> {
    let ten = [0., 10.];
    let of = |possible: &[f64], certain: &[f64], outer: &[f64], inner: &[f64]| Ray {
        bounds: ten,
        possible: possible.to_vec(),
        certain: certain.to_vec(),
        outer: outer.to_vec(),
        inner: inner.to_vec(),
    };
    vec![
        of(&ten, &ten, &[1., 4.], &[2., 3.]),
        of(&ten, &ten, &[11., 12.], &[]),
        of(&ten, &ten, &ten, &ten),
        of(&ten, &ten, &[1., 2.], &[0., 3.]),
        of(&ten, &ten, &[f64::NAN, 4.], &[3., 2., 5., 5.]),
        of(&[0., 1., 9., 10.], &[9., 10.], &[1., 9.], &[1., 9.]),
        of(&[0., 4.], &[0., 5.], &[], &[]),
        of(&[0., 11.], &[], &[], &[]),
        of(&[], &[], &[1.], &[]),
        of(&[], &[], &[], &[]),
    ]
}

pub fn edges() -> Vec<(Ray, usize)> {
    rays().into_iter().flat_map(|r| (0..=r.work() + 3).map(move |room| (r.clone(), room))).collect()
}

pub fn functions() -> Vec<Function> {
    vec![
        Function::counting("merge", WANTED, edges(), ray_and_room, |i, reached| compare_merge(i, merge, reached)),
        Function::new("valid", rays(), ray, |r| compare_valid(r, merge)),
    ]
}
