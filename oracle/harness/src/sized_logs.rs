//! Runs of one log as large as the local arrays by which a port may decide 9 and 10, one less or one more: so many entries, so many hits on a
//! ray. The hits are apart, alike, nested, touching, from one number on, or joined to three quarters; in any order, on one ray, on few in turn
//! or on many; the rays are uncut, or have lists longer than the arrays. Both budgets are exactly reached, one short, or one over.
use crate::{
    Pair,
    against::{from_above, from_below, from_both, of_groups},
    commits::{Commit, Run, State, work_pairs},
    generate::Gen,
    log_runs::{shuffle, with_budget},
    runs::Domain,
    store::{Record, Store},
};
use oracle::dexel::{DexelGrid, DexelStockSpec, opened as rust};

/// So many entries of a log, and pairs of a list's hits, have room.
#[derive(Clone, Copy, Debug)]
pub struct Room {
    pub entries: usize,
    pub pairs: usize,
}

/// The port's arrays; and arrays that some sixty entries fill many times, for a port that is built with them.
pub const ROOM: Room = Room { entries: 3072, pairs: 512 };
pub const SMALL: Room = Room { entries: 7, pairs: 8 };

/// One less, n, or one more.
fn around(g: &mut Gen, n: usize) -> usize {
    n - 1 + g.below(3) as usize
}

impl Room {
    /// The entries of a ray: about half of the pairs, since an entry may bring two hits, as many as pairs, or as many as entries; in every third
    /// case some more.
    fn hits(self, g: &mut Gen) -> usize {
        let n = g.pick(&[self.pairs / 2, self.pairs, self.entries, self.entries]);
        around(g, n) + if g.once_in(3) { g.below(self.entries as u64) as usize } else { 0 }
    }
}

#[derive(Clone, Copy, Debug)]
enum Shape {
    Apart,
    /// apart, in the gaps of a list with as many pairs
    Between,
    Alike,
    Nested,
    Touching,
    FromOne,
    /// apart, so many of them, and the others alike to these
    Joined(usize),
    Any,
}

impl Shape {
    fn any(g: &mut Gen, room: Room) -> Self {
        use Shape::*;
        let left = around(g, room.pairs / 4 * 3);
        g.pick(&[Apart, Apart, Apart, Between, Alike, Nested, Touching, FromOne, Joined(left), Joined(left), Any])
    }

    /// Hit i of n, where the ray has 4 n places.
    fn hit(self, g: &mut Gen, i: usize, n: usize) -> [usize; 2] {
        match self {
            Shape::Apart => [4 * i + 1, 4 * i + 2],
            Shape::Between => [4 * i + 3, 4 * i + 4],
            Shape::Alike => [n, 3 * n],
            Shape::Nested => [i, 4 * n - i],
            Shape::Touching => [4 * i, 4 * i + 4],
            Shape::FromOne => [n, n + 1 + i],
            Shape::Joined(left) => Shape::Apart.hit(g, i % left, n),
            Shape::Any => {
                let k = g.below(4 * n as u64) as usize;
                [k, k + g.below(9) as usize]
            }
        }
    }
}

/// What the entries of a log bring: outer hits of a shape, inner ones, or both.
#[derive(Clone, Copy, Debug)]
enum Brings {
    Outer(Shape),
    Inner(Shape),
    Same(Shape),
    /// the inner hit in the middle of the outer one
    Within(Shape),
    /// the inner hit elsewhere
    Both(Shape, Shape),
}

impl Brings {
    fn any(g: &mut Gen, room: Room) -> Self {
        use Brings::*;
        let (a, b) = (Shape::any(g, room), Shape::any(g, room));
        g.pick(&[Outer(a), Inner(a), Same(a), Within(a), Both(a, b), Both(a, b)])
    }

    /// The outer and the inner hit of entry i of n on a ray between these bounds.
    fn hits(self, g: &mut Gen, i: usize, n: usize, [lo, hi]: Pair) -> [Pair; 2] {
        let none = [0.; 2];
        let mut pair = |s: Shape, i| s.hit(g, i, n).map(|k| lo + (hi - lo) * (k as f64 / (4 * n) as f64));
        match self {
            Brings::Outer(s) => [pair(s, i), none],
            Brings::Inner(s) => [none, pair(s, i)],
            Brings::Same(s) => [pair(s, i); 2],
            Brings::Within(s) => {
                let outer = pair(s, i);
                let quarter = (outer[1] - outer[0]) / 4.;
                [outer, [outer[0] + quarter, outer[1] - quarter]]
            }
            Brings::Both(s, t) => [pair(s, i), pair(t, n - 1 - i)],
        }
    }
}

/// An entry before it has hits: the place of its ray among those that are hit, and which hit of how many it is.
type Place = (usize, usize, usize);

/// Any of so many rays, or one of the first of them more often.
fn any_ray(g: &mut Gen, rays: usize, skew: bool) -> usize {
    let among = if skew { 1 + g.below(rays as u64) } else { rays as u64 };
    g.below(among) as usize
}

/// All on one ray but for a few, on two to eight rays in turn, anywhere on these rays, at least two, or only a few.
fn places(g: &mut Gen, room: Room, rays: usize) -> Vec<Place> {
    let n = room.hits(g);
    match g.below(7) {
        0 | 1 => {
            let few = g.below(4);
            let others: Vec<_> = (0..few).map(|_| (1 + any_ray(g, rays - 1, false), g.below(n as u64) as usize, n)).collect();
            (0..n).map(|i| (0, i, n)).chain(others).collect()
        }
        2 | 3 => {
            let most = if n > 2 * room.pairs { 2 } else { 8 };
            let turn = rays.min(2 + g.below(most - 1) as usize);
            (0..n * turn).map(|k| (k % turn, k / turn, n)).collect()
        }
        4 | 5 => {
            let n = around(g, room.entries) + if g.once_in(8) { room.entries * (1 + g.below(2) as usize) } else { 0 };
            let skew = g.once_in(2);
            (0..n).map(|i| (any_ray(g, rays, skew), i, n)).collect()
        }
        _ => (0..1 + g.below(8)).map(|_| (any_ray(g, rays, true), g.below(n as u64) as usize, n)).collect(),
    }
}

/// As they are or by ray; then so, the other way round, made against the port, or in no order.
fn order(g: &mut Gen, log: &mut [[f64; 6]]) {
    if g.once_in(2) {
        log.sort_by(|a, b| a[..2].partial_cmp(&b[..2]).unwrap());
    }
    match g.below(4) {
        0 => {}
        1 => log.reverse(),
        2 => make_against(g, log),
        _ => shuffle(g, log),
    }
}

/// By their hits, then in an order that makes the stretches of a long ray short, ends them often, or does both.
fn make_against(g: &mut Gen, log: &mut [[f64; 6]]) {
    log.sort_by(|a, b| a[2..].partial_cmp(&b[2..]).unwrap());
    let ascending = log.to_vec();
    let order = g.pick(&[from_below, from_above, from_both]);
    for (e, k) in log.iter_mut().zip(order(ascending.len(), of_groups)) {
        *e = ascending[k];
    }
}

/// Of some entries the one with the greatest of these numbers.
fn most(g: &mut Gen, log: &[[f64; 6]], number: impl Fn(&[f64; 6]) -> f64) -> usize {
    let some: Vec<usize> = (0..8).map(|_| g.below(log.len() as u64) as usize).collect();
    some.into_iter().max_by(|a, b| number(&log[*a]).total_cmp(&number(&log[*b]))).expect("eight of them")
}

/// Puts a NaN, an infinity, a zero or any double at some ends; infinities and zeros where they cut the least.
fn odd_ends(g: &mut Gen, log: &mut [[f64; 6]]) {
    let times = g.pick(&[0, 0, 1, 4, log.len() / 64]);
    for _ in 0..times {
        let k = 2 + g.below(4) as usize;
        let (i, x) = match g.below(6) {
            0 => (most(g, log, |_| 0.), f64::NAN),
            1 if k.is_multiple_of(2) => (most(g, log, |e| -e[k + 1]), f64::NEG_INFINITY),
            1 => (most(g, log, |e| e[k - 1]), f64::INFINITY),
            2..=4 => (most(g, log, |e| -e[k].abs()), g.pick(&[0., -0.])),
            _ => (most(g, log, |_| 0.), g.double()),
        };
        log[i][k] = x;
    }
}

/// A box with a few rays, or with some hundred.
fn blank(g: &mut Gen, domain: Domain, room: Room) -> DexelStockSpec {
    if g.once_in(2) {
        return domain.spec(g, u64::MAX);
    }
    let most = if room.entries > 100 { 16 } else { 4 };
    let size = if domain == Domain::Small { g.pick(&[0.3, 1., 2.5]) } else { g.scale(1e-5, 1e4) };
    let min: [f64; 3] = std::array::from_fn(|_| g.pick(&[0., -0., -12., -3., 1.]) * size);
    let max = min.map(|x| x + (1 + g.below(most)) as f64 * size);
    rust::spec(min, max, size, u32::MAX as usize, 0)
}

/// The rays of a grid: all in no order, or some of them, at least two, in their order.
fn some_rays(g: &mut Gen, grid: &DexelGrid) -> Vec<(usize, usize)> {
    let mut rays: Vec<_> = (0..3).flat_map(|a| (0..grid.rays(a)).map(move |index| (a, index))).collect();
    shuffle(g, &mut rays);
    if g.once_in(2) {
        rays.truncate(2 + g.below(rays.len() as u64) as usize);
        rays.sort();
    }
    rays
}

/// Possible and certain of a ray with longer lists than the arrays have room for, with as many pairs as there are hits, or with a few.
fn long_lists(g: &mut Gen, room: Room, hits: usize, [lo, hi]: Pair) -> [Vec<Pair>; 2] {
    let n = g.pick(&[room.pairs, room.entries, 4]);
    let n = if g.once_in(2) { hits } else { around(g, n) };
    let at = |k: usize| lo + (hi - lo) * (k as f64 / (4 * n) as f64);
    let comb = |from: usize, to: usize| rust::normalize((0..n).map(|i| [at(4 * i + from), at(4 * i + to)]).collect());
    let possible = comb(0, 3);
    let certain = match g.below(4) {
        0 => vec![],
        1 => possible.clone(),
        2 => rust::intersect(&possible, &[[lo, lo + (hi - lo) / 2.]]),
        _ => rust::intersect(&possible, &comb(1, 2)),
    };
    [possible, certain]
}

/// A store where the first of these rays may have long lists and all others are uncut, with three free records for each place.
fn start(g: &mut Gen, room: Room, spec: &DexelStockSpec, rays: &[(usize, usize)], places: &[Place]) -> (DexelStockSpec, Store) {
    let long = if g.once_in(2) { &rays[..rays.len().min(1 + g.below(3) as usize)] } else { &[] };
    let bounds = |a: usize| [spec.min_mm[a], spec.max_mm[a]];
    let mut lists = vec![];
    for (a, index) in (0..3).flat_map(|a| (0..spec.grid().unwrap().rays(a)).map(move |index| (a, index))) {
        let uncut = [vec![bounds(a)], vec![bounds(a)]];
        lists.extend(if long.contains(&(a, index)) { long_lists(g, room, places[0].2, bounds(a)) } else { uncut });
    }
    let used: usize = lists.iter().map(Vec::len).sum();
    let wide = with_budget(spec, used.max(lists.len()) + 3 * places.len());
    let mut store = Store::empty(&wide);
    let mut from = 0;
    for (head, list) in lists.iter().enumerate() {
        store.lay_from(&mut from, head, list);
    }
    (wide, store)
}

/// The log of these places on these rays.
fn log(g: &mut Gen, room: Room, spec: &DexelStockSpec, rays: &[(usize, usize)], places: &[Place]) -> Vec<f64> {
    let brings = Brings::any(g, room);
    let mut entries = vec![];
    for &(ray, i, n) in places {
        let (a, index) = rays[ray];
        let [o, h] = brings.hits(g, i, n, [spec.min_mm[a], spec.max_mm[a]]);
        entries.push([a as f64, index as f64, o[0], o[1], h[0], h[1]]);
    }
    order(g, &mut entries);
    odd_ends(g, &mut entries);
    entries.concat()
}

/// One log on one store. The interval budget is one short of what the log leaves, exactly that or one more, and the log comes with an allowance
/// one short, then with others; once it is accepted it comes again with none, as it changes nothing any more.
pub fn sized_run(g: &mut Gen, domain: Domain, room: Room) -> Run {
    let mut spec = blank(g, domain, room);
    spec.max_intervals = usize::MAX;
    let rays = some_rays(g, &spec.grid().unwrap());
    let places = places(g, room, rays.len());
    let mut log = log(g, room, &spec, &rays, &places);
    if domain == Domain::Whole {
        g.sign_zeros(&mut log);
    }
    let (wide, mut start) = start(g, room, &spec, &rays, &places);
    let of = |spec: &DexelStockSpec, allowance| Commit::Log { work: 2 * work_pairs(spec, &log), log: log.clone(), allowance };
    let due = State::of(&wide, start.clone()).due(&of(&wide, u64::MAX));
    let (changed, left) = (due.changed, due.next.store.intervals as usize);
    let least = start.heads.len().max(start.intervals as usize);
    let spec = with_budget(&wide, (left + g.pick(&[0, 0, 1, 1, 2])).saturating_sub(1).max(least));
    start.records.resize(spec.max_intervals, Record::default());
    let mut allowances: Vec<u64> = changed.checked_sub(1).into_iter().collect();
    allowances.extend(if spec.max_intervals < left { [changed, changed + 1] } else { [changed + g.below(2), 0] });
    let commits = allowances.into_iter().map(|a| of(&spec, a)).collect();
    let over = std::array::from_fn(|_| g.below(4) as usize);
    Run { spec, start, over, commits }
}
