//! Log commits with both budgets out of reach, where sums rule refusals 9 and 10 out, and with both reached exactly, where every ray counts: the
//! times of both, their ratio, and the limit that is set for it. Rays are repeated out of order, or have more entries or pairs than any local
//! array has room for.
use crate::{
    commits::{Given, PortSide, agree, needs, sides},
    laid::{Laid, laid},
    spans::{ascending, shuffled},
    stock::CELLS,
    sweep,
    timing::seconds,
};
use harness::{
    Pair,
    against::{Deciding, from_above, from_below, from_both, of_groups, of_three},
    generate::Gen,
};
use oracle::dexel::opened::sweep::Entry;

const REPETITIONS: usize = 5;
/// The logs' sizes where none is asked for.
pub const SIZES: [usize; 3] = [1_000, 10_000, 100_000];

/// The limits of a ratio, for logs of up to 100,000 entries and for longer ones.
type Limits = [f64; 2];

const PASSES: Limits = [3., 11.];
const IN_ORDER: Limits = [3., 9.];
const IN_NO_ORDER: Limits = [3., 8.];
const FEW_IN_TURN: Limits = [3.5, 10.];
/// more than 3,072 entries on each ray
const FEW_LONG_IN_TURN: Limits = [3.5, 20.];
const ONE_OR_TWO: Limits = [8., 40.];
const ONE_IN_NO_ORDER: Limits = [10., 40.];
/// made against the way in which a stretch is ended
const AGAINST: Limits = [30., 300.];
const ONE_ENTRY: Limits = [2., 2.];

type Lists = Box<dyn Fn(usize, usize) -> [Vec<Pair>; 2]>;
type Log = Box<dyn Fn() -> Vec<Entry>>;

/// A log on a store, before its budgets are set.
struct Case {
    what: &'static str,
    limits: Limits,
    max: [f64; 3],
    cell: f64,
    lists: Lists,
    log: Log,
}

fn full(max: [f64; 3]) -> Lists {
    Box::new(move |a, _| [vec![[0., max[a]]], vec![[0., max[a]]]])
}

/// Places along a long ray, so many that a million cuts, four apart, end below 1e6.
fn place(k: f64) -> f64 {
    k / 8.
}

/// n cuts along a list that leave all their ends standing: outer and inner hits are apart from each other.
fn apart(n: usize, mut ray: impl FnMut(usize) -> usize) -> Vec<Entry> {
    let hit = |k: usize| [place(k as f64), place(k as f64 + 1.)];
    let one = |i: usize| Entry { axis: 0, index: ray(i), outer: hit(4 * i + 1), inner: Some(hit(4 * i + 3)) };
    (0..n).map(one).collect()
}

/// Along axis 0 n pairs, a gap of half a place after each.
fn comb(n: usize) -> Lists {
    Box::new(move |a, _| {
        let pair = |i: usize| [place(4. * i as f64), place(4. * i as f64 + 3.5)];
        let list: Vec<Pair> = (0..if a == 0 { n } else { 1 }).map(pair).collect();
        [list.clone(), list]
    })
}

/// n such cuts in no order, each on any of so many rays.
fn anywhere(n: usize, rays: u64) -> Vec<Entry> {
    let mut g = Gen::new(1, "anywhere", n as u64);
    shuffled(apart(n, |_| g.below(rays) as usize))
}

/// n cuts on one ray in the gaps of `comb`, so that nothing changes.
fn between(n: usize) -> Vec<Entry> {
    let at = |i: usize, k: f64| place(4. * i as f64 + 3.5 + k);
    let one = |i: usize| Entry { axis: 0, index: 0, outer: [at(i, 0.), at(i, 0.25)], inner: Some([at(i, 0.25), at(i, 0.5)]) };
    (0..n).map(one).collect()
}

/// The ray of this number, over a cube of so many cells, cut in its middle.
fn middle(number: usize, cells: usize) -> Entry {
    let along = cells * cells;
    let max = cells as f64;
    let hit = [max / 4., max / 2.];
    Entry { axis: number / along, index: number % along, outer: hit, inner: Some(hit) }
}

/// Short hits anywhere on any ray of a cube.
pub fn scattered(n: usize, cells: f64) -> Vec<Entry> {
    let mut g = Gen::new(1, "scattered", n as u64);
    let along = (cells * cells) as u64;
    let mut one = || {
        let lo = g.within(0., cells - 2.);
        let (axis, index) = (g.below(3) as usize, g.below(along) as usize);
        Entry { axis, index, outer: [lo, lo + 2.], inner: Some([lo + 0.5, lo + 1.5]) }
    };
    (0..n).map(|_| one()).collect()
}

/// Hits on one ray, each of which leaves a pair.
fn hits(list: impl IntoIterator<Item = Pair>) -> Vec<Entry> {
    let hit = |s: Pair| Entry { axis: 0, index: 0, outer: [s[0] / 4., s[1] / 4.], inner: Some([s[0] / 4., s[1] / 4.]) };
    list.into_iter().map(hit).collect()
}

/// n of them in no order.
pub fn on_one_ray(n: usize) -> Vec<Entry> {
    hits(shuffled(ascending(n, 1.)))
}

/// On an uncut box of these cells along each axis.
fn on_cube(what: &'static str, limits: Limits, cells: f64, log: impl Fn() -> Vec<Entry> + 'static) -> Case {
    Case { what, limits, max: [cells; 3], cell: 1., lists: full([cells; 3]), log: Box::new(log) }
}

/// On an uncut box with so many rays along axis 0, as long as n cuts apart need them.
fn on_long(what: &'static str, limits: Limits, n: usize, rays: usize, log: impl Fn() -> Vec<Entry> + 'static) -> Case {
    let long = place(4. * n as f64 + 4.);
    let cell = long / (rays as f64).sqrt().ceil();
    Case { what, limits, max: [long; 3], cell, lists: full([long; 3]), log: Box::new(log) }
}

/// On one ray of n pairs in each list.
fn on_comb(what: &'static str, limits: Limits, n: usize, log: impl Fn() -> Vec<Entry> + 'static) -> Case {
    let long = place(4. * n as f64 + 4.);
    Case { what, limits, max: [long; 3], cell: long, lists: comb(n), log: Box::new(log) }
}

/// So many passes of a ball cutter, with about n entries where one line has fewer; all passes of 32 lines have `most`.
fn passes(what: &'static str, count: usize, n: usize, most: usize) -> Case {
    let log = move || sweep::passes(count, (32 * n).div_ceil(most));
    Case { what, limits: PASSES, max: sweep::MAX, cell: 1., lists: full(sweep::MAX), log: Box::new(log) }
}

fn cases(n: usize) -> Vec<Case> {
    let cells = (n as f64 / 3.).sqrt().ceil() as usize;
    let cube = |what, limits, ray: fn(usize, usize) -> usize| {
        on_cube(what, limits, cells as f64, move || (0..n).map(|i| middle(ray(i, n), cells)).collect())
    };
    let in_turn = |what, limits, rays| on_long(what, limits, n, rays, move || apart(n, |i| i % rays));
    let few = |what, rays| in_turn(what, if n / rays > 3_072 { FEW_LONG_IN_TURN } else { FEW_IN_TURN }, rays);
    let half = n as f64 / 2. + 1.;
    let one = |what, limits, log: Log| Case { what, limits, max: [half; 3], cell: half, lists: full([half; 3]), log };
    let against = |what, limits, order: fn(usize, Deciding) -> Vec<usize>, deciding| {
        let list = ascending(n, 1.);
        one(what, limits, Box::new(move || hits(order(n, deciding).into_iter().map(|k| list[k]))))
    };
    vec![
        passes("ball-cutter pass", 1, n, 145_708),
        passes("ten ball-cutter passes", 10, n.min(828_920), 828_920),
        cube("each ray once, descending", IN_ORDER, |i, n| n - 1 - i),
        cube("each ray twice, half the log apart", IN_ORDER, |i, n| n / 2 - 1 - i % (n / 2)),
        cube("each ray twice, in and out", IN_ORDER, |i, n| i.min(n - 1 - i)),
        on_cube("each ray once, in no order", IN_NO_ORDER, cells as f64, move || {
            shuffled((0..n).map(|r| middle(r, cells)).collect())
        }),
        on_cube("60,492 rays in no order", IN_NO_ORDER, CELLS, move || scattered(n, CELLS)),
        on_cube("998,787 rays in no order", IN_NO_ORDER, 577., move || scattered(n, 577.)),
        few("100 rays in turn", 100),
        few("300 rays in turn", 300),
        on_long("1,000 rays in no order", FEW_IN_TURN, n, 1_000, move || anywhere(n, 1_000)),
        in_turn("one ray", ONE_OR_TWO, 1),
        in_turn("2 rays in turn", ONE_OR_TWO, 2),
        on_comb("one ray of as many pairs", ONE_OR_TWO, n, move || apart(n, |_| 0)),
        on_comb("one ray, hits between as many pairs", ONE_OR_TWO, n, move || between(n)),
        one("one ray, hits in no order", ONE_IN_NO_ORDER, Box::new(move || on_one_ray(n))),
        against("one ray, made against one of three", ONE_IN_NO_ORDER, from_below, of_three),
        against("one ray, made against the groups", AGAINST, from_below, of_groups),
        against("one ray, made for many cuts", AGAINST, from_above, of_groups),
        against("one ray, made for both", AGAINST, from_both, of_groups),
        on_comb("one entry, one ray of as many pairs", ONE_ENTRY, n, || apart(1, |_| 0)),
    ]
}

impl Case {
    fn store(&self, free: usize) -> Laid {
        laid(self.max, self.cell, &self.lists, free)
    }

    /// Entries, and the best seconds with both budgets out of reach and with both reached exactly, timed in turn after both answers were compared
    /// with the Rust's.
    fn times(&self) -> (usize, [f64; 2]) {
        let log = (self.log)();
        let (changed, more) = needs(&log, |free| self.store(free));
        assert!(changed < log.len() as u64 || more < 3 * log.len(), "sums rule both budgets out");
        let starts = [(3 * log.len(), log.len() as u64), (more, changed)].map(|(free, allowance)| (self.store(free), allowance));
        let mut ports = starts.each_ref().map(|(start, allowance)| accepted(start, &log, *allowance));
        let mut best = [f64::INFINITY; 2];
        for _ in 0..REPETITIONS {
            for (best, port) in best.iter_mut().zip(&mut ports) {
                *best = best.min(seconds(port));
            }
        }
        (log.len(), best)
    }
}

/// The port's side of a commit that it accepts as the Rust does.
fn accepted<'a>(start: &'a Laid, log: &'a [Entry], allowance: u64) -> PortSide<'a> {
    let (mut port, mut rust) = sides(start, Given::Log(log, allowance));
    agree(&mut port, &mut rust);
    assert_eq!(port.code, 0);
    port
}

/// The cases with this in their text, with about so many entries each.
pub fn print(sizes: &[usize], only: &str) {
    println!("Log commits with both budgets out of reach and with both reached exactly; best of {REPETITIONS}, in turn.");
    println!("{:<40} {:>10} {:>16} {:>12} {:>8} {:>8}", "", "entries", "out of reach ms", "reached ms", "ratio", "limit");
    let (mut rows, mut above) = (0, 0);
    for n in sizes {
        for case in cases(*n).iter().filter(|c| c.what.contains(only)) {
            let (entries, [free, reached]) = case.times();
            let (ratio, limit) = (reached / free, case.limits[(*n > 100_000) as usize]);
            let star = if ratio > limit { " *" } else { "" };
            let [free, reached] = [free, reached].map(|s| s * 1e3);
            println!("{:<40} {entries:>10} {free:>16.3} {reached:>12.3} {ratio:>8.2} {limit:>8.1}{star}", case.what);
            rows += 1;
            above += (ratio > limit) as usize;
        }
    }
    println!("{above} of {rows} ratios are above their limit (*).");
}
