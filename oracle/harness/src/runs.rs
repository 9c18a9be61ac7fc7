//! Generated runs of commits, change lists and logs, and fixed ones.
use crate::{
    Pair,
    commits::{Commit, Run, State, entry, listed, work_pairs},
    flat,
    generate::Gen,
    store::{Store, small_spec, store_of},
    wide::{any_spec, ray_within},
};
use oracle::dexel::{DexelStockSpec, opened as rust, opened::sweep};

/// A pair that is often an end of the ray's own or of the box, and now and then anything.
fn hit(g: &mut Gen, ends: &[f64], lo: f64, hi: f64) -> Pair {
    let mut end = || match g.below(6) {
        0 => g.pick(&[lo, hi]),
        1 if !ends.is_empty() => g.pick(ends),
        2 => g.double(),
        _ => g.within(lo, hi),
    };
    let (a, b) = (end(), end());
    if g.once_in(8) { [a, b] } else { [a.min(b), a.max(b)] }
}

/// A log of up to seven entries on the rays of a stock, now and then one that names no ray or has part of an entry over.
pub fn log(g: &mut Gen, s: &State) -> Commit {
    let (stock, spec) = (&s.stock, s.stock.spec());
    let mut log = vec![];
    for _ in 0..g.below(8) {
        let axis = g.below(3) as usize;
        let index = g.below(stock.grid().rays(axis) as u64) as usize;
        let ray = &stock.rays(axis)[index];
        let ends = flat(ray.possible.as_slice());
        let (lo, hi) = (spec.min_mm[axis], spec.max_mm[axis]);
        let outer = hit(g, &ends, lo, hi);
        let inner = if g.once_in(3) { [0.; 2] } else { hit(g, &ends, lo, hi) };
        log.extend([axis as f64, index as f64, outer[0], outer[1], inner[0], inner[1]]);
    }
    if !log.is_empty() {
        let k = g.below(log.len() as u64 / 6) as usize;
        match g.below(40) {
            0 => log[6 * k] = g.pick(&[-0., 3., 1.5, f64::NAN, -1.]),
            1 => log[6 * k + 1] = g.pick(&[-0., 0.5, 1e9, f64::NAN, f64::INFINITY, -1.]),
            2 => drop(log.pop()),
            _ => {}
        }
    }
    let rays = stock.grid().total_rays() as u64;
    let allowance = g.pick(&[rays, rays, rays, u64::MAX, 0, 1, 2]);
    let need = 2 * work_pairs(spec, &log);
    let work = g.pick(&[need, need, need, need + 1, need + 7, need - 1]);
    Commit::Log { log, allowance, work }
}

/// The changes of some rays, each less some of its points, now and then with one fault.
pub fn changes(g: &mut Gen, s: &State) -> Commit {
    let (stock, spec) = (&s.stock, s.stock.spec());
    let (mut changes, mut pairs) = (vec![], vec![]);
    let rays = stock.grid().total_rays() as u64;
    let one_in = 1 + g.below(rays);
    for a in 0..3 {
        for (index, ray) in stock.rays(a).iter().enumerate() {
            if !g.once_in(one_in) {
                continue;
            }
            let before = [ray.possible.as_slice(), ray.certain.as_slice()];
            let (lo, hi) = (spec.min_mm[a], spec.max_mm[a]);
            let ends = flat(before[0]);
            let cut = rust::normalize(vec![hit(g, &ends, lo, hi)]);
            let mut possible = rust::subtract(before[0], &cut);
            let mut certain =
                rust::intersect(&possible, &rust::subtract(before[1], &rust::normalize(vec![hit(g, &ends, lo, hi)])));
            match g.below(40) {
                0 => possible = vec![[lo, hi]],
                1 => certain = possible.clone(),
                2 => possible.reverse(),
                3 => (possible, certain) = (vec![], vec![]),
                _ => {}
            }
            if [&possible[..], &certain[..]] == before && !g.once_in(20) {
                continue;
            }
            let lists = [before[0], before[1], &possible, &certain];
            changes.extend([a as u64, index as u64].into_iter().chain(lists.map(|l| l.len() as u64)));
            pairs.extend(lists.iter().flat_map(|l| flat(l)));
        }
    }
    let mut base = s.store.generation;
    let n = changes.len() as u64 / 6;
    match g.below(30) {
        0 => base = base.wrapping_add(g.pick(&[1, u64::MAX])),
        1 => drop(pairs.pop()),
        2 => pairs.truncate(pairs.len() / 4 * 2),
        3 => drop(changes.pop()),
        4 if n > 0 => changes[6 * g.below(n) as usize + g.below(6) as usize] = g.pick(&[0, 1, 2, 3, 300, 1 << 33, u64::MAX]),
        5 if n > 1 => (0..6).for_each(|k| changes.swap(k, 6 + k)),
        6 if !pairs.is_empty() => {
            let k = g.below(pairs.len() as u64) as usize;
            pairs[k] = g.double();
        }
        7 => pairs.extend([1., 2.]),
        _ => {}
    }
    Commit::Changes { base, changes, pairs }
}

/// Which commits a run has.
#[derive(Clone, Copy, Debug, PartialEq)]
pub enum Kind {
    Changes,
    Logs,
    Both,
}

/// Where a run takes place: on the uncut store of a small blank, or on a store anywhere in the domain, where zeros have
/// either sign.
#[derive(Clone, Copy, Debug, PartialEq)]
pub enum Domain {
    Small,
    Whole,
}

impl Domain {
    pub fn any(g: &mut Gen) -> Self {
        g.pick(&[Domain::Small, Domain::Whole])
    }

    /// A blank, in the whole domain once in `large` one of some ten thousand rays.
    pub fn spec(self, g: &mut Gen, large: u64) -> DexelStockSpec {
        match self {
            Domain::Small => small_spec(g),
            Domain::Whole => any_spec(g, large),
        }
    }

    fn start(self, g: &mut Gen, spec: &DexelStockSpec) -> Store {
        if self == Domain::Small || g.once_in(2) {
            return Store::fill(spec);
        }
        g.size = 2;
        Store { generation: 0, ..store_of(g, spec, ray_within) }
    }

    /// In the whole domain, zeros of either sign at the ends that a commit brings.
    pub fn signed(self, g: &mut Gen, mut commit: Commit) -> Commit {
        if self == Domain::Whole {
            match &mut commit {
                Commit::Changes { pairs, .. } => g.sign_zeros(pairs),
                Commit::Log { log, .. } => g.sign_zeros(log),
            }
        }
        commit
    }
}

/// Commits of both kinds, or of one, on a small blank.
pub fn run(g: &mut Gen) -> Run {
    run_of(g, Domain::Small, None)
}

/// How seldom the blank of a run has some ten thousand rays.
const LARGE: u64 = 2000;

/// Commits on a store that is often nearly full, now and then at the highest generation; of any kind where none is asked for.
pub fn run_of(g: &mut Gen, domain: Domain, kind: Option<Kind>) -> Run {
    let mut spec = domain.spec(g, LARGE);
    let rays = spec.grid().unwrap().total_rays();
    spec.max_intervals = 2 * rays + g.below(rays as u64 + 1) as usize;
    let mut start = domain.start(g, &spec);
    if g.once_in(8) {
        start.generation = u64::MAX - g.below(4);
    }
    let kind = kind.unwrap_or_else(|| g.pick(&[Kind::Changes, Kind::Logs, Kind::Both]));
    let mut state = State::of(&spec, start.clone());
    let mut commits = vec![];
    for _ in 0..1 + g.below(12) {
        let both = g.once_in(2);
        let commit = if kind == Kind::Changes || (kind == Kind::Both && both) { changes(g, &state) } else { log(g, &state) };
        let commit = domain.signed(g, commit);
        state = state.due(&commit).next;
        commits.push(commit);
    }
    let over = std::array::from_fn(|_| g.below(4) as usize);
    Run { spec, start, over, commits }
}

/// On the three rays of a one-cell box 0 to 10 with these interval budgets: logs that reach the budget exactly, exceed
/// it by one, fill the pool, free all lists, or find room only where all lists are freed before the first is laid; each
/// also as the change list that it amounts to.
pub fn edges() -> Vec<Run> {
    let all = [0., 10.];
    let entry = |axis: f64, outer: Pair, inner: Pair| vec![axis, 0., outer[0], outer[1], inner[0], inner[1]];
    let none = [0., 0.];
    let split = entry(0., [1., 2.], none);
    let runs: [(usize, Vec<Vec<f64>>); 6] = [
        (7, vec![split.clone()]),
        (7, vec![entry(0., [1., 2.], [1., 2.])]),
        (8, vec![entry(0., [1., 2.], [1., 2.])]),
        (6, vec![[entry(0., all, all), entry(1., all, all), entry(2., all, all)].concat()]),
        (7, vec![split, [entry(0., [4., 5.], [4., 5.]), entry(1., all, all)].concat()]),
        (6, vec![vec![], entry(2., [11., 12.], none)]),
    ];
    runs.into_iter().flat_map(|(max_intervals, logs)| both(max_intervals, logs)).collect()
}

/// The run of these logs, and the run of the change lists that the Rust makes of them.
fn both(max_intervals: usize, logs: Vec<Vec<f64>>) -> [Run; 2] {
    let spec = rust::spec([0.; 3], [10.; 3], 10., 3, max_intervals);
    let start = Store::fill(&spec);
    let mut state = State::of(&spec, start.clone());
    let (mut as_logs, mut as_changes) = (vec![], vec![]);
    for log in logs {
        let entries: Vec<_> = log.as_chunks::<6>().0.iter().map(|e| entry(&state.stock, e).unwrap()).collect();
        let changes = sweep::merge(&state.stock, sweep::group(&entries), 3).unwrap();
        as_changes.push(listed(state.store.generation, &changes));
        let work = 2 * work_pairs(&spec, &log);
        as_logs.push(Commit::Log { log, allowance: 3, work });
        state = state.due(as_logs.last().unwrap()).next;
    }
    [as_logs, as_changes].map(|commits| Run { spec: spec.clone(), start: start.clone(), over: [1, 1, 1], commits })
}
