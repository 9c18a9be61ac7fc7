//! Runs of logs and copies of them with the same hits in their accepted logs: shuffled (logs, and the entries of each), and regrouped (the entries in
//! other logs, some of them repeated, some taken apart into their outer and their inner hit). Every copy leaves the lists and the interval total of its run.
//! And runs of long logs on few rays.
use crate::{
    commits::{Commit, Entries, Run, State, work_pairs},
    generate::Gen,
    runs::{Domain, log},
    sized_logs::{ROOM, SMALL, sized_run},
    store::{Match, Store},
};
use oracle::dexel::DexelStockSpec;

/// No blank of these runs has some ten thousand rays.
const NEVER: u64 = u64::MAX;

#[derive(Clone, Debug)]
pub struct LogRun {
    pub first: Run,
    pub copies: Vec<Run>,
}

impl LogRun {
    /// The first run that does not go as due, or copy whose lists or total differ at the end; else whether only the sign of a zero differed.
    pub fn play(&self, port: &impl Entries) -> Result<Match, String> {
        self.play_seen(port, &mut |_, _| {})
    }

    /// The same; `seen` is told each commit and the number that is due.
    pub fn play_seen(&self, port: &impl Entries, seen: &mut impl FnMut(&Commit, u32)) -> Result<Match, String> {
        let (mut found, end) = self.first.end(port, seen)?;
        for (k, copy) in self.copies.iter().enumerate() {
            let (how, other) = copy.end(port, seen).map_err(|e| format!("copy {k}: {e}"))?;
            if how == Match::Zeros {
                found = Match::Zeros;
            }
            if !agree(&end, &other) {
                return Err(format!("copy {k}: another list or interval total at the end"));
            }
        }
        Ok(found)
    }
}

/// Equal lists of every ray, as numbers, and equal interval totals.
fn agree(a: &Store, b: &Store) -> bool {
    let list = |s: &Store, head| s.list(head).expect("a sound store");
    a.intervals == b.intervals && a.heads.len() == b.heads.len() && (0..a.heads.len()).all(|head| list(a, head) == list(b, head))
}

pub fn shuffle<T>(g: &mut Gen, list: &mut [T]) {
    for i in (1..list.len()).rev() {
        list.swap(i, g.below(i as u64 + 1) as usize);
    }
}

/// The same blank with this interval budget.
pub fn with_budget(spec: &DexelStockSpec, max_intervals: usize) -> DexelStockSpec {
    DexelStockSpec { max_intervals, ..spec.clone() }
}

/// The log with an allowance that is often exactly the rays that it would change, or one less.
fn allowed(g: &mut Gen, state: &State, commit: Commit) -> Commit {
    let Commit::Log { log, work, .. } = commit else { return commit };
    let changed = state.due(&Commit::Log { log: log.clone(), allowance: u64::MAX, work }).changed;
    let allowance = g.pick(&[changed, changed, changed, changed.saturating_sub(1), changed + 1, u64::MAX]);
    Commit::Log { log, allowance, work }
}

/// The same commits where each work buffer has as many pairs over, or too few, as before.
fn moved_to(commits: &[Commit], from: usize, to: usize) -> Vec<Commit> {
    let moved = |c: &Commit| match c {
        Commit::Log { log, allowance, work } => {
            Commit::Log { log: log.clone(), allowance: *allowance, work: work + 12 * to - 12 * from }
        }
        other => other.clone(),
    };
    commits.iter().map(moved).collect()
}

/// The most intervals that the store has in this run.
fn peak(spec: &DexelStockSpec, start: &Store, commits: &[Commit]) -> usize {
    let mut state = State::of(spec, start.clone());
    let mut most = start.intervals;
    for c in commits {
        state = state.due(c).next;
        most = most.max(state.store.intervals);
    }
    most as usize
}

/// The logs that are accepted, and those that are refused for themselves: part of an entry over, or no such ray.
fn told_apart(run: &Run) -> (Vec<Vec<f64>>, Vec<Vec<f64>>) {
    let mut state = State::of(&run.spec, run.start.clone());
    let (mut accepted, mut refused) = (vec![], vec![]);
    for c in &run.commits {
        let due = state.due(c);
        let Commit::Log { log, .. } = c else { unreachable!() };
        match due.refused {
            0 => accepted.push(log.clone()),
            11 | 17 => refused.push(log.clone()),
            _ => {}
        }
        state = due.next;
    }
    (accepted, refused)
}

/// The entries of all logs in a new order, repeated and taken apart now and then, in 1 to 20 logs.
fn regrouped(g: &mut Gen, logs: &[Vec<f64>]) -> Vec<Vec<f64>> {
    let mut entries: Vec<[f64; 6]> = vec![];
    for e in logs.iter().flat_map(|log| log.as_chunks::<6>().0) {
        let [axis, index, a, b, c, d] = *e;
        match g.below(4) {
            0 => entries.extend([[axis, index, a, b, 0., 0.], [axis, index, 0., 0., c, d]]),
            1 => entries.extend([*e, *e]),
            _ => entries.push(*e),
        }
    }
    shuffle(g, &mut entries);
    let mut out = vec![vec![]; 1 + g.below(20) as usize];
    for e in entries {
        let k = g.below(out.len() as u64) as usize;
        out[k].extend(e);
    }
    out
}

/// The logs in a new order, the entries of each too.
fn shuffled(g: &mut Gen, logs: &[Vec<f64>]) -> Vec<Vec<f64>> {
    let mut out = logs.to_vec();
    shuffle(g, &mut out);
    for log in &mut out {
        let mut entries = log.as_chunks::<6>().0.to_vec();
        shuffle(g, &mut entries);
        *log = entries.concat();
    }
    out
}

/// These logs, all with room, and the refused ones in between; now and then one comes with a work buffer too short first.
fn roomy(g: &mut Gen, of: &Run, mut logs: Vec<Vec<f64>>, refused: &[Vec<f64>]) -> Run {
    for log in refused {
        let at = g.below(logs.len() as u64 + 1) as usize;
        logs.insert(at, log.clone());
    }
    let entries: usize = logs.iter().map(|l| l.len() / 6).sum();
    let spec = with_budget(&of.spec, 2 * of.start.heads.len() + 3 * entries);
    let mut commits = vec![];
    for log in logs {
        let work = 2 * work_pairs(&spec, &log);
        if g.once_in(8) {
            commits.push(Commit::Log { log: log.clone(), allowance: u64::MAX, work: work - 1 });
        }
        let over = g.below(3) as usize;
        commits.push(Commit::Log { log, allowance: u64::MAX, work: work + over });
    }
    let over = std::array::from_fn(|_| g.below(4) as usize);
    Run { start: Store::fill(&spec), spec, over, commits }
}

/// These logs on an uncut store whose interval budget is often the most that they reach, or one less; now and then near the highest generation.
fn budgeted(g: &mut Gen, wide: &DexelStockSpec, meant: usize, commits: &[Commit]) -> Run {
    let rays = wide.grid().unwrap().total_rays();
    let most = peak(wide, &Store::fill(wide), commits);
    let budget = g.pick(&[most, most, most - 1, most + 1, meant]).max(2 * rays);
    let commits = moved_to(commits, wide.max_intervals, budget);
    let spec = with_budget(wide, budget);
    let mut start = Store::fill(&spec);
    if g.once_in(16) {
        start.generation = u64::MAX - g.below(20);
    }
    let over = std::array::from_fn(|_| g.below(4) as usize);
    Run { spec, start, over, commits }
}

/// 1 to 20 logs, with refused ones among them, on an uncut store whose interval budget is often the most that they reach, or one less; and two shuffled
/// and two regrouped copies of what was accepted.
pub fn log_run(g: &mut Gen, domain: Domain) -> LogRun {
    let spec = domain.spec(g, NEVER);
    let rays = spec.grid().unwrap().total_rays();
    let wide = with_budget(&spec, 2 * rays + 20 * 8 * 3);
    let mut state = State::uncut(&wide);
    let mut commits = vec![];
    for _ in 0..1 + g.below(20) {
        let commit = log(g, &state);
        let commit = domain.signed(g, commit);
        let commit = allowed(g, &state, commit);
        state = state.due(&commit).next;
        commits.push(commit);
    }
    let first = budgeted(g, &wide, spec.max_intervals, &commits);
    let (accepted, refused) = told_apart(&first);
    let copies = (0..4)
        .map(|k| {
            let logs = if k < 2 { shuffled(g, &accepted) } else { regrouped(g, &accepted) };
            roomy(g, &first, logs, &refused)
        })
        .collect();
    LogRun { first, copies }
}

/// A hit on a lattice of `steps` steps, one step wide but for three in `odd`: many of them leave many pairs, and their ends often meet.
fn short_hit(g: &mut Gen, lo: f64, hi: f64, steps: u64, odd: u64) -> [f64; 2] {
    let at = |k: u64| lo + (hi - lo) * (k as f64 / steps as f64);
    let k = g.below(steps);
    match g.below(odd) {
        0 => [at(k), at(k + g.below(steps - k + 1))],
        1 => [0.; 2],
        2 => [g.double(), g.double()],
        _ => [at(k), at(k + 1)],
    }
}

/// A log of this many entries, nearly all of them on one to three rays.
fn long_log(g: &mut Gen, state: &State, entries: usize) -> Commit {
    let (stock, spec) = (&state.stock, state.stock.spec());
    let any_ray = |g: &mut Gen| {
        let axis = g.below(3) as usize;
        (axis, g.below(stock.grid().rays(axis) as u64))
    };
    let few: Vec<_> = (0..1 + g.below(3)).map(|_| any_ray(g)).collect();
    let steps = 1 + g.below(8 * entries as u64);
    let odd = g.pick(&[64, 8192]);
    let mut log = vec![];
    for _ in 0..entries {
        let (axis, index) = if g.once_in(16) { any_ray(g) } else { g.pick(&few) };
        let (lo, hi) = (spec.min_mm[axis], spec.max_mm[axis]);
        let outer = short_hit(g, lo, hi, steps, odd);
        let inner = match g.below(3) {
            0 => [0.; 2],
            1 => outer,
            _ => short_hit(g, lo, hi, steps, odd),
        };
        log.extend([axis as f64, index as f64, outer[0], outer[1], inner[0], inner[1]]);
    }
    if g.once_in(4) {
        let mut entries = log.as_chunks::<6>().0.to_vec();
        entries.sort_by(|a, b| {
            a.iter().zip(b).map(|(x, y)| x.total_cmp(y)).find(|o| o.is_ne()).unwrap_or(std::cmp::Ordering::Equal)
        });
        log = entries.concat();
    }
    let work = 2 * work_pairs(spec, &log);
    Commit::Log { log, allowance: 0, work }
}

/// 1 to 3 logs of up to 40 entries on few rays, once in 16 of up to 1,200, under budgets that are often exactly reached, or one short; and now and
/// then one log about as large as local arrays have room for.
pub fn long_run(g: &mut Gen, domain: Domain) -> Run {
    match g.below(64) {
        0 => return sized_run(g, domain, ROOM),
        1..=4 => return sized_run(g, domain, SMALL),
        _ => {}
    }
    let spec = domain.spec(g, NEVER);
    let rays = spec.grid().unwrap().total_rays();
    let longest = if g.once_in(16) { 1200 } else { 40 };
    let sizes: Vec<usize> = (0..1 + g.below(3)).map(|_| 1 + g.below(longest) as usize).collect();
    let wide = with_budget(&spec, 2 * rays + 3 * sizes.iter().sum::<usize>());
    let mut state = State::uncut(&wide);
    let mut commits = vec![];
    for entries in sizes {
        let commit = long_log(g, &state, entries);
        let commit = domain.signed(g, commit);
        let commit = allowed(g, &state, commit);
        state = state.due(&commit).next;
        commits.push(commit);
    }
    budgeted(g, &wide, spec.max_intervals, &commits)
}
