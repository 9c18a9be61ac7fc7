//! What the first log of a run of long logs reaches: as many entries, entries on a ray and hits of a list as the port's arrays have room for, one
//! less and one more; the shapes and the order of the hits of a ray; the order of the rays; lists longer than the arrays; both budgets one
//! short, exactly reached, and one over.
use crate::reached::{Group, Reached, minus_zero};
use harness::{
    Pair,
    commits::{Commit, Run, State},
    log_runs::with_budget,
    sized_logs::ROOM,
    store::{Record, Store},
};
use oracle::dexel::opened as rust;
use std::collections::BTreeMap;

/// Logs, rays and lists of fewer entries or hits are not looked at.
const LEAST: usize = 255;
const SIZES: [&str; 9] = ["255", "256", "257", "511", "512", "513", "3071", "3072", "3073"];
const AROUND: [&str; 3] = ["one less", "exact", "one more"];

const ENTRIES: Group = ("entries", &["3071", "3072", "3073"]);
const ON_A_RAY: Group = ("on a ray", &SIZES);
const OF_A_LIST: Group = ("of a list", &SIZES);
/// the pairs that the first 512 hits of a list come to
const JOINED_TO: Group = ("joined to", &["383", "384", "385"]);

pub const WANTED: [Group; 10] = [
    ENTRIES,
    ON_A_RAY,
    OF_A_LIST,
    JOINED_TO,
    ("hits", &["apart", "alike", "nested", "touching", "from one number", "infinite end", "NaN", "minus zero"]),
    ("hits come", &["ascending", "descending", "in no order"]),
    ("rays come", &["one alone", "in turn", "ascending", "descending", "in no order"]),
    ("list", &["above 512 pairs", "above 3072 pairs"]),
    ("allowance", &AROUND),
    ("intervals", &AROUND),
];

/// The hits on a ray, as they come: without those that are empty, outer, inner, and both.
#[derive(Default)]
struct Hits {
    entries: usize,
    outer: Vec<Pair>,
    inner: Vec<Pair>,
    both: Vec<Pair>,
}

impl Hits {
    fn add(&mut self, e: &[f64; 6]) {
        self.entries += 1;
        let (outer, inner) = ([e[2], e[3]], [e[4], e[5]]);
        for (hit, list) in [(outer, &mut self.outer), (inner, &mut self.inner)] {
            if hit[0] < hit[1] {
                list.push(hit);
                self.both.push(hit);
            }
        }
    }
}

/// Counts a number that is wanted by itself.
fn count_number(n: usize, (group, numbers): Group, reached: &mut Reached) {
    if let Some(name) = numbers.iter().find(|name| **name == n.to_string()) {
        reached.count(group, name);
    }
}

/// The shape of many hits that are not empty, and their order where it can be told.
fn count_shape(hits: &[Pair], reached: &mut Reached) {
    let mut sorted = hits.to_vec();
    sorted.sort_by(|a, b| a.partial_cmp(b).expect("no NaN"));
    let all = |f: fn(Pair, Pair) -> bool| sorted.windows(2).all(|w| f(w[0], w[1]));
    let come = |f: fn(f64, f64) -> bool| hits.windows(2).all(|w| f(w[0][0], w[1][0]));
    let shape = if all(|a, b| a == b) {
        Some("alike")
    } else if all(|a, b| a[0] == b[0]) {
        Some("from one number")
    } else if all(|a, b| b[1] <= a[1]) {
        Some("nested")
    } else if all(|a, b| a[1] == b[0]) {
        Some("touching")
    } else {
        all(|a, b| a[1] < b[0]).then_some("apart")
    };
    if let Some(shape) = shape {
        reached.count("hits", shape);
    }
    if !come(|a, b| a == b) {
        let order = if come(|a, b| a <= b) {
            "ascending"
        } else if come(|a, b| a >= b) {
            "descending"
        } else {
            "in no order"
        };
        reached.count("hits come", order);
    }
}

fn count_ray(ray: &Hits, reached: &mut Reached) {
    count_number(ray.entries, ON_A_RAY, reached);
    for list in [&ray.inner, &ray.both] {
        count_number(list.len(), OF_A_LIST, reached);
        if let Some(first) = list.get(..ROOM.pairs) {
            count_number(rust::normalize(first.to_vec()).len(), JOINED_TO, reached);
        }
    }
    for hits in [&ray.outer, &ray.inner].into_iter().filter(|hits| hits.len() >= LEAST) {
        count_shape(hits, reached);
        reached.count_if(hits.as_flattened().iter().any(|x| x.is_infinite()), "hits", "infinite end");
        reached.count_if(minus_zero(hits.as_flattened()), "hits", "minus zero");
    }
}

/// How the rays of a log's entries follow each other.
fn order_of(rays: &[(u64, u64)], distinct: usize) -> &'static str {
    if distinct == 1 {
        "one alone"
    } else if distinct <= 8 && (distinct..rays.len()).all(|i| rays[i] == rays[i - distinct]) {
        "in turn"
    } else if rays.is_sorted() {
        "ascending"
    } else if rays.iter().rev().is_sorted() {
        "descending"
    } else {
        "in no order"
    }
}

fn count_log(log: &[[f64; 6]], reached: &mut Reached) {
    let mut by_ray: BTreeMap<(u64, u64), Hits> = BTreeMap::new();
    let rays: Vec<_> = log.iter().map(|e| (e[0] as u64, e[1] as u64)).collect();
    for (ray, e) in rays.iter().zip(log) {
        by_ray.entry(*ray).or_default().add(e);
    }
    count_number(log.len(), ENTRIES, reached);
    reached.count("rays come", order_of(&rays, by_ray.len()));
    reached.count_if(log.iter().any(|e| e[2..].iter().any(|x| x.is_nan())), "hits", "NaN");
    for ray in by_ray.values().filter(|r| r.entries >= LEAST) {
        count_ray(ray, reached);
    }
}

/// The lists of this store with more pairs than the arrays have room for.
fn count_lists(store: &Store, reached: &mut Reached) {
    let longest = (0..store.heads.len()).map(|h| store.list(h).expect("a sound store").len()).max().unwrap_or(0);
    reached.count_if(longest > ROOM.pairs, "list", "above 512 pairs");
    reached.count_if(longest > ROOM.entries, "list", "above 3072 pairs");
}

/// A budget beside what is needed of it.
fn count_budget(budget: u64, need: u64, group: &str, reached: &mut Reached) {
    if let Some(k) = (budget + 1).checked_sub(need).filter(|k| *k < 3) {
        reached.count(group, AROUND[k as usize]);
    }
}

/// What the first log of a run would change and leave if it were allowed to.
pub struct First<'a> {
    log: &'a [f64],
    changed: u64,
    left: u64,
    /// whether no log was accepted yet
    open: bool,
}

impl<'a> First<'a> {
    /// Counts what that log reaches, if it is long.
    pub fn of(run: &'a Run, reached: &mut Reached) -> Option<Self> {
        let Some(Commit::Log { log, work, .. }) = run.commits.first() else { return None };
        let entries = log.as_chunks().0;
        if entries.len() < LEAST {
            return None;
        }
        count_log(entries, reached);
        count_lists(&run.start, reached);
        let free = 3 * entries.len();
        let mut store = run.start.clone();
        store.records.resize(run.spec.max_intervals + free, Record::default());
        let roomy = Commit::Log { log: log.clone(), allowance: u64::MAX, work: work + 12 * free };
        let due = State::of(&with_budget(&run.spec, store.records.len()), store).due(&roomy);
        (due.refused == 0).then_some(First { log, changed: due.changed, left: due.next.store.intervals, open: true })
    }

    /// Counts the budgets of a commit of that log, as long as the store is as it was.
    pub fn count(&mut self, run: &Run, commit: &Commit, number: u32, reached: &mut Reached) {
        let Commit::Log { log, allowance, .. } = commit else { return };
        if self.open && log.iter().map(|x| x.to_bits()).eq(self.log.iter().map(|x| x.to_bits())) {
            count_budget(*allowance, self.changed, "allowance", reached);
            count_budget(run.spec.max_intervals as u64, self.left, "intervals", reached);
        }
        self.open &= number != 0;
    }
}
