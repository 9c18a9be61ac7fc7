//! Records runs of commits for the program `commit_vectors`: camlib's answers, document 01's refusals and records.
//!
//!     cd oracle && cargo run --release --bin record_commits > ../crates/commit_vectors/stdin
//!
//! A row is 170 words of 16 hexadecimal digits. Every NaN is 7ff8000000000000, and what a row does not use is 0: the entry, 0 for `commit_changes`, 1 for
//! `commit_log`, 2 where a run starts · version, units (0 for "mm", else 1), min, max, cell size, `max_rays`, `max_intervals` · the cells of the spans,
//! the links and the heads that are lent · base generation or allowance · the cells of the changes and of the pairs, or of the log and of the work
//! buffer · the refusal · the changed rays · generation and interval total after the commit · 30 cells of spans, 30 of links, 12 of heads after it ·
//! 36 cells of changes or of the log · 40 of pairs. Cells of the store's buffers that do not count are 7. Where a run starts, the row has its first store.
use harness::{
    Pair,
    commits::{Commit, Run, State, work_pairs},
    generate::Gen,
    grid::Query,
    runs::{edges, run},
    store::{Record, Store},
};
use oracle::dexel::{DexelStockSpec, opened as rust};

const SEED: u64 = 1;
const GENERATED: usize = 40;
const LENS: [usize; 3] = [30, 30, 12];
const SEVEN: u64 = 0x401c_0000_0000_0000;

fn bits(x: f64) -> u64 {
    if x.is_nan() { 0x7ff8_0000_0000_0000 } else { x.to_bits() }
}

/// A commit with the description and the cells that it brings.
#[derive(Clone)]
struct Brought {
    query: Query,
    lens: [usize; 3],
    commit: Commit,
}

/// The store's buffers as words, and the small record.
#[derive(Clone)]
struct Cells {
    spans: Vec<u64>,
    links: Vec<u64>,
    heads: Vec<u64>,
    generation: u64,
    intervals: u64,
}

fn over(words: &mut [u64], with: &[u64]) {
    words[..with.len()].copy_from_slice(with);
}

impl Cells {
    fn of(s: &Store) -> Self {
        let [spans, links, heads] = [vec![SEVEN; LENS[0]], vec![7; LENS[1]], vec![7; LENS[2]]];
        let mut cells = Self { spans, links, heads, generation: 0, intervals: 0 };
        cells.put(s);
        cells
    }

    fn put(&mut self, s: &Store) {
        let (spans, links, heads) = s.cells();
        over(&mut self.spans, &spans.iter().map(|x| bits(*x)).collect::<Vec<_>>());
        over(&mut self.links, &links);
        over(&mut self.heads, &heads);
        (self.generation, self.intervals) = (s.generation, s.intervals);
    }

    fn read(&self, spec: &DexelStockSpec) -> Store {
        let record = |k: usize| Record {
            lo: f64::from_bits(self.spans[2 * k]),
            hi: f64::from_bits(self.spans[2 * k + 1]),
            next: self.links[2 * k],
            owner: self.links[2 * k + 1],
        };
        Store {
            heads: self.heads[..2 * spec.grid().unwrap().total_rays()].to_vec(),
            records: (0..spec.max_intervals).map(record).collect(),
            generation: self.generation,
            intervals: self.intervals,
        }
    }
}

impl Brought {
    /// 1 to 3, then 12: too few whole records, heads or work pairs.
    fn short(&self) -> u32 {
        let spec = self.query.spec();
        match spec.grid() {
            Err(e) => rust::grid_code(&e),
            Ok(grid) => {
                let few = self.lens[0].min(self.lens[1]) / 2 < spec.max_intervals || self.lens[2] < 2 * grid.total_rays();
                let work = matches!(&self.commit, Commit::Log { log, work, .. } if work / 2 < work_pairs(&spec, log));
                if few || work { 12 } else { 0 }
            }
        }
    }

    /// The refusal and the changed rays; the cells become those after the commit.
    fn answer(&self, cells: &mut Cells) -> (u32, u64) {
        let number = self.short();
        if number != 0 {
            return (number, 0);
        }
        let spec = self.query.spec();
        let store = cells.read(&spec);
        if !store.sound(&spec) {
            return (11, 0);
        }
        let due = State::of(&spec, store).due(&self.commit);
        if due.refused == 0 {
            cells.put(&due.next.store);
        }
        (due.refused, due.changed)
    }

    /// The entry, its three numbers, and its cells.
    fn inputs(&self) -> (u64, [u64; 3], Vec<u64>) {
        match &self.commit {
            Commit::Changes { base, changes, pairs } => {
                let mut cells = changes.clone();
                cells.resize(36, 0);
                cells.extend(pairs.iter().map(|x| bits(*x)));
                (0, [*base, changes.len() as u64, pairs.len() as u64], cells)
            }
            Commit::Log { log, allowance, work } => {
                (1, [*allowance, log.len() as u64, *work as u64], log.iter().map(|x| bits(*x)).collect())
            }
        }
    }

    fn fits(&self) -> bool {
        let inputs = match &self.commit {
            Commit::Changes { changes, pairs, .. } => changes.len() <= 36 && pairs.len() <= 40,
            Commit::Log { log, work, .. } => log.len() <= 36 && *work <= 404,
        };
        inputs && (0..3).all(|k| self.lens[k] <= LENS[k])
    }
}

fn row(entry: u64, q: &Query, lens: [usize; 3], given: [u64; 3], answer: [u64; 2], cells: &Cells, inputs: Vec<u64>) {
    let mut words = vec![entry, q.version as u64, (q.units != 0) as u64];
    words.extend(q.min.iter().chain(&q.max).map(|x| bits(*x)));
    words.extend([bits(q.cell), q.max_rays, q.max_intervals]);
    words.extend(lens.map(|n| n as u64));
    words.extend(given);
    words.extend(answer);
    words.extend([cells.generation, cells.intervals]);
    words.extend(cells.spans.iter().chain(&cells.links).chain(&cells.heads));
    words.extend(inputs);
    assert!(words.len() <= 170);
    words.resize(170, 0);
    println!("{}", words.iter().map(|w| format!("{w:016x}")).collect::<Vec<_>>().join(" "));
}

#[derive(Default)]
struct Seen {
    runs: usize,
    /// by entry and number
    answers: [[u64; 18]; 2],
    /// commits that leave every record used
    full: u64,
}

impl Seen {
    fn record(&mut self, start: &Store, commits: &[Brought]) {
        assert!((1..=6).contains(&commits.len()) && commits.iter().all(Brought::fits));
        let mut cells = Cells::of(start);
        row(2, &commits[0].query, LENS, [0; 3], [0; 2], &cells, vec![]);
        self.runs += 1;
        for c in commits {
            let (number, changed) = c.answer(&mut cells);
            let (entry, given, inputs) = c.inputs();
            row(entry, &c.query, c.lens, given, [number as u64, changed], &cells, inputs);
            self.answers[entry as usize][number as usize] += 1;
            self.full += (number == 0 && cells.intervals == c.query.max_intervals) as u64;
        }
    }
}

fn query_of(spec: &DexelStockSpec) -> Query {
    Query {
        max_rays: spec.max_rays as u64,
        max_intervals: spec.max_intervals as u64,
        ..Query::new(spec.min_mm, spec.max_mm, spec.cell_size_mm)
    }
}

/// The commits of a run of the comparison.
fn brought(r: &Run) -> Vec<Brought> {
    let (spans, links, heads) = r.start.cells();
    let lens = [spans.len() + r.over[0], links.len() + r.over[1], heads.len() + r.over[2]];
    r.commits.iter().map(|c| Brought { query: query_of(&r.spec), lens, commit: c.clone() }).collect()
}

fn small(r: &Run) -> bool {
    let commits = brought(r);
    commits.len() <= 6 && commits.iter().all(Brought::fits)
}

// ---- runs on the three rays of a one-cell box 0 to 10 with nine records

fn one_cell() -> Query {
    query_of(&rust::spec([0.; 3], [10.; 3], 10., 3, 9))
}

const NONE: Pair = [0., 0.];

fn entry(axis: f64, outer: Pair, inner: Pair) -> [f64; 6] {
    [axis, 0., outer[0], outer[1], inner[0], inner[1]]
}

/// A log with this allowance, and so many cells of work over those that it needs.
fn log_with(q: &Query, entries: &[[f64; 6]], allowance: u64, more: i64) -> Brought {
    let log = entries.concat();
    let need = 2 * work_pairs(&rust::spec(q.min, q.max, q.cell, 3, q.max_intervals as usize), &log) as i64;
    Brought { query: q.clone(), lens: [20, 19, 7], commit: Commit::Log { log, allowance, work: (need + more) as usize } }
}

/// Takes the points from `from` to 10 from certain of the ray along axis 2, which held those below `to`.
fn change(q: &Query, base: u64, to: f64, from: f64) -> Brought {
    let pairs = vec![0., 10., 0., to, 0., 10., 0., from];
    Brought { query: q.clone(), lens: [20, 19, 7], commit: Commit::Changes { base, changes: vec![2, 0, 1, 1, 1, 1], pairs } }
}

/// Both entries with the fault, then both without it.
fn faulty(fault: impl Fn(&mut Brought)) -> Vec<Brought> {
    let q = one_cell();
    let good = [log_with(&q, &[entry(0., [1., 4.], [2., 3.])], 1, 0), change(&q, 1, 10., 4.)];
    let mut bad = [good[0].clone(), change(&q, 0, 10., 4.)];
    bad.iter_mut().for_each(fault);
    bad.into_iter().chain(good).collect()
}

fn described_badly() -> Vec<Vec<Brought>> {
    let faults: [fn(&mut Query); 9] = [
        |q| q.version = 2,
        |q| q.units = 3,
        |q| q.min[1] = f64::NAN,
        |q| q.cell = 0.,
        |q| q.max[2] = 0.,
        |q| q.max_rays = 0,
        |q| q.max_intervals = 0,
        |q| q.max_rays = 2,
        |q| q.max_intervals = 5,
    ];
    faults.into_iter().map(|f| faulty(|b| f(&mut b.query))).collect()
}

/// One cell short of the spans, the links and the heads.
fn lent_short() -> Vec<Vec<Brought>> {
    (0..3).map(|k| faulty(|b| b.lens[k] = [17, 17, 5][k])).collect()
}

/// Work buffers one cell short, exact, with cells over; allowances one short, exact and 0.
fn budgets() -> Vec<Vec<Brought>> {
    let q = one_cell();
    let cut = |k: f64| [entry(0., [k, k + 1.], NONE), entry(1., [k, k + 0.5], [k, k + 0.5])];
    let log = |k: f64, allowance, more| log_with(&q, &cut(k), allowance, more);
    vec![
        vec![log(0., 2, -1), log(0., 2, 0), log(1., 2, 1), log(2., 2, 6), log(2., 0, 5)],
        vec![log(0., 1, 0), log(0., 2, 0), log(0., 0, 0), log(1., u64::MAX, 0)],
        vec![log(4., 2, 0), log(4., 2, 0), log_with(&q, &[], 0, 0), log_with(&q, &[], 0, -1)],
        vec![
            log_with(&q, &[entry(2., [1., 2.], [1., 2.])], 1, 0),
            log_with(&q, &[entry(2., [3., 4.], NONE)], 1, 0),
            log(5., 2, 0),
        ],
    ]
}

/// Entries that name no ray or have part over, and change lists that are turned away.
fn turned_away() -> Vec<Vec<Brought>> {
    let q = one_cell();
    let named = |axis, index| log_with(&q, &[entry(0., [1., 2.], NONE), [axis, index, 1., 2., 0., 0.]], 3, 0);
    let mut part = log_with(&q, &[entry(0., [1., 2.], NONE)], 3, 0);
    let Commit::Log { log, .. } = &mut part.commit else { unreachable!() };
    log.pop();
    let with = |f: fn(&mut Vec<u64>, &mut Vec<f64>)| {
        let mut c = change(&q, 0, 10., 4.);
        let Commit::Changes { changes, pairs, .. } = &mut c.commit else { unreachable!() };
        f(changes, pairs);
        c
    };
    vec![
        vec![named(3., 0.), named(0.5, 0.), named(0., 1.), named(f64::NAN, 0.), part, named(-0., 0.)],
        vec![
            change(&q, 1, 10., 4.),
            change(&q, 0, 9., 4.),
            change(&q, 0, 10., 11.),
            change(&q, 0, 10., 4.),
            change(&q, 1, 4., 4.),
        ],
        vec![
            with(|c, _| c[0] = 3),
            with(|c, _| c[1] = 1),
            with(|c, _| c[5] = 2),
            with(|c, _| c.truncate(5)),
            with(|_, p| p.truncate(7)),
            with(|c, p| [c.clear(), p.clear()][0]),
        ],
    ]
}

/// The highest generation, and the one before it.
fn last_generations() -> Vec<(u64, Vec<Brought>)> {
    let q = one_cell();
    let log = |k: f64| log_with(&q, &[entry(2., [k, 10.], NONE)], 1, 0);
    let last = u64::MAX;
    vec![
        (last - 1, vec![log(5.), log(4.), change(&q, last, 5., 4.), change(&q, 0, 5., 4.), change(&q, last, 9., 4.)]),
        (last, vec![log(5.), change(&q, last, 10., 4.), log_with(&q, &[[3.; 6]], 0, 0)]),
        (last - 1, vec![change(&q, last - 1, 10., 4.), log(3.)]),
    ]
}

/// One fault in the store: both entries find it.
fn unsound() -> Vec<Store> {
    let faults: [fn(&mut Store); 7] = [
        |s| s.records[0].next = 1,
        |s| s.records[2].owner = 4,
        |s| s.records[8].lo = -0.,
        |s| s.heads[5] = 10,
        |s| s.intervals = 5,
        |s| s.records[0].hi = 9.,
        |s| s.records[4].lo = f64::NAN,
    ];
    let spoilt = |f: fn(&mut Store)| {
        let mut s = Store::fill(&one_cell().spec());
        f(&mut s);
        s
    };
    faults.into_iter().map(spoilt).collect()
}

fn main() {
    let mut seen = Seen::default();
    for r in edges() {
        seen.record(&r.start, &brought(&r));
    }
    let uncut = Store::fill(&one_cell().spec());
    for commits in described_badly().into_iter().chain(lent_short()).chain(budgets()).chain(turned_away()) {
        seen.record(&uncut, &commits);
    }
    for (generation, commits) in last_generations() {
        seen.record(&Store { generation, ..uncut.clone() }, &commits);
    }
    for store in unsound() {
        seen.record(&store, &faulty(|_| {})[..2]);
    }
    let generated = (0..).map(|k| run(&mut Gen::new(SEED, "commits", k))).filter(small).take(GENERATED);
    generated.for_each(|r| seen.record(&r.start, &brought(&r)));
    eprintln!(
        "{} runs, commits by number: changes {:?}, logs {:?}, full {}",
        seen.runs, seen.answers[0], seen.answers[1], seen.full
    );
    // 4 is never due
    assert!([0, 1, 2, 3, 10, 11, 12, 13, 14, 15].iter().all(|number| seen.answers[0][*number] > 0));
    assert!([0, 1, 2, 3, 9, 10, 11, 12, 15, 17].iter().all(|number| seen.answers[1][*number] > 0));
    assert!(seen.runs >= 60 && seen.full >= 5);
}
