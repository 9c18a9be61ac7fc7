//! The cases. Half of them are arbitrary in every argument; the others begin with what the port accepts, its own stores and logs among it, and have a few
//! cells, numbers or lengths changed.
use crate::{
    lists, stocks,
    stocks::{Cells, Changes, Log, Pass, Stock},
    trial::{Entry, MARK, Trial, fitted},
    words::{bits, buffer, bytes, changed, count, double, length, mutate, word},
};
use compare::{
    cutter,
    merge::ray_and_room,
    spans::{list_and_room, two_lists_and_room},
    sweep::{AXES, chord},
    trace::query,
};
use harness::{commits::Commit, generate::Gen, runs, store::small_spec};

pub fn run(t: &mut Trial, seed: u64, case: u64) {
    t.start(seed, case);
    let g = &mut Gen::new(seed, "fuzz", case);
    let entry = g.pick(&Entry::ALL);
    let near = g.once_in(2);
    match entry {
        Entry::Normalize => normalize(t, g, near),
        Entry::Subtract | Entry::Intersect => combine(t, g, entry, near),
        Entry::Contains | Entry::Overlaps => relate(t, g, entry, near),
        Entry::Merge => merge(t, g, near),
        Entry::Trace => trace(t, g, near),
        _ => over_stock(t, g, entry, near),
    }
}

/// How many changes a good input gets.
fn faults(g: &mut Gen) -> u64 {
    g.pick(&[0, 0, 1, 1, 1, 2, 3])
}

/// So many arbitrary cells, now and then more or fewer.
fn room(g: &mut Gen, need: usize) -> Vec<u64> {
    let n = match g.below(8) {
        0 => length(g),
        1 => need.saturating_sub(1 + g.below(2) as usize),
        2 => need + g.below(6) as usize,
        _ => need,
    };
    (0..n).map(|_| word(g)).collect()
}

// ---- lists

/// Each time one of the lists is changed.
fn mutate_lists(g: &mut Gen, lists: &mut [Vec<u64>]) {
    for _ in 0..faults(g) {
        let k = g.below(lists.len() as u64) as usize;
        mutate(g, &mut lists[k]);
    }
}

fn normalize(t: &mut Trial, g: &mut Gen, near: bool) {
    let mut list = if near { bits(&list_and_room(g).0) } else { buffer(g, double) };
    if near {
        mutate_lists(g, std::slice::from_mut(&mut list));
    }
    let out = room(g, list.len());
    lists::normalize(t, &list, &out);
}

fn two_lists(g: &mut Gen, near: bool) -> [Vec<u64>; 2] {
    if !near {
        return [buffer(g, double), buffer(g, double)];
    }
    let (a, b, _) = two_lists_and_room(g);
    let mut lists = [bits(&a), bits(&b)];
    mutate_lists(g, &mut lists);
    lists
}

fn combine(t: &mut Trial, g: &mut Gen, entry: Entry, near: bool) {
    let [a, b] = two_lists(g, near);
    let out = room(g, (a.len() / 2 + b.len() / 2) * 2);
    lists::combine(t, entry, &a, &b, &out);
}

fn relate(t: &mut Trial, g: &mut Gen, entry: Entry, near: bool) {
    let [a, b] = two_lists(g, near);
    lists::relate(t, entry, &a, &b);
}

fn merge(t: &mut Trial, g: &mut Gen, near: bool) {
    let mut bounds = [double(g), double(g)];
    let mut lists: [Vec<u64>; 4];
    if near {
        let (ray, _) = ray_and_room(g);
        lists = ray.lists().map(bits);
        if !g.once_in(20) {
            bounds = ray.bounds.map(f64::to_bits);
        }
        mutate_lists(g, &mut lists);
    } else {
        lists = std::array::from_fn(|_| buffer(g, double));
    }
    let [p, c, o, i] = lists.each_ref().map(|l| l.len() / 2);
    let work = fitted(room(g, 2 * (4 * (p + c) + 8 * (o + i))));
    lists::merge(t, lists.each_ref().map(|l| l.as_slice()), bounds, &work);
}

fn trace(t: &mut Trial, g: &mut Gen, near: bool) {
    let mut numbers = [double(g), double(g), double(g)];
    let mut lists: [Vec<u64>; 3];
    if near {
        let q = query(g);
        lists = q.lists().map(bits);
        let [lo, hi] = q.ray.bounds;
        if !g.once_in(20) {
            numbers = [lo, hi, q.place].map(f64::to_bits);
        }
        mutate_lists(g, &mut lists);
    } else {
        lists = std::array::from_fn(|_| buffer(g, double));
        if g.once_in(2) {
            lists[..2].iter_mut().for_each(Vec::clear);
        }
    }
    let [lo, hi, place] = numbers;
    lists::trace(t, lists.each_ref().map(|l| l.as_slice()), [lo, hi], place);
}

// ---- stocks

/// A small blank: version, min, max, cell size and both budgets. Now and then it has many cells; its intervals often just suffice.
fn description(g: &mut Gen) -> [u64; 10] {
    let mut spec = small_spec(g);
    if g.once_in(40) {
        spec.cell_size_mm /= (2 + g.below(3)) as f64;
        (spec.max_rays, spec.max_intervals) = (1 << 20, 1 << 20);
    }
    let rays = spec.grid().map_or(1, |grid| grid.total_rays());
    if spec.max_rays == 1 << 20 || g.once_in(2) {
        (spec.max_rays, spec.max_intervals) = (rays, 2 * rays + g.below(6) as usize);
    }
    let [a, b, c] = spec.min_mm.map(f64::to_bits);
    let [d, e, f] = spec.max_mm.map(f64::to_bits);
    [1, a, b, c, d, e, f, spec.cell_size_mm.to_bits(), spec.max_rays as u64, spec.max_intervals as u64]
}

/// Arbitrary in everything; the description may be a good one, since most arbitrary ones are refused for themselves.
fn any_stock(g: &mut Gen) -> Stock {
    let mut words = std::array::from_fn(|k| if k == 0 || k > 7 { count(g) } else { double(g) });
    if !g.once_in(4) {
        words[0] = 1;
    }
    if g.once_in(2) {
        words = description(g);
    }
    let mut s =
        Stock { words, units: bytes(g), spans: vec![], links: vec![], heads: vec![], generation: count(g), intervals: count(g) };
    [s.spans, s.links, s.heads] = [buffer(g, word), buffer(g, count), buffer(g, count)];
    if let (true, Ok(cells)) = (g.once_in(2), s.cells()) {
        lend(g, &mut s, cells);
    }
    s
}

/// As many arbitrary cells as the description needs.
fn lend(g: &mut Gen, s: &mut Stock, cells: Cells) {
    let records = 2 * s.words[9].min(2000) as usize;
    let lists = 2 * stocks::total(cells).min(2000) as usize;
    [s.spans, s.links, s.heads] = [records, records, lists].map(|n| (0..n + g.below(3) as usize).map(|_| word(g)).collect());
}

/// A stock that the port has filled and cut a few times, each call looked at.
fn cut_stock(t: &mut Trial, g: &mut Gen) -> Stock {
    let mut s = Stock {
        words: description(g),
        units: b"mm".into(),
        spans: vec![],
        links: vec![],
        heads: vec![],
        generation: word(g),
        intervals: word(g),
    };
    let cells = s.cells().expect("a good description");
    lend(g, &mut s, cells);
    let code = stocks::fill(t, &mut s);
    t.require(code == 0, "a good blank is refused");
    for _ in 0..g.below(4) {
        if g.once_in(3) {
            let changes = likely_changes(g, &s, cells);
            stocks::commit_changes(t, &mut s, &changes);
        } else {
            let log = likely_log(t, g, &s, cells);
            stocks::commit_log(t, &mut s, &log);
        }
    }
    if g.once_in(8) {
        s.generation = u64::MAX - g.below(2);
    }
    s
}

fn mutate_stock(g: &mut Gen, s: &mut Stock) {
    match g.below(16) {
        0 | 1 => {
            let k = g.below(10) as usize;
            s.words[k] = changed(g, s.words[k]);
        }
        2 => s.units = bytes(g),
        3..=5 => mutate(g, &mut s.spans),
        6..=9 => mutate(g, &mut s.links),
        10..=12 => mutate(g, &mut s.heads),
        13 => s.intervals = changed(g, s.intervals),
        14 => s.generation = changed(g, s.generation),
        _ => s.words[9] = s.words[9].wrapping_sub(1 + g.below(4)),
    }
}

fn over_stock(t: &mut Trial, g: &mut Gen, entry: Entry, near: bool) {
    let mut s = if near { cut_stock(t, g) } else { any_stock(g) };
    let cells = s.cells().ok().filter(|_| near);
    match entry {
        Entry::CommitChanges => commit_changes(t, g, &mut s, cells),
        Entry::CommitLog => commit_log(t, g, &mut s, cells),
        Entry::Sweep => sweep(t, g, &mut s, near),
        _ => {
            if near {
                (0..faults(g)).for_each(|_| mutate_stock(g, &mut s));
            }
            match entry {
                Entry::Grid => stocks::grid(t, &s),
                Entry::Fill => drop(stocks::fill(t, &mut s)),
                _ => stocks::volume(t, &s),
            }
        }
    }
}

// ---- change lists

fn any_changes(g: &mut Gen) -> Changes {
    Changes { base: count(g), changes: buffer(g, count), pairs: buffer(g, double) }
}

/// Changes of the stock's own rays, few of them faulty.
fn likely_changes(g: &mut Gen, s: &Stock, cells: Cells) -> Changes {
    match runs::changes(g, &s.state(cells)) {
        Commit::Changes { base, changes, pairs } => Changes { base, changes, pairs: bits(&pairs) },
        Commit::Log { .. } => unreachable!("a change list was asked for"),
    }
}

/// With the cells of a good stock, nearly good changes.
fn commit_changes(t: &mut Trial, g: &mut Gen, s: &mut Stock, cells: Option<Cells>) {
    let c = match cells {
        None => any_changes(g),
        Some(cells) => {
            let mut c = likely_changes(g, s, cells);
            (0..faults(g)).for_each(|_| mutate_changes(g, s, &mut c));
            c
        }
    };
    stocks::commit_changes(t, s, &c);
}

fn mutate_changes(g: &mut Gen, s: &mut Stock, c: &mut Changes) {
    match g.below(4) {
        0 => mutate_stock(g, s),
        1 => mutate(g, &mut c.changes),
        2 => mutate(g, &mut c.pairs),
        _ => c.base = changed(g, c.base),
    }
}

// ---- logs

fn any_log(g: &mut Gen, s: &Stock) -> Log {
    let log = buffer(g, double);
    let work = work(g, s, &log);
    Log { log, allowance: count(g), work }
}

/// The work buffer of a log, now and then longer or shorter.
fn work(g: &mut Gen, s: &Stock, log: &[u64]) -> Vec<u64> {
    let need = 12 * s.words[9].min(4000) as usize + 36 * (log.len() / 6);
    let n = if g.once_in(8) { g.pick(&[need.saturating_sub(1), need / 2]) } else { g.pick(&[need, need, need + 1, need + 7]) };
    fitted(vec![MARK; n])
}

/// The log of a sweep over the stock, or one of arbitrary hits on its rays.
fn likely_log(t: &mut Trial, g: &mut Gen, s: &Stock, cells: Cells) -> Log {
    let mut log = vec![];
    if g.once_in(2) {
        let pass = likely_pass(g, s);
        log = stocks::sweep(t, s, &pass).unwrap_or_default();
    }
    let allowance = g.pick(&[u64::MAX, u64::MAX, u64::MAX, stocks::total(cells), 0, 1, 2, 5]);
    if log.is_empty() {
        match runs::log(g, &s.state(cells)) {
            Commit::Log { log: l, .. } => log = bits(&l),
            Commit::Changes { .. } => unreachable!("a log was asked for"),
        }
    }
    let work = work(g, s, &log);
    Log { log, allowance, work }
}

/// With the cells of a good stock, a nearly good log.
fn commit_log(t: &mut Trial, g: &mut Gen, s: &mut Stock, cells: Option<Cells>) {
    let l = match cells {
        None => any_log(g, s),
        Some(cells) => {
            let mut l = likely_log(t, g, s, cells);
            (0..faults(g)).for_each(|_| mutate_log(g, s, &mut l));
            l
        }
    };
    stocks::commit_log(t, s, &l);
}

fn mutate_log(g: &mut Gen, s: &mut Stock, l: &mut Log) {
    match g.below(4) {
        0 => mutate_stock(g, s),
        1 => l.allowance = changed(g, l.allowance),
        _ => mutate(g, &mut l.log),
    }
}

// ---- sweeps

fn any_pass(g: &mut Gen) -> Pass {
    Pass {
        axis: if g.once_in(2) { g.below(6) } else { count(g) },
        shape: if g.once_in(2) { g.below(9) } else { count(g) },
        numbers: std::array::from_fn(|_| double(g)),
        chords: buffer(g, double),
        budget: count(g),
        log: buffer(g, word),
    }
}

/// A likely tool over the stock; the budget and the log often suffice.
fn likely_pass(g: &mut Gen, s: &Stock) -> Pass {
    let axis = g.below(6);
    let tool = cutter::likely(g);
    let spec = s.spec();
    let guard = g.pick(&[1e-3, 1e-6, 0.1, 1.]);
    let mut numbers = tool.own.to_vec();
    numbers.extend(tool.c.numbers());
    numbers.push(guard);
    let chords = (0..g.below(4)).flat_map(|_| chord(g, AXES[axis as usize], spec.min_mm, spec.max_mm)).collect::<Vec<_>>();
    let budget = if g.once_in(4) { g.below(60) } else { g.pick(&[u64::MAX, 1 << 20]) };
    let entries = if g.once_in(4) { g.below(80) } else { 600 };
    let log = vec![MARK; entries as usize + g.below(3) as usize];
    let numbers = bits(&numbers).try_into().expect("twelve numbers");
    Pass { axis, shape: tool.kind, numbers, chords: bits(&chords), budget, log }
}

fn sweep(t: &mut Trial, g: &mut Gen, s: &mut Stock, near: bool) {
    let mut p = if near { likely_pass(g, s) } else { any_pass(g) };
    if near {
        (0..faults(g)).for_each(|_| mutate_pass(g, s, &mut p));
    }
    stocks::sweep(t, s, &p);
}

fn mutate_pass(g: &mut Gen, s: &mut Stock, p: &mut Pass) {
    match g.below(10) {
        0 | 1 => mutate_stock(g, s),
        2 => p.axis = changed(g, p.axis),
        3 => p.shape = changed(g, p.shape),
        4 | 5 => {
            let k = g.below(12) as usize;
            p.numbers[k] = changed(g, p.numbers[k]);
        }
        6 => p.budget = changed(g, p.budget),
        7 => mutate(g, &mut p.log),
        _ => mutate(g, &mut p.chords),
    }
}
