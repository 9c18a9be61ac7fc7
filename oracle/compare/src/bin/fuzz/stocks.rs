//! The grid, and the entries over a lent store. What is due of the description is what `tridexel_grid` answers; whether a store is sound is judged by
//! the harness's model of document 01.
use crate::{
    trial::{Entry, Lent, MARK, Trial},
    words::doubles,
};
use compare::{
    cutter::{self, PreparedCutter, Tool},
    sweep::{AXES, chord_fault},
};
use harness::{
    commits::{Commit, State},
    store::{Record, Store},
};
use oracle::dexel::{DexelStockSpec, opened as rust};
use tridexel::raw::{self, RawSpec};

/// A description, the cells of a store and its small record.
#[derive(Clone, Debug)]
pub struct Stock {
    /// version, min, max, cell size, `max_rays`, `max_intervals`
    pub words: [u64; 10],
    pub units: Vec<u8>,
    pub spans: Vec<u64>,
    pub links: Vec<u64>,
    pub heads: Vec<u64>,
    pub generation: u64,
    pub intervals: u64,
}

/// The cells along each axis.
pub type Cells = [u64; 3];

pub fn rays(c: Cells, axis: usize) -> u64 {
    c[(axis + 1) % 3] * c[(axis + 2) % 3]
}

pub fn total(c: Cells) -> u64 {
    (0..3).map(|a| rays(c, a)).sum()
}

impl Stock {
    fn double(&self, k: usize) -> f64 {
        f64::from_bits(self.words[k])
    }

    fn vector(&self, k: usize) -> [f64; 3] {
        [self.double(k), self.double(k + 1), self.double(k + 2)]
    }

    pub fn spec(&self) -> RawSpec {
        RawSpec {
            version: self.words[0] as u32,
            min_mm: self.vector(1),
            max_mm: self.vector(4),
            cell_size_mm: self.double(7),
            max_rays: self.words[8],
            max_intervals: self.words[9],
        }
    }

    /// The same for camlib, where the grid is accepted.
    pub fn rust_spec(&self) -> DexelStockSpec {
        rust::spec(self.vector(1), self.vector(4), self.double(7), self.words[8] as usize, self.words[9] as usize)
    }

    /// What `tridexel_grid` answers.
    pub fn cells(&self) -> Result<Cells, u32> {
        let (mut cells, mut steps) = ([0; 3], [0.; 3]);
        match unsafe { raw::tridexel_grid(self.spec(), self.units.as_ptr(), self.units.len(), &mut cells, &mut steps) } {
            0 => Ok(cells),
            number => Err(number),
        }
    }

    fn short(&self, cells: Cells) -> bool {
        let records = self.spans.len().min(self.links.len()) as u64 / 2;
        records < self.words[9] || (self.heads.len() as u64) < 2 * total(cells)
    }

    /// The cells that count, as the model has them; they are lent.
    pub fn store(&self, cells: Cells) -> Store {
        let pair = |k: usize| [self.spans[2 * k], self.spans[2 * k + 1]].map(f64::from_bits);
        let record = |k: usize| Record { lo: pair(k)[0], hi: pair(k)[1], next: self.links[2 * k], owner: self.links[2 * k + 1] };
        Store {
            heads: self.heads[..2 * total(cells) as usize].to_vec(),
            records: (0..self.words[9] as usize).map(record).collect(),
            generation: self.generation,
            intervals: self.intervals,
        }
    }

    pub fn state(&self, cells: Cells) -> State {
        State::of(&self.rust_spec(), self.store(cells))
    }

    fn sound(&self, cells: Cells) -> bool {
        self.store(cells).sound(&self.rust_spec())
    }

    /// 1 to 3, then 12 and 11, for the store and for what comes beside it; or the cells.
    fn due(&self, short: impl Fn(Cells) -> bool, over: bool) -> Result<Cells, u32> {
        let cells = self.cells()?;
        if self.short(cells) || short(cells) {
            return Err(12);
        }
        if over || !self.sound(cells) {
            return Err(11);
        }
        Ok(cells)
    }

    /// Lends the store and both numbers to be written.
    fn write(&self, t: &mut Trial) -> [Lent; 5] {
        let store = [&self.spans, &self.links, &self.heads].map(|b| t.write(b));
        [store[0], store[1], store[2], t.write(&[self.generation]), t.write(&[self.intervals])]
    }

    /// Lends the store to be read.
    fn read(&self, t: &mut Trial) -> [Lent; 3] {
        [&self.spans, &self.links, &self.heads].map(|b| t.read(b))
    }

    /// Takes over an accepted call's store: it is sound, and no cell past those that count was written.
    fn take(&mut self, t: &Trial, [spans, links, heads, generation, intervals]: &[Lent; 5], cells: Cells) {
        let (records, lists) = (2 * self.words[9] as usize, 2 * total(cells) as usize);
        let past = t.after::<u64>(spans)[records..] == self.spans[records..]
            && t.after::<u64>(links)[records..] == self.links[records..]
            && t.after::<u64>(heads)[lists..] == self.heads[lists..];
        t.require(past, "a write past the cells that count");
        self.spans.copy_from_slice(t.after(spans));
        self.links.copy_from_slice(t.after(links));
        self.heads.copy_from_slice(t.after(heads));
        (self.generation, self.intervals) = (t.number(generation), t.number(intervals));
        t.require(self.sound(cells), "an accepted call leaves a store that is not sound");
    }
}

/// Accepted: each axis has a cell and a step above zero, and the rays are within both budgets.
pub fn grid(t: &mut Trial, s: &Stock) {
    t.begin(Entry::Grid);
    let (u, cells, steps) = (t.read(&s.units), t.write(&[MARK; 3]), t.write(&[MARK; 3]));
    let code = unsafe { raw::tridexel_grid(s.spec(), u.cells(), u.len, cells.cells(), steps.cells()) };
    t.end(code);
    if code == 0 {
        let cells: Cells = t.after::<u64>(&cells).try_into().unwrap();
        let fits = cells.iter().all(|n| (1..=s.words[8]).contains(n));
        t.require(fits && total(cells) <= s.words[8] && 2 * total(cells) <= s.words[9], "a grid beyond its budgets");
        t.require(t.after::<f64>(&steps).iter().all(|x| 0. < *x && *x <= 2e6), "a step that is none");
    }
}

/// 1 to 3 exactly where the grid has them, then 12 exactly for a short store; accepted: generation 0, twice the rays as intervals, head k first record k.
pub fn fill(t: &mut Trial, s: &mut Stock) -> u32 {
    t.begin(Entry::Fill);
    let u = t.read(&s.units);
    let lent = s.write(t);
    let [spans, links, heads, generation, intervals] = &lent;
    let code = unsafe {
        raw::tridexel_fill(
            s.spec(),
            u.cells(),
            u.len,
            spans.cells(),
            spans.len,
            links.cells(),
            links.len,
            heads.cells(),
            heads.len,
            generation.cells(),
            intervals.cells(),
        )
    };
    t.end(code);
    let due = s.cells().and_then(|c| if s.short(c) { Err(12) } else { Ok(c) });
    t.require(code == due.err().unwrap_or(0), "another answer is due");
    if let (0, Ok(cells)) = (code, due) {
        s.take(t, &lent, cells);
        let lists = 2 * total(cells);
        t.require((s.generation, s.intervals) == (0, lists), "another small record than the uncut stock's");
        t.require((0..lists).all(|k| s.heads[k as usize] == k + 1), "heads that do not count up");
    }
    code
}

/// 1 to 3 exactly where the grid has them, then 12 exactly for a short store, 11 exactly for one that is not sound; accepted: ten finite numbers.
pub fn volume(t: &mut Trial, s: &Stock) {
    t.begin(Entry::Volume);
    let u = t.read(&s.units);
    let [spans, links, heads] = s.read(t);
    let ten = t.write(&[MARK; 10]);
    let code = unsafe {
        raw::tridexel_volume(
            s.spec(),
            u.cells(),
            u.len,
            spans.cells(),
            spans.len,
            links.cells(),
            links.len,
            heads.cells(),
            heads.len,
            s.intervals,
            ten.cells(),
        )
    };
    t.end(code);
    t.require(code == s.due(|_| false, false).err().unwrap_or(0), "another answer is due");
    if code == 0 {
        t.require(t.after::<f64>(&ten).iter().all(|x| x.is_finite()), "a volume that is no number");
    }
}

/// A change list as it is lent.
#[derive(Clone, Debug)]
pub struct Changes {
    pub base: u64,
    pub changes: Vec<u64>,
    pub pairs: Vec<u64>,
}

fn call_changes(s: &Stock, u: &Lent, store: &[Lent; 5], c: &Changes, [changes, pairs, changed]: [&Lent; 3]) -> u32 {
    let [spans, links, heads, generation, intervals] = store;
    unsafe {
        raw::tridexel_commit_changes(
            s.spec(),
            u.cells(),
            u.len,
            spans.cells(),
            spans.len,
            links.cells(),
            links.len,
            heads.cells(),
            heads.len,
            generation.cells(),
            intervals.cells(),
            c.base,
            changes.cells(),
            changes.len,
            pairs.cells(),
            pairs.len,
            changed.cells(),
        )
    }
}

/// Every number of both commits exactly where it is due; accepted: the generation steps, as many rays change as the model says, `take`.
fn committed(
    t: &Trial,
    s: &mut Stock,
    lent: &[Lent; 5],
    (code, changed): (u32, u64),
    (short, commit): (impl Fn(Cells) -> bool, Commit),
) {
    let due = s.due(short, false).map(|cells| (cells, s.state(cells).due(&commit)));
    t.require(code == due.as_ref().map_or_else(|number| *number, |(_, d)| d.refused), "another answer is due");
    if let (0, Ok((cells, due))) = (code, due) {
        let before = s.generation;
        t.require(changed == due.changed, "another number of changed rays");
        s.take(t, lent, cells);
        t.require(before.checked_add(1) == Some(s.generation), "a generation that does not step");
    }
}

/// See `committed`.
pub fn commit_changes(t: &mut Trial, s: &mut Stock, c: &Changes) -> u32 {
    t.begin(Entry::CommitChanges);
    let u = t.read(&s.units);
    let lent = s.write(t);
    let (changes, pairs, changed) = (t.read(&c.changes), t.read(&c.pairs), t.write(&[MARK]));
    let code = call_changes(s, &u, &lent, c, [&changes, &pairs, &changed]);
    t.end(code);
    let commit = Commit::Changes { base: c.base, changes: c.changes.clone(), pairs: doubles(&c.pairs) };
    committed(t, s, &lent, (code, t.number(&changed)), (|_| false, commit));
    code
}

/// A log as it is lent.
#[derive(Clone, Debug)]
pub struct Log {
    pub log: Vec<u64>,
    pub allowance: u64,
    pub work: Vec<u64>,
}

/// The axis is 0 to 2, the index whole and one of its rays.
fn names_ray(entry: &[f64], cells: Cells) -> bool {
    let axis = (0..3).find(|a| *a as f64 == entry[0]);
    axis.is_some_and(|a| entry[1] >= 0. && entry[1].fract() == 0. && entry[1] < rays(cells, a) as f64)
}

fn call_log(s: &Stock, u: &Lent, store: &[Lent; 5], l: &Log, [log, work, changed]: [&Lent; 3]) -> u32 {
    let [spans, links, heads, generation, intervals] = store;
    unsafe {
        raw::tridexel_commit_log(
            s.spec(),
            u.cells(),
            u.len,
            spans.cells(),
            spans.len,
            links.cells(),
            links.len,
            heads.cells(),
            heads.len,
            generation.cells(),
            intervals.cells(),
            log.cells(),
            log.len,
            l.allowance,
            work.cells(),
            work.len,
            changed.cells(),
        )
    }
}

/// See `committed`; accepted: the work buffer is plus zero.
pub fn commit_log(t: &mut Trial, s: &mut Stock, l: &Log) -> u32 {
    t.begin(Entry::CommitLog);
    let u = t.read(&s.units);
    let lent = s.write(t);
    let (log, work, changed) = (t.read(&l.log), t.write(&l.work), t.write(&[MARK]));
    let code = call_log(s, &u, &lent, l, [&log, &work, &changed]);
    t.end(code);
    if code == 0 {
        t.require(t.after::<u64>(&work).iter().all(|w| *w == 0), "a work buffer that is not plus zero");
    }
    let need = 6 * s.words[9] as u128 + 18 * (l.log.len() as u128 / 6);
    let commit = Commit::Log { log: doubles(&l.log), allowance: l.allowance, work: l.work.len() };
    committed(t, s, &lent, (code, t.number(&changed)), (|_| (l.work.len() as u128 / 2) < need, commit));
    code
}

/// A tool, chords and budgets.
#[derive(Clone, Debug)]
pub struct Pass {
    pub axis: u64,
    pub shape: u64,
    /// the shape's own two, the cutter's nine, the guard
    pub numbers: [u64; 12],
    pub chords: Vec<u64>,
    pub budget: u64,
    pub log: Vec<u64>,
}

impl Pass {
    fn number(&self, k: usize) -> f64 {
        f64::from_bits(self.numbers[k])
    }

    fn cutter(&self) -> PreparedCutter {
        PreparedCutter::of_numbers(std::array::from_fn(|k| self.number(k + 2)))
    }

    /// 5, 6 or 7, else 0.
    fn due(&self) -> u32 {
        let tool = Tool { kind: self.shape, own: [self.number(0), self.number(1)], c: self.cutter(), h: [0.; 2] };
        match cutter::refusal(&tool).0 as u32 {
            5 => 5,
            0 if self.axis < 6 && self.shape < 9 => {
                7 * chord_fault(AXES[self.axis as usize], self.number(11), &doubles(&self.chords)) as u32
            }
            _ => 6,
        }
    }
}

fn call_sweep(s: &Stock, u: &Lent, [spans, links, heads]: &[Lent; 3], p: &Pass, beside: [&Lent; 4]) -> u32 {
    let [chords, log, entries, visits] = beside;
    unsafe {
        raw::tridexel_sweep(
            s.spec(),
            u.cells(),
            u.len,
            spans.cells(),
            spans.len,
            links.cells(),
            links.len,
            heads.cells(),
            heads.len,
            s.intervals,
            p.axis,
            p.shape,
            p.number(0),
            p.number(1),
            p.cutter(),
            p.number(11),
            chords.cells(),
            chords.len,
            p.budget,
            log.cells(),
            log.len,
            entries.cells(),
            visits.cells(),
        )
    }
}

/// 1 to 3, 12, 11, 5, 6 and 7 exactly where they are due; 8 and 16: the log is plus zero, both numbers as before; accepted: no more visits than the
/// budget, each entry on a ray across the tool, plus zero past them.
pub fn sweep(t: &mut Trial, s: &Stock, p: &Pass) -> Option<Vec<u64>> {
    t.begin(Entry::Sweep);
    let u = t.read(&s.units);
    let store = s.read(t);
    let (chords, log) = (t.read(&p.chords), t.write(&p.log));
    let (entries, visits) = (t.write(&[MARK]), t.write(&[MARK]));
    let code = call_sweep(s, &u, &store, p, [&chords, &log, &entries, &visits]);
    t.end(code);
    let due = s.due(|_| false, !p.chords.len().is_multiple_of(8)).and_then(|c| match p.due() {
        0 => Ok(c),
        number => Err(number),
    });
    match due {
        Err(number) => t.require(code == number, "another answer is due"),
        Ok(_) => t.require([0, 8, 16].contains(&code), "another answer is due"),
    }
    if code == 8 || code == 16 {
        t.require(t.after::<u64>(&log).iter().all(|w| *w == 0), "a log that is not plus zero");
        t.require((t.number(&entries), t.number(&visits)) == (MARK, MARK), "a refused call wrote a number");
    }
    if let (0, Ok(cells)) = (code, due) {
        t.require(t.number(&visits) <= p.budget, "more visits than the budget");
        return swept(t, &log, t.number(&entries) as usize, p.axis as usize / 2, cells);
    }
    None
}

fn swept(t: &Trial, log: &Lent, entries: usize, axis: usize, cells: Cells) -> Option<Vec<u64>> {
    let all = t.after::<u64>(log);
    t.require(entries <= all.len() / 6, "more entries than the log has");
    let (list, rest) = all.split_at_checked(6 * entries)?;
    let across = |e: &[f64]| names_ray(e, cells) && e[0] != axis as f64;
    t.require(doubles(list).chunks(6).all(across), "an entry that is on no ray across the tool");
    t.require(rest.iter().all(|w| *w == 0), "a cell past the entries that is not plus zero");
    Some(list.to_vec())
}
