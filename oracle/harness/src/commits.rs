//! Runs of commits on one store. What is due of each commit comes from camlib (`validate`, `commit_rays`, the merge loop) and, for refusals and
//! record numbers, from document 01; a port's cells are compared after each.
use crate::{
    Pair,
    lent::Lent,
    pairs, settled,
    store::{LentStore, Match, Store},
};
use oracle::dexel::{DexelStock, DexelStockSpec, RayChange, opened as rust, opened::sweep};
use std::collections::BTreeMap;

/// The stock's small record.
#[derive(Clone, Copy, Debug, PartialEq)]
pub struct Tally {
    pub generation: u64,
    pub intervals: u64,
}

#[derive(Clone, Debug)]
pub enum Commit {
    /// six numbers per change (axis, index, the pairs of its four lists), and the lists end to end
    Changes { base: u64, changes: Vec<u64>, pairs: Vec<f64> },
    /// six doubles per entry (axis, index, outer, inner), the changed rays allowed, and the doubles of the work buffer
    Log { log: Vec<f64>, allowance: u64, work: usize },
}

/// The two entries of a port that commit. `changed` is the answer where the call is accepted, and the result is the refusal's number, 0 for none.
pub trait Entries {
    fn commit_changes(
        &self,
        spec: &DexelStockSpec,
        store: &mut LentStore,
        tally: &mut Tally,
        base: u64,
        changes: &[u64],
        pairs: &[f64],
        changed: &mut u64,
    ) -> u32;
    fn commit_log(
        &self,
        spec: &DexelStockSpec,
        store: &mut LentStore,
        tally: &mut Tally,
        log: &[f64],
        allowance: u64,
        work: &mut [f64],
        changed: &mut u64,
    ) -> u32;
}

/// A stock as the Rust has it, and the store that document 01 lays for it.
#[derive(Clone, Debug)]
pub struct State {
    pub stock: DexelStock,
    pub store: Store,
}

/// What a commit leaves: the refusal's number and the state as it was, or 0, the next state and how many rays changed.
pub struct Due {
    pub refused: u32,
    pub next: State,
    pub changed: u64,
}

/// The change of these six numbers and lists; None where it can name no ray, or its lists reach past the pairs.
fn change(numbers: &[u64], lists: &mut &[Pair]) -> Option<RayChange> {
    let mut take = |n: u64| {
        let (list, rest) = lists.split_at_checked(usize::try_from(n).ok()?)?;
        *lists = rest;
        Some(list.to_vec())
    };
    let [axis, index, a, b, c, d] = numbers.try_into().unwrap();
    let [a, b, c, d] = [take(a)?, take(b)?, take(c)?, take(d)?];
    Some(RayChange {
        axis: axis.try_into().ok()?,
        index: index.try_into().ok()?,
        before: rust::ray(a, b),
        after: rust::ray(c, d),
    })
}

/// The entry of these six doubles; None where it names no ray.
pub fn entry(stock: &DexelStock, e: &[f64]) -> Option<sweep::Entry> {
    let axis = (0..3).find(|a| e[0] == *a as f64)?;
    let whole = e[1] >= 0. && e[1].fract() == 0. && e[1] < stock.grid().rays(axis) as f64;
    let entry = sweep::Entry { axis, index: e[1] as usize, outer: [e[2], e[3]], inner: Some([e[4], e[5]]) };
    whole.then_some(entry)
}

impl Commit {
    /// Whether every end of the lists that it leaves is settled as data: those of a change list are the caller's; a log
    /// leaves a choice where the outer or the inner hits on a ray have zeros of opposite sign.
    pub fn settled(&self) -> bool {
        let Commit::Log { log, .. } = self else { return true };
        let mut hits: BTreeMap<(u64, u64, usize), Vec<Pair>> = BTreeMap::new();
        for e in log.as_chunks::<6>().0 {
            for (kind, s) in [[e[2], e[3]], [e[4], e[5]]].into_iter().enumerate() {
                hits.entry((e[0] as u64, e[1] as u64, kind)).or_default().push(s);
            }
        }
        hits.values().all(|s| settled(s))
    }
}

impl State {
    pub fn uncut(spec: &DexelStockSpec) -> Self {
        State { stock: DexelStock::new(spec.clone()).unwrap(), store: Store::fill(spec) }
    }

    /// The stock that this store spells.
    pub fn of(spec: &DexelStockSpec, store: Store) -> Self {
        State { stock: rust::stock(spec.clone(), store.generation, store.rays_by_axis(spec)), store }
    }

    pub fn tally(&self) -> Tally {
        Tally { generation: self.store.generation, intervals: self.store.intervals }
    }

    fn refused(&self, number: u32) -> Due {
        Due { refused: number, next: self.clone(), changed: 0 }
    }

    /// The changes let through: 10, 15 where it comes last, or the next state.
    fn accept(&self, changes: &[RayChange]) -> Due {
        let total = match rust::validate(&self.stock, changes) {
            Ok(total) => total,
            Err(number) => return self.refused(number),
        };
        if self.store.generation == u64::MAX {
            return self.refused(15);
        }
        let mut next = self.clone();
        rust::commit_rays(&mut next.stock, changes, total).unwrap();
        next.store.commit(&self.stock, changes);
        Due { refused: 0, next, changed: changes.len() as u64 }
    }

    /// Document 01's order from 12 on: a change list has 12, 11, 14, 13, 10, 15, a log 12, 11, 15, 17, 9, 10. The store is sound and lent whole.
    pub fn due(&self, commit: &Commit) -> Due {
        match commit {
            Commit::Changes { base, changes, pairs: cells } => {
                let (numbers, over) = changes.as_chunks::<6>();
                if !over.is_empty() || cells.len() % 2 == 1 {
                    return self.refused(11);
                }
                if *base != self.store.generation {
                    return self.refused(14);
                }
                let lists = pairs(cells);
                let mut lists = lists.as_slice();
                match numbers.iter().map(|n| change(n, &mut lists)).collect::<Option<Vec<_>>>() {
                    None => self.refused(13),
                    Some(changes) => self.accept(&changes),
                }
            }
            Commit::Log { log, allowance, work } => {
                let (entries, over) = log.as_chunks::<6>();
                if work / 2 < work_pairs(self.stock.spec(), log) {
                    return self.refused(12);
                }
                if !over.is_empty() {
                    return self.refused(11);
                }
                if self.store.generation == u64::MAX {
                    return self.refused(15);
                }
                let Some(entries) = entries.iter().map(|e| entry(&self.stock, e)).collect::<Option<Vec<_>>>() else {
                    return self.refused(17);
                };
                match sweep::merge(&self.stock, sweep::group(&entries), *allowance as usize) {
                    None => self.refused(9),
                    Some(changes) => self.accept(&changes),
                }
            }
        }
    }
}

/// The work pairs of a log commit.
pub fn work_pairs(spec: &DexelStockSpec, log: &[f64]) -> usize {
    6 * spec.max_intervals + 18 * (log.len() / 6)
}

/// The change list as a caller lends it.
pub fn listed(base: u64, changes: &[RayChange]) -> Commit {
    let lists = |c: &RayChange| {
        [&c.before.possible, &c.before.certain, &c.after.possible, &c.after.certain].map(|l| l.as_slice().to_vec())
    };
    let numbers =
        |c: &RayChange| [c.axis as u64, c.index as u64].into_iter().chain(lists(c).map(|l| l.len() as u64)).collect::<Vec<_>>();
    Commit::Changes {
        base,
        changes: changes.iter().flat_map(numbers).collect(),
        pairs: changes.iter().flat_map(|c| lists(c).into_iter().flatten().flatten()).collect(),
    }
}

/// A description and the commits that are brought to its uncut store, one after the other.
#[derive(Clone, Debug)]
pub struct Run {
    pub spec: DexelStockSpec,
    pub start: Store,
    /// so many poisoned cells past the spans, the links and the heads
    pub over: [usize; 3],
    pub commits: Vec<Commit>,
}

const POISON: u64 = 0xdead_beef;

/// What was found of a commit that is not as due: its number, the inputs or the work buffer, the changed rays, the small record.
fn first_fault(due: &Due, code: u32, inputs: bool, changed: u64, tally: Tally) -> Option<String> {
    let wanted = if due.refused == 0 { due.changed } else { POISON };
    if code != due.refused {
        Some(format!("{code} in place of {}", due.refused))
    } else if !inputs {
        Some("an input or the work buffer is not as it must be".into())
    } else if changed != wanted {
        Some(format!("{changed} changed rays in place of {wanted}"))
    } else if tally != due.next.tally() {
        Some(format!("{tally:?} in place of {:?}", due.next.tally()))
    } else {
        None
    }
}

impl Run {
    /// The first commit whose number, answer, small record or cells are not those that are due, and what was found; else whether only the sign of
    /// a zero differed, where it is not settled.
    pub fn play(&self, port: &impl Entries) -> Result<Match, String> {
        self.end(port, &mut |_, _| {}).map(|(found, _)| found)
    }

    /// The same, with the store that the port's cells and small record spell at the end; `seen` is told each commit and
    /// the number that is due.
    pub fn end(&self, port: &impl Entries, seen: &mut impl FnMut(&Commit, u32)) -> Result<(Match, Store), String> {
        let mut state = State::of(&self.spec, self.start.clone());
        let mut lent = self.start.lend(self.over);
        let mut tally = state.tally();
        let mut found = Match::Same;
        let spelt =
            |lent: &LentStore, t: Tally| lent.read(self.start.records.len(), self.start.heads.len(), t.generation, t.intervals);
        for (k, commit) in self.commits.iter().enumerate() {
            let due = state.due(commit);
            seen(commit, due.refused);
            let mut changed = POISON;
            let (code, inputs) = call(port, &self.spec, &mut lent, &mut tally, commit, due.refused, &mut changed);
            if let Some(what) = first_fault(&due, code, inputs, changed, tally) {
                return Err(format!("commit {k}: {what}"));
            }
            state = match lent.compare(&due.next.store) {
                Match::Same => due.next,
                // a refused commit leaves each zero as it was
                Match::Zeros if due.refused == 0 && !commit.settled() => {
                    found = Match::Zeros;
                    // what is due next depends on the zeros that the port has
                    State::of(&self.spec, spelt(&lent, tally))
                }
                Match::Zeros => return Err(format!("commit {k}: a zero of the store has the other sign")),
                Match::Differs => return Err(format!("commit {k}: the store's cells differ")),
            };
        }
        Ok((found, spelt(&lent, tally)))
    }
}

/// Brings a commit to the port. Also tells whether the inputs stayed, and the work buffer is zero after success and untouched after a refusal.
fn call(
    port: &impl Entries,
    spec: &DexelStockSpec,
    lent: &mut LentStore,
    tally: &mut Tally,
    commit: &Commit,
    due: u32,
    changed: &mut u64,
) -> (u32, bool) {
    match commit {
        Commit::Changes { base, changes, pairs } => {
            let (c, p) = (Lent::of(changes, 0), Lent::of(pairs, 0));
            let code = port.commit_changes(spec, lent, tally, *base, c.read(), p.read(), changed);
            (code, c.untouched(changes) && p.untouched(pairs))
        }
        Commit::Log { log, allowance, work } => {
            let l = Lent::of(log, 0);
            let mut w = Lent::<f64>::new(*work);
            let code = port.commit_log(spec, lent, tally, l.read(), *allowance, w.cells(), changed);
            let left = if due == 0 { w.zero(0) } else { w.untouched(&[]) };
            (code, l.untouched(log) && left)
        }
    }
}
