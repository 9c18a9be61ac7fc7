//! Runs of commits against a stand-in for the port, which works on the lent cells, and the same with a fault put in: each fault is found.
use harness::{
    commits::{Commit, Entries, Run, State, Tally},
    generate::Gen,
    log_runs::{LogRun, log_run, long_run},
    runs::{Domain, edges, run, run_of},
    sized_logs::{ROOM, SMALL, sized_run},
    store::{LentStore, Match},
};
use oracle::dexel::DexelStockSpec;

#[derive(Clone, Copy, Debug, PartialEq)]
enum Fault {
    None,
    /// a changed list's first record is left as it was when the commit frees it
    DirtyRecord,
    Owner,
    Total,
    Generation,
    Changed,
    RefusedWrites,
    WorkLeft,
    Order,
    /// the zeros of all lists have the other sign after a commit that changes a ray
    Zeros,
}

struct StandIn(Fault);

impl StandIn {
    fn commit(&self, spec: &DexelStockSpec, lent: &mut LentStore, tally: &mut Tally, commit: Commit, changed: &mut u64) -> u32 {
        let heads = 2 * spec.grid().unwrap().total_rays();
        let store = lent.read(spec.max_intervals, heads, tally.generation, tally.intervals);
        let due = State::of(spec, store).due(&commit);
        if due.refused != 0 {
            if self.0 == Fault::RefusedWrites {
                tally.generation = tally.generation.wrapping_add(1);
            }
            return if self.0 == Fault::Order && due.refused == 14 { 13 } else { due.refused };
        }
        let (mut spans, mut links, heads) = due.next.store.cells();
        match self.0 {
            Fault::Zeros if due.changed > 0 => {
                let owned = |i: usize| links[i / 2 * 2 + 1] != 0;
                (0..spans.len()).filter(|i| owned(*i)).for_each(|i| spans[i] = if spans[i] == 0. { -spans[i] } else { spans[i] });
            }
            Fault::Owner if links[1] != 0 => links[1] += 1,
            Fault::DirtyRecord => {
                if let Some(k) = (0..links.len() / 2).find(|k| links[2 * k + 1] == 0) {
                    links[2 * k] = lent.links.read()[2 * k];
                }
            }
            _ => {}
        }
        lent.spans.cells()[..spans.len()].copy_from_slice(&spans);
        lent.links.cells()[..links.len()].copy_from_slice(&links);
        lent.heads.cells()[..heads.len()].copy_from_slice(&heads);
        *tally = due.next.tally();
        *changed = due.changed;
        match self.0 {
            Fault::Total => tally.intervals += 1,
            Fault::Generation if due.changed == 0 => tally.generation -= 1,
            Fault::Changed => *changed = 1,
            _ => {}
        }
        0
    }
}

impl Entries for StandIn {
    fn commit_changes(
        &self,
        spec: &DexelStockSpec,
        store: &mut LentStore,
        tally: &mut Tally,
        base: u64,
        changes: &[u64],
        pairs: &[f64],
        changed: &mut u64,
    ) -> u32 {
        self.commit(spec, store, tally, Commit::Changes { base, changes: changes.to_vec(), pairs: pairs.to_vec() }, changed)
    }

    fn commit_log(
        &self,
        spec: &DexelStockSpec,
        store: &mut LentStore,
        tally: &mut Tally,
        log: &[f64],
        allowance: u64,
        work: &mut [f64],
        changed: &mut u64,
    ) -> u32 {
        let code = self.commit(spec, store, tally, Commit::Log { log: log.to_vec(), allowance, work: work.len() }, changed);
        if code == 0 {
            work.fill(0.);
            if self.0 == Fault::WorkLeft && !work.is_empty() {
                work[0] = -0.;
            }
        }
        code
    }
}

const RUNS: u64 = 2000;

/// A run of small numbers, or in every second case one anywhere in the domain.
fn any_run(case: u64) -> Run {
    let g = &mut Gen::new(1, "commits", case);
    if case.is_multiple_of(2) { run(g) } else { run_of(g, Domain::Whole, None) }
}

fn any_log_run(case: u64) -> LogRun {
    log_run(&mut Gen::new(1, "log_runs", case), if case.is_multiple_of(2) { Domain::Small } else { Domain::Whole })
}

#[test]
fn every_refusal_comes() {
    let (mut refused, mut changed, mut full) = ([0; 18], 0, 0);
    for case in 0..RUNS {
        let r = any_run(case);
        assert_eq!(r.play(&StandIn(Fault::None)), Ok(Match::Same), "case {case}");
        let mut state = State::of(&r.spec, r.start.clone());
        for c in &r.commits {
            let due = state.due(c);
            refused[due.refused as usize] += 1;
            changed += due.changed;
            state = due.next;
            assert!(state.store.sound(&r.spec));
            full += (state.store.intervals == r.spec.max_intervals as u64) as u64;
        }
    }
    println!("by number {refused:?}, changed rays {changed}, full stores {full}");
    for number in [0, 9, 10, 11, 12, 13, 14, 15, 17] {
        assert!(refused[number] > 20, "{number}: {}", refused[number]);
    }
    assert!(refused[0] > 5000 && changed > 5000 && full > 50);
}

#[test]
fn faults() {
    use Fault::*;
    for fault in [DirtyRecord, Owner, Total, Generation, Changed, RefusedWrites, WorkLeft, Order, Zeros] {
        let found = (0..RUNS).filter(|case| any_run(*case).play(&StandIn(fault)).is_err()).count();
        assert!(found > 0, "not found: {fault:?}");
    }
}

/// A change list's ends are the caller's, and a log's are settled but where the hits on a ray have zeros of opposite sign.
#[test]
fn settled() {
    let log = |cells: &[f64]| Commit::Log { log: cells.to_vec(), allowance: 0, work: 0 };
    let below = [0., 0., -1., 0., 0., 0.];
    let below_minus = [0., 0., -1., -0., 0., 0.];
    let above_minus = [0., 0., -0., 1., 0., 0.];
    let across = [0., 0., -1., 1., 0., 0.];
    let elsewhere = [0., 1., -1., -0., 0., 0.];
    let inner = [0., 0., 0., 0., -1., -0.];
    assert!(log(&below).settled() && log(&below_minus).settled() && log(&[]).settled());
    assert!(!log(&[below, below_minus].concat()).settled());
    assert!(log(&[below, below_minus, across].concat()).settled(), "no end of the normalised hits is a zero");
    assert!(log(&[below, above_minus].concat()).settled(), "no end of the normalised hits is a zero");
    assert!(log(&[below, elsewhere].concat()).settled() && log(&[below, inner].concat()).settled());
    assert!(Commit::Changes { base: 0, changes: vec![], pairs: vec![0., -0.] }.settled());
}

/// What document 01 says of the fixed runs: the last commit's number and the intervals after it.
#[test]
fn fixed() {
    let due = [(0, 7), (10, 6), (0, 8), (0, 0), (0, 7), (0, 6)];
    for (k, r) in edges().iter().enumerate() {
        assert_eq!(r.play(&StandIn(Fault::None)), Ok(Match::Same));
        let mut state = State::of(&r.spec, r.start.clone());
        let mut last = 0;
        for c in &r.commits {
            let due = state.due(c);
            (last, state) = (due.refused, due.next);
        }
        assert_eq!((last, state.store.intervals), due[k / 2], "run {k}");
    }
}

const LOG_RUNS: u64 = 500;

#[test]
fn log_runs() {
    let (mut refused, mut logs, mut full, mut cut) = ([0; 18], [0; 21], 0, 0);
    for case in 0..LOG_RUNS {
        let r = any_log_run(case);
        assert_eq!(r.play(&StandIn(Fault::None)), Ok(Match::Same), "case {case}");
        logs[r.first.commits.len()] += 1;
        let mut state = State::of(&r.first.spec, r.first.start.clone());
        let mut filled = false;
        for c in &r.first.commits {
            let due = state.due(c);
            refused[due.refused as usize] += 1;
            filled |= due.changed > 0 && due.next.store.intervals == r.first.spec.max_intervals as u64;
            state = due.next;
        }
        full += filled as u64;
        cut += (state.store.rays() != r.first.start.rays()) as u64;
        assert_eq!(r.copies.len(), 4);
    }
    println!("by number {refused:?}, by logs {logs:?}, filled by a log {full}, cut {cut}");
    assert!([9, 10, 11, 12, 15, 17].iter().all(|number| refused[*number] > 20), "{refused:?}");
    assert!(logs[0] == 0 && logs[1..].iter().all(|n| *n > 5), "{logs:?}");
    assert!(full > LOG_RUNS / 4 && cut > LOG_RUNS * 3 / 4, "{full} {cut}");
}

/// Among the long logs are some with more than 512 entries on one ray, and stores with more than 512 pairs on one.
#[test]
fn long_runs() {
    let (mut refused, mut most_entries, mut most_pairs, mut full) = ([0; 18], 0, 0, 0);
    for case in 0..LOG_RUNS {
        let r = long_run(&mut Gen::new(1, "long_logs", case), Domain::Small);
        assert_eq!(r.play(&StandIn(Fault::None)), Ok(Match::Same), "case {case}");
        let mut state = State::of(&r.spec, r.start.clone());
        for c in &r.commits {
            let Commit::Log { log, .. } = c else { unreachable!() };
            let mut rays: Vec<_> = log.as_chunks::<6>().0.iter().map(|e| (e[0] as u64, e[1] as u64)).collect();
            rays.sort();
            most_entries = most_entries.max(rays.chunk_by(|a, b| a == b).map(<[_]>::len).max().unwrap());
            let due = state.due(c);
            refused[due.refused as usize] += 1;
            full += (due.changed > 0 && due.next.store.intervals == r.spec.max_intervals as u64) as u64;
            state = due.next;
        }
        most_pairs = most_pairs.max((0..state.store.heads.len()).map(|h| state.store.list(h).unwrap().len()).max().unwrap());
    }
    println!("by number {refused:?}, most entries on a ray {most_entries}, most pairs {most_pairs}, filled by a log {full}");
    assert!([0, 9, 10].iter().all(|number| refused[*number] > 20), "{refused:?}");
    assert!(most_entries > 512 && most_pairs > 512 && full > LOG_RUNS / 4, "{most_entries} {most_pairs} {full}");
}

/// A log as large as the arrays is refused as long as a budget is one short, accepted once where neither is, and changes nothing when it comes again.
#[test]
fn sized_runs() {
    let (mut refused, mut exact, mut most_pairs) = ([0; 18], 0, 0);
    for case in 0..LOG_RUNS {
        let room = if case.is_multiple_of(8) { ROOM } else { SMALL };
        let domain = if case.is_multiple_of(3) { Domain::Small } else { Domain::Whole };
        let r = sized_run(&mut Gen::new(1, "sized_logs", case), domain, room);
        assert_eq!(r.play(&StandIn(Fault::None)), Ok(Match::Same), "case {case}");
        assert!(r.start.sound(&r.spec), "case {case}");
        most_pairs = most_pairs.max((0..r.start.heads.len()).map(|h| r.start.list(h).unwrap().len()).max().unwrap());
        let mut state = State::of(&r.spec, r.start.clone());
        let mut accepted = false;
        for c in &r.commits {
            let Commit::Log { allowance, .. } = c else { unreachable!() };
            let due = state.due(c);
            refused[due.refused as usize] += 1;
            assert!(!accepted || (due.refused, due.changed) == (0, 0), "case {case}");
            accepted |= due.refused == 0;
            let full = due.next.store.intervals == r.spec.max_intervals as u64;
            exact += (due.changed > 0 && due.changed == *allowance && full) as u64;
            state = due.next;
        }
    }
    println!("by number {refused:?}, both budgets exactly reached {exact}, most pairs {most_pairs}");
    assert!([0, 9, 10].iter().all(|number| refused[*number] > LOG_RUNS / 4), "{refused:?}");
    assert!(exact > LOG_RUNS / 16 && most_pairs > ROOM.entries, "{exact} {most_pairs}");
}

/// A copy that lost its last accepted log is told apart wherever that log took something that no other takes.
#[test]
fn copies_with_less() {
    let mut found = 0;
    for case in 0..LOG_RUNS {
        let mut r = any_log_run(case);
        r.copies.truncate(1);
        r.copies[0].commits.pop();
        found += r.play(&StandIn(Fault::None)).is_err() as u64;
    }
    assert!(found > LOG_RUNS / 4, "{found}");
}
