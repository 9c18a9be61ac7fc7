//! Runs of commits on one store, change lists and logs, through the C exports of the two commits.
mod reaching;

use crate::{
    explained::Explained,
    function::{Function, Outcome, Words},
    reached::{COUNTS, DECADES, Group, NUMBERS, Reached},
};
use harness::{
    commits::{Commit, Entries, Run, Tally},
    generate::Gen,
    log_runs::{LogRun, log_run, long_run},
    runs::{Domain, Kind, edges, run_of},
    store::{LentStore, Match},
};
use oracle::dexel::DexelStockSpec;
use reaching::First;
use tridexel::raw;

const UNITS: &[u8] = b"mm";

/// The description as the exports take it.
pub fn described(s: &DexelStockSpec) -> crate::grid::DexelStockSpec {
    crate::grid::DexelStockSpec {
        version: s.version,
        min_mm: s.min_mm,
        max_mm: s.max_mm,
        cell_size_mm: s.cell_size_mm,
        max_rays: s.max_rays as u64,
        max_intervals: s.max_intervals as u64,
    }
}

/// The port's entries.
pub struct Port;

impl Entries for Port {
    fn commit_changes(
        &self,
        spec: &DexelStockSpec,
        store: &mut LentStore,
        tally: &mut Tally,
        base: u64,
        changes: &[u64],
        pairs: &[f64],
        changed: &mut u64,
    ) -> u32 {
        let (spans, links, heads) = (store.spans.cells(), store.links.cells(), store.heads.cells());
        unsafe {
            raw::tridexel_commit_changes(
                described(spec),
                UNITS.as_ptr(),
                UNITS.len(),
                spans.as_mut_ptr(),
                spans.len(),
                links.as_mut_ptr(),
                links.len(),
                heads.as_mut_ptr(),
                heads.len(),
                &mut tally.generation,
                &mut tally.intervals,
                base,
                changes.as_ptr(),
                changes.len(),
                pairs.as_ptr(),
                pairs.len(),
                changed,
            )
        }
    }

    fn commit_log(
        &self,
        spec: &DexelStockSpec,
        store: &mut LentStore,
        tally: &mut Tally,
        log: &[f64],
        allowance: u64,
        work: &mut [f64],
        changed: &mut u64,
    ) -> u32 {
        let (spans, links, heads) = (store.spans.cells(), store.links.cells(), store.heads.cells());
        unsafe {
            raw::tridexel_commit_log(
                described(spec),
                UNITS.as_ptr(),
                UNITS.len(),
                spans.as_mut_ptr(),
                spans.len(),
                links.as_mut_ptr(),
                links.len(),
                heads.as_mut_ptr(),
                heads.len(),
                &mut tally.generation,
                &mut tally.intervals,
                log.as_ptr(),
                log.len(),
                allowance,
                work.as_mut_ptr(),
                work.len(),
                changed,
            )
        }
    }
}

impl Words for Commit {
    fn words(&self) -> String {
        match self {
            Commit::Changes { base, changes, pairs } => format!("changes {base} {} {}", changes.words(), pairs.words()),
            Commit::Log { log, allowance, work } => format!("log {} {allowance} {work}", log.words()),
        }
    }
}

impl Words for Run {
    fn words(&self) -> String {
        let s = &self.spec;
        let blank =
            format!("{} {} {} {} {}", s.min_mm.words(), s.max_mm.words(), s.cell_size_mm.words(), s.max_rays, s.max_intervals);
        let commits: Vec<String> = self.commits.iter().map(Words::words).collect();
        format!("{blank} generation {} over {} {}", self.start.generation, self.over.words(), commits.join("; "))
    }

    fn calls(&self) -> u64 {
        self.commits.len() as u64
    }
}

impl Words for LogRun {
    fn words(&self) -> String {
        let copies: Vec<String> = self.copies.iter().map(Words::words).collect();
        format!("{} | {}", self.first.words(), copies.join(" | "))
    }

    fn calls(&self) -> u64 {
        self.first.calls() + self.copies.iter().map(Words::calls).sum::<u64>()
    }
}

fn outcome(played: Result<Match, String>) -> Outcome {
    match played {
        Ok(Match::Same) => Outcome::Same,
        Ok(_) => Outcome::differs(Some(Explained::Zeros), "a zero's sign", "another"),
        Err(found) => Outcome::differs(None, "as due", found),
    }
}

fn kind_of(c: &Commit) -> Kind {
    match c {
        Commit::Changes { .. } => Kind::Changes,
        Commit::Log { .. } => Kind::Logs,
    }
}

/// What runs reach that may be refused with these numbers. Numbers are of commits, sizes of runs.
fn wanted(refused: &'static [&'static str], compared: &'static [&'static str], rays: &'static [&'static str]) -> [Group; 5] {
    [("refused", refused), ("compared", compared), ("extent", &DECADES), ("bound", &DECADES), ("rays", rays)]
}

fn count_blank(r: &Run, reached: &mut Reached) {
    reached.count_box(r.spec.min_mm, r.spec.max_mm, r.start.heads.len() / 2);
}

fn count_commit(c: &Commit, number: u32, reached: &mut Reached) {
    reached.count("refused", NUMBERS[number as usize]);
    if number == 0 {
        reached.count("compared", if c.settled() { "by bits" } else { "as numbers" });
    }
}

fn compare_run(r: &Run, reached: &mut Reached) -> Outcome {
    count_blank(r, reached);
    outcome(r.end(&Port, &mut |c, number| count_commit(c, number, reached)).map(|(found, _)| found))
}

fn compare_long_run(r: &Run, reached: &mut Reached) -> Outcome {
    count_blank(r, reached);
    let mut first = First::of(r, reached);
    let mut seen = |c: &Commit, number| {
        count_commit(c, number, reached);
        if let Some(first) = &mut first {
            first.count(r, c, number, reached);
        }
    };
    outcome(r.end(&Port, &mut seen).map(|(found, _)| found))
}

fn compare_log_run(r: &LogRun, reached: &mut Reached) -> Outcome {
    count_blank(&r.first, reached);
    outcome(r.play_seen(&Port, &mut |c, number| count_commit(c, number, reached)))
}

/// The inputs of a generator over small blanks or the whole domain.
fn anywhere<I>(make: impl Fn(&mut Gen, Domain) -> I) -> impl Fn(&mut Gen) -> I {
    move |g| {
        let domain = Domain::any(g);
        make(g, domain)
    }
}

/// Runs of one kind of commit, so that each entry has a row of its own, mixed ones, runs of logs with their copies, and
/// runs of long logs, which have no blank of some ten thousand rays.
pub fn functions() -> Vec<Function> {
    const LOGS: &[&str] = &["accepted", "9", "10", "11", "12", "15", "17"];
    const CHANGES: &[&str] = &["accepted", "10", "11", "13", "14", "15"];
    const BOTH: &[&str] = &["accepted", "9", "10", "11", "12", "13", "14", "15", "17"];
    const ZEROS: &[&str] = &["by bits", "as numbers"];
    let only = |kind: Kind| edges().into_iter().filter(|r| r.commits.iter().all(|c| kind_of(c) == kind)).collect();
    let runs = |kind: Option<Kind>| anywhere(move |g, domain| run_of(g, domain, kind));
    let changes = wanted(CHANGES, &["by bits"], &COUNTS);
    let logs = wanted(LOGS, ZEROS, &COUNTS);
    let both = wanted(BOTH, ZEROS, &COUNTS);
    let copied = wanted(LOGS, ZEROS, &["1", "10", "100", "1000"]);
    let long = wanted(&["accepted", "9", "10", "15"], ZEROS, &["1", "10", "100", "1000"]);
    let long = [&long[..], &reaching::WANTED].concat();
    vec![
        Function::counting("commit_changes", &changes, only(Kind::Changes), runs(Some(Kind::Changes)), compare_run),
        Function::counting("commit_log", &logs, only(Kind::Logs), runs(Some(Kind::Logs)), compare_run),
        Function::counting("runs", &both, edges(), runs(None), compare_run),
        Function::counting("log_runs", &copied, vec![], anywhere(log_run), compare_log_run),
        Function::counting("long_logs", &long, vec![], anywhere(long_run), compare_long_run),
    ]
}
