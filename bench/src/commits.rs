//! The change commit and the log commit against camlib's validate and commit_rays, which a log's grouping and merge loop precede. Each call starts from
//! the same store, restored outside the timed part; what the Rust allocated for a call is freed outside it too. The port checks the whole store first,
//! which the Rust does not.
use crate::{
    laid::{Laid, uncut},
    stock::{BOX, RAYS, cut, volume_row},
    sweep,
    timing::{Side, Table},
};
use compare::commits::Port;
use harness::{
    Pair,
    commits::{Commit, Entries, Tally, listed, work_pairs},
    store::LentStore,
};
use oracle::dexel::{
    DexelStock, RayChange,
    opened::{self as rust, sweep::Entry},
};
use std::hint::black_box;

/// What is committed, as the Rust takes it.
pub enum Given<'a> {
    Changes(&'a [RayChange]),
    /// a log, and the changed rays allowed
    Log(&'a [Entry], u64),
}

impl Given<'_> {
    fn len(&self) -> usize {
        match self {
            Given::Changes(changes) => changes.len(),
            Given::Log(log, _) => log.len(),
        }
    }
}

pub struct PortSide<'a> {
    start: &'a Laid,
    commit: Commit,
    pub lent: LentStore,
    work: Vec<f64>,
    pub tally: Tally,
    changed: u64,
    /// the refusal's number, 0 for none
    pub code: u32,
}

pub struct RustSide<'a> {
    start: &'a Laid,
    given: Given<'a>,
    pub stock: DexelStock,
    made: Vec<RayChange>,
    pub code: u32,
}

/// A log as the port is lent it.
pub fn flat(log: &[Entry]) -> Vec<f64> {
    let one = |e: &Entry| {
        let i = e.inner.unwrap_or([0.; 2]);
        [e.axis as f64, e.index as f64, e.outer[0], e.outer[1], i[0], i[1]]
    };
    log.iter().flat_map(one).collect()
}

/// Both sides of a commit on this store.
pub fn sides<'a>(start: &'a Laid, given: Given<'a>) -> (PortSide<'a>, RustSide<'a>) {
    let commit = match given {
        Given::Changes(changes) => listed(0, changes),
        Given::Log(log, allowance) => {
            let log = flat(log);
            Commit::Log { work: 2 * work_pairs(start.rust.spec(), &log), log, allowance }
        }
    };
    let work = if let Commit::Log { work, .. } = commit { vec![0.; work] } else { vec![] };
    let port = PortSide { start, commit, lent: start.lend(), work, tally: start.tally, changed: 0, code: 0 };
    (port, RustSide { start, given, stock: start.rust.clone(), made: vec![], code: 0 })
}

impl Side for PortSide<'_> {
    fn restore(&mut self) {
        self.start.restore(&mut self.lent);
        self.tally = self.start.tally;
    }

    fn call(&mut self) {
        let (spec, lent, tally) = (black_box(self.start.rust.spec()), &mut self.lent, &mut self.tally);
        self.code = match &self.commit {
            Commit::Changes { base, changes, pairs } => {
                Port.commit_changes(spec, lent, tally, *base, changes, pairs, &mut self.changed)
            }
            Commit::Log { log, allowance, .. } => {
                Port.commit_log(spec, lent, tally, log, *allowance, &mut self.work, &mut self.changed)
            }
        };
    }
}

impl Side for RustSide<'_> {
    fn restore(&mut self) {
        self.stock = self.start.rust.clone();
        self.made = vec![];
    }

    fn call(&mut self) {
        let changes = match self.given {
            Given::Changes(changes) => changes,
            Given::Log(log, allowance) => {
                match rust::sweep::merge(&self.stock, rust::sweep::group(black_box(log)), allowance as usize) {
                    Some(made) => self.made = made,
                    None => {
                        self.code = 9;
                        return;
                    }
                }
                &self.made
            }
        };
        self.code = match rust::validate(&self.stock, black_box(changes)) {
            Ok(total) => rust::commit_rays(&mut self.stock, changes, total).map_or(15, |()| 0),
            Err(number) => number,
        };
    }
}

impl RustSide<'_> {
    /// How many rays the last call changed.
    pub fn changed(&self) -> usize {
        if let Given::Changes(changes) = self.given { changes.len() } else { self.made.len() }
    }
}

/// Calls both and fails unless both have the same answer, and leave the same rays and the same interval total.
pub fn agree(port: &mut PortSide, rust: &mut RustSide) {
    port.restore();
    port.call();
    same(port, rust);
}

/// The same where the port was called just now.
pub fn same(port: &PortSide, rust: &mut RustSide) {
    rust.restore();
    rust.call();
    assert_eq!(port.code, rust.code);
    if port.code == 0 {
        assert_eq!(port.changed, rust.changed() as u64);
    }
    assert_eq!(port.tally.generation, rust.stock.generation());
    assert_eq!(port.tally.intervals, rust.stock.intervals() as u64);
    let rays = port.start.read(&port.lent, port.tally).rays_by_axis(rust.stock.spec());
    assert!((0..3).all(|a| rays[a] == rust.stock.rays(a)));
}

/// How many rays a log changes, and how many more intervals there are then; `store` makes the store with so many free records.
pub fn needs(log: &[Entry], store: impl Fn(usize) -> Laid) -> (u64, usize) {
    let start = store(3 * log.len());
    let (_, mut rust) = sides(&start, Given::Log(log, u64::MAX));
    rust.call();
    (rust.changed() as u64, rust.stock.intervals() - start.rust.intervals())
}

fn row(table: &Table, what: &str, start: &Laid, given: Given) {
    if !table.takes(what) {
        return;
    }
    let per = given.len();
    let (mut port, mut rust) = sides(start, given);
    agree(&mut port, &mut rust);
    table.row_of_sides(what, per, &mut port, &mut rust);
    assert_eq!([port.code, rust.code], [0; 2]);
}

/// Every `every`-th ray gets these lists.
pub fn changes(start: &Laid, every: usize, possible: &[Pair], certain: &[Pair]) -> Vec<RayChange> {
    let after = rust::ray(possible.to_vec(), certain.to_vec());
    let all = (0..3).flat_map(|a| start.rust.rays(a).iter().enumerate().map(move |(index, ray)| (a, index, ray)));
    let change = |(a, index, ray): (usize, usize, &oracle::dexel::Ray)| RayChange {
        axis: a as u8,
        index: index as u32,
        before: ray.clone(),
        after: after.clone(),
    };
    all.step_by(every).map(change).collect()
}

const SHARES: [(&str, usize); 3] = [("1 %", 100), ("10 %", 10), ("100 %", 1)];

/// Both lists of every `every`-th ray of the uncut store are cut in two.
fn cut_in_two(start: &Laid, every: usize) -> Vec<RayChange> {
    changes(start, every, &[[0., 60.], [80., 142.]], &[[0., 50.], [90., 142.]])
}

fn change_rows(table: &Table) {
    table.heading("change commit on 60,492 rays, per changed ray; the port's time holds its check of the whole store");
    let start = uncut(BOX, 1., 2 * RAYS);
    for (share, every) in SHARES {
        row(table, &format!("commit {share}, uncut"), &start, Given::Changes(&cut_in_two(&start, every)));
    }
    let start = cut();
    for (share, every) in SHARES {
        let possible = [[0., 20.], [30., 50.], [60., 100.], [110., 142.]];
        let changes = changes(&start, every, &possible, &[[1., 19.], [61., 99.], [111., 141.]]);
        row(table, &format!("commit {share}, cut"), &start, Given::Changes(&changes));
    }
}

fn volume_rows(table: &Table) {
    table.heading("volume of the 60,492 rays after a change commit on the uncut store; the port checks the whole store first");
    let start = uncut(BOX, 1., 2 * RAYS);
    for (share, every) in SHARES {
        let what = format!("{share} changed");
        if !table.takes(&format!("volume, {what}, per ray")) {
            continue;
        }
        let changes = cut_in_two(&start, every);
        let (mut port, mut rust) = sides(&start, Given::Changes(&changes));
        agree(&mut port, &mut rust);
        let cells = (port.lent.spans.read(), port.lent.links.read(), port.lent.heads.read());
        volume_row(table, &what, &start, &rust.stock, cells, port.tally.intervals);
    }
}

/// An uncut store with room for three more intervals for each entry, so that neither budget is within reach of the log.
pub fn roomy(max: [f64; 3], entries: usize) -> Laid {
    uncut(max, 1., 3 * entries)
}

fn log_rows(table: &Table) {
    table.heading(
        "log commit of a ball-cutter pass, 200 x 200 x 50 cells, and of ten, per entry (145,708 and 828,920);\n\
         budgets out of reach; the port's time holds its check of the whole store",
    );
    for (what, passes, entries) in [("log commit, one pass", 1, 145_708), ("log commit, ten passes", 10, 828_920)] {
        if !table.takes(what) {
            continue;
        }
        let log = sweep::passes(passes, 32);
        assert_eq!(log.len(), entries);
        row(table, what, &roomy(sweep::MAX, entries), Given::Log(&log, entries as u64));
    }
}

pub fn rows(table: &mut Table) {
    change_rows(table);
    volume_rows(table);
    log_rows(table);
}
