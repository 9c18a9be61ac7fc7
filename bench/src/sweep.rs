//! The sweep against camlib's `across`: an uncut blank of 200 x 200 x 50 cells, a ball cutter, chords across the whole blank.
//! The port checks the whole store first, which the Rust does not; its log is lent, where the Rust's hits go into a map for each chord and axis.
use crate::{commits, laid::uncut, timing::Table};
use compare::{
    cutter::{PreparedCutter, Tool, assembly},
    sweep::{Lending, port},
};
use oracle::dexel::{Axis, DexelStock, opened as rust};
use std::hint::black_box;

pub const MAX: [f64; 3] = [200., 200., 50.];
/// 20 below the top
const DEEP: f64 = 30.;
const GUARD: f64 = 1e-3;
const POS_Z: u64 = 4;
const BALL: u64 = 1;

fn ball() -> Tool {
    let c = PreparedCutter {
        diameter_mm: 10.,
        cutting_length_mm: 30.,
        overall_length_mm: 60.,
        neck_diameter_mm: 10.,
        shank_diameter_mm: 10.,
        radius: 5.,
        tip_height: 5.,
        slope: 0.,
        shoulder: 30.,
    };
    Tool { kind: BALL, own: [0.; 2], c, h: [0.; 2] }
}

/// Slanted lines from one side to the other at this height.
fn chords(n: usize, z: f64) -> Vec<rust::sweep::WorldChord> {
    let line = |i: usize| {
        let y = 10. + 180. * i as f64 / n as f64;
        rust::sweep::WorldChord { a: [5., y, z], b: [195., y + 7., z], e: 1e-4, length: None }
    };
    (0..n).map(line).collect()
}

/// The log of so many passes on the uncut blank, each 2 below the one before, the last 20 deep.
pub fn passes(passes: usize, lines: usize) -> Vec<rust::sweep::Entry> {
    let stock = DexelStock::new(rust::spec([0.; 3], MAX, 1., 60_000, 120_000)).unwrap();
    let tool = assembly(&ball());
    let mut log = vec![];
    for k in (0..passes).rev() {
        let lines = chords(lines, DEEP + 2. * k as f64);
        rust::sweep::sweep(&stock, &tool, Axis::PosZ, GUARD, &lines, u64::MAX, &mut log).unwrap();
    }
    log
}

fn flat(chords: &[rust::sweep::WorldChord]) -> Vec<f64> {
    let one = |c: &rust::sweep::WorldChord| {
        let length = (c.b[0] - c.a[0]).hypot(c.b[1] - c.a[1]);
        [c.a[0], c.a[1], c.a[2], c.b[0], c.b[1], c.b[2], c.e, length]
    };
    chords.iter().flat_map(one).collect()
}

pub fn rows(table: &mut Table) {
    table.heading("sweep, 200 x 200 x 50 cells, a ball cutter, per visited ray; the port's time holds its check of the whole store, for no chord too");
    let blank = uncut(MAX, 1., 0);
    let stock = &blank.rust;
    let tool = ball();
    let rust_tool = assembly(&tool);
    for n in [4, 32] {
        let lines = chords(n, DEEP);
        let ends = flat(&lines);
        let mut hits = vec![];
        let visits = rust::sweep::sweep(stock, &rust_tool, Axis::PosZ, GUARD, &lines, u64::MAX, &mut hits).unwrap();
        let mut log = vec![0.; 6 * hits.len()];
        let lending = Lending {
            spec: blank.spec,
            units: "mm",
            spans: &blank.spans,
            links: &blank.links,
            heads: &blank.heads,
            intervals: blank.tally.intervals,
            axis: POS_Z,
            tool: &tool,
            guard: GUARD,
            chords: &ends,
            budget: visits,
        };
        let swept = |log: &mut [f64]| {
            let (mut entries, mut total) = (0, 0);
            assert_eq!(port(black_box(&lending), log, &mut entries, &mut total), 0);
            assert_eq!((entries, total), (hits.len(), visits));
            entries
        };
        swept(&mut log);
        assert_eq!(log, commits::flat(&hits));
        table.row(
            &format!("sweep {n} chords, {visits} visits"),
            visits as usize,
            || swept(&mut log),
            || {
                let mut log = vec![];
                rust::sweep::sweep(stock, &rust_tool, Axis::PosZ, GUARD, black_box(&lines), u64::MAX, &mut log)
            },
        );
    }
}
