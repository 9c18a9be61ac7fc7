//! How the port's times grow with the pairs of a list, with the rays of a store and with the entries of a log.
use crate::{
    budgets::{self, on_one_ray, scattered},
    commits::{Given, agree, changes, needs, roomy, sides},
    laid::{Laid, laid, uncut},
    merge,
    spans::{ascending, shuffled},
    stock::{CELLS, RAYS},
    timing::{best, best_of},
};
use compare::{
    spans::{contains, intersect, normalize, subtract},
    stock::{fill, volume},
};
use harness::{Pair, flat};
use std::hint::black_box;

/// Seconds per point after which no further repetition starts.
const LIMIT: f64 = 0.4;
const PAIRS: [usize; 5] = [100, 1_000, 10_000, 100_000, 1_000_000];
const ENTRIES: [usize; 4] = [1_000, 10_000, 100_000, 1_000_000];
/// Cells along each axis: 972 rays, 10,092, 100,467 and 998,787.
const CUBES: [f64; 4] = [18., 58., 183., 577.];

fn heading(what: &str, of: &str) {
    println!("\n{what}\n{of:>12} {:>12} {:>12} {:>16}", "ms", "ns per one", "and per log2 n");
}

fn point(n: usize, seconds: f64) {
    let one = seconds * 1e9 / n as f64;
    println!("{n:>12} {:>12.4} {one:>12.2} {:>16.3}", seconds * 1e3, one / (n as f64).log2());
}

type TwoLists = fn(&[f64], &[f64], &mut [f64], &mut usize) -> u32;

fn two_lists(what: &str, port: TwoLists) {
    heading(what, "pairs");
    for n in PAIRS {
        let (a, b) = (flat(&ascending(n, 0.)), flat(&ascending(n, 0.5)));
        let (mut out, mut left) = (vec![0.; 4 * n], 0);
        point(n, best(LIMIT, || assert_eq!(port(black_box(&a), &b, &mut out, &mut left), 0)));
    }
}

fn by_pairs() {
    heading("normalize, shuffled", "pairs");
    for n in PAIRS {
        let list = flat(&shuffled(ascending(n, 0.)));
        let (mut out, mut left) = (vec![0.; 2 * n], 0);
        point(n, best(LIMIT, || assert_eq!(normalize(black_box(&list), &mut out, &mut left), 0)));
    }
    two_lists("subtract, n less n", subtract);
    two_lists("intersect, n with n", intersect);
    heading("contains, n of n", "pairs");
    for n in PAIRS {
        let outer = ascending(n, 0.);
        let inner: Vec<Pair> = outer.iter().map(|s| [s[0] + 0.25, s[1] - 0.25]).collect();
        let (outer, inner, mut yes) = (flat(&outer), flat(&inner), 0);
        point(n, best(LIMIT, || assert_eq!((contains(black_box(&outer), &inner, &mut yes), yes), (0, 1))));
    }
    heading("merge of one ray, n pairs and n hits of each kind", "pairs");
    for n in PAIRS {
        let ray = merge::of(n, n, false);
        let mut work = vec![0.; ray.work()];
        point(n, best(LIMIT, || merge::port(black_box(&ray), &mut work)));
    }
}

fn by_rays() {
    heading("fill", "rays");
    for c in CUBES {
        let s = uncut([c; 3], 1., 0);
        let (mut lent, mut generation, mut intervals) = (s.lend(), 0, 0);
        point(s.rays(), best(LIMIT, || assert_eq!(fill(s.spec, b"mm", &mut lent, &mut generation, &mut intervals), 0)));
    }
    heading("volume, uncut, as many records free as used", "rays");
    for c in CUBES {
        let s = uncut([c; 3], 1., 6 * (c * c) as usize);
        let mut ten = [0.; 10];
        point(s.rays(), best(LIMIT, || assert_eq!(volume(s.spec, b"mm", s.cells(), s.tally.intervals, &mut ten), 0)));
    }
    heading("change commit of every tenth ray, uncut, as many records free as used", "rays");
    for c in CUBES {
        let s = uncut([c; 3], 1., 6 * (c * c) as usize);
        let changes = changes(&s, 10, &[[0., 4.], [6., c]], &[[0., 3.], [7., c]]);
        commit_point(s.rays(), &s, Given::Changes(&changes));
    }
    heading("log commit of 10,000 entries, rays in no order, budgets out of reach", "rays");
    for c in CUBES {
        let log = scattered(10_000, c);
        let s = roomy([c; 3], log.len());
        commit_point(s.rays(), &s, Given::Log(&log, log.len() as u64));
    }
}

fn commit_point(n: usize, start: &Laid, given: Given) {
    let (mut port, mut rust) = sides(start, given);
    agree(&mut port, &mut rust);
    assert_eq!(port.code, 0);
    point(n, best_of(LIMIT, &mut port));
}

fn by_entries() {
    heading(&format!("log commit on {RAYS} rays in no order, budgets out of reach"), "entries");
    for n in ENTRIES {
        let log = scattered(n, CELLS);
        commit_point(n, &roomy([CELLS; 3], n), Given::Log(&log, n as u64));
    }
    heading(&format!("log commit on {RAYS} rays that ascend, both budgets reached exactly"), "entries");
    for n in ENTRIES {
        let mut log = scattered(n, CELLS);
        log.sort_by_key(|e| (e.axis, e.index));
        let (allowance, free) = needs(&log, |free| uncut([CELLS; 3], 1., free));
        commit_point(n, &uncut([CELLS; 3], 1., free), Given::Log(&log, allowance));
    }
    heading("log commit on one ray, hits in no order, budgets out of reach", "entries");
    for n in ENTRIES {
        let max = n as f64 / 2. + 1.;
        let start = laid([max; 3], max, |_, _| [vec![[0., max]], vec![[0., max]]], 3 * n);
        commit_point(n, &start, Given::Log(&on_one_ray(n), n as u64));
    }
}

pub fn print() {
    println!("\nGrowth of the port's times; best of up to 25 repetitions.");
    by_pairs();
    by_rays();
    by_entries();
    println!();
    budgets::print(&[1_000, 10_000], "");
}
