//! Why a place shows as it does. The Rust lacks it: in its place stand camlib's test of the ray and a plain loop over the same pairs and entries.
use crate::{spans::ascending, timing::Table};
use compare::{
    merge::Ray,
    trace::{Query, Traced, trace},
};
use harness::{flat, pairs};
use oracle::dexel::opened as rust;
use std::hint::black_box;

/// A ray of n pairs and h entries, and a place in the last pair and in no entry's, so that every pair and every entry is looked at.
fn of(n: usize, h: usize) -> Query {
    let list = flat(&ascending(n, 0.));
    let log = ascending(h, 1.25).iter().flat_map(|[lo, _]| [0., 0., *lo, lo + 0.5, lo + 0.125, lo + 0.25]).collect();
    let place = list[2 * n - 2] + 0.5;
    let ray = Ray { bounds: [0., 2. * n as f64], possible: list.clone(), certain: list, outer: vec![], inner: vec![] };
    Query { ray, log, place }
}

fn port(q: &Query) -> Traced {
    let mut traced = Traced { reason: 0, entry: 0 };
    assert_eq!(trace(black_box(q).lists(), q.ray.bounds, q.place, &mut traced), 0);
    traced
}

fn row(table: &Table, n: usize, h: usize) {
    let q = of(n, h);
    let ray = rust::ray(pairs(&q.ray.possible), pairs(&q.ray.certain));
    let [lo, hi] = q.ray.bounds;
    let plain = || rust::valid(black_box(&ray), lo, hi).then(|| black_box(&q).by_words());
    let due = Traced { reason: 5, entry: 0 };
    assert_eq!((port(&q), plain()), (due, Some(due)));
    table.row(&format!("trace {n} pairs, {h} entries"), 1, || port(&q), plain);
}

pub fn rows(table: &mut Table) {
    table.heading(
        "why a place shows as it does, per call; the Rust lacks it: in its place stand camlib's test of the ray and a plain loop",
    );
    for (n, h) in [(4, 4), (64, 64), (1000, 1000)] {
        row(table, n, h);
    }
}
