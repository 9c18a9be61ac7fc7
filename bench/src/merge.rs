//! The merge of one ray against the body of camlib's merge loop, called by the names of its functions. The port's work buffer is as long as required;
//! the Rust allocates its lists.
use crate::{spans::ascending, timing::Table};
use compare::merge::{Parts, Ray, merge};
use harness::{Pair, flat, pairs};
use oracle::dexel::{self, opened as rust};
use std::hint::black_box;

fn merged(before: &dexel::Ray, outer: Vec<Pair>, inner: Vec<Pair>) -> Option<dexel::Ray> {
    let outer = rust::normalize(outer);
    let inner = rust::normalize(inner);
    let possible = rust::subtract(before.possible.as_slice(), &inner);
    let certain = rust::subtract(&rust::subtract(before.certain.as_slice(), &outer), &inner);
    let certain = rust::intersect(&certain, &possible);
    let same = possible == before.possible.as_slice() && certain == before.certain.as_slice();
    (!same).then(|| rust::ray(possible, certain))
}

/// A ray of n pairs with h hits of each kind.
pub fn of(n: usize, h: usize, miss: bool) -> Ray {
    let list = flat(&ascending(n, 0.));
    let at = if miss { 2. * n as f64 + 1. } else { 0. };
    Ray {
        bounds: [0., 4. * (n + h) as f64],
        possible: list.clone(),
        certain: list,
        outer: flat(&ascending(h, at + 0.25)),
        inner: flat(&ascending(h, at + 0.5)),
    }
}

pub fn port(ray: &Ray, work: &mut [f64]) -> Parts {
    let mut parts = Parts { moved: [0; 2], pairs: [0; 2] };
    assert_eq!(merge(black_box(ray).lists(), ray.bounds, work, &mut parts), 0);
    parts
}

/// Timed per ray or per hit.
fn row(table: &Table, what: &str, n: usize, h: usize, per: usize, miss: bool) {
    let ray = of(n, h, miss);
    let mut work = vec![0.; ray.work()];
    let before = rust::ray(pairs(&ray.possible), pairs(&ray.certain));
    let (outer, inner) = (pairs(&ray.outer), pairs(&ray.inner));
    let made = merged(&before, outer.clone(), inner.clone());
    let after = made.as_ref().unwrap_or(&before);
    let parts = port(&ray, &mut work);
    assert_eq!((parts.moved != [0; 2], parts.pairs), (made.is_some(), [after.possible.len(), after.certain.len()]));
    table.row(what, per, || port(&ray, &mut work), || merged(black_box(&before), outer.clone(), inner.clone()));
}

pub fn rows(table: &mut Table) {
    table.heading("merge of one ray; the port checks the ray too, the Rust does not");
    for (n, h) in [(1, 1), (4, 4), (64, 64), (1, 64)] {
        row(table, &format!("merge {n} pairs, {h} hits, per ray"), n, h, 1, false);
        row(table, &format!("merge {n} pairs, {h} hits, per hit"), n, h, 2 * h, false);
    }
    row(table, "merge 4 pairs, 4 hits that miss, per ray", 4, 4, 1, true);
}
