//! The list functions against camlib's. The port writes into one lent buffer, as long as the call asks for, which is not cleared between
//! calls; the Rust allocates its result, and for `normalize`, which takes its list by value, a copy of it.
use crate::timing::Table;
use compare::spans::{contains, intersect, normalize, overlaps, subtract};
use harness::{Pair, flat, generate::Gen, pairs};
use oracle::dexel::opened as rust;
use std::hint::black_box;

const SIZES: [usize; 4] = [4, 64, 1_000, 100_000];

/// n pairs of length 1, ascending, 1 apart.
pub fn ascending(n: usize, at: f64) -> Vec<Pair> {
    (0..n).map(|i| [i as f64 * 2. + at, i as f64 * 2. + 1. + at]).collect()
}

pub fn shuffled<T>(mut v: Vec<T>) -> Vec<T> {
    let mut g = Gen::new(1, "shuffle", v.len() as u64);
    for i in (1..v.len()).rev() {
        v.swap(i, g.below(i as u64 + 1) as usize);
    }
    v
}

/// The number that an accepted call answers.
fn answer<N: Default>(call: impl FnOnce(&mut N) -> u32) -> N {
    let mut n = N::default();
    assert_eq!(call(&mut n), 0);
    n
}

fn normalize_row(table: &Table, what: &str, list: Vec<Pair>) {
    let ends = flat(&list);
    let mut out = vec![0.; ends.len()];
    let port = |out: &mut [f64]| answer(|n| normalize(black_box(&ends), out, n));
    let n = port(&mut out);
    assert_eq!(pairs(&out[..2 * n]), rust::normalize(list.clone()));
    let what = format!("normalize {} {what}", list.len());
    table.row(&what, 1, || port(&mut out), || rust::normalize(black_box(&list).clone()));
}

type Port = fn(&[f64], &[f64], &mut [f64], &mut usize) -> u32;
type Rust = fn(&[Pair], &[Pair]) -> Vec<Pair>;

fn two_list_row(table: &Table, what: &str, a: &[Pair], b: &[Pair], port: Port, rust: Rust) {
    let (fa, fb) = (flat(a), flat(b));
    let mut out = vec![0.; fa.len() + fb.len()];
    let port = |out: &mut [f64]| answer(|n| port(black_box(&fa), black_box(&fb), out, n));
    let n = port(&mut out);
    assert_eq!(pairs(&out[..2 * n]), rust(a, b));
    table.row(what, 1, || port(&mut out), || rust(black_box(a), black_box(b)));
}

type PortTold = fn(&[f64], &[f64], &mut u32) -> u32;
type RustTold = fn(&[Pair], &[Pair]) -> bool;

fn told_row(table: &Table, what: &str, a: &[Pair], b: &[Pair], port: PortTold, rust: RustTold) {
    let (fa, fb) = (flat(a), flat(b));
    let port = || answer(|yes| port(black_box(&fa), black_box(&fb), yes));
    assert_eq!(port() == 1, rust(a, b));
    table.row(what, 1, port, || rust(black_box(a), black_box(b)));
}

pub fn rows(table: &mut Table) {
    table.heading(
        "list functions, per call; the port's result buffer is as long as required and not cleared between calls;\n\
         the Rust allocates its result, and `normalize` a copy of its list too",
    );
    for n in SIZES {
        normalize_row(table, "ascending", ascending(n, 0.));
        normalize_row(table, "shuffled", shuffled(ascending(n, 0.)));
        let mut descending = ascending(n, 0.);
        descending.reverse();
        normalize_row(table, "descending", descending);
        let (a, b) = (ascending(n, 0.), ascending(n, 0.5));
        two_list_row(table, &format!("subtract {n} less {n}"), &a, &b, subtract, rust::subtract);
        two_list_row(table, &format!("intersect {n} with {n}"), &a, &b, intersect, rust::intersect);
        let inner: Vec<Pair> = a.iter().map(|s| [s[0] + 0.25, s[1] - 0.25]).collect();
        told_row(table, &format!("contains {n} of {n}, yes"), &a, &inner, contains, rust::contains);
        told_row(table, &format!("overlaps {n} with {n}, no"), &a, &ascending(n, 1.), overlaps, rust::overlaps);
    }
}
