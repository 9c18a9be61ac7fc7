//! The square root against the machine's.
use crate::timing::Table;
use compare::doubles::tridexel_inner_sqrt as port;
use harness::generate::Gen;
use std::hint::black_box;

/// So many that the branch prediction of the machine tried does not remember all from one pass to the next.
const N: usize = 100_000;

fn sum(xs: &[f64], root: impl Fn(f64) -> f64) -> f64 {
    black_box(xs).iter().map(|x| root(*x)).sum()
}

fn chain(root: impl Fn(f64) -> f64) -> f64 {
    (0..N).fold(black_box(2.), |x, _| root(x) + 1.5)
}

/// Keeps the compiler from taking several roots at once: each is one instruction of its own, as for the port.
fn machine(x: f64) -> f64 {
    black_box(x).sqrt()
}

pub fn rows(table: &mut Table) {
    let mut g = Gen::new(1, "sqrt", 0);
    let normal: Vec<f64> = (0..N).map(|_| g.scale(1e-6, 1e6)).collect();
    let subnormal: Vec<f64> = (0..N).map(|_| f64::from_bits(g.u64() >> (12 + g.below(40)))).collect();
    table.heading("sqrt, per root, against the machine's instruction");
    for (what, xs) in [("sqrt, independent", &normal), ("sqrt, independent, subnormal", &subnormal)] {
        assert_eq!(sum(xs, |x| port(x)), sum(xs, machine));
        table.row(what, N, || sum(xs, |x| port(x)), || sum(xs, machine));
    }
    assert_eq!(chain(|x| port(x)), chain(f64::sqrt));
    table.row("sqrt, chained", N, || chain(|x| port(x)), || chain(f64::sqrt));
}
