//! Functions of doubles against the machine's and the standard library's.
use crate::{
    explained::Explained,
    function::{Function, Outcome, Words},
};
use harness::generate::{EDGES, Gen};
use std::cmp::Ordering;

unsafe extern "C" {
    pub safe fn tridexel_inner_larger(a: f64, b: f64) -> f64;
    pub safe fn tridexel_inner_smaller(a: f64, b: f64) -> f64;
    pub safe fn tridexel_inner_clamp(x: f64, lo: f64, hi: f64) -> f64;
    pub safe fn tridexel_inner_floor(x: f64) -> f64;
    pub safe fn tridexel_inner_ceil(x: f64) -> f64;
    pub safe fn tridexel_inner_abs(x: f64) -> f64;
    pub safe fn tridexel_inner_sqrt(x: f64) -> f64;
    pub safe fn tridexel_inner_of_bits(bits: u64) -> f64;
    pub safe fn tridexel_inner_bits_of(x: f64) -> u64;
    pub safe fn tridexel_inner_to_u64(x: f64) -> u64;
    pub safe fn tridexel_inner_order_key(x: f64) -> u64;
    pub safe fn tridexel_inner_total_cmp(a: f64, b: f64) -> u32;
}

/// Equal in every bit, or a difference that `meant` explains.
fn judge<T: Words>(rust: T, port: T, meant: Option<Explained>) -> Outcome {
    let (rust, port) = (rust.words(), port.words());
    if rust == port { Outcome::Same } else { Outcome::differs(meant, rust, port) }
}

/// NaNs of other bits are meant.
fn doubles(rust: f64, port: f64) -> Outcome {
    judge(rust, port, (rust.is_nan() && port.is_nan()).then_some(Explained::OneNan))
}

/// As `doubles`; where both arguments are zeros, the port's answer is the first.
fn zeros_first(a: f64, b: f64, rust: f64, port: f64) -> Outcome {
    if a == 0. && b == 0. && port.to_bits() == a.to_bits() {
        return judge(rust, port, Some(Explained::Zeros));
    }
    doubles(rust, port)
}

/// Where an argument is a NaN, the port's answer is that of the one NaN.
fn one_nan(any_nan: bool, rust: u64, of_one_nan: u64, port: u64) -> Outcome {
    judge(rust, port, (any_nan && port == of_one_nan).then_some(Explained::OneNan))
}

/// The place of x in the `total_cmp` order, counted from 0: Rust's own key, a signed number, moved up by 2^63.
fn key(x: f64) -> u64 {
    let bits = x.to_bits() as i64;
    (bits ^ (((bits >> 63) as u64) >> 1) as i64) as u64 ^ (1 << 63)
}

fn number(o: Ordering) -> u64 {
    o as u64 + 1
}

fn edges() -> Vec<f64> {
    EDGES.iter().map(|b| f64::from_bits(*b)).collect()
}

fn edge_pairs() -> Vec<(f64, f64)> {
    edges().iter().flat_map(|a| edges().into_iter().map(|b| (*a, b))).collect()
}

fn pair(g: &mut Gen) -> (f64, f64) {
    let a = g.double();
    let b = match g.below(8) {
        0 => a,
        1 => -a,
        2 => a.next_up(),
        _ => g.double(),
    };
    (a, b)
}

/// A number and bounds that Rust's `clamp` takes: it panics where one is a NaN or they are reversed.
fn bounded(g: &mut Gen) -> (f64, f64, f64) {
    let (a, b) = (g.point(), g.point());
    let x = match g.below(4) {
        0 => g.pick(&[a, b]),
        _ => g.double(),
    };
    if a <= b { (x, a, b) } else { (x, b, a) }
}

fn bounded_edges() -> Vec<(f64, f64, f64)> {
    let bounds = edge_pairs().into_iter().filter(|(lo, hi)| lo <= hi);
    bounds.flat_map(|(lo, hi)| edges().into_iter().map(move |x| (x, lo, hi))).collect()
}

/// Near whole numbers, halves and the powers of two where doubles become whole or leave 64 bits.
fn whole(g: &mut Gen) -> f64 {
    let x = match g.below(4) {
        0 => g.below(1 << 20) as f64 / 2.,
        1 => (1u64 << g.below(64)) as f64 + g.below(3) as f64 - 1.,
        2 => 2f64.powi(g.below(70) as i32),
        _ => return g.double(),
    };
    let x = if g.once_in(2) { -x } else { x };
    g.pick(&[x, x, x.next_up(), x.next_down()])
}

/// Near squares, subnormals, and any bits.
fn radicand(g: &mut Gen) -> f64 {
    match g.below(6) {
        0 => f64::from_bits(g.u64() >> (12 + g.below(52))),
        1 => (g.below(1 << 26) as f64).powi(2),
        2 | 3 => {
            let root = f64::from_bits(0x3ff0_0000_0000_0000 | g.u64() >> 12);
            f64::from_bits((root * root).to_bits() + g.below(7) - 3 + (g.below(3) << 52))
        }
        4 => f64::from_bits(g.u64()),
        _ => g.double(),
    }
}

fn one(name: &'static str, make: fn(&mut Gen) -> f64, rust: fn(f64) -> f64, port: extern "C" fn(f64) -> f64) -> Function {
    Function::new(name, edges(), make, move |x| doubles(rust(*x), port(*x)))
}

pub fn functions() -> Vec<Function> {
    vec![
        Function::new("larger", edge_pairs(), pair, |(a, b)| zeros_first(*a, *b, a.max(*b), tridexel_inner_larger(*a, *b))),
        Function::new("smaller", edge_pairs(), pair, |(a, b)| zeros_first(*a, *b, a.min(*b), tridexel_inner_smaller(*a, *b))),
        Function::new("clamp", bounded_edges(), bounded, |(x, lo, hi)| {
            doubles(x.clamp(*lo, *hi), tridexel_inner_clamp(*x, *lo, *hi)) //
        }),
        one("floor", whole, f64::floor, tridexel_inner_floor),
        one("ceil", whole, f64::ceil, tridexel_inner_ceil),
        one("abs", Gen::double, f64::abs, tridexel_inner_abs),
        one("sqrt", radicand, f64::sqrt, tridexel_inner_sqrt),
        Function::new(
            "of_bits",
            EDGES.to_vec(),
            |g| g.double().to_bits(),
            |b| doubles(f64::from_bits(*b), tridexel_inner_of_bits(*b)),
        ),
        Function::new("bits_of", edges(), Gen::double, |x| {
            one_nan(x.is_nan(), x.to_bits(), 0x7ff8_0000_0000_0000, tridexel_inner_bits_of(*x))
        }),
        Function::new("to_u64", edges(), whole, |x| one_nan(false, *x as u64, 0, tridexel_inner_to_u64(*x))),
        Function::new("order_key", edges(), Gen::double, |x| {
            one_nan(x.is_nan(), key(*x), u64::MAX, tridexel_inner_order_key(*x)) //
        }),
        Function::new("total_cmp", edge_pairs(), pair, |(a, b)| {
            let of_one_nan = a.is_nan().cmp(&b.is_nan());
            let port = tridexel_inner_total_cmp(*a, *b) as u64;
            one_nan(a.is_nan() || b.is_nan(), number(a.total_cmp(b)), number(of_one_nan), port)
        }),
    ]
}
