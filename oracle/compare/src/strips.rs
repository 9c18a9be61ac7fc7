//! Strips against camlib's. A stadium's plan length goes in as a number, so camlib's own is that of package `oracle_len`.
use crate::{
    explained::Explained,
    function::{Function, Outcome, Words},
};
use harness::{
    generate::Gen,
    same,
    wide::{LEAST, MOST},
};
use oracle::dexel::opened::sweep as rust;
use oracle_len::dexel::opened::sweep as rust_len;

#[derive(Clone, Copy)]
#[repr(C)]
pub struct PlanePoint {
    pub x: f64,
    pub y: f64,
}

#[derive(Clone, Copy)]
#[repr(C)]
pub struct StripNumbers {
    pub hit: u64,
    pub lo: f64,
    pub hi: f64,
}

unsafe extern "C" {
    pub safe fn tridexel_inner_disk_strip(c: PlanePoint, rho: f64, y0: f64, y1: f64) -> StripNumbers;
    pub safe fn tridexel_inner_polygon_strip(
        p: PlanePoint,
        q: PlanePoint,
        r: PlanePoint,
        s: PlanePoint,
        y0: f64,
        y1: f64,
    ) -> StripNumbers;
    pub safe fn tridexel_inner_stadium_strip(
        a: PlanePoint,
        b: PlanePoint,
        length: f64,
        rho: f64,
        y0: f64,
        y1: f64,
    ) -> StripNumbers;
}

/// An answer as a number for its case and its doubles, 0 where it has fewer than two.
pub type Answer = (u64, [f64; 2]);

impl Words for Answer {
    fn words(&self) -> String {
        format!("{} {}", self.0, self.1.words())
    }
}

/// The same case and equal doubles; zeros or NaNs of other bits are meant.
pub fn answers(rust: Answer, port: Answer) -> Outcome {
    let ends = || rust.1.into_iter().zip(port.1);
    let alike = rust.0 == port.0 && ends().all(|(a, b)| same(a, b));
    let meant = match ends().find(|(a, b)| a.to_bits() != b.to_bits()) {
        None if alike => return Outcome::Same,
        Some((a, _)) if alike && a.is_nan() => Some(Explained::OneNan),
        Some(_) if alike => Some(Explained::Zeros),
        _ => None,
    };
    Outcome::differs(meant, rust.words(), port.words())
}

fn answer(strip: Option<[f64; 2]>) -> Answer {
    strip.map_or((0, [0.; 2]), |s| (1, s))
}

fn numbers(s: StripNumbers) -> Answer {
    (s.hit, [s.lo, s.hi])
}

pub fn at(x: &[f64], i: usize) -> PlanePoint {
    PlanePoint { x: x[i], y: x[i + 1] }
}

/// Halves that collide, any number nearby, and now and then any double.
fn coordinate(g: &mut Gen) -> f64 {
    match g.below(12) {
        0 => g.double(),
        1..=6 => g.below(25) as f64 / 2. - 6.,
        _ => g.within(-6., 6.),
    }
}

fn radius(g: &mut Gen) -> f64 {
    match g.below(12) {
        0 => g.double(),
        1..=5 => g.below(11) as f64 / 2.,
        6 => 0.,
        _ => g.within(0., 6.),
    }
}

/// A band that is often narrow, of no width, or touches the circle around y.
fn band(g: &mut Gen, y: f64, rho: f64) -> [f64; 2] {
    let y0 = match g.below(8) {
        0 => y + rho,
        1 => y - rho,
        2 => y,
        _ => coordinate(g),
    };
    let y1 = match g.below(8) {
        0 => coordinate(g),
        1..=3 => y0,
        _ => y0 + g.below(9) as f64 / 4.,
    };
    [y0, y1]
}

/// c, rho, y0, y1
pub fn disk(g: &mut Gen) -> Vec<f64> {
    let (x, y, rho) = (coordinate(g), coordinate(g), radius(g));
    let [y0, y1] = band(g, y, rho);
    vec![x, y, rho, y0, y1]
}

pub fn rust_disk(x: &[f64]) -> Answer {
    answer(rust::disk_strip([x[0], x[1]], x[2], x[3], x[4]))
}

/// Four corners in any order, y0, y1
pub fn polygon(g: &mut Gen) -> Vec<f64> {
    let mut x: Vec<f64> = (0..8).map(|_| coordinate(g)).collect();
    let y = x[2 * g.below(4) as usize + 1];
    x.extend(band(g, y, 0.));
    x
}

pub fn rust_polygon(x: &[f64]) -> Answer {
    answer(rust::polygon_strip([[x[0], x[1]], [x[2], x[3]], [x[4], x[5]], [x[6], x[7]]], x[8], x[9]))
}

/// a, b, the plan length, rho, y0, y1
pub fn stadium(g: &mut Gen) -> Vec<f64> {
    let a = [coordinate(g), coordinate(g)];
    let mut b = [coordinate(g), coordinate(g)];
    for i in 0..2 {
        if g.once_in(4) {
            b[i] = a[i];
        }
    }
    let length = if g.once_in(8) { g.double() } else { (b[0] - a[0]).hypot(b[1] - a[1]) };
    let rho = radius(g);
    let y = if g.once_in(2) { a[1] } else { b[1] };
    let [y0, y1] = band(g, y, rho);
    vec![a[0], a[1], b[0], b[1], length, rho, y0, y1]
}

pub fn rust_stadium(x: &[f64]) -> Answer {
    answer(rust_len::stadium_strip_of(x[4], [x[0], x[1]], [x[2], x[3]], x[5], x[6], x[7]))
}

/// The same figure, or one of any size at any place. `layout` says of each number whether it is an x, a y or a length;
/// a power of two and the old place keep a figure that is touched exactly.
fn placed(layout: &'static str, make: impl Fn(&mut Gen) -> Vec<f64>) -> impl Fn(&mut Gen) -> Vec<f64> {
    move |g| {
        let figure = make(g);
        if g.once_in(2) {
            return figure;
        }
        let size = if g.once_in(2) { 2f64.powi(g.below(37) as i32 - 17) } else { g.scale(LEAST, MOST) };
        let place = [0; 2].map(|_| if g.once_in(2) { 0. } else { g.within(-MOST, MOST) });
        let number = |(kind, x): (u8, f64)| match kind {
            b'x' => x * size + place[0],
            b'y' => x * size + place[1],
            _ => x * size,
        };
        let mut moved: Vec<f64> = layout.bytes().zip(figure).map(number).collect();
        g.sign_zeros(&mut moved);
        moved
    }
}

/// Document 01's examples.
pub fn disk_edges() -> Vec<Vec<f64>> {
    vec![vec![0., 0., 5., 3., 7.], vec![0., 0., 5., 5., 6.], vec![0., 0., 5., 5.5, 6.], vec![0., 0., -1., 0., 0.]]
}

/// Corners that leave six points after one clip and eight after the second.
pub fn polygon_edges() -> Vec<Vec<f64>> {
    vec![vec![0., 1., 1., -1., 2., 1., 3., -1., 0., 0.5], vec![f64::NAN, 0., 1., f64::NAN, 2., 1., 3., -1., 0., 0.5]]
}

/// A negative radius gives a strip.
pub fn stadium_edges() -> Vec<Vec<f64>> {
    vec![vec![0., 0., 1., 0., 1., -1., 0., 0.], vec![0., 0., 0., 0., 0., 5., 3., 7.]]
}

pub fn functions() -> Vec<Function> {
    vec![
        Function::new("disk_strip", disk_edges(), placed("xylyy", disk), |x| {
            answers(rust_disk(x), numbers(tridexel_inner_disk_strip(at(x, 0), x[2], x[3], x[4])))
        }),
        Function::new("polygon_strip", polygon_edges(), placed("xyxyxyxyyy", polygon), |x| {
            let port = tridexel_inner_polygon_strip(at(x, 0), at(x, 2), at(x, 4), at(x, 6), x[8], x[9]);
            answers(rust_polygon(x), numbers(port))
        }),
        Function::new("stadium_strip", stadium_edges(), placed("xyxyllyy", stadium), |x| {
            let port = tridexel_inner_stadium_strip(at(x, 0), at(x, 2), x[4], x[5], x[6], x[7]);
            answers(rust_stadium(x), numbers(port))
        }),
    ]
}
