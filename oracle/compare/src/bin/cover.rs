//! `cover [COUNT]`: looks for a disc at an end of a chord that the outer pair does not cover (request W-234), with the port's own
//! `stadium_strip`. M bounds the centre's coordinates, the band's edges, e, guard and the radius; e and guard are at least M * 2^-49.
//! Whether a pair covers is decided in whole numbers; the first that does not ends the search.
use compare::strips::{at, rust_stadium, tridexel_inner_stadium_strip};
use harness::{generate::Gen, hex, same};
use std::ops::Sub;

/// M is 1e-6 at least, and guard 1 at most.
const LEAST: f64 = 1e-6f64.next_up();
const MOST: f64 = (1u64 << 49) as f64;

const LIMBS: usize = 36;

/// A whole number in two's complement.
#[derive(Clone, Copy)]
struct Wide([u64; LIMBS]);

impl Sub for Wide {
    type Output = Self;

    fn sub(mut self, other: Self) -> Self {
        let mut borrow = false;
        for (x, y) in self.0.iter_mut().zip(other.0) {
            (*x, borrow) = x.borrowing_sub(y, borrow);
        }
        self
    }
}

impl Wide {
    const ZERO: Self = Self([0; LIMBS]);

    /// A double of size 2^52 at most, in parts of 2^-1074.
    fn of(x: f64) -> Self {
        let exponent = (x.to_bits() >> 52) as usize & 0x7ff;
        let digits = x.to_bits() & ((1 << 52) - 1) | (exponent.min(1) as u64) << 52;
        let shift = exponent.max(1) - 1;
        let spread = (digits as u128) << (shift % 64);
        let mut w = Self::ZERO;
        (w.0[shift / 64], w.0[shift / 64 + 1]) = (spread as u64, (spread >> 64) as u64);
        if x < 0. { Self::ZERO - w } else { w }
    }

    fn negative(self) -> bool {
        self.0[LIMBS - 1] >> 63 == 1
    }

    /// Of a difference of two doubles of size 2^52 at most, in parts of 2^-2148.
    fn square(self) -> Self {
        let (x, mut out) = (if self.negative() { Self::ZERO - self } else { self }.0, Self::ZERO);
        for i in (0..LIMBS / 2).filter(|i| x[*i] != 0) {
            let mut carry = 0;
            for j in 0..LIMBS / 2 {
                (out.0[i + j], carry) = x[i].carrying_mul_add(x[j], out.0[i + j], carry);
            }
            out.0[i + LIMBS / 2] = carry;
        }
        out
    }

    /// A difference of squares that is not negative, as a double that is a few last places off at most where it is normal.
    fn double(self) -> f64 {
        (0..).zip(self.0).filter(|(_, x)| *x != 0).map(|(i, x)| x as f64 * 2f64.powi(64 * i - 2148)).sum()
    }
}

#[derive(Clone, Copy)]
struct Case {
    m: f64,
    e: f64,
    guard: f64,
    radius: f64,
    band: [f64; 2],
    ends: [[f64; 2]; 2],
    length: f64,
    /// the end that is the centre
    centre: usize,
}

/// A power of two, a number next to it, most often above, where the places of doubles are widest beside M, or any.
fn bound(g: &mut Gen) -> f64 {
    let power = 2f64.powi(g.below(69) as i32 - 19);
    let m = match g.below(8) {
        0 => power,
        1 => power.next_down(),
        2 | 3 => power * (1. + g.below(64) as f64 * f64::EPSILON),
        4 | 5 => power * (1. + g.unit() / 64.),
        6 => LEAST,
        _ => g.scale(LEAST, MOST),
    };
    m.clamp(LEAST, MOST)
}

/// A number of size m at most, often of that size or nearly, or a zero of either sign.
fn coordinate(g: &mut Gen, m: f64) -> f64 {
    let x = match g.below(10) {
        0 => m,
        1 | 2 => m * (1. - g.below(64) as f64 * f64::EPSILON / 2.),
        3 | 4 => m * (1. - g.unit() / 64.),
        5 => m * (g.below(17) as f64 / 16.),
        6 => g.scale(m * 1e-30, m),
        7 => f64::from_bits(g.below(m.to_bits())),
        _ => m * g.unit(),
    };
    if g.once_in(2) { -x } else { x }
}

/// A height where the circle around y is touched, at the centre, between these or anywhere; often the double next to that.
fn edge(g: &mut Gen, y: f64, r: f64, m: f64) -> f64 {
    let side = if g.once_in(2) { r } else { -r };
    let side = if (y + side).abs() > m { -side } else { side };
    let z = match g.below(8) {
        0..=2 => y + side,
        3 => y,
        4 => y + side * g.unit(),
        5 => y + side * g.scale(1e-20, 1.),
        6 => y + side * (1. - g.scale(1e-17, 1.)),
        _ => coordinate(g, m),
    };
    g.pick(&[z, z, z.next_up(), z.next_down()]).clamp(-m, m)
}

/// A band with such an edge, often of no width, now and then reversed.
fn band(g: &mut Gen, y: f64, r: f64, m: f64) -> [f64; 2] {
    let z = edge(g, y, r, m);
    let w = match g.below(4) {
        0 => z,
        1 => coordinate(g, m),
        _ => edge(g, y, r, m),
    };
    if (z < w) != g.once_in(16) { [z, w] } else { [w, z] }
}

/// A case with e and guard of m * 2^-parts; where `larger`, now and then more.
fn case(g: &mut Gen, parts: i32, larger: bool) -> Case {
    let m = bound(g);
    let least = m * 2f64.powi(-parts);
    let larger = larger && g.once_in(4);
    let mut margin = |most: f64| match g.below(4) {
        0 if larger => least.next_up().min(most),
        1 if larger => (least * (1. + g.unit())).min(most),
        2 if larger => g.scale(least, most),
        _ => least,
    };
    let (e, guard) = (margin(m), margin(m.min(1.)));
    let middle = [coordinate(g, m), coordinate(g, m)];
    let radius = coordinate(g, m).abs();
    let plunge = g.once_in(3);
    let other = middle.map(|x| match g.below(8) {
        0 => g.double(),
        1 | 2 => x,
        _ if plunge => x,
        _ => coordinate(g, m),
    });
    let length = match g.below(8) {
        0 => g.double(),
        1 => coordinate(g, m).abs(),
        _ => (other[0] - middle[0]).hypot(other[1] - middle[1]),
    };
    let centre = g.below(2) as usize;
    let ends = if centre == 0 { [middle, other] } else { [other, middle] };
    Case { m, e, guard, radius, band: band(g, middle[1], radius, m), ends, length, centre }
}

impl Case {
    fn print(&self) {
        let [[ax, ay], [bx, by]] = self.ends;
        let [y0, y1] = self.band;
        let names = ["M", "e", "guard", "radius", "y0", "y1", "a.x", "a.y", "b.x", "b.y", "length"];
        let numbers = [self.m, self.e, self.guard, self.radius, y0, y1, ax, ay, bx, by, self.length];
        println!("    the centre is {}", ["a", "b"][self.centre]);
        for (name, x) in names.into_iter().zip(numbers) {
            println!("    {name:6} {} {x:e}", hex(x));
        }
    }

    /// What the theorem asks of its numbers, but for the least e and guard.
    fn bounded(&self) -> bool {
        let [x, y] = self.ends[self.centre];
        let sizes = [x, y, self.band[0], self.band[1], self.e, self.guard, self.radius];
        self.m >= LEAST && self.radius >= 0. && self.guard <= 1. && sizes.iter().all(|x| x.abs() <= self.m)
    }

    /// The outer pair; its strip is the port's, and the Rust's.
    fn outer(&self) -> Option<[f64; 2]> {
        let [[ax, ay], [bx, by]] = self.ends;
        let x = [ax, ay, bx, by, self.length, self.radius + self.e, self.band[0], self.band[1]];
        let s = tridexel_inner_stadium_strip(at(&x, 0), at(&x, 2), x[4], x[5], x[6], x[7]);
        let (hit, [lo, hi]) = rust_stadium(&x);
        assert!(hit == s.hit && same(lo, s.lo) && same(hi, s.hi), "not the Rust's strip: {}", x.map(hex).join(" "));
        (s.hit == 1).then_some([s.lo - self.guard, s.hi + self.guard])
    }

    /// How far the ends of the outer pair lie outward of the disc's within the band, the nearer of the two; minus infinity where
    /// the pair does not cover, None where the disc has no point within the band.
    fn slack(&self) -> Option<f64> {
        let ([x, y], [y0, y1]) = (self.ends[self.centre], self.band);
        let outer = self.outer();
        let [from, to] = if y < y0 { [y, y0] } else { [y.min(y1), y] };
        let half = Wide::of(self.radius).square() - (Wide::of(to) - Wide::of(from)).square();
        if y0 > y1 || half.negative() {
            return None;
        }
        let Some([lo, hi]) = outer else { return Some(f64::NEG_INFINITY) };
        let beyond = |from: f64, to: f64| {
            if from <= to {
                let over = (Wide::of(to) - Wide::of(from)).square() - half;
                if !over.negative() {
                    return over.double() / (to - from + half.double().sqrt()).max(f64::MIN_POSITIVE);
                }
            }
            f64::NEG_INFINITY
        };
        // nothing that is compared reaches so far
        let far = 8. * MOST;
        Some(beyond(lo.clamp(-far, far), x).min(beyond(x, hi.clamp(-far, far))))
    }
}

fn main() {
    let count: u64 = std::env::args().nth(1).map_or(1_000_000, |n| n.parse().expect("COUNT is a number"));
    println!("cover: whether the outer pair holds the exact disc at an end of its chord, e and guard at least M * 2^-49");
    let (mut meeting, mut least) = (0u64, None);
    for number in 0..count {
        let c = case(&mut Gen::new(1, "cover", number), 49, true);
        assert!(c.bounded() && c.e.min(c.guard) >= c.m / MOST);
        let Some(slack) = c.slack() else { continue };
        meeting += 1;
        if slack < 0. {
            println!("  not covered, case {number}:");
            c.print();
            std::process::exit(1);
        }
        let parts = slack / c.m * 2f64.powi(52);
        if c.e == c.guard && c.e == c.m / MOST && least.is_none_or(|(p, _)| parts < p) {
            least = Some((parts, c));
        }
    }
    println!("  {count} cases, the band meets the disc in {meeting}, 0 of these not covered");
    if let Some((parts, c)) = least {
        println!("  the smallest slack where e and guard are M * 2^-49 is {parts:.3} of M * 2^-52:");
        c.print();
    }
    // with less than the theorem asks for, to show that the search finds what is not covered
    for parts in [52, 53, 56] {
        let slacks = (0..count).filter_map(|n| case(&mut Gen::new(1, "cover", n), parts, false).slack());
        let (met, not) = slacks.fold((0u64, 0u64), |(met, not), s| (met + 1, not + (s < 0.) as u64));
        println!("  with e and guard of M * 2^-{parts}: {not} of {met} not covered");
        assert!(not > 0 || parts < 53 || count < 1000, "a margin that is too small was not found out");
    }
}
