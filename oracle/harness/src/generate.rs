//! Deterministic inputs: splitmix64, seeded by a seed, a name and a case number, so that a case can be run again alone.
use crate::{Pair, flat, sound};
use oracle::dexel::opened as rust;

pub struct Gen {
    state: u64,
    /// the most pairs a list gets
    pub size: usize,
}

/// Bit patterns at which functions of doubles change their course.
pub const EDGES: [u64; 26] = [
    0x7ff8000000000000, // NaN
    0xfff8000000000001, // NaN, negative, with payload
    0x7ff0000000000001, // signalling NaN
    0x7ff0000000000000, // +inf
    0xfff0000000000000, // -inf
    0x0000000000000000, // +0
    0x8000000000000000, // -0
    0x0000000000000001, // least subnormal
    0x8000000000000001,
    0x000fffffffffffff, // greatest subnormal
    0x0010000000000000, // least normal
    0x8010000000000000,
    0x7fefffffffffffff, // greatest
    0xffefffffffffffff,
    0x3ff0000000000000, // 1
    0xbff0000000000000,
    0x3ff0000000000001, // the double after 1
    0x3fefffffffffffff, // the double before 1
    0x4000000000000000, // 2
    0x4008000000000000, // 3
    0x4330000000000000, // 2^52
    0x4340000000000000, // 2^53
    0x3fb999999999999a, // 0.1
    0x3fd3333333333333, // 0.3
    0x412e848000000000, // 1e6
    0x3eb0c6f7a0b5ed8d, // 1e-6
];

impl Gen {
    pub fn new(seed: u64, name: &str, case: u64) -> Self {
        let mut g = Self { state: seed, size: 8 };
        for word in name.bytes().map(u64::from).chain([case]) {
            g.state = g.u64() ^ word;
        }
        g
    }

    pub fn u64(&mut self) -> u64 {
        self.state = self.state.wrapping_add(0x9e3779b97f4a7c15);
        let mut z = self.state;
        z = (z ^ (z >> 30)).wrapping_mul(0xbf58476d1ce4e5b9);
        z = (z ^ (z >> 27)).wrapping_mul(0x94d049bb133111eb);
        z ^ (z >> 31)
    }

    pub fn below(&mut self, n: u64) -> u64 {
        ((self.u64() as u128 * n as u128) >> 64) as u64
    }

    pub fn count(&mut self) -> usize {
        self.below(self.size as u64 + 1) as usize
    }

    /// true once in n
    pub fn once_in(&mut self, n: u64) -> bool {
        self.below(n) == 0
    }

    pub fn pick<T: Clone>(&mut self, from: &[T]) -> T {
        from[self.below(from.len() as u64) as usize].clone()
    }

    /// in [0, 1)
    pub fn unit(&mut self) -> f64 {
        (self.u64() >> 11) as f64 / (1u64 << 53) as f64
    }

    pub fn within(&mut self, lo: f64, hi: f64) -> f64 {
        lo + self.unit() * (hi - lo)
    }

    /// log-uniform between two positive numbers
    pub fn scale(&mut self, lo: f64, hi: f64) -> f64 {
        (self.within(lo.ln(), hi.ln())).exp().clamp(lo, hi)
    }

    /// Any double: edge values, small whole numbers (they collide), their neighbours, random bits.
    pub fn double(&mut self) -> f64 {
        match self.below(8) {
            0 => f64::from_bits(self.pick(&EDGES)),
            1..=4 => self.below(25) as f64 - 12.,
            5 => {
                let x = self.below(25) as f64 - 12.;
                if self.once_in(2) { x.next_up() } else { x.next_down() }
            }
            6 => self.within(-10., 10.),
            _ => f64::from_bits(self.u64()),
        }
    }

    /// A point: any double but NaN.
    pub fn point(&mut self) -> f64 {
        loop {
            let x = self.double();
            if !x.is_nan() {
                return x;
            }
        }
    }

    pub fn finite(&mut self) -> f64 {
        loop {
            let x = self.double();
            if x.is_finite() {
                return x;
            }
        }
    }

    /// Gives each zero either sign.
    pub fn sign_zeros(&mut self, cells: &mut [f64]) {
        for x in cells.iter_mut().filter(|x| **x == 0.) {
            *x = self.pick(&[0., -0.]);
        }
    }

    /// Arbitrary pairs, many touching or overlapping, some empty, reversed or with a NaN.
    pub fn list(&mut self) -> Vec<Pair> {
        let n = self.count();
        let mut out: Vec<Pair> = vec![];
        for _ in 0..n {
            let lo = match out.last() {
                Some(last) if self.once_in(3) => last[1],
                _ => self.double(),
            };
            let hi = match self.below(6) {
                0 => lo,
                1 => self.double(),
                2 => lo.next_up(),
                _ => lo + self.below(4) as f64,
            };
            out.push([lo, hi]);
        }
        out
    }

    /// A sound list of at most `size` pairs within [lo, hi], whose ends are often equal to other lists' ends.
    pub fn sound_within(&mut self, lo: f64, hi: f64) -> Vec<Pair> {
        let n = self.count();
        let mut ends: Vec<f64> = vec![];
        for _ in 0..2 * n {
            let x = match self.below(4) {
                0 => self.pick(&[lo, hi]),
                _ => self.point(),
            };
            if lo <= x && x <= hi {
                ends.push(x);
            }
        }
        paired(ends)
    }

    pub fn sound(&mut self) -> Vec<Pair> {
        self.sound_within(f64::NEG_INFINITY, f64::INFINITY)
    }

    /// A sound list whose ends are often those of `other`.
    pub fn sound_near(&mut self, other: &[Pair]) -> Vec<Pair> {
        let mut ends = flat(&self.sound());
        for x in other.as_flattened() {
            match self.below(4) {
                0 | 1 => ends.push(*x),
                2 => ends.push(if self.once_in(2) { x.next_up() } else { x.next_down() }),
                _ => {}
            }
        }
        ends.sort_by(f64::total_cmp);
        ends.dedup_by(|a, b| a == b);
        if self.once_in(2) && !ends.is_empty() {
            ends.remove(0);
        }
        ends.truncate(16);
        ends.chunks_exact(2).map(|c| [c[0], c[1]]).collect()
    }

    /// A list with one fault: touching, equal ends, reversed, NaN, out of order.
    pub fn unsound(&mut self) -> Vec<Pair> {
        loop {
            let mut l = self.sound();
            let n = l.len() as u64;
            if n == 0 {
                l.push([1., 1.]);
            } else {
                let i = self.below(n) as usize;
                match self.below(5) {
                    0 => l[i] = [l[i][1], l[i][0]],
                    1 => l[i][self.below(2) as usize] = f64::NAN,
                    2 => l[i][1] = l[i][0],
                    3 if i > 0 => l[i - 1][1] = l[i][0],
                    _ => l.reverse(),
                }
            }
            if !sound(&l) {
                return l;
            }
        }
    }

    /// A ray valid within its bounds: possible, and certain within it.
    pub fn ray(&mut self, lo: f64, hi: f64) -> (Vec<Pair>, Vec<Pair>) {
        let p = self.sound_within(lo, hi);
        let p: Vec<Pair> = p.into_iter().filter(|s| s[0].is_finite() && s[1].is_finite()).collect();
        let c = self.sound_near(&p);
        let c = rust::intersect(&p, &c);
        (p, c)
    }
}

/// The sound list of these ends, in their order; where they are odd in number the last is left out.
pub fn paired(mut ends: Vec<f64>) -> Vec<Pair> {
    ends.sort_by(f64::total_cmp);
    ends.dedup_by(|a, b| a == b);
    ends.as_chunks().0.to_vec()
}

/// Every sound list over these points (ascending as numbers).
pub fn all_sound(points: &[f64]) -> Vec<Vec<Pair>> {
    (0..1u32 << points.len())
        .filter(|m| m.count_ones() % 2 == 0)
        .map(|m| {
            let ends: Vec<f64> = (0..points.len()).filter(|i| m >> i & 1 == 1).map(|i| points[i]).collect();
            ends.chunks(2).map(|c| [c[0], c[1]]).collect()
        })
        .collect()
}

/// Every list of exactly n pairs with ends among these doubles, sound or not.
pub fn all_lists(doubles: &[f64], n: usize, mut each: impl FnMut(&[Pair])) {
    let k = doubles.len() as u64;
    for mut code in 0..k.pow(2 * n as u32) {
        let mut digit = || {
            let d = doubles[(code % k) as usize];
            code /= k;
            d
        };
        let list: Vec<Pair> = (0..n).map(|_| [digit(), digit()]).collect();
        each(&list);
    }
}
