// Records answers of the machine's own arithmetic for the program `doubles_vectors`: the edges first, then seeded random arguments.
//
//     rustc -O -o target/record_doubles oracle/record/doubles.rs && target/record_doubles > crates/doubles_vectors/stdin
//
// A row: the function's number in two hexadecimal digits, three arguments and the answer in 16 digits each. The answers are those of
// Rust's f64 (max, min, clamp, floor, ceil, abs, sqrt, total_cmp, `as`, `<`, `<=`, `*` and `/` on x86-64), with two points settled as document 01 has them:
// where two zeros meet in larger or smaller the first argument is kept, and every NaN is the one 7ff8000000000000, above all else in the order.
use std::io::Write;

const SEED: u64 = 0x0123_4567_89ab_cdef;
const NAN: u64 = 0x7ff8_0000_0000_0000;

const LARGER: u64 = 0;
const SMALLER: u64 = 1;
const CLAMP: u64 = 2;
const FLOOR: u64 = 3;
const CEIL: u64 = 4;
const ABS: u64 = 5;
const SQRT: u64 = 6;
const ORDER_KEY: u64 = 7;
const TOTAL_CMP: u64 = 8;
const TO_U64: u64 = 9;
const BITS_OF: u64 = 10;
const OF_BITS: u64 = 11;
const LT: u64 = 12;
const LE: u64 = 13;
const MUL: u64 = 14;
const DIV: u64 = 15;

fn bits(x: f64) -> u64 {
    if x.is_nan() { NAN } else { x.to_bits() }
}

// The one NaN that the comparison is made with.
fn plain(x: f64) -> f64 {
    f64::from_bits(bits(x))
}

fn order_key(x: f64) -> u64 {
    if x.is_nan() {
        return u64::MAX;
    }
    let s = x.to_bits() as i64;
    let flipped = s ^ (((s >> 63) as u64) >> 1) as i64;
    (flipped as u64) ^ (1 << 63)
}

fn total(x: f64, y: f64) -> u64 {
    let top = |z: f64| if z.is_nan() { f64::from_bits(0x7fff_ffff_ffff_ffff) } else { z };
    1u64.wrapping_add(top(x).total_cmp(&top(y)) as i64 as u64)
}

fn kept(first: f64, second: f64, rust: f64) -> f64 {
    if first == second { first } else { rust }
}

fn clamp(x: f64, lo: f64, hi: f64) -> f64 {
    if lo <= hi {
        x.clamp(lo, hi)
    } else if x < lo {
        lo
    } else if x > hi {
        hi
    } else {
        x
    }
}

fn answer(op: u64, a: u64, b: u64, c: u64) -> u64 {
    let (x, y, z) = (plain(f64::from_bits(a)), plain(f64::from_bits(b)), plain(f64::from_bits(c)));
    match op {
        LARGER => bits(kept(x, y, x.max(y))),
        SMALLER => bits(kept(x, y, x.min(y))),
        CLAMP => bits(clamp(x, y, z)),
        FLOOR => bits(x.floor()),
        CEIL => bits(x.ceil()),
        ABS => bits(x.abs()),
        SQRT => bits(x.sqrt()),
        ORDER_KEY => order_key(x),
        TOTAL_CMP => total(x, y),
        TO_U64 => x as u64,
        BITS_OF => bits(a as f64),
        OF_BITS => (x == b as f64) as u64,
        LT => (x < y) as u64,
        LE => (x <= y) as u64,
        MUL => bits(x * y),
        _ => bits(x / y),
    }
}

struct Recorder<W: Write> {
    out: W,
    state: u64,
}

impl<W: Write> Recorder<W> {
    fn row(&mut self, op: u64, a: u64, b: u64, c: u64) {
        writeln!(self.out, "{:02x} {:016x} {:016x} {:016x} {:016x}", op, a, b, c, answer(op, a, b, c)).unwrap();
    }

    // splitmix64
    fn next(&mut self) -> u64 {
        self.state = self.state.wrapping_add(0x9e37_79b9_7f4a_7c15);
        let mut z = self.state;
        z = (z ^ (z >> 30)).wrapping_mul(0xbf58_476d_1ce4_e5b9);
        z = (z ^ (z >> 27)).wrapping_mul(0x94d0_49bb_1331_11eb);
        z ^ (z >> 31)
    }

    // Any pattern, a number of moderate size, or one near a whole number.
    fn any(&mut self) -> u64 {
        let r = self.next();
        match self.next() % 4 {
            0 => r,
            1 => (((r >> 11) as f64 / (1u64 << 53) as f64 - 0.5) * 2000.0).to_bits(),
            2 => {
                let whole = ((r % 4001) as f64 - 2000.0).to_bits();
                whole.wrapping_add(self.next() % 3).wrapping_sub(1)
            }
            _ => (1023 + self.next() % 70) << 52 | r >> 12 | r << 63,
        }
    }

    fn one(&mut self, a: u64) {
        for op in [FLOOR, CEIL, ABS, SQRT, ORDER_KEY, TO_U64] {
            self.row(op, a, 0, 0);
        }
    }

    fn two(&mut self, a: u64, b: u64) {
        for op in [LARGER, SMALLER, TOTAL_CMP] {
            self.row(op, a, b, 0);
        }
    }

    fn order_and_arithmetic(&mut self, a: u64, b: u64) {
        for op in [LT, LE, MUL, DIV] {
            self.row(op, a, b, 0);
        }
    }
}

fn main() {
    let out = std::io::BufWriter::new(std::io::stdout().lock());
    let mut r = Recorder { out, state: SEED };

    // both zeros, subnormals, the smallest normal, 1, its neighbours, 2^52, 2^53, 2^63, 2^64 and theirs, the largest, the infinity, a NaN
    let mut edges: Vec<u64> = vec![0, 1, 2, 3, 0x000f_ffff_ffff_ffff, 0x0010_0000_0000_0000, 0x0010_0000_0000_0001];
    for x in [0.5, 1.0, 1.5, 2.5, 4503599627370495.5, 4503599627370496.0, 9007199254740992.0, 9223372036854775808.0, 18446744073709551616.0, 1e300] {
        let b = f64::to_bits(x);
        edges.extend([b - 1, b, b + 1]);
    }
    edges.extend([0x7fef_ffff_ffff_ffff, 0x7ff0_0000_0000_0000]);
    let signed: Vec<u64> = edges.iter().flat_map(|&b| [b, b | 1 << 63]).chain([NAN]).collect();
    for &a in &signed {
        r.one(a);
    }
    let few: Vec<u64> = [0.0, -0.0, 5e-324, -5e-324, 1.0, -1.0, 1.5, f64::MAX, f64::MIN, f64::INFINITY, f64::NEG_INFINITY, f64::NAN].iter().map(|&x| bits(x)).collect();
    for &a in &few {
        for &b in &few {
            r.two(a, b);
            r.row(CLAMP, a, b, 1.0f64.to_bits());
        }
    }
    // patterns of NaNs other than the one
    for b in [0x7ff0_0000_0000_0001, 0xfff0_0000_0000_0001, 0xfff8_0000_0000_0000, 0x7fff_ffff_ffff_ffff, u64::MAX] {
        r.one(b);
        r.row(OF_BITS, b, 0, 0);
    }
    // every power of two
    for e in 0..2098u64 {
        let b = if e < 52 { 1 << e } else { (e - 51) << 52 };
        r.row(SQRT, b, 0, 0);
    }
    for e in 0..64 {
        for n in [(1u64 << e) - 1, 1 << e, (1 << e) + 1] {
            r.row(BITS_OF, n, 0, 0);
            r.row(OF_BITS, bits(n as f64), n, 0);
            r.row(OF_BITS, bits(n as f64) + 1, n, 0);
            r.one(bits(n as f64));
        }
    }
    r.row(BITS_OF, u64::MAX, 0, 0);
    // squares of whole numbers and of doubles, and their neighbours
    for k in 0..60 {
        let n = if k < 20 { k + 1 } else { r.next() % (1 << 26) + 1 };
        let square = ((n * n) as f64).to_bits();
        let x = f64::from_bits(0x3ff0_0000_0000_0000 | r.next() >> 12);
        let near = (x * x).to_bits();
        for b in [square - 1, square, square + 1, near - 1, near, near + 1] {
            r.row(SQRT, b, 0, 0);
            r.row(SQRT, b + (1 << 52), 0, 0);
        }
    }
    // subnormal arguments of every size
    for e in 0..52 {
        let b = 1 << e | r.next() % (1 << e);
        r.row(SQRT, b, 0, 0);
        r.one(b);
    }
    // random
    for _ in 0..250 {
        let (a, b, c) = (r.any(), r.any(), r.any());
        r.one(a);
        r.two(a, b);
        r.two(a, a ^ 1 << 63);
        r.row(CLAMP, a, b, c);
        r.row(CLAMP, a, bits(f64::from_bits(b).min(f64::from_bits(c))), bits(f64::from_bits(b).max(f64::from_bits(c))));
        let n = r.next() >> (r.next() % 64);
        r.row(BITS_OF, n, 0, 0);
        r.row(OF_BITS, bits(n as f64), n, 0);
    }
    // order, product and quotient: the edges, random arguments
    for &a in &few {
        for &b in &few {
            r.order_and_arithmetic(a, b);
        }
    }
    for _ in 0..250 {
        let (a, b) = (r.any(), r.any());
        r.order_and_arithmetic(a, b);
        r.order_and_arithmetic(a, a ^ 1 << 63);
    }
    // numbers of the worked grid, and fractions
    let epsilons = 128.0 * f64::EPSILON;
    for (x, y) in [(10.0, 3.0), (10.0, 4.0), (128.0, f64::EPSILON), (epsilons, 1e6)] {
        r.order_and_arithmetic(bits(x), bits(y));
    }
    for x in [10.0 / 3.0, 2.9, -2.9, 2.25] {
        r.one(bits(x));
    }
    for x in [5.0, -5.0] {
        r.row(CLAMP, bits(x), bits(1.0), bits(3.0));
    }
    r.out.flush().unwrap();
}
