//! Arbitrary words, and small changes of words. A double is its bits.
use harness::generate::{EDGES, Gen};

/// The limits of document 01.
const LIMITS: [f64; 9] = [0., 1e-6, 1e-5, 1., 1000., 1e6, -1e6, 2e6, -2e6];

/// A double: any bits, a place where functions of doubles change their course, at or beside a limit, or small.
pub fn double(g: &mut Gen) -> u64 {
    match g.below(8) {
        0 | 1 => g.u64(),
        2 | 3 => g.pick(&EDGES),
        4 => {
            let x = g.pick(&LIMITS);
            g.pick(&[x, x.next_up(), x.next_down()]).to_bits()
        }
        5 => g.within(-10., 10.).to_bits(),
        _ => (g.below(25) as f64 - 12.).to_bits(),
    }
}

/// A count: any, small, at or beside a power of two, or near the largest.
pub fn count(g: &mut Gen) -> u64 {
    match g.below(8) {
        0 => g.u64(),
        1 => u64::MAX - g.below(3),
        2 => (1 << g.below(64)) - 1 + g.below(3),
        3 => u32::MAX as u64 - 1 + g.below(3),
        4 => g.below(1000),
        _ => g.below(9),
    }
}

pub fn word(g: &mut Gen) -> u64 {
    if g.once_in(2) { double(g) } else { count(g) }
}

/// A length: mostly short, now and then of some hundreds or thousands.
pub fn length(g: &mut Gen) -> usize {
    match g.below(64) {
        0 => g.below(4096) as usize,
        1..=4 => g.below(256) as usize,
        5..=20 => g.below(40) as usize,
        _ => g.below(9) as usize,
    }
}

/// A buffer of such words, or of nothing but random bytes.
pub fn buffer(g: &mut Gen, word: fn(&mut Gen) -> u64) -> Vec<u64> {
    let raw = g.once_in(4);
    (0..length(g)).map(|_| if raw { g.u64() } else { word(g) }).collect()
}

pub fn bytes(g: &mut Gen) -> Vec<u8> {
    match g.below(4) {
        0 => (0..g.below(5)).map(|_| g.u64() as u8).collect(),
        1 => g.pick(&["", "m", "mmm", "nm", "mn", "MM", "mm\0"]).into(),
        _ => b"mm".into(),
    }
}

/// Another word in the place of this one.
pub fn changed(g: &mut Gen, w: u64) -> u64 {
    match g.below(8) {
        0 => w ^ (1 << g.below(64)),
        1 => w ^ ((g.u64() & 0xff) << (8 * g.below(8))),
        2 => w.wrapping_add(1),
        3 => w.wrapping_sub(1),
        4 => w ^ (1 << 63),
        5 => count(g),
        _ => double(g),
    }
}

/// One cell or the length is another.
pub fn mutate(g: &mut Gen, cells: &mut Vec<u64>) {
    let n = cells.len() as u64;
    match g.below(12) {
        0 => cells.truncate(n.saturating_sub(1 + g.below(3)) as usize),
        1 => cells.truncate(g.below(n + 1) as usize),
        2 => (0..1 + g.below(3)).for_each(|_| cells.push(word(g))),
        3 if n > 1 => cells.swap(g.below(n) as usize, g.below(n) as usize),
        4 if n > 1 => cells[g.below(n) as usize] = cells[g.below(n) as usize],
        _ if n > 0 => {
            let k = g.below(n) as usize;
            cells[k] = changed(g, cells[k]);
        }
        _ => cells.push(word(g)),
    }
}

pub fn doubles(words: &[u64]) -> Vec<f64> {
    words.iter().map(|w| f64::from_bits(*w)).collect()
}

pub fn bits(doubles: &[f64]) -> Vec<u64> {
    doubles.iter().map(|x| x.to_bits()).collect()
}
