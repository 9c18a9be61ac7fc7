//! What the comparison, the benchmark and the tests of the oracle share.
pub mod against;
pub mod commits;
pub mod cutters;
pub mod generate;
pub mod grid;
pub mod lent;
pub mod log_runs;
pub mod runs;
pub mod sized_logs;
pub mod store;
pub mod wide;

pub type Pair = [f64; 2];

/// Equal as numbers: both zeros are one, all NaNs are one.
pub fn same(a: f64, b: f64) -> bool {
    a == b || (a.is_nan() && b.is_nan())
}

/// Document 01's "sound": lo < hi in each pair, each hi strictly below the next lo.
pub fn sound(a: &[Pair]) -> bool {
    a.iter().all(|s| s[0] < s[1]) && a.windows(2).all(|w| w[0][1] < w[1][0])
}

/// Document 01's point set of a list: some pair has lo <= p < hi.
pub fn holds(list: &[Pair], p: f64) -> bool {
    list.iter().any(|s| s[0] <= p && p < s[1])
}

pub fn flat(a: &[Pair]) -> Vec<f64> {
    a.as_flattened().to_vec()
}

/// The whole pairs of a flat list; an odd last double is left out.
pub fn pairs(a: &[f64]) -> Vec<Pair> {
    a.as_chunks().0.to_vec()
}

/// No two zeros of opposite sign are among these ends.
pub fn one_zero(ends: &[f64]) -> bool {
    let zeros: Vec<u64> = ends.iter().filter(|x| **x == 0.).map(|x| x.to_bits()).collect();
    zeros.windows(2).all(|z| z[0] == z[1])
}

/// Whether no choice of a zero is left where these pairs are normalised. Every end of the result is an end of a pair
/// with lo < hi: either these have no two zeros of opposite sign, or no end of the result is a zero.
pub fn settled(pairs: &[Pair]) -> bool {
    let kept: Vec<Pair> = pairs.iter().filter(|s| s[0] < s[1]).copied().collect();
    one_zero(kept.as_flattened()) || !oracle::dexel::opened::normalize(kept).as_flattened().contains(&0.)
}

/// The bits of a double, as 16 hex digits.
pub fn hex(x: f64) -> String {
    format!("{:016x}", x.to_bits())
}
