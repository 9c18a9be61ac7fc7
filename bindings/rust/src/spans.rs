//! The list functions: a pair [lo, hi] holds each p with lo ≤ p < hi; a list is sound when lo < hi in each pair and each hi is below the next lo.
//!
//! ```
//! use tridexel::spans;
//!
//! assert_eq!(spans::normalize(&[[3., 4.], [1., 2.], [2., 3.]]), [[1., 4.]]);
//! assert_eq!(spans::subtract(&[[0., 2.], [3., 5.]], &[[1., 4.]])?, [[0., 1.], [4., 5.]]);
//! assert_eq!(spans::intersect(&[[0., 2.], [3., 5.]], &[[1., 4.]])?, [[1., 2.], [3., 4.]]);
//! assert!(!spans::contains(&[[0., 2.], [3., 5.]], &[[1., 4.]])?);
//! assert!(spans::overlaps(&[[0., 2.]], &[[1., 4.]])?);
//! # Ok::<(), tridexel::Refusal>(())
//! ```
use crate::{Pair, Refusal, accepted, raw};

/// The first pairs of a flat buffer.
fn pairs_of(mut out: Vec<f64>, pairs: usize) -> Vec<Pair> {
    out.truncate(2 * pairs);
    out.chunks_exact(2).map(|p| [p[0], p[1]]).collect()
}

/// The sound list of arbitrary pairs: those without lo < hi are dropped, touching ones joined.
pub fn normalize(list: &[Pair]) -> Vec<Pair> {
    let s = list.as_flattened();
    let mut out = vec![0.; s.len()];
    let mut pairs = 0;
    let number = unsafe { raw::tridexel_normalize(s.as_ptr(), s.len(), out.as_mut_ptr(), out.len(), &mut pairs) };
    accepted(number).expect("whole pairs and room for all of them");
    pairs_of(out, pairs)
}

type Combine = unsafe extern "C" fn(*const f64, usize, *const f64, usize, *mut f64, usize, *mut usize) -> u32;

fn combine(f: Combine, a: &[Pair], b: &[Pair]) -> Result<Vec<Pair>, Refusal> {
    let (a, b) = (a.as_flattened(), b.as_flattened());
    let mut out = vec![0.; a.len() + b.len()];
    let mut pairs = 0;
    accepted(unsafe { f(a.as_ptr(), a.len(), b.as_ptr(), b.len(), out.as_mut_ptr(), out.len(), &mut pairs) })?;
    Ok(pairs_of(out, pairs))
}

/// The sound list of the points of a that are not in b. 11: a list is not sound.
pub fn subtract(a: &[Pair], b: &[Pair]) -> Result<Vec<Pair>, Refusal> {
    combine(raw::tridexel_subtract, a, b)
}

/// The sound list of the points in both. 11: a list is not sound.
pub fn intersect(a: &[Pair], b: &[Pair]) -> Result<Vec<Pair>, Refusal> {
    combine(raw::tridexel_intersect, a, b)
}

type Compare = unsafe extern "C" fn(*const f64, usize, *const f64, usize, *mut u32) -> u32;

fn compare(f: Compare, a: &[Pair], b: &[Pair]) -> Result<bool, Refusal> {
    let (a, b) = (a.as_flattened(), b.as_flattened());
    let mut yes = 0;
    accepted(unsafe { f(a.as_ptr(), a.len(), b.as_ptr(), b.len(), &mut yes) })?;
    Ok(yes == 1)
}

/// Whether each point of inner is in outer. 11: a list is not sound.
pub fn contains(outer: &[Pair], inner: &[Pair]) -> Result<bool, Refusal> {
    compare(raw::tridexel_contains, outer, inner)
}

/// Whether some point is in both. 11: a list is not sound.
pub fn overlaps(a: &[Pair], b: &[Pair]) -> Result<bool, Refusal> {
    compare(raw::tridexel_overlaps, a, b)
}
