//! Orders of the entries of one ray that are made against a port which decides 9 and 10 in stretches of numbers: it holds some entries at a
//! time, and where there are more, one of those that are held ends the stretch.
use std::collections::VecDeque;

/// As many entries are held at a time.
const HELD: usize = 3_072;

/// Places among m entries that decide which of them ends the stretch: where the hits there begin before all others, the last of these does,
/// and where they begin after all others, the first of these.
pub type Deciding = fn(usize) -> Vec<usize>;

/// Where the middle one of the first, the middle and the last entry ends it.
pub fn of_three(m: usize) -> Vec<usize> {
    vec![0, m / 2]
}

/// Where the middle one of 55 groups' middle entries does, each of 55 entries; fewer are far from the middle too.
pub fn of_groups(m: usize) -> Vec<usize> {
    let size = m / 55;
    (0..28).flat_map(|i| (0..28).map(move |j| i * size + j * (size / 55))).collect()
}

/// For each entry which of n hits it has, so that every stretch has few: the first of those that are left have the deciding places.
pub fn from_below(n: usize, deciding: Deciding) -> Vec<usize> {
    let mut left: VecDeque<usize> = (0..n).collect();
    let mut order = vec![];
    while left.len() > HELD {
        order.extend(deciding(HELD).into_iter().enumerate().filter_map(|(gone, p)| left.remove(p - gone)));
    }
    order.extend(left);
    let mut hit = vec![0; n];
    order.into_iter().enumerate().for_each(|(k, i)| hit[i] = k);
    hit
}

/// The same so that the stretches are ended often.
pub fn from_above(n: usize, deciding: Deciding) -> Vec<usize> {
    from_below(n, deciding).into_iter().map(|k| n - 1 - k).collect()
}

/// Both: the later half of the hits, then the earlier half.
pub fn from_both(n: usize, deciding: Deciding) -> Vec<usize> {
    let half = n / 2;
    let later = from_above(n - half, deciding).into_iter().map(|k| half + k);
    later.chain(from_below(half, deciding)).collect()
}
