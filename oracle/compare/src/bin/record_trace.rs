//! Records the reasons that camlib's merges give, and document 02's refusals, for the program `trace_vectors`.
//!
//!     cd oracle && ./build && cargo run --release --bin record_trace > ../crates/trace_vectors/stdin
//!
//! A row is 45 words of 16 hexadecimal digits. Every NaN is 7ff8000000000000, and what a row does not use is 0.
//!
//! The reason, 1 to 5, or 0 · the refusal · the number of the entry · the cells of possible, certain and the log · the bounds · the place · possible and
//! certain, 6 cells each · the log, 24 cells. Rows that are refused stand first, then those of each reason.
use compare::{
    row::{bits, doubles, print},
    trace::{Query, Traced, edges, query, small_query, worked},
};
use harness::generate::Gen;

const SEED: u64 = 1;
const WORDS: usize = 45;
/// How many rows of each refusal and of each reason.
const REFUSED: [(u32, usize); 2] = [(11, 60), (19, 20)];
const REASONS: [(u32, usize); 5] = [(1, 64), (2, 64), (3, 64), (4, 64), (5, 64)];

/// None where the row has no room for it.
fn row(q: &Query) -> Option<(u32, Traced, Vec<u64>)> {
    let [p, c, log] = q.lists();
    if p.len() > 6 || c.len() > 6 || log.len() > 24 {
        return None;
    }
    let refused = q.refusal();
    let traced = if refused == 0 { q.traced() } else { Traced { reason: 0, entry: 0 } };
    let [lo, hi] = q.ray.bounds;
    let mut words = vec![traced.reason as u64, refused as u64, traced.entry as u64];
    words.extend([p.len(), c.len(), log.len()].map(|n| n as u64));
    words.extend([lo, hi, q.place].map(bits));
    words.extend([doubles(p, 6), doubles(c, 6), doubles(log, 24)].concat());
    Some((refused, traced, words))
}

/// The ray of document 01's program; then the comparison's fixed queries, those of small numbers and those of any size, in turn.
fn rows() -> impl Iterator<Item = (u32, Traced, Vec<u64>)> {
    let fixed = edges();
    let generated = (0..).map(move |k| {
        let g = &mut Gen::new(SEED, "record_trace", k);
        match k % 3 {
            0 => g.pick(&fixed),
            1 => small_query(g),
            _ => query(g),
        }
    });
    worked().into_iter().chain(generated).filter_map(|q| row(&q))
}

fn main() {
    for (number, count) in REFUSED {
        rows().filter(|r| r.0 == number).take(count).for_each(|r| print(&r.2, WORDS));
    }
    for (reason, count) in REASONS {
        rows().filter(|r| r.1.reason == reason).take(count).for_each(|r| print(&r.2, WORDS));
    }
}
