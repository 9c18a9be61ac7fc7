//! Records camlib's answers for the program `grid_vectors`: document 01's examples, then seeded descriptions, the last of the finest steps.
//!
//!     cd oracle && cargo run --release --bin record_grid > ../crates/grid_vectors/stdin
//!
//! A row has 29 words of 16 hexadecimal digits: version, units (0 "mm", 1 "m", 2 "mmm", 3 "cm", 4 "mn"), min, max, cell size, max_rays,
//! max_intervals, axis, index, i and x, and then the answer: the refusal's number or 0, cells, steps, rays along the axis, all rays, the
//! ray's centre, the boundary of cell i, the cell of x and the ray's number. Of a description that is refused, all after the number are 0.
use harness::{
    generate::Gen,
    grid::{Query, edges, fine_query, query},
};

const SEED: u64 = 1;
const ROWS: u64 = 1200;
const FINE_ROWS: u64 = 200;

fn bits(x: f64) -> u64 {
    if x.is_nan() { 0x7ff8_0000_0000_0000 } else { x.to_bits() }
}

fn row(q: &Query) -> String {
    let a = q.answer();
    let mut words = vec![q.version as u64, q.units as u64];
    words.extend(q.min.iter().chain(&q.max).map(|x| bits(*x)));
    words.extend([bits(q.cell), q.max_rays, q.max_intervals, q.axis as u64, q.index, q.i, bits(q.x), a.refused]);
    words.extend(a.cells);
    words.extend(a.steps.map(bits));
    words.extend([a.rays, a.total]);
    words.extend(a.center.map(bits));
    words.extend([bits(a.bound), a.cell, a.number]);
    words.iter().map(|w| format!("{w:016x}")).collect::<Vec<_>>().join(" ")
}

fn main() {
    for q in edges() {
        println!("{}", row(&q));
    }
    for case in 0..ROWS {
        println!("{}", row(&query(&mut Gen::new(SEED, "grid", case))));
    }
    for case in 0..FINE_ROWS {
        println!("{}", row(&fine_query(&mut Gen::new(SEED, "fine", case))));
    }
}
