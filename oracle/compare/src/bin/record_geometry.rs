//! Records camlib's answers for the program `geometry_vectors`: the fixed inputs of the comparison first, then seeded ones.
//!
//!     cd oracle && ./build && cargo run --release --bin record_geometry > ../crates/geometry_vectors/stdin
//!
//! A row: the function's number in two hexadecimal digits, then 14 arguments and three words of the answer, 16 digits each: the number
//! of its case and two doubles. What a function does not take or give is 0, and every NaN is 7ff8000000000000. A stadium's plan length
//! is an argument; `check_tool`'s answers are document 01's limits, which camlib lacks but for the beam.
use compare::{
    cutter::{self, Tool},
    row::bits,
    strips::{self, Answer},
};
use harness::generate::Gen;

const SEED: u64 = 1;
const COUNT: u64 = 250;

fn print(op: u64, arguments: &[u64], answer: Answer) {
    let mut words = arguments.to_vec();
    words.resize(14, 0);
    words.extend([answer.0, bits(answer.1[0]), bits(answer.1[1])]);
    let words: String = words.iter().map(|w| format!(" {w:016x}")).collect();
    println!("{op:02x}{words}");
}

fn inputs<I>(name: &str, edges: Vec<I>, make: fn(&mut Gen) -> I) -> Vec<I> {
    edges.into_iter().chain((0..COUNT).map(|k| make(&mut Gen::new(SEED, name, k)))).collect()
}

fn strip(op: u64, name: &str, edges: Vec<Vec<f64>>, make: fn(&mut Gen) -> Vec<f64>, rust: fn(&[f64]) -> Answer) {
    for x in inputs(name, edges, make) {
        print(op, &x.iter().map(|x| bits(*x)).collect::<Vec<_>>(), rust(&x));
    }
}

fn tool(op: u64, name: &str, edges: Vec<Tool>, make: fn(&mut Gen) -> Tool, rust: fn(&Tool) -> Answer) {
    for t in inputs(name, edges, make) {
        let numbers = t.own.iter().chain(&t.c.numbers()).chain(&t.h).map(|x| bits(*x)).collect::<Vec<_>>();
        print(op, &[&[t.kind], &numbers[..]].concat(), rust(&t));
    }
}

fn main() {
    strip(0, "disk_strip", strips::disk_edges(), strips::disk, strips::rust_disk);
    strip(1, "polygon_strip", strips::polygon_edges(), strips::polygon, strips::rust_polygon);
    strip(2, "stadium_strip", strips::stadium_edges(), strips::stadium, strips::rust_stadium);
    tool(3, "radius_at", cutter::edges(), cutter::any, cutter::rust_radius_at);
    tool(4, "cut_radius", cutter::milling_edges(), cutter::milling, cutter::rust_cut_radius);
    tool(5, "cut_max", cutter::milling_edges(), cutter::milling, cutter::rust_cut_max);
    tool(6, "cut_min", cutter::milling_edges(), cutter::milling, cutter::rust_cut_min);
    tool(7, "check_tool", cutter::edges(), cutter::any, cutter::refusal);
}
