//! Records camlib's answers, and document 01's refusals, for the program `stock_vectors`.
//!
//!     cd oracle && ./build && cargo run --release --bin record_stock > ../crates/stock_vectors/stdin
//!
//! A row is 87 words of 16 hexadecimal digits. Every NaN is 7ff8000000000000, and what a row does not use is 0.
//!
//! merge: 0 · the cells of possible, certain, outer, inner and the work buffer · the bounds · the four lists, 6 cells each · the refusal · for possible
//! and certain 1 where the list moved · their pairs · the first 24 cells of the work buffer; those past them are zero.
//!
//! fill and volume: 1 or 2 · version, units (0 for "mm", else 1), min, max, cell size, `max_rays`, `max_intervals` · the cells of the spans, the links and
//! the heads · the interval total that goes into `volume` · the refusal · the generation and the interval total that `fill` gives · the ten numbers that
//! `volume` gives · 24 cells of spans, 24 of links, 10 of heads: the store after `fill` or before `volume`. Cells that `fill` does not write are 7.
use compare::{
    merge::{Ray, small_ray_and_room},
    row::{bits, doubles, numbers, print},
    stock::{Blank, Stock, fill_refusal, rust_volume, small_blank, small_stock, volume_refusal},
};
use harness::{flat, generate::Gen, grid::Query, pairs, store::Store};

const SEED: u64 = 1;
const COUNT: usize = 150;
const WORDS: usize = 87;
const SEVEN: f64 = 7.;

/// None where the row has no room for it.
fn merge_row(ray: &Ray, room: usize) -> Option<Vec<u64>> {
    let lists = ray.lists();
    if lists.iter().any(|l| l.len() > 6) || room > 160 {
        return None;
    }
    let mut words = vec![0];
    words.extend(lists.map(|l| l.len() as u64));
    words.push(room as u64);
    words.extend(ray.bounds.map(bits));
    words.extend(lists.iter().flat_map(|l| doubles(l, 6)));
    let refused = ray.refusal(room);
    words.push(refused as u64);
    if refused == 0 {
        let after = ray.merged();
        let moved = [pairs(&ray.possible) != after[0], pairs(&ray.certain) != after[1]];
        words.extend(moved.map(u64::from));
        words.extend(after.each_ref().map(|l| l.len() as u64));
        let cells: Vec<f64> = after.iter().zip(moved).filter(|(_, m)| *m).flat_map(|(l, _)| flat(l)).collect();
        if cells.len() > 24 {
            return None;
        }
        words.extend(doubles(&cells, 24));
    }
    Some(words)
}

fn described(op: u64, q: &Query, lens: [usize; 3]) -> Option<Vec<u64>> {
    if lens[0] > 24 || lens[1] > 24 || lens[2] > 10 || ![0, 3].contains(&q.units) {
        return None;
    }
    let mut words = vec![op, q.version as u64, (q.units != 0) as u64];
    words.extend(q.min.iter().chain(&q.max).map(|x| bits(*x)));
    words.extend([bits(q.cell), q.max_rays, q.max_intervals]);
    words.extend(lens.map(|n| n as u64));
    Some(words)
}

fn cells(words: &mut Vec<u64>, (spans, links, heads): (&[f64], &[u64], &[u64])) {
    words.extend(doubles(spans, 24));
    words.extend(numbers(links, 24));
    words.extend(numbers(heads, 10));
}

fn fill_row(b: &Blank) -> Option<Vec<u64>> {
    let mut words = described(1, &b.query, b.lens)?;
    let refused = fill_refusal(b);
    words.extend([0, refused as u64]);
    if refused == 0 {
        let store = Store::fill(&b.query.spec());
        let (mut spans, mut links, mut heads) = store.cells();
        spans.resize(b.lens[0], SEVEN);
        links.resize(b.lens[1], 7);
        heads.resize(b.lens[2], 7);
        words.extend([0, store.intervals]);
        words.extend([0; 10]);
        cells(&mut words, (&spans, &links, &heads));
    }
    Some(words)
}

fn volume_row(s: &Stock) -> Option<Vec<u64>> {
    let lens = s.lens();
    let mut words = described(2, &s.query, lens)?;
    let refused = volume_refusal(s);
    words.extend([s.store.intervals, refused as u64, 0, 0]);
    let ten = match refused {
        0 => rust_volume(&s.query.spec(), &s.store.counted(&s.query.spec())),
        _ => [0.; 10],
    };
    words.extend(ten.map(bits));
    let (mut spans, mut links, mut heads) = s.store.cells();
    spans.resize(lens[0], SEVEN);
    links.resize(lens[1], 7);
    heads.resize(lens[2], 7);
    cells(&mut words, (&spans, &links, &heads));
    Some(words)
}

fn record(name: &str, row: impl Fn(&mut Gen) -> Option<Vec<u64>>) {
    (0..).filter_map(|k| row(&mut Gen::new(SEED, name, k))).take(COUNT).for_each(|words| print(&words, WORDS));
}

fn main() {
    record("merge", |g| {
        let (ray, room) = small_ray_and_room(g);
        merge_row(&ray, room)
    });
    record("fill", |g| fill_row(&small_blank(g)));
    record("volume", |g| volume_row(&small_stock(g)));
}
