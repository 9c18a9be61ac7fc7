//! The fill and the volume: the lists and the ten numbers are camlib's, the records document 01's; the store is read back from the lent cells.
use crate::{
    function::{Function, Outcome, Words},
    grid::{DexelGrid, DexelStockSpec, described},
    reached::{COUNTS, DECADES, Group, NUMBERS, Reached, minus_zero},
};
use harness::{
    generate::Gen,
    grid::{Query, UNITS, edges, query},
    lent::Lent,
    store::{LentStore, Match, Record, Store, small_spec, sound_store, spoil, store_of},
    wide::{any_spec, ray_within},
};
use oracle::dexel::{DexelVolume, opened as rust};
use tridexel::raw;

mod inner {
    use super::{DexelGrid, DexelStockSpec};
    unsafe extern "C" {
        pub fn tridexel_inner_check_stock(
            spec: DexelStockSpec,
            g: DexelGrid,
            spans: *const f64,
            spans_len: usize,
            links: *const u64,
            links_len: usize,
            heads: *const u64,
            heads_len: usize,
            intervals: u64,
        ) -> bool;
    }
}

/// The check asks for whole records and heads, which `volume` sees to.
pub fn check_stock(spec: DexelStockSpec, g: DexelGrid, (spans, links, heads): (&[f64], &[u64], &[u64]), intervals: u64) -> bool {
    let records = spans.len().min(links.len()) as u64 / 2;
    let rays = g.c0 * g.c1 + g.c1 * g.c2 + g.c2 * g.c0;
    assert!(records >= spec.max_intervals && heads.len() as u64 >= 2 * rays);
    unsafe {
        inner::tridexel_inner_check_stock(
            spec,
            g,
            spans.as_ptr(),
            spans.len(),
            links.as_ptr(),
            links.len(),
            heads.as_ptr(),
            heads.len(),
            intervals,
        )
    }
}

pub fn fill(spec: DexelStockSpec, units: &[u8], s: &mut LentStore, generation: &mut u64, intervals: &mut u64) -> u32 {
    let (spans, links, heads) = (s.spans.cells(), s.links.cells(), s.heads.cells());
    unsafe {
        raw::tridexel_fill(
            spec,
            units.as_ptr(),
            units.len(),
            spans.as_mut_ptr(),
            spans.len(),
            links.as_mut_ptr(),
            links.len(),
            heads.as_mut_ptr(),
            heads.len(),
            generation,
            intervals,
        )
    }
}

pub fn volume(
    spec: DexelStockSpec,
    units: &[u8],
    (spans, links, heads): (&[f64], &[u64], &[u64]),
    intervals: u64,
    volume: &mut [f64; 10],
) -> u32 {
    unsafe {
        raw::tridexel_volume(
            spec,
            units.as_ptr(),
            units.len(),
            spans.as_ptr(),
            spans.len(),
            links.as_ptr(),
            links.len(),
            heads.as_ptr(),
            heads.len(),
            intervals,
            volume,
        )
    }
}

type Fill = fn(DexelStockSpec, &[u8], &mut LentStore, &mut u64, &mut u64) -> u32;
type Volume = fn(DexelStockSpec, &[u8], (&[f64], &[u64], &[u64]), u64, &mut [f64; 10]) -> u32;

const POISON: u64 = 0xdead_beef;

/// Document 01's 1 to 3, then 12: too few whole records or heads.
fn short(q: &Query, [spans, links, heads]: [usize; 3]) -> u32 {
    match q.spec().grid() {
        Err(e) => rust::grid_code(&e),
        Ok(grid) => {
            let records = spans.min(links) as u64 / 2;
            if records < q.max_intervals || heads < 2 * grid.total_rays() { 12 } else { 0 }
        }
    }
}

/// A description, and the cells of the buffers for spans, links and heads.
#[derive(Clone, Debug)]
pub struct Blank {
    pub query: Query,
    pub lens: [usize; 3],
}

impl Words for Blank {
    fn words(&self) -> String {
        format!("{} {}", self.query.words(), self.lens.words())
    }
}

/// The refusal that document 01 asks for, 0 for none.
pub fn fill_refusal(b: &Blank) -> u32 {
    short(&b.query, b.lens)
}

/// What blanks reach.
pub const FILLED: &[Group] = &[
    ("refused", &["accepted", "1", "2", "3", "12"]),
    // of the accepted ones
    ("extent", &DECADES),
    ("bound", &DECADES),
    ("rays", &COUNTS),
    ("free records", &["none", "some"]),
    ("cells past", &["none", "some"]),
    ("minus zero", &["bound"]),
];

fn count_blank(b: &Blank, number: u32, reached: &mut Reached) {
    reached.count("refused", NUMBERS[number as usize]);
    if number == 0 {
        let q = &b.query;
        let rays = q.needed() as usize;
        let some = |some: bool| if some { "some" } else { "none" };
        reached.count_box(q.min, q.max, rays);
        reached.count("free records", some(q.max_intervals > 2 * rays as u64));
        reached.count("cells past", some(b.lens != [2 * q.max_intervals as usize, 2 * q.max_intervals as usize, 2 * rays]));
        reached.count_if(minus_zero(&[q.min, q.max].concat()), "minus zero", "bound");
    }
}

pub fn compare_fill(b: &Blank, port: Fill, reached: &mut Reached) -> Outcome {
    let mut lent = LentStore { spans: Lent::new(b.lens[0]), links: Lent::new(b.lens[1]), heads: Lent::new(b.lens[2]) };
    let (mut generation, mut intervals) = (POISON, POISON);
    let q = &b.query;
    let code = port(described(q), UNITS[q.units].as_bytes(), &mut lent, &mut generation, &mut intervals);
    let number = fill_refusal(b);
    count_blank(b, number, reached);
    let rust = match number {
        0 => {
            let want = Store::fill(&q.spec());
            let laid = (code, generation, intervals) == (0, 0, want.intervals);
            if laid && lent.compare(&want) == Match::Same {
                return Outcome::Same;
            }
            format!("0, generation 0, intervals {}, the uncut store", want.intervals)
        }
        number => {
            let untouched = lent.spans.untouched(&[]) && lent.links.untouched(&[]) && lent.heads.untouched(&[]);
            if (code, generation, intervals) == (number, POISON, POISON) && untouched {
                return Outcome::Same;
            }
            format!("{number}, nothing written")
        }
    };
    let cells = format!("{} {} {}", lent.spans.read().words(), lent.links.read().words(), lent.heads.read().words());
    Outcome::differs(None, rust, format!("{code}, generation {generation}, intervals {intervals}, cells {cells}"))
}

/// A description and a store, sound or not, with so many poisoned cells past the spans, the links and the heads.
#[derive(Clone, Debug)]
pub struct Stock {
    pub query: Query,
    pub store: Store,
    pub over: [usize; 3],
    /// how many cells of the spans, the links and the heads are held back
    pub less: [usize; 3],
}

impl Words for Record {
    fn words(&self) -> String {
        format!("{} {} {} {}", self.lo.words(), self.hi.words(), self.next, self.owner)
    }
}

impl Words for Stock {
    fn words(&self) -> String {
        let s = &self.store;
        let rooms = format!("{} {}", self.over.words(), self.less.words());
        format!("{} {} {} {} {rooms}", self.query.words(), s.heads.words(), s.records.words(), s.intervals)
    }
}

pub fn ten(v: DexelVolume) -> [f64; 10] {
    let [[a, b], [c, d], [e, f]] = v.grids_mm3;
    [a, b, c, d, e, f, v.remaining_lower_mm3, v.remaining_upper_mm3, v.removed_lower_mm3, v.removed_upper_mm3]
}

pub fn rust_volume(spec: &oracle::dexel::DexelStockSpec, s: &Store) -> [f64; 10] {
    ten(rust::stock(spec.clone(), s.generation, s.rays_by_axis(spec)).volume())
}

impl Stock {
    /// How many cells of the spans, the links and the heads are lent.
    pub fn lens(&self) -> [usize; 3] {
        let (spans, links, heads) = self.store.cells();
        let full = [spans.len(), links.len(), heads.len()];
        std::array::from_fn(|k| (full[k] + self.over[k]).saturating_sub(self.less[k]))
    }
}

/// The refusal that document 01 asks for, 0 for none.
pub fn volume_refusal(s: &Stock) -> u32 {
    let spec = s.query.spec();
    match short(&s.query, s.lens()) {
        0 if !s.store.counted(&spec).sound(&spec) => 11,
        number => number,
    }
}

/// What stocks reach.
pub const MEASURED: &[Group] = &[
    ("refused", &["accepted", "1", "2", "3", "11", "12"]),
    // of the accepted ones
    ("extent", &DECADES),
    ("bound", &DECADES),
    ("rays", &COUNTS),
    ("list", &["empty", "one pair", "more pairs"]),
    ("cells past", &["none", "some"]),
    ("minus zero", &["bound", "span end"]),
];

fn count_stock(s: &Stock, number: u32, reached: &mut Reached) {
    reached.count("refused", NUMBERS[number as usize]);
    if number != 0 {
        return;
    }
    let q = &s.query;
    reached.count_box(q.min, q.max, q.needed() as usize);
    reached.count("cells past", if s.over == [0; 3] { "none" } else { "some" });
    let ends: Vec<f64> = s.store.records.iter().flat_map(|r| [r.lo, r.hi]).collect();
    reached.count_if(minus_zero(&[q.min, q.max].concat()), "minus zero", "bound");
    reached.count_if(minus_zero(&ends), "minus zero", "span end");
    for head in &s.store.heads[..2 * q.needed() as usize] {
        let list = match *head {
            0 => "empty",
            k if s.store.records[k as usize - 1].next == 0 => "one pair",
            _ => "more pairs",
        };
        reached.count("list", list);
    }
}

pub fn compare_volume(s: &Stock, port: Volume, reached: &mut Reached) -> Outcome {
    let lent = s.store.lend(s.over);
    let lens = s.lens();
    let q = &s.query;
    let mut got = [f64::from_bits(POISON); 10];
    let cells = (&lent.spans.read()[..lens[0]], &lent.links.read()[..lens[1]], &lent.heads.read()[..lens[2]]);
    let code = port(described(q), UNITS[q.units].as_bytes(), cells, s.store.intervals, &mut got);
    let number = volume_refusal(s);
    count_stock(s, number, reached);
    let want = match number {
        0 => rust_volume(&q.spec(), &s.store.counted(&q.spec())),
        _ => [f64::from_bits(POISON); 10],
    };
    let kept = lent.compare(&s.store) == Match::Same;
    if code == number && kept && want.iter().zip(&got).all(|(w, g)| w.to_bits() == g.to_bits()) {
        return Outcome::Same;
    }
    let written = if kept { "" } else { ", the store was written" };
    Outcome::differs(None, format!("{number} {}", want.words()), format!("{code} {}{written}", got.words()))
}

/// The query with the numbers of this description.
fn query_of(spec: &oracle::dexel::DexelStockSpec) -> Query {
    Query {
        max_rays: spec.max_rays as u64,
        max_intervals: spec.max_intervals as u64,
        ..Query::new(spec.min_mm, spec.max_mm, spec.cell_size_mm)
    }
}

/// Now and then one fault in the description.
fn misdescribe(g: &mut Gen, q: &mut Query) {
    if g.once_in(24) {
        match g.below(7) {
            0 => q.version = g.pick(&[0, 2]),
            1 => q.units = 1 + g.below(4) as usize,
            2 => q.min[g.below(3) as usize] = g.double(),
            3 => q.max[g.below(3) as usize] = g.double(),
            4 => q.cell = g.double(),
            5 => q.max_rays = q.max_rays.saturating_sub(2),
            _ => q.max_intervals = g.pick(&[0, 1, u64::MAX]),
        }
    }
}

/// One cell short, exact, or longer.
fn length(g: &mut Gen, need: usize) -> usize {
    match g.below(16) {
        0 => need.saturating_sub(1),
        1 => g.below(need as u64 + 1) as usize,
        2 => need + 1,
        3 => need + 2 + g.below(6) as usize,
        _ => need,
    }
}

/// The description, now and then with a fault, and about the cells that it asks for; where it asks for more than these
/// records or rays, for that many.
fn blank_of(g: &mut Gen, mut query: Query, most: [usize; 2]) -> Blank {
    misdescribe(g, &mut query);
    let records = query.max_intervals.min(most[0] as u64) as usize;
    let rays = query.spec().grid().map_or(1, |grid| grid.total_rays()).min(most[1]);
    Blank { lens: [length(g, 2 * records), length(g, 2 * records), length(g, 2 * rays)], query }
}

pub fn small_blank(g: &mut Gen) -> Blank {
    let query = if g.once_in(8) { query(g) } else { query_of(&small_spec(g)) };
    blank_of(g, query, [400, 200])
}

/// How seldom a blank has some ten thousand rays.
const LARGE: u64 = 1000;

/// A blank anywhere in the domain.
pub fn blank(g: &mut Gen) -> Blank {
    if g.once_in(2) {
        return small_blank(g);
    }
    let spec = any_spec(g, LARGE);
    let most = [spec.max_intervals, spec.max_rays];
    blank_of(g, query_of(&spec), most)
}

pub fn small_stock(g: &mut Gen) -> Stock {
    let spec = small_spec(g);
    let store = sound_store(g, &spec);
    stock_of(g, &spec, store)
}

/// A stock anywhere in the domain.
pub fn stock(g: &mut Gen) -> Stock {
    if g.once_in(2) {
        return small_stock(g);
    }
    let spec = any_spec(g, LARGE);
    g.size = 1 + g.below(3) as usize;
    let store = store_of(g, &spec, ray_within);
    stock_of(g, &spec, store)
}

/// The store, often with a fault or two, the description now and then with one, and cells past the store or held back.
fn stock_of(g: &mut Gen, spec: &oracle::dexel::DexelStockSpec, mut store: Store) -> Stock {
    if g.once_in(3) {
        spoil(g, &mut store);
        if g.once_in(4) {
            spoil(g, &mut store);
        }
    }
    let mut query = query_of(spec);
    misdescribe(g, &mut query);
    let mut some =
        |one_in: u64| -> [usize; 3] { std::array::from_fn(|_| if g.once_in(one_in) { 1 + g.below(5) as usize } else { 0 }) };
    Stock { query, store, over: some(3), less: some(24) }
}

/// Document 01's grids with every length from one short to one over.
pub fn blanks() -> Vec<Blank> {
    let need = |q: &Query| {
        q.spec().grid().map_or([4, 4, 4], |g| [2 * q.max_intervals as usize, 2 * q.max_intervals as usize, 2 * g.total_rays()])
    };
    let lens = |q: &Query| {
        let [a, b, c] = need(q);
        (0..27).map(move |k| [a + k % 3 - 1, b + k / 3 % 3 - 1, c + k / 9 - 1]).collect::<Vec<_>>()
    };
    edges().into_iter().flat_map(|q| lens(&q).into_iter().map(move |lens| Blank { query: q.clone(), lens })).collect()
}

/// The uncut stores of document 01's grids.
pub fn stocks() -> Vec<Stock> {
    let accepted = edges().into_iter().filter(|q| q.spec().grid().is_ok());
    accepted.map(|query| Stock { store: Store::fill(&query.spec()), query, over: [1, 2, 3], less: [0; 3] }).collect()
}

pub fn functions() -> Vec<Function> {
    vec![
        Function::counting("fill", FILLED, blanks(), blank, |b, reached| compare_fill(b, fill, reached)),
        Function::counting("volume", MEASURED, stocks(), stock, |s, reached| compare_volume(s, volume, reached)),
    ]
}
