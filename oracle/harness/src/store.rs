//! A model of document 01's lent store, to compare the port's cells with. The Rust has no such store: the lists are the Rust's,
//! the record numbers follow document 01's rules.
use crate::{Pair, generate::Gen, lent::Lent, same};
use oracle::dexel::{DexelStock, DexelStockSpec, Ray, RayChange, opened as rust};

#[derive(Clone, Copy, Debug, Default, PartialEq)]
pub struct Record {
    pub lo: f64,
    pub hi: f64,
    pub next: u64,
    pub owner: u64,
}

const FREE: Record = Record { lo: 0., hi: 0., next: 0, owner: 0 };

#[derive(Clone, Debug, PartialEq)]
pub struct Store {
    /// ray 0's possible, its certain, ray 1's possible, ..
    pub heads: Vec<u64>,
    /// record k stands at k - 1; exactly `max_intervals` of them
    pub records: Vec<Record>,
    pub generation: u64,
    pub intervals: u64,
}

/// The number of a ray: axis 0's first, then 1's, 2's.
pub fn ray_number(stock: &DexelStock, axis: usize, index: usize) -> usize {
    (0..axis).map(|a| stock.grid().rays(a)).sum::<usize>() + index
}

impl Store {
    /// No list, every record free.
    pub fn empty(spec: &DexelStockSpec) -> Self {
        let rays = spec.grid().unwrap().total_rays();
        Store { heads: vec![0; 2 * rays], records: vec![FREE; spec.max_intervals], generation: 0, intervals: 0 }
    }

    pub fn fill(spec: &DexelStockSpec) -> Self {
        let mut s = Store::empty(spec);
        let stock = DexelStock::new(spec.clone()).unwrap();
        let mut from = 0;
        for (ray, r) in (0..3).flat_map(|a| stock.rays(a)).enumerate() {
            s.lay_from(&mut from, 2 * ray, r.possible.as_slice());
            s.lay_from(&mut from, 2 * ray + 1, r.certain.as_slice());
        }
        s
    }

    fn free(&mut self, head: usize) {
        let mut k = std::mem::take(&mut self.heads[head]);
        while k != 0 {
            let r = std::mem::replace(&mut self.records[k as usize - 1], FREE);
            k = r.next;
            self.intervals -= 1;
        }
    }

    /// Each pair into the lowest free record.
    pub fn lay(&mut self, head: usize, list: &[Pair]) {
        self.lay_from(&mut 0, head, list);
    }

    /// The same, where no record before `from` is free.
    pub fn lay_from(&mut self, from: &mut usize, head: usize, list: &[Pair]) {
        let mut last = None;
        for s in list {
            while self.records[*from].owner != 0 {
                *from += 1;
            }
            self.records[*from] = Record { lo: s[0], hi: s[1], next: 0, owner: head as u64 + 1 };
            match last {
                None => self.heads[head] = *from as u64 + 1,
                Some(k) => self.records[k as usize].next = *from as u64 + 1,
            }
            last = Some(*from as u64);
            self.intervals += 1;
        }
    }

    /// Frees the lists of all changed rays, then fills in ray order, possible first.
    pub fn commit(&mut self, stock: &DexelStock, changes: &[RayChange]) {
        let number = |c: &RayChange| ray_number(stock, c.axis as usize, c.index as usize);
        for c in changes {
            self.free(2 * number(c));
            self.free(2 * number(c) + 1);
        }
        let mut from = 0;
        for c in changes {
            self.lay_from(&mut from, 2 * number(c), c.after.possible.as_slice());
            self.lay_from(&mut from, 2 * number(c) + 1, c.after.certain.as_slice());
        }
        self.generation += 1;
    }

    /// The list of a head, or None where its chain leaves the records, goes round, or meets another's record.
    pub fn list(&self, head: usize) -> Option<Vec<Pair>> {
        let mut out = vec![];
        let mut k = self.heads[head];
        while k != 0 {
            let r = self.records.get(k as usize - 1)?;
            if r.owner != head as u64 + 1 || out.len() == self.records.len() {
                return None;
            }
            out.push([r.lo, r.hi]);
            k = r.next;
        }
        Some(out)
    }

    /// Document 01's soundness of a store.
    pub fn sound(&self, spec: &DexelStockSpec) -> bool {
        let grid = spec.grid().unwrap();
        let mut chained = 0;
        let mut ray = 0;
        for a in 0..3 {
            for _ in 0..grid.rays(a) {
                let (Some(p), Some(c)) = (self.list(2 * ray), self.list(2 * ray + 1)) else { return false };
                chained += p.len() + c.len();
                if !rust::valid(&rust::ray(p, c), spec.min_mm[a], spec.max_mm[a]) {
                    return false;
                }
                ray += 1;
            }
        }
        let free = self.records.iter().filter(|r| [r.lo.to_bits(), r.hi.to_bits(), r.next, r.owner] == [0; 4]).count();
        self.heads.len() == 2 * ray && self.intervals == chained as u64 && free + chained == self.records.len()
    }

    /// The rays in order, as the Rust keeps them.
    pub fn rays(&self) -> Vec<Ray> {
        (0..self.heads.len() / 2).map(|r| rust::ray(self.list(2 * r).unwrap(), self.list(2 * r + 1).unwrap())).collect()
    }

    /// What counts of these cells for a description: `max_intervals` records and two heads for each ray.
    pub fn counted(&self, spec: &DexelStockSpec) -> Store {
        let heads = self.heads[..2 * spec.grid().unwrap().total_rays()].to_vec();
        Store { heads, records: self.records[..spec.max_intervals].to_vec(), ..*self }
    }

    /// The rays by axis, for a stock of the Rust.
    pub fn rays_by_axis(&self, spec: &DexelStockSpec) -> [Vec<Ray>; 3] {
        let grid = spec.grid().unwrap();
        let mut all = self.rays().into_iter();
        std::array::from_fn(|a| all.by_ref().take(grid.rays(a)).collect())
    }
}

/// A store as the port has it, between guard cells.
pub struct LentStore {
    pub spans: Lent<f64>,
    pub links: Lent<u64>,
    pub heads: Lent<u64>,
}

/// How the cells of a lent store are beside those that a model asks for.
#[derive(Clone, Copy, Debug, PartialEq)]
pub enum Match {
    Same,
    /// equal as numbers, but for the sign of a zero
    Zeros,
    Differs,
}

impl Store {
    /// The cells of all records and heads.
    pub fn cells(&self) -> (Vec<f64>, Vec<u64>, Vec<u64>) {
        let spans = self.records.iter().flat_map(|r| [r.lo, r.hi]).collect();
        let links = self.records.iter().flat_map(|r| [r.next, r.owner]).collect();
        (spans, links, self.heads.clone())
    }

    /// These cells, and so many poisoned ones past the spans, the links and the heads.
    pub fn lend(&self, over: [usize; 3]) -> LentStore {
        let (spans, links, heads) = self.cells();
        LentStore { spans: Lent::of(&spans, over[0]), links: Lent::of(&links, over[1]), heads: Lent::of(&heads, over[2]) }
    }
}

impl LentStore {
    /// Every cell against the model's; those past them, and the guard cells, have their poison.
    pub fn compare(&self, want: &Store) -> Match {
        let (spans, links, heads) = want.cells();
        if !self.links.begins(&links) || !self.heads.begins(&heads) {
            return Match::Differs;
        }
        if self.spans.begins(&spans) {
            return Match::Same;
        }
        let got = self.spans.read();
        if got.len() < spans.len() || !self.spans.begins(&got[..spans.len()]) {
            return Match::Differs;
        }
        let owned = |i: usize| links[i / 2 * 2 + 1] != 0;
        let alike = |i: usize| if owned(i) { same(got[i], spans[i]) } else { got[i].to_bits() == spans[i].to_bits() };
        if (0..spans.len()).all(alike) { Match::Zeros } else { Match::Differs }
    }

    /// The store that the cells spell, with this small record.
    pub fn read(&self, records: usize, heads: usize, generation: u64, intervals: u64) -> Store {
        let (spans, links) = (self.spans.read(), self.links.read());
        let record = |k: usize| Record { lo: spans[2 * k], hi: spans[2 * k + 1], next: links[2 * k], owner: links[2 * k + 1] };
        Store { heads: self.heads.read()[..heads].to_vec(), records: (0..records).map(record).collect(), generation, intervals }
    }
}

/// A small blank with a budget a little above what the uncut store needs.
pub fn small_spec(g: &mut Gen) -> DexelStockSpec {
    let min: [f64; 3] = std::array::from_fn(|_| g.pick(&[0., -0., -12., 1., -3.]));
    let cells: [u64; 3] = std::array::from_fn(|_| 1 + g.below(3));
    let size = g.pick(&[0.3, 1., 2.5, 4.]);
    let max = std::array::from_fn(|k| min[k] + (cells[k] as f64 - g.pick(&[0., 0.5])) * size);
    let rays = rust::spec(min, max, size, u32::MAX as usize, usize::MAX).grid().unwrap().total_rays();
    let spare = g.below(4 * rays as u64 + 1) as usize;
    rust::spec(min, max, size, rays + g.below(2) as usize, 2 * rays + spare)
}

/// The lists of a ray between small bounds: uncut, cut away, or cut in pieces.
fn small_ray(g: &mut Gen, lo: f64, hi: f64) -> (Vec<Pair>, Vec<Pair>) {
    g.size = 1 + g.below(3) as usize;
    match g.below(4) {
        0 => (vec![[lo, hi]], vec![[lo, hi]]),
        1 => (vec![], vec![]),
        _ => g.ray(lo, hi),
    }
}

/// A sound store over the blank: small rays, laid in any order, so that a chain may visit its records in any order too.
pub fn sound_store(g: &mut Gen, spec: &DexelStockSpec) -> Store {
    store_of(g, spec, small_ray)
}

/// A sound store of rays with these lists, as far as there is room; those of other rays are empty.
pub fn store_of(g: &mut Gen, spec: &DexelStockSpec, ray: impl Fn(&mut Gen, f64, f64) -> (Vec<Pair>, Vec<Pair>)) -> Store {
    let grid = spec.grid().unwrap();
    let mut s = Store::empty(spec);
    let mut room = spec.max_intervals;
    let mut lists: Vec<(usize, Vec<Pair>)> = vec![];
    for a in (0..3).flat_map(|a| std::iter::repeat_n(a, grid.rays(a))) {
        let (p, c) = ray(g, spec.min_mm[a], spec.max_mm[a]);
        let head = lists.len();
        if p.len() + c.len() <= room {
            room -= p.len() + c.len();
            lists.extend([(head, p), (head + 1, c)]);
        } else {
            lists.extend([(head, vec![]), (head + 1, vec![])]);
        }
    }
    for i in (1..lists.len()).rev() {
        lists.swap(i, g.below(i as u64 + 1) as usize);
    }
    let mut from = 0;
    for (head, list) in &lists {
        s.lay_from(&mut from, *head, list);
    }
    // now and then one of the first lists is freed and laid again, which leaves holes
    for (head, list) in lists.iter().take(64) {
        if g.once_in(4) {
            s.free(*head);
            s.lay(*head, list);
        }
    }
    s.generation = g.pick(&[0, 1, 7, u64::MAX - 1, u64::MAX]);
    s
}

/// Puts one fault into a store: a cell of any kind, or a total. It may happen to leave the store sound.
pub fn spoil(g: &mut Gen, s: &mut Store) {
    let n = s.records.len() as u64;
    let k = g.below(n) as usize;
    let m = s.heads.len() as u64;
    let j = g.below(m) as usize;
    let number = g.pick(&[0, 1, k as u64 + 1, n, n + 1, 2 * n, u64::MAX, m, m + 1]);
    let double = g.pick(&[-0., 5e-324, f64::NAN, 1., f64::INFINITY]);
    match g.below(12) {
        // a loop, a chain into another's record or past the pool
        0 => s.records[k].next = number,
        1 => s.records[k].next = k as u64 + 1,
        // a head into another's chain, a free record or past the pool
        2 => s.heads[j] = number,
        3 => s.heads[j] = s.heads[g.below(m) as usize],
        // a wrong owner, or a free record with one
        4 => s.records[k].owner = number,
        5 => s.records[k].owner = s.records[g.below(n) as usize].owner,
        // another end, or garbage in a free record
        6 => s.records[k].lo = double,
        7 => s.records[k].hi = double,
        8 => s.records[k].lo = s.records[k].hi,
        9 => s.records.swap(k, g.below(n) as usize),
        // a wrong total
        10 => s.intervals = s.intervals.wrapping_add(g.pick(&[1, u64::MAX])),
        _ => s.intervals = number,
    }
}
