//! A store whose lists are laid one after the other, as the port has it and as the Rust has it.
use compare::{commits::described, grid::DexelStockSpec};
use harness::{
    Pair,
    commits::Tally,
    lent::Lent,
    store::{LentStore, Store},
};
use oracle::dexel::{DexelStock, opened as rust};

pub struct Laid {
    pub spec: DexelStockSpec,
    pub spans: Vec<f64>,
    pub links: Vec<u64>,
    pub heads: Vec<u64>,
    pub tally: Tally,
    pub rust: DexelStock,
}

/// Over a box from the origin: possible and certain of each ray by its axis and index, and then so many free records.
pub fn laid(max: [f64; 3], cell: f64, lists: impl Fn(usize, usize) -> [Vec<Pair>; 2], free: usize) -> Laid {
    let grid = rust::spec([0.; 3], max, cell, u32::MAX as usize, usize::MAX).grid().unwrap();
    let (mut spans, mut links, mut heads) = (vec![], vec![], vec![]);
    let mut rays = [vec![], vec![], vec![]];
    for (a, along) in rays.iter_mut().enumerate() {
        for index in 0..grid.rays(a) {
            let both = lists(a, index);
            for list in &both {
                let owner = heads.len() as u64 + 1;
                let first = links.len() as u64 / 2 + 1;
                let n = list.len() as u64;
                heads.push(if n == 0 { 0 } else { first });
                spans.extend(list.as_flattened());
                links.extend((1..=n).flat_map(|k| [if k == n { 0 } else { first + k }, owner]));
            }
            let [possible, certain] = both;
            along.push(rust::ray(possible, certain));
        }
    }
    let intervals = links.len() / 2;
    let spec = rust::spec([0.; 3], max, cell, grid.total_rays(), intervals + free);
    spans.resize(2 * spec.max_intervals, 0.);
    links.resize(2 * spec.max_intervals, 0);
    let tally = Tally { generation: 0, intervals: intervals as u64 };
    Laid { spec: described(&spec), rust: rust::stock(spec, 0, rays), spans, links, heads, tally }
}

/// The uncut store over this box.
pub fn uncut(max: [f64; 3], cell: f64, free: usize) -> Laid {
    laid(max, cell, |a, _| [vec![[0., max[a]]], vec![[0., max[a]]]], free)
}

impl Laid {
    pub fn rays(&self) -> usize {
        self.heads.len() / 2
    }

    pub fn cells(&self) -> (&[f64], &[u64], &[u64]) {
        (&self.spans, &self.links, &self.heads)
    }

    pub fn lend(&self) -> LentStore {
        LentStore { spans: Lent::of(&self.spans, 0), links: Lent::of(&self.links, 0), heads: Lent::of(&self.heads, 0) }
    }

    /// Brings lent cells back to these.
    pub fn restore(&self, lent: &mut LentStore) {
        lent.spans.cells().copy_from_slice(&self.spans);
        lent.links.cells().copy_from_slice(&self.links);
        lent.heads.cells().copy_from_slice(&self.heads);
    }

    /// The store that lent cells of this one spell now.
    pub fn read(&self, lent: &LentStore, tally: Tally) -> Store {
        lent.read(self.links.len() / 2, self.heads.len(), tally.generation, tally.intervals)
    }
}
