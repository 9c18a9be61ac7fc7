//! The fill, the volume and the check of a store on about 60,000 rays. `volume` checks the store too, the Rust does not. The check alone stands beside the
//! machine's copy of the same bytes.
use crate::{
    laid::{Laid, laid, uncut},
    timing::Table,
};
use compare::{
    grid::{DexelGrid, grid},
    stock::{check_stock, fill, ten, volume},
};
use harness::store::LentStore;
use oracle::dexel::DexelStock;
use std::hint::black_box;

/// 142 cells along each axis: 60,492 rays.
pub const CELLS: f64 = 142.;
pub const BOX: [f64; 3] = [CELLS; 3];
pub const RAYS: usize = 60_492;

/// Each ray in five intervals; as many records are free as are used.
pub fn cut() -> Laid {
    let lists = |_, _| [vec![[0., 20.], [30., 50.], [60., 142.]], vec![[1., 19.], [61., 141.]]];
    laid(BOX, 1., lists, 5 * RAYS)
}

/// The volume of a store as the port has it and as the Rust has it.
pub fn volume_row(table: &Table, what: &str, s: &Laid, rust: &DexelStock, cells: (&[f64], &[u64], &[u64]), intervals: u64) {
    let measure = || {
        let mut ten = [0.; 10];
        assert_eq!(volume(black_box(s.spec), b"mm", cells, intervals, &mut ten), 0);
        ten
    };
    assert_eq!(measure(), ten(rust.volume()));
    table.row(&format!("volume, {what}, per ray"), RAYS, measure, || black_box(rust).volume());
}

fn rows_of(table: &Table, what: &str, s: &Laid) {
    volume_row(table, what, s, &s.rust, s.cells(), s.tally.intervals);
    let (mut c, mut step) = ([0; 3], [0.; 3]);
    assert_eq!(grid(s.spec, b"mm", &mut c, &mut step), 0);
    let g = DexelGrid { c0: c[0], c1: c[1], c2: c[2], s0: step[0], s1: step[1], s2: step[2] };
    let mut copy = (s.spans.clone(), s.links.clone(), s.heads.clone());
    let check = || assert!(check_stock(black_box(s.spec), g, s.cells(), s.tally.intervals));
    table.row(&format!("check, {what}, per record (copy)"), s.links.len() / 2, check, || {
        copy.0.copy_from_slice(black_box(&s.spans));
        copy.1.copy_from_slice(black_box(&s.links));
        copy.2.copy_from_slice(black_box(&s.heads));
        black_box(&copy);
    });
}

pub fn rows(table: &mut Table) {
    table.heading("stock of 60,492 rays; where the row says copy, the second column is the machine's copy of the store's bytes");
    let uncut = uncut(BOX, 1., 2 * RAYS);
    assert_eq!(uncut.rays(), RAYS);
    rows_of(table, "uncut", &uncut);
    rows_of(table, "cut", &cut());
    let spec = uncut.rust.spec();
    let mut lent = uncut.lend();
    lent.spans.cells().fill(f64::NAN);
    let lay = |lent: &mut LentStore| {
        let (mut generation, mut intervals) = (0, 0);
        assert_eq!(fill(black_box(uncut.spec), b"mm", lent, &mut generation, &mut intervals), 0);
        intervals
    };
    assert_eq!(lay(&mut lent), uncut.tally.intervals);
    assert_eq!((lent.spans.read(), lent.links.read(), lent.heads.read()), uncut.cells());
    table.row("fill, per ray", RAYS, || lay(&mut lent), || DexelStock::new(black_box(spec).clone()).unwrap());
}
