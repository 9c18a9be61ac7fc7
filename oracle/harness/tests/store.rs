//! Runs of logs: the Rust (merge, then commit) beside the model of the lent store and the model of point sets that document 01
//! describes under "A run of logs".
use harness::{Pair, generate::Gen, holds, store::Store};
use oracle::dexel::{DexelStock, opened as rust, opened::sweep};

fn entry(g: &mut Gen, st: &DexelStock) -> sweep::Entry {
    let axis = g.below(3) as usize;
    let index = g.below(st.grid().rays(axis) as u64) as usize;
    let mut pair = || [g.below(21) as f64 / 2. - 0.5, g.below(21) as f64 / 2. - 0.5];
    let (outer, inner) = (pair(), pair());
    sweep::Entry { axis, index, outer, inner: Some(inner) }
}

#[test]
fn runs() {
    let (mut commits, mut refused, mut fullest) = (0, [0; 2], 0);
    for case in 0..3000 {
        let mut g = Gen::new(0, "runs", case);
        let extra = g.below(12) as usize;
        let spec = rust::spec([0.; 3], [10.; 3], 5., 12, 24 + extra);
        let mut st = DexelStock::new(spec.clone()).unwrap();
        let mut store = Store::fill(&spec);
        // the model of point sets, over the half-steps that all ends lie on: per ray possible, certain
        let mut sets = vec![[[true; 20]; 2]; 12];
        assert!(store.sound(&spec));
        for _ in 0..g.below(12) {
            let n = g.below(6);
            let log: Vec<_> = (0..n).map(|_| entry(&mut g, &st)).collect();
            let most = g.pick(&[12, 12, 2]);
            let mut after = sets.clone();
            for e in &log {
                let ray = harness::store::ray_number(&st, e.axis, e.index);
                let inside = |s: Pair, k: usize| holds(&[s], k as f64 / 2.);
                let [possible, certain] = &mut after[ray];
                for (k, (p, c)) in possible.iter_mut().zip(certain).enumerate() {
                    let (o, i) = (inside(e.outer, k), inside(e.inner.unwrap(), k));
                    *p &= !i;
                    *c &= !o && !i;
                }
            }
            let changed = (0..12).filter(|r| after[*r] != sets[*r]).count();
            let runs = |s: &[bool; 20]| (0..20).filter(|k| s[*k] && (*k == 0 || !s[*k - 1])).count();
            let total: usize = after.iter().flatten().map(runs).sum();
            let want = if changed > most {
                9
            } else if total > spec.max_intervals {
                10
            } else {
                0
            };
            let got = match sweep::merge(&st, sweep::group(&log), most) {
                None => 9,
                Some(ch) => {
                    let base = st.generation();
                    let mut next = st.clone();
                    match rust::apply(&mut next, base, &ch) {
                        Ok(()) => {
                            assert_eq!(ch.len(), changed);
                            store.commit(&st, &ch);
                            st = next;
                            sets = after;
                            0
                        }
                        Err(code) => code,
                    }
                }
            };
            assert_eq!(got, want);
            match got {
                9 => refused[0] += 1,
                10 => refused[1] += 1,
                _ => commits += 1,
            }
            assert!(store.sound(&spec));
            assert_eq!(store.rays(), (0..3).flat_map(|a| st.rays(a).to_vec()).collect::<Vec<_>>());
            assert_eq!((store.generation, store.intervals), (st.generation(), rust::interval_total(&st) as u64));
            fullest = fullest.max(store.intervals as usize * 100 / spec.max_intervals);
            for (ray, s) in sets.iter().enumerate() {
                for (kind, s) in s.iter().enumerate() {
                    let l = store.list(2 * ray + kind).unwrap();
                    for (k, want) in s.iter().enumerate() {
                        assert_eq!(holds(&l, k as f64 / 2.), *want);
                    }
                }
            }
        }
    }
    println!("{commits} commits, refused with 9 and 10: {refused:?}, fullest store {fullest} %");
    assert!(commits > 5000 && refused[0] > 500 && refused[1] > 500 && fullest == 100);
}
