//! The Rust's list functions and merge loop against document 01's point sets, exhaustively over short lists.
use harness::{
    Pair,
    generate::{all_lists, all_sound},
    holds, sound,
};
use oracle::dexel::opened as rust;

const INF: f64 = f64::INFINITY;

/// The ends, their neighbours and points between: every part of the line that these ends cut has one.
fn sample_points(ends: &[f64]) -> Vec<f64> {
    let mut v: Vec<f64> = ends.iter().flat_map(|x| [*x, x.next_up(), x.next_down()]).filter(|x| !x.is_nan()).collect();
    v.extend([0.5, 1.5, -0.5, 1e300, -1e300]);
    v
}

#[test]
fn sound_lists() {
    // consecutive doubles among them: [1, next_up(1)] holds one point
    let points = [-INF, -1., 0., f64::from_bits(1), 1., 1f64.next_up(), 2., INF];
    let lists = all_sound(&points);
    let at = sample_points(&points);
    let mut n = 0u64;
    for a in &lists {
        for b in &lists {
            let (s, i) = (rust::subtract(a, b), rust::intersect(a, b));
            assert!(sound(&s) && sound(&i), "{a:?} {b:?}");
            assert!(s.len() <= a.len() + b.len() && i.len() <= a.len() + b.len());
            for p in &at {
                assert_eq!(holds(&s, *p), holds(a, *p) && !holds(b, *p), "{a:?} less {b:?} at {p}");
                assert_eq!(holds(&i, *p), holds(a, *p) && holds(b, *p), "{a:?} meets {b:?} at {p}");
            }
            assert_eq!(rust::contains(a, b), at.iter().all(|p| !holds(b, *p) || holds(a, *p)), "{a:?} contains {b:?}");
            assert_eq!(rust::overlaps(a, b), at.iter().any(|p| holds(a, *p) && holds(b, *p)), "{a:?} overlaps {b:?}");
            n += 1;
        }
    }
    assert_eq!(n, 128 * 128);
}

#[test]
fn any_lists() {
    let doubles = [-INF, -0., 0., 1., 1f64.next_up(), 2., INF, f64::NAN];
    let at = sample_points(&doubles);
    let mut n = 0u64;
    for len in 0..=3 {
        all_lists(&doubles, len, |l| {
            let r = rust::normalize(l.to_vec());
            assert!(sound(&r), "{l:?}");
            for p in &at {
                assert_eq!(holds(&r, *p), holds(l, *p), "{l:?} at {p}");
            }
            n += 1;
        });
    }
    assert_eq!(n, 1 + 64 + 4096 + 262144);
}

/// The merge loop, over every valid ray and every pair of hit lists of at most one pair each:
/// possible loses inner, certain loses outer and inner.
#[test]
fn merge() {
    let points = [0., 1., 2., 3., 4.];
    let lists = all_sound(&points);
    let hits: Vec<Vec<Pair>> =
        all_sound(&[-1., 0., 1., 2.5, 4., 5.]).into_iter().chain([vec![[2., 1.], [1., f64::NAN]]]).collect();
    let at = sample_points(&[-1., 0., 1., 2., 2.5, 3., 4., 5.]);
    for p in &lists {
        for c in lists.iter().filter(|c| rust::contains(p, c)) {
            let ray = rust::ray(p.clone(), c.clone());
            assert!(rust::valid(&ray, 0., 4.));
            let none = || rust::ray(vec![], vec![]);
            let st = rust::stock(rust::spec([0.; 3], [4.; 3], 4., 3, 6), 0, [vec![ray], vec![none()], vec![none()]]);
            for o in &hits {
                for i in &hits {
                    let r = rust::sweep::merge_one(&st, o.clone(), i.clone());
                    let (np, nc) = r.clone().unwrap_or((p.clone(), c.clone()));
                    assert!(rust::valid(&rust::ray(np.clone(), nc.clone()), 0., 4.));
                    let mut moved = false;
                    for x in &at {
                        let (wp, wc) = (holds(p, *x) && !holds(i, *x), holds(c, *x) && !holds(o, *x) && !holds(i, *x));
                        assert_eq!((holds(&np, *x), holds(&nc, *x)), (wp, wc), "{p:?} {c:?} {o:?} {i:?} at {x}");
                        moved |= (wp, wc) != (holds(p, *x), holds(c, *x));
                    }
                    assert_eq!(r.is_some(), moved, "{p:?} {c:?} {o:?} {i:?}");
                }
            }
        }
    }
}
