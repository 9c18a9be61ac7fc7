//! Where the Rust and document 01 part, or where the Rust surprises: each finding is run on a small input and printed with it.
//! `findings [NAME [COUNT]]`: all findings, or the one of this name; COUNT is for those that try random inputs.
use harness::{cutters, generate::Gen, grid, hex};
use oracle::{
    dexel::{Axis, DexelStock, Ray, RayChange, Spans, opened as rust, opened::sweep},
    motion::{Curve, Motion, MoveKind},
    stock::{Never, SweepOptions},
    tool::{CutterShape, opened as tool},
};
use oracle_len::dexel::opened::sweep as of_length;
use std::hint::black_box;

const INF: f64 = f64::INFINITY;

/// A name, what was found, and the run that shows it.
type Finding = (&'static str, &'static str, fn(u64));

const FINDINGS: [Finding; 25] = [
    ("zeros", "`max` and `min` of two zeros of opposite sign: Rust leaves open which one comes back", zeros),
    ("joined-zeros", "which of the given zeros stands at an end of a normalised list follows the order of joining", joined_zeros),
    ("prepare", "`Cutter::prepare` refuses cutters whose numbers, worked out in its own way, the port accepts", prepare),
    ("plan-length", "the plan length of a chord decides how wide its stadium is; the Rust takes `hypot`", plan_length),
    ("visit-budget", "the Rust's budget counts every ray that it visits, also those along the tool", visit_budget),
    ("nan-order", "`total_cmp` puts NaNs at both ends, by their bits; the port has one NaN, above all else", nan_order),
    ("infinite-ends", "`Ray::valid` demands finite ends; document 01 does not", infinite_ends),
    ("empty-ray", "an empty ray is valid within NaN or reversed bounds", empty_ray),
    ("empty-length", "the length of an empty list is -0.0; document 01 says plus zero", empty_length),
    ("negative-radius", "a negative radius gives a strip", negative_radius),
    ("probe-cuts", "a probe cuts as a ball does, though its comment says that it never changes the stock", probe_cuts),
    (
        "visits-diameter",
        "rays are visited by half the diameter and hit by the radius; as free inputs the two may disagree",
        visits_diameter,
    ),
    ("volume-order", "uncut stock: the remaining volume's lower bound is above its upper bound, by rounding", volume_order),
    ("volume-removed", "uncut stock: the removed volume's lower bound is above zero, by rounding", volume_removed),
    ("least-step", "no step is below the resolution limit, so the error for it never comes", least_step),
    ("rounded-quotient", "cells come from the rounded quotient: fewer than the exact ceiling", rounded_quotient),
    ("cell-lookup", "the cell that a coordinate is put in is not the one whose bounds hold it", cell_lookup),
    (
        "clip-places",
        "eight places are needed for arbitrary corners; the stadium's own corners were not seen to need them",
        clip_places,
    ),
    ("inner-outside", "an inner pair that sticks out of its outer pair, from the sweep itself", inner_outside),
    ("rays-implied", "an axis with more cells than `max_rays` always means more rays than `max_rays`", rays_implied),
    ("rays-total", "the total of the rays can pass 64 bits before it is compared with `max_rays`", rays_total),
    ("last-generation", "at the highest generation the rays are overwritten before the error", last_generation),
    ("zero-change", "a change that only swaps a zero's sign is turned away", zero_change),
    ("one-pair-many", "`Many` of one pair is no valid list and equals none, though the pairs are the same", one_pair_many),
    ("hypot", "`hypot` is symmetric, no less than the larger and no more than twice the larger of its arguments' sizes", hypot),
];

fn main() {
    let mut words = std::env::args().skip(1);
    let name = words.next();
    let count = words.next().map_or(1_000_000, |n| n.parse().expect("COUNT is a number"));
    let mut shown = 0;
    for (key, what, run) in FINDINGS {
        if name.as_deref().is_none_or(|n| n == key) {
            println!("{key}: {what}");
            run(count);
            shown += 1;
        }
    }
    if shown == 0 {
        eprintln!("no finding of this name; the names are: {}, cover", FINDINGS.map(|f| f.0).join(", "));
        std::process::exit(2);
    }
}

fn bits(x: f64) -> String {
    format!("{x:?} ({})", hex(x))
}

fn given(shape: CutterShape, radius: f64, cutting: f64, tip_height: f64, slope: f64) -> tool::Given {
    tool::Given {
        shape,
        diameter: 2. * radius,
        cutting,
        overall: 2. * cutting,
        radius,
        tip_height,
        slope,
        shoulder: cutting,
        shank_diameter: 2. * radius,
        neck_diameter: None,
    }
}

fn chord(a: [f64; 3], b: [f64; 3]) -> sweep::WorldChord {
    sweep::WorldChord { a, b, e: 0., length: None }
}

/// A box from 0 to `max` with as many rays and intervals as it wants; None where the grid refuses it.
fn stock(min: [f64; 3], max: [f64; 3], cell: f64) -> Option<DexelStock> {
    DexelStock::new(rust::spec(min, max, cell, 1_000_000, 10_000_000)).ok()
}

/// The box 0 to 4 with one cell, every ray with these lists.
fn uniform(generation: u64, ray: &Ray) -> DexelStock {
    let spec = rust::spec([0.; 3], [4.; 3], 4., 100, 1000);
    let grid = spec.grid().unwrap();
    rust::stock(spec, generation, std::array::from_fn(|a| vec![ray.clone(); grid.rays(a)]))
}

fn zeros(_: u64) {
    for (name, f) in [("max", f64::max as fn(f64, f64) -> f64), ("min", f64::min)] {
        for (a, b) in [(-0., 0.), (0., -0.)] {
            println!("  ({a:?}).{name}({b:?}) = {}", bits(black_box(f)(black_box(a), black_box(b))));
        }
    }
}

fn joined_zeros(_: u64) {
    let (below, below_minus) = ([-INF, 0.], [-INF, -0.]);
    let lists = [
        vec![below, below_minus],
        vec![below_minus, below],
        vec![[1., 2.], [-1., 0.], [-1., -0.]],
        vec![[1., 2.], [-1., -0.], [-1., 0.]],
    ];
    for l in lists {
        println!("  normalize {l:?}: {:?}", rust::normalize(l.clone()));
    }
}

fn prepare(_: u64) {
    for (_, c) in cutters::refused() {
        let g = cutters::worked_out(&c);
        println!(
            "  {:?}, diameter {}, cutting {}, overall {}, neck {:?}",
            c.shape, g.diameter, g.cutting, g.overall, g.neck_diameter
        );
        println!("    radius {}, tip height {}, slope {}, shoulder {}", g.radius, g.tip_height, g.slope, g.shoulder);
        println!("    refused: {}", c.prepare().err().expect("a cutter that is refused"));
    }
}

fn plan_length(_: u64) {
    let (a, b) = ([0., 0.], [3., 4.]);
    println!("  stadium_strip({a:?}, {b:?}, 1, 2, 2) = {:?}", sweep::stadium_strip(a, b, 1., 2., 2.));
    for length in [4., 5., 8.] {
        println!("    with the length {length}: {:?}", of_length::stadium_strip_of(length, a, b, 1., 2., 2.));
    }
}

/// A ball of radius 1 along a line through the box 0 to 4, by the whole sweep and by its lateral rays alone.
fn visit_budget(_: u64) {
    let (a, b) = ([1., 2., 2.], [3., 2., 2.]);
    let t = tool::prepared(&given(CutterShape::Ball, 1., 4., 1., 0.));
    let s = stock([0.; 3], [4.; 3], 1.).unwrap();
    let motion =
        Motion { id: 1, operation: "o".into(), tool: "t".into(), curve: Curve::Line { start: a, end: b }, kind: MoveKind::Feed };
    let swept = |max_cell_visits: u64| {
        let options =
            SweepOptions { tolerance_mm: 1e-3, max_tip_step_mm: 1., max_segments: 9, max_cell_visits, max_changed_cells: 999 };
        s.preview_sweep(&t, &motion, 1., options, &Never).map(|d| d.stats().visited_rays)
    };
    let mut log = vec![];
    let c = sweep::WorldChord { e: 1e-3, ..chord(a, b) };
    let lateral = sweep::sweep(&s, &t, Axis::PosZ, 1e-3, &[c], u64::MAX, &mut log).unwrap();
    println!("  box 0 to 4, cell 1, ball of radius 1 from {a:?} to {b:?}: {lateral} lateral rays");
    println!("    all rays: {:?}; with a budget of {lateral}: {:?}", swept(u64::MAX), swept(lateral));
}

fn nan_order(_: u64) {
    for b in [0x7ff8000000000000u64, 0xfff8000000000000] {
        let x = f64::from_bits(b);
        println!("  NaN {b:016x}: against -inf {:?}, against inf {:?}", x.total_cmp(&-INF), x.total_cmp(&INF));
    }
    let (p, q) = (f64::from_bits(0x7ff8000000000000), f64::from_bits(0x7ff8000000000001));
    println!("  NaN {} against NaN {}: {:?}", hex(p), hex(q), p.total_cmp(&q));
}

fn infinite_ends(_: u64) {
    for l in [[-INF, 0.], [0., INF], [0., 1.]] {
        println!(
            "  bounds [-inf, inf], possible {l:?}, certain none: valid {}",
            rust::valid(&rust::ray(vec![l], vec![]), -INF, INF)
        );
    }
}

fn empty_ray(_: u64) {
    for (lo, hi) in [(f64::NAN, f64::NAN), (1., -1.)] {
        println!("  bounds [{lo}, {hi}], both lists empty: valid {}", rust::valid(&rust::ray(vec![], vec![]), lo, hi));
    }
}

fn empty_length(_: u64) {
    println!("  length of []: {}", bits(rust::ray(vec![], vec![]).certain.length()));
}

fn negative_radius(_: u64) {
    println!("  stadium_strip([0,0], [1,0], -1, 0, 0) = {:?}", sweep::stadium_strip([0., 0.], [1., 0.], -1., 0., 0.));
    println!("  disk_strip([0,0], -1, 0, 0) = {:?}", sweep::disk_strip([0., 0.], -1., 0., 0.));
    let t = tool::prepared(&given(CutterShape::Dovetail { flank_angle_rad: 0. }, 1., 4., 0., 1.));
    println!("  dovetail of radius 1, slope 1, cutting length 4:");
    println!("    cut_radius(3) = {}", sweep::cut_radius(&t, 3.));
    println!("    cut_max(3, 4) = {:?}, cut_min(0, 4) = {:?}", sweep::cut_max(&t, 3., 4.), sweep::cut_min(&t, 0., 4.));
    let c = chord([1., 2., -3.5], [3., 2., -3.5]);
    let (mut log, mut visits) = (vec![], 0);
    let one = stock([0.; 3], [4.; 3], 4.).unwrap();
    sweep::across(&one, &t, Axis::PosZ, 1e-3, c, 0, &mut visits, 9, &mut log);
    println!("    box 0 to 4, one cell, guard 1e-3, {c:?}, X ray: {log:?}");
}

fn probe_cuts(_: u64) {
    let t = tool::prepared(&given(CutterShape::Probe, 1., 2., 1., 0.));
    let c = chord([1., 2., 2.], [3., 2., 2.]);
    let (mut log, mut visits) = (vec![], 0);
    sweep::across(&stock([0.; 3], [4.; 3], 0.5).unwrap(), &t, Axis::PosZ, 1e-3, c, 0, &mut visits, 999, &mut log);
    println!("  probe of radius 1, refused: {}", sweep::refuses(&t));
    println!("  box 0 to 4, cell 0.5, guard 1e-3, {c:?}: {visits} visited, {} hit, the first {:?}", log.len(), log[0]);
}

fn visits_diameter(_: u64) {
    let c = chord([1., 2., 1.], [3., 2., 1.]);
    for diameter in [4., 0.5] {
        let t = tool::prepared(&tool::Given { diameter, ..given(CutterShape::Flat, 2., 2., 0., 0.) });
        let (mut log, mut visits) = (vec![], 0);
        sweep::across(&stock([0.; 3], [4.; 3], 0.5).unwrap(), &t, Axis::PosZ, 1e-3, c, 0, &mut visits, 999, &mut log);
        println!("  flat cutter of radius 2 and diameter {diameter}, box 0 to 4, cell 0.5, guard 1e-3, {c:?}:");
        println!("    {visits} visited, {} hit, the first {:?}", log.len(), log[0]);
    }
}

/// The boxes whose extents are tenths up to `most`, with these cell sizes.
fn tenths(most: u32, cells: &'static [f64]) -> impl Iterator<Item = ([f64; 3], f64, DexelStock)> {
    let extents = move || (1..=most).flat_map(move |x| (1..=x).flat_map(move |y| (1..=y).map(move |z| [x, y, z])));
    cells.iter().flat_map(move |&cell| {
        extents().filter_map(move |e| {
            let max = e.map(|n| n as f64 * 0.1);
            Some((max, cell, stock([0.; 3], max, cell)?))
        })
    })
}

fn volume_order(_: u64) {
    let found = tenths(10, &[1., 0.5, 0.25, 0.2, 0.1]).map(|(max, cell, s)| (max, cell, s.volume()));
    for (max, cell, v) in found.filter(|(_, _, v)| v.remaining_lower_mm3 > v.remaining_upper_mm3).take(3) {
        println!("  box 0 to {max:?}, cell {cell}: lower {:e} > upper {:e}", v.remaining_lower_mm3, v.remaining_upper_mm3);
    }
}

fn volume_removed(_: u64) {
    let found = tenths(20, &[1., 0.5, 0.2, 0.1]).map(|(max, cell, s)| (max, cell, s.volume()));
    for (max, cell, v) in found.filter(|(_, _, v)| v.removed_lower_mm3 > 0.).take(2) {
        println!("  box 0 to {max:?}, cell {cell}: removed at least {:e}; grids {:?}", v.removed_lower_mm3, v.grids_mm3);
    }
}

fn least_step(count: u64) {
    let (mut accepted, mut one, mut more, mut limit) = (0u64, INF, INF, 0f64);
    for case in 0..count {
        let q = grid::fine(&mut Gen::new(1, "least-step", case));
        let answer = q.answer();
        assert_ne!(answer.refused, 4, "{q:?}");
        if answer.refused == 0 {
            accepted += 1;
            for (cells, step) in answer.cells.into_iter().zip(answer.steps) {
                let least = if cells == 1 { &mut one } else { &mut more };
                *least = least.min(step);
            }
            limit = q.min.iter().chain(&q.max).fold(limit, |most, x| most.max(128. * f64::EPSILON * x.abs()));
        }
    }
    println!("  of {count} blanks {accepted} are accepted; the least step of one cell is {one:e}, of more {more:e},");
    println!("  and 128 epsilon times the largest bound {limit:e}");
}

fn rounded_quotient(_: u64) {
    let mut shown = 0;
    for (n, c) in (1..200).flat_map(|n| (1..40).map(move |c| (n, c))) {
        let (extent, cell) = (n as f64 / 10., c as f64 / 10.);
        let cells = (extent / cell).ceil();
        // rounded once, so the sign of extent - cells * cell is exact
        if (-cells).mul_add(cell, extent) > 0. && shown < 3 {
            let step = stock([0.; 3], [extent; 3], cell).unwrap().grid().step_mm[0];
            println!("  extent {extent}, cell size {cell}: {cells} cells, exact ceiling {}, step {}", cells + 1., bits(step));
            shown += 1;
        }
    }
}

fn cell_lookup(_: u64) {
    let mut shown = 0;
    for (n, min) in (2..60).flat_map(|n| [0., 0.1, -0.1, 1.].map(|m| (n, m))) {
        let s = stock([min; 3], [min + n as f64 * 0.1; 3], 0.1).unwrap();
        let cells = s.grid().cells[0];
        for i in 1..cells {
            let b = s.cell_bound(0, i);
            for (x, should) in [(b, i), (b.next_down(), i - 1)] {
                let visited = sweep::rays(&s, Axis::PosZ, 2, [[x, x], [min, min], [0., 0.]], 1000).unwrap();
                let cell = visited[0].0 % cells;
                if cell != should && shown < 4 {
                    println!("  box {min} to {}, {cells} cells, bound {i} is {}:", min + n as f64 * 0.1, bits(b));
                    println!("    x = {} is put in cell {cell}, by the bounds it lies in {should}", bits(x));
                    shown += 1;
                }
            }
        }
    }
}

fn clip_places(count: u64) {
    let corners = [[0., 1.], [1., -1.], [2., 1.], [3., -1.]];
    println!("  polygon_strip of {corners:?}, band 0 to 0.5: {:?}", sweep::polygon_strip(corners, 0., 0.5));
    let mut alternating = 0;
    for case in 0..count {
        let mut g = Gen::new(0, "corners", case);
        let m = g.scale(1e-3, 2e6);
        let (a, b) = (g.within(-m, m), g.within(-m, m));
        let b = if g.once_in(2) { a + g.within(-1., 1.) * m * 1e-15 } else { b };
        let n = g.within(-1., 1.) * g.scale(1e-18, 1.) * m;
        let y = [a + n, b + n, b - n, a - n];
        for bound in y {
            for s in [y.map(|y| y >= bound), y.map(|y| y <= bound)] {
                alternating += (s[0] != s[1] && s[1] != s[2] && s[2] != s[3]) as u64;
            }
        }
    }
    println!("  {count} rounded parallelograms: {alternating} with corners alternately on either side of a corner's height");
}

fn inner_outside(count: u64) {
    let fine = stock([0.; 3], [4.; 3], 0.5).unwrap();
    let (mut inners, mut outside) = (0u64, 0u64);
    for case in 0..count {
        let mut g = Gen::new(0, "inner", case);
        let r = g.within(0.5, 3.);
        let shape = g.pick(&[CutterShape::Ball, CutterShape::Flat, CutterShape::Lollipop]);
        let tip = if shape == CutterShape::Flat { 0. } else { r };
        let t = tool::prepared(&given(shape, r, 2. * r, tip, 0.));
        let a: [f64; 3] = std::array::from_fn(|_| g.within(0., 4.));
        let mut b: [f64; 3] = std::array::from_fn(|_| g.within(0., 4.));
        match g.below(4) {
            0 => b[0] = a[0] + a[0] * f64::EPSILON * (g.below(9) as f64 - 4.),
            1 => b[0] = a[0] + g.within(-1e-9, 1e-9),
            2 => b[1] = a[1] + a[1] * f64::EPSILON * (g.below(9) as f64 - 4.),
            _ => {}
        }
        if g.once_in(2) {
            b[2] = a[2];
        }
        let (mut log, mut visits) = (vec![], 0);
        sweep::across(&fine, &t, Axis::PosZ, 1e-300, chord(a, b), 0, &mut visits, u64::MAX, &mut log);
        for (i, o) in log.iter().filter_map(|e| Some((e.inner?, e.outer))) {
            inners += 1;
            outside += (i[0] < o[0] || i[1] > o[1]) as u64;
        }
    }
    println!("  {outside} of {inners} inner pairs, from {count} chords with e 0 and guard 1e-300");
}

fn rays_implied(_: u64) {
    let code = |max_rays| rust::grid_code(&rust::spec([0.; 3], [5., 1., 1.], 1., max_rays, 1000).grid().unwrap_err());
    println!("  box 5 x 1 x 1, cell 1 (11 rays): max_rays 4 gives {}, max_rays 10 gives {}", code(4), code(10));
    println!("  each axis has at least one cell, so the rays are at least as many as the cells of any axis");
}

fn rays_total(_: u64) {
    let spec = rust::spec([-1e6; 3], [1e6; 3], 1e-5, u32::MAX as usize, usize::MAX);
    println!("  box -1e6 to 1e6, cell 1e-5: {}", spec.grid().unwrap_err());
}

fn last_generation(_: u64) {
    let before = rust::ray(vec![[0., 4.]], vec![[0., 4.]]);
    let after = rust::ray(vec![[0., 3.]], vec![[0., 3.]]);
    let mut s = uniform(u64::MAX, &before);
    let change = RayChange { axis: 0, index: 0, before, after };
    println!("  ray 0 from [0, 4] to [0, 3]: {:?}", rust::apply(&mut s, u64::MAX, &[change]));
    println!("  its possible list afterwards: {:?}", s.rays(0)[0].possible);
}

fn zero_change(_: u64) {
    let before = rust::ray(vec![[0., 4.]], vec![[0., 4.]]);
    let after = rust::ray(vec![[-0., 4.]], vec![[-0., 4.]]);
    let s = uniform(0, &before);
    println!("  ray 0 from [0, 4] to [-0, 4]: {:?}", rust::validate(&s, &[RayChange { axis: 0, index: 0, before, after }]));
}

fn one_pair_many(_: u64) {
    let many = || Ray { possible: Spans::Many([[0., 4.]].into()), certain: Spans::One([0., 4.]) };
    let none = Ray { possible: Spans::Many([].into()), certain: Spans::Empty };
    let one = || rust::ray(vec![[0., 4.]], vec![[0., 4.]]);
    println!("  within 0 to 4, {:?}: valid {}", many(), rust::valid(&many(), 0., 4.));
    println!("  within 0 to 4, {none:?}: valid {}", rust::valid(&none, 0., 4.));
    let less = || rust::ray(vec![[0., 3.]], vec![[0., 3.]]);
    let less_many = Ray { possible: Spans::Many([[0., 3.]].into()), certain: Spans::One([0., 3.]) };
    let s = uniform(0, &one());
    for (before, after) in [(one(), less()), (many(), less()), (one(), less_many)] {
        let [from, to] = [&before, &after].map(|r| format!("{:?}", r.possible));
        println!("  change from {from} to {to}: {:?}", rust::validate(&s, &[RayChange { axis: 0, index: 0, before, after }]));
    }
}

fn hypot(count: u64) {
    let mut broken = 0;
    for case in 0..count {
        let mut g = Gen::new(0, "hypot", case);
        let (x, y) = (g.within(-4e6, 4e6), g.within(-1., 1.) * g.scale(1e-12, 4e6));
        let h = black_box(x).hypot(black_box(y));
        let larger = x.abs().max(y.abs());
        broken += (h.to_bits() != black_box(y).hypot(black_box(x)).to_bits() || h < larger || h > 2. * larger) as u64;
    }
    println!("  {broken} of {count} broke this");
}
