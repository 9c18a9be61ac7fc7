//! The grid, the cutter and the strips against camlib's. The Rust works out a stadium's plan length itself; the port is given it. A profile of the
//! Rust is made once.
use crate::timing::Table;
use compare::{
    cutter::{self, BEAM, Tool, assembly, likely},
    grid,
    strips::{self, at},
};
use harness::{
    generate::Gen,
    grid::{Query, UNITS},
};
use oracle::{dexel::opened::sweep as rust, tool::PreparedAssembly};
use std::hint::black_box;

const N: usize = 1000;

/// Tools as mills have them, of the shape of this number or of any, with heights along their cutting part.
fn tools(kind: Option<u64>) -> Vec<Tool> {
    let mut g = Gen::new(1, "tools", kind.unwrap_or(99));
    let mut out = vec![];
    while out.len() < N {
        let mut t = likely(&mut g);
        t.kind = kind.unwrap_or(t.kind);
        if t.kind == BEAM {
            continue;
        }
        let height = |g: &mut Gen| g.within(0., t.c.cutting_length_mm);
        let (a, b) = (height(&mut g), height(&mut g));
        t.h = [a.min(b), a.max(b)];
        out.push(t);
    }
    out
}

/// A row of N calls on each side, whose answers must come to the same sum.
fn sum_row(table: &Table, what: &str, mut port: impl FnMut() -> f64, mut rust: impl FnMut() -> f64) {
    assert_eq!(port(), rust(), "{what}");
    table.row(what, N, port, rust);
}

fn cutter_rows(table: &Table, what: &str, tools: &[Tool]) {
    let built: Vec<PreparedAssembly> = tools.iter().map(assembly).collect();
    let heights: Vec<rust::Heights> = built.iter().map(rust::Heights::new).collect();
    let port = |f: fn(&Tool) -> f64| move || black_box(tools).iter().map(f).sum::<f64>();
    sum_row(
        table,
        &format!("radius_at, {what}"),
        port(|t| cutter::tridexel_inner_radius_at(t.kind, t.own[0], t.own[1], t.c, t.h[0]).radius),
        || built.iter().zip(tools).map(|(a, t)| a.cutter().radius_at(black_box(t.h[0])).map_or(0., |s| s.radius_mm)).sum::<f64>(),
    );
    sum_row(
        table,
        &format!("cut_max, {what}"),
        port(|t| cutter::tridexel_inner_cut_max(t.kind, t.own[0], t.own[1], t.c, t.h[0], t.h[1]).radius),
        || heights.iter().zip(tools).map(|(p, t)| p.cut_max(black_box(t.h[0]), t.h[1]).unwrap_or(0.)).sum::<f64>(),
    );
    sum_row(
        table,
        &format!("cut_min, {what}"),
        port(|t| cutter::tridexel_inner_cut_min(t.kind, t.own[0], t.own[1], t.c, t.h[0], t.h[1]).radius),
        || heights.iter().zip(tools).map(|(p, t)| p.cut_min(black_box(t.h[0]), t.h[1]).unwrap_or(0.)).sum::<f64>(),
    );
}

/// Inputs with no infinity and no NaN.
fn inputs(name: &str, make: fn(&mut Gen) -> Vec<f64>) -> Vec<Vec<f64>> {
    let ordinary = |x: &Vec<f64>| x.iter().all(|x| x.abs() <= 100.);
    (0..).map(|k| make(&mut Gen::new(1, name, k))).filter(ordinary).take(N).collect()
}

/// With the length that the Rust works out itself.
fn stadium(g: &mut Gen) -> Vec<f64> {
    let mut x = strips::stadium(g);
    x[4] = (x[2] - x[0]).hypot(x[3] - x[1]);
    x
}

fn strip_row(
    table: &Table,
    name: &str,
    inputs: Vec<Vec<f64>>,
    port: fn(&[f64]) -> strips::StripNumbers,
    rust: fn(&[f64]) -> Option<[f64; 2]>,
) {
    let lo = |s: strips::StripNumbers| if s.hit == 1 { s.lo } else { 0. };
    sum_row(
        table,
        name,
        || black_box(&inputs).iter().map(|x| lo(port(x))).sum::<f64>(),
        || black_box(&inputs).iter().map(|x| rust(x).map_or(0., |s| s[0])).sum::<f64>(),
    );
}

pub fn rows(table: &mut Table) {
    table.heading("grid, cutter and strips, per call");
    let q = Query::new([0.; 3], [200., 200., 50.], 1.);
    let (spec, described) = (q.spec(), grid::described(&q));
    let port = || {
        let (mut counts, mut steps) = ([0; 3], [0.; 3]);
        assert_eq!(grid::grid(*black_box(&described), UNITS[0].as_bytes(), &mut counts, &mut steps), 0);
        (counts, steps)
    };
    let due = spec.grid().unwrap();
    assert_eq!(port(), (due.cells.map(|c| c as u64), due.step_mm));
    table.row("grid", 1, port, || black_box(&spec).grid().unwrap());
    cutter_rows(table, "ball", &tools(Some(1)));
    cutter_rows(table, "all shapes", &tools(None));
    strip_row(
        table,
        "disk_strip",
        inputs("disk", strips::disk),
        |x| strips::tridexel_inner_disk_strip(at(x, 0), x[2], x[3], x[4]),
        |x| rust::disk_strip([x[0], x[1]], x[2], x[3], x[4]),
    );
    strip_row(
        table,
        "polygon_strip",
        inputs("polygon", strips::polygon),
        |x| strips::tridexel_inner_polygon_strip(at(x, 0), at(x, 2), at(x, 4), at(x, 6), x[8], x[9]),
        |x| rust::polygon_strip([[x[0], x[1]], [x[2], x[3]], [x[4], x[5]], [x[6], x[7]]], x[8], x[9]),
    );
    strip_row(
        table,
        "stadium_strip",
        inputs("stadium", stadium),
        |x| strips::tridexel_inner_stadium_strip(at(x, 0), at(x, 2), x[4], x[5], x[6], x[7]),
        |x| rust::stadium_strip([x[0], x[1]], [x[2], x[3]], x[5], x[6], x[7]),
    );
}
