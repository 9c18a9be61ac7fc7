//! The message's week: a blank is described, a ball cutter's pass is cut into chords and swept, its log committed, and both volumes are read.
use tridexel::{Axis, Chord, Cutter, Pass, Refusal, Shape, Spec, Stock};

/// A pass along a sine groove, as chords. The sagitta of a chord over the curve is at most h² k / 8, where k bounds the curvature.
fn groove(steps: usize) -> Vec<Chord> {
    let (length, amplitude, waves) = (80., 6., 2.);
    let w = waves * std::f64::consts::TAU / length;
    let at = |i: usize| {
        let x = length * i as f64 / steps as f64;
        [x, 25. + amplitude * (w * x).sin(), 14.]
    };
    let h = length / steps as f64 * (1. + amplitude * w);
    let e = h * h * amplitude * w * w / 8.;
    (0..steps).map(|i| Chord { a: at(i), b: at(i + 1), e }).collect()
}

fn main() -> Result<(), Refusal> {
    let mut stock = Stock::fill(Spec {
        min_mm: [0., 0., 0.],
        max_mm: [80., 50., 20.],
        cell_size_mm: 0.5,
        max_rays: 1_000_000,
        max_intervals: 200_000,
    })?;
    let grid = stock.grid();
    println!(
        "blank     80 x 50 x 20 mm, {} x {} x {} cells, {} rays",
        grid.cells[0],
        grid.cells[1],
        grid.cells[2],
        grid.total_rays()
    );

    let pass = Pass {
        axis: Axis::PosZ,
        shape: Shape::Ball,
        cutter: Cutter::ball(10., 20., 60.),
        guard_mm: 0.001,
        max_visits: 10_000_000,
        max_entries: 1_000_000,
    };
    let chords = groove(160);
    let log = stock.sweep(&pass, &chords)?;
    println!("sweep     {} chords, {} rays visited, {} hits", chords.len(), log.visits, log.len());

    let changed = stock.commit_log(&log, u64::MAX)?;
    let tally = stock.tally();
    println!("commit    {changed} rays changed, generation {}, {} intervals", tally.generation, tally.intervals);

    let again = stock.commit_log(&log, u64::MAX)?;
    println!("again     {again} rays changed, generation {}", stock.tally().generation);

    match stock.commit_log(&log, 0) {
        Ok(n) => println!("no ray allowed: {n} changed, as none was left to change"),
        Err(r) => println!("no ray allowed: {r}"),
    }

    // The rays along the tool axis are swept by the columns, which stay with the Rust.
    let v = stock.volume();
    for (axis, name) in ["x", "y"].into_iter().enumerate() {
        println!("rays along {name}: certain {:.3}, possible {:.3} of 80000 mm3", v.certain_mm3[axis], v.possible_mm3[axis]);
    }

    let ray = stock.ray(1, 40 * grid.cells[2] + 30).unwrap_or_default();
    println!("a ray across the groove: possible {:?}", ray.possible);
    println!("                         certain  {:?}", ray.certain);
    Ok(())
}
