use tridexel::{Axis, Blame, Change, Chord, Cutter, Log, LogEntry, Pass, Ray, Refusal, Shape, Spec, Stock};

fn spec() -> Spec {
    Spec { min_mm: [0.; 3], max_mm: [10.; 3], cell_size_mm: 3., max_rays: 48, max_intervals: 200 }
}

fn pass() -> Pass {
    Pass {
        axis: Axis::PosZ,
        shape: Shape::Ball,
        cutter: Cutter::ball(4., 8., 20.),
        guard_mm: 0.001,
        max_visits: 1000,
        max_entries: 100,
    }
}

#[test]
fn a_filled_stock_has_the_whole_box_on_each_ray() {
    let s = Stock::fill(spec()).unwrap();
    assert_eq!(s.grid().cells, [4; 3]);
    assert_eq!(s.grid().steps, [2.5; 3]);
    assert_eq!((s.tally().generation, s.tally().intervals), (0, 96));
    let whole = Ray { possible: vec![[0., 10.]], certain: vec![[0., 10.]] };
    assert!((0..3).all(|a| (0..16).all(|i| s.ray(a, i) == Some(whole.clone()))));
    assert_eq!(s.ray(0, 16), None);
    assert_eq!(s.ray(3, 0), None);
}

#[test]
fn descriptions_are_refused_by_cause() {
    let refused = |s: Spec| Stock::fill(s).unwrap_err();
    assert_eq!(refused(Spec { cell_size_mm: f64::NAN, ..spec() }), Refusal::Description);
    assert_eq!(refused(Spec { max_rays: 47, ..spec() }), Refusal::TooManyRays);
    assert_eq!(refused(Spec { max_intervals: 95, ..spec() }), Refusal::TooFewIntervals);
    assert_eq!(Refusal::Description.blame(), Blame::BlankAuthor);
    assert!(Stock::fill(Spec { max_intervals: 96, ..spec() }).is_ok());
}

#[test]
fn a_log_takes_its_hits_and_refused_logs_change_nothing() {
    let mut s = Stock::fill(spec()).unwrap();
    let log = Log::of(&[LogEntry { axis: 0., index: 5., outer: [1., 4.], inner: [2., 3.] }]);
    assert_eq!(s.commit_log(&log, 0), Err(Refusal::ChangedRays));
    assert_eq!(s.tally().generation, 0);
    assert_eq!(s.commit_log(&log, 1), Ok(1));
    assert_eq!(s.commit_log(&log, 0), Ok(0));
    assert_eq!((s.tally().generation, s.tally().intervals), (2, 98));
    let ray = s.ray(0, 5).unwrap();
    assert_eq!(ray.possible, [[0., 2.], [3., 10.]]);
    assert_eq!(ray.certain, [[0., 1.], [4., 10.]]);
    let nowhere = Log::of(&[LogEntry { axis: 1., index: 16., outer: [0., 1.], inner: [0., 0.] }]);
    assert_eq!(s.commit_log(&nowhere, 9), Err(Refusal::NoRay));
}

#[test]
fn a_change_list_needs_the_generation_and_the_old_lists() {
    let mut s = Stock::fill(spec()).unwrap();
    let before = s.ray(2, 7).unwrap();
    let after = Ray { possible: vec![[0., 8.]], certain: vec![[1., 8.]] };
    let change = Change { axis: 2, index: 7, before: before.clone(), after: after.clone() };
    assert_eq!(s.commit_changes(1, std::slice::from_ref(&change)), Err(Refusal::BaseGeneration));
    assert_eq!(s.commit_changes(0, std::slice::from_ref(&change)), Ok(1));
    assert_eq!(s.ray(2, 7), Some(after));
    assert_eq!(s.commit_changes(1, &[change]), Err(Refusal::Change));
    assert_eq!(s.commit_changes(1, &[]), Ok(0));
    assert_eq!(s.tally().generation, 2);
}

#[test]
fn a_sweep_is_refused_by_cause_and_its_log_commits() {
    let mut s = Stock::fill(spec()).unwrap();
    let chords = [Chord { a: [0., 5., 6.], b: [10., 5., 6.], e: 0.01 }];
    let sweep = |p: Pass| s.sweep(&p, &chords).unwrap_err();
    assert_eq!(sweep(Pass { shape: Shape::Beam, ..pass() }), Refusal::Beam);
    assert_eq!(sweep(Pass { guard_mm: 0., ..pass() }), Refusal::Chord);
    assert_eq!(sweep(Pass { max_visits: 0, ..pass() }), Refusal::Visits);
    assert_eq!(sweep(Pass { max_entries: 0, ..pass() }), Refusal::LogFull);
    let log = s.sweep(&pass(), &chords).unwrap();
    assert!(!log.is_empty() && log.len() as u64 <= log.visits);
    let before = s.volume();
    let changed = s.commit_log(&log, u64::MAX).unwrap();
    let after = s.volume();
    assert!(changed > 0 && after.remaining_upper_mm3 <= before.remaining_upper_mm3);
    // The rays along the tool axis are swept by the columns, which stay with the Rust.
    assert!(after.certain_mm3[0] < before.certain_mm3[0] && after.certain_mm3[2] == before.certain_mm3[2]);
}
