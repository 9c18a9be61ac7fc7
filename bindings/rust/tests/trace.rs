use tridexel::{Blame, Log, LogEntry, Pair, Ray, Reason, Refusal, Spec, Stock, trace};

const TEN: Pair = [0., 10.];

fn uncut() -> Ray {
    Ray { possible: vec![TEN], certain: vec![TEN] }
}

fn holds(list: &[Pair], p: f64) -> bool {
    list.iter().any(|[lo, hi]| *lo <= p && p < *hi)
}

#[test]
fn each_reason_names_the_first_entry() {
    let ray = Ray { certain: vec![[0., 5.]], ..uncut() };
    let nan = f64::NAN;
    let entries = [[nan, nan, 1., 4., 0., 0.], [7., -1., 1., 3., 2., 3.], [0., 0., 0., 5., 2., 9.]];
    let why = |place| trace(&ray, TEN, &entries, place);
    assert_eq!(why(10.), Ok(Reason::NotPossible));
    assert_eq!(why(f64::NEG_INFINITY), Ok(Reason::NotPossible));
    assert_eq!(why(2.), Ok(Reason::RemovedBy(2)));
    assert_eq!(why(3.), Ok(Reason::RemovedBy(3)));
    assert_eq!(why(1.), Ok(Reason::UncertainBy(1)));
    assert_eq!(why(-0.), Ok(Reason::UncertainBy(3)));
    assert_eq!(why(9.), Ok(Reason::NotCertain));
    assert_eq!(trace(&ray, TEN, &entries[..2], -0.), Ok(Reason::StillCertain));
}

#[test]
fn a_ray_is_refused_before_a_place() {
    let faulty = Ray { certain: vec![[0., 11.]], ..uncut() };
    assert_eq!(trace(&faulty, TEN, &[], f64::NAN), Err(Refusal::Unsound));
    assert_eq!(trace(&uncut(), [0., 9.], &[], 1.), Err(Refusal::Unsound));
    assert_eq!(trace(&uncut(), TEN, &[], f64::NAN), Err(Refusal::Place));
    assert_eq!(Refusal::Place.blame(), Blame::CallingProgram);
    assert_eq!(Refusal::Place.to_string(), "refused 19: the place is a NaN");
}

#[test]
fn the_entries_on_a_ray_are_those_that_name_it() {
    let entry = |axis, index, lo| LogEntry { axis, index, outer: [lo, lo + 1.], inner: [0., 0.] };
    let log = Log::of(&[entry(1., 2., 5.), entry(2., 1., 6.), entry(1., 2., 3.), entry(-0., -0., 7.), entry(1., f64::NAN, 8.)]);
    assert_eq!(log.entries_on(1, 2), [[1., 2., 5., 6., 0., 0.], [1., 2., 3., 4., 0., 0.]]);
    assert_eq!(log.entries_on(0, 0), [[0., 0., 7., 8., 0., 0.]]);
    assert!(log.entries_on(2, 2).is_empty());
}

/// Whether possible and certain have the place, by the reason.
fn shows(reason: Reason) -> (bool, bool) {
    match reason {
        Reason::NotPossible | Reason::RemovedBy(_) => (false, false),
        Reason::UncertainBy(_) | Reason::NotCertain => (true, false),
        Reason::StillCertain => (true, true),
    }
}

#[test]
fn a_reason_is_what_the_commits_of_the_logs_do() {
    let spec = Spec { min_mm: [0.; 3], max_mm: [10.; 3], cell_size_mm: 5., max_rays: 12, max_intervals: 60 };
    let mut stock = Stock::fill(spec).unwrap();
    let entry = |axis, index, outer, inner| LogEntry { axis, index, outer, inner };
    let first = Log::of(&[
        entry(1., 0., [1., 4.], [2., 3.]),
        entry(0., 3., [0., 9.], [1., 8.]),
        entry(1., 0., [6., 7.], [0., 0.]),
        entry(1., 2., [0., 5.], [3., 5.]),
    ]);
    let second = Log::of(&[entry(0., 3., [0., 2.], [0., 1.]), entry(1., 0., [3., 8.], [7., 9.])]);
    let refused = Log::of(&[entry(1., 0., TEN, TEN), entry(1., 4., TEN, TEN)]);
    let filled = stock.clone();
    stock.commit_log(&first, 3).unwrap();
    assert_eq!(stock.commit_log(&refused, 9), Err(Refusal::NoRay));
    stock.commit_log(&second, 2).unwrap();
    let why = |axis, index, place| {
        let entries = [first.entries_on(axis, index), second.entries_on(axis, index)].concat();
        trace(&filled.ray(axis, index).unwrap(), TEN, &entries, place).unwrap()
    };
    assert_eq!(
        (why(1, 0, 6.), why(1, 0, 7.), why(0, 3, 0.)),
        (Reason::UncertainBy(2), Reason::RemovedBy(3), Reason::RemovedBy(2))
    );
    for (axis, index) in (0..3).flat_map(|axis| (0..4).map(move |index| (axis, index))) {
        let after = stock.ray(axis, index).unwrap();
        for place in (-2..22).map(|k| k as f64 / 2.) {
            let has = (holds(&after.possible, place), holds(&after.certain, place));
            assert_eq!(has, shows(why(axis, index, place)), "at {place} on {axis}, {index}");
        }
    }
}
