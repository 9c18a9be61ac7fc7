//! What docs/DIFFERENCES.md says of the port, on the inputs that it names; `oracle/findings` prints the Rust's answers to them.
use compare::{
    commits::Port,
    cutter::{BEAM, Tool, prepared, tool_of, tridexel_inner_check_tool},
    spans::{normalize, subtract},
    strips::{PlanePoint, tridexel_inner_stadium_strip},
    sweep::{Lending, port, spec},
};
use harness::{
    commits::{Entries, State},
    cutters, flat,
    generate::Gen,
    store::Store,
    wide::{LEAST, MOST},
};
use oracle::{
    dexel::opened as rust,
    tool::{CutterShape, opened::Given},
};

const INF: f64 = f64::INFINITY;

fn bits(list: &[f64]) -> Vec<u64> {
    list.iter().map(|x| x.to_bits()).collect()
}

/// The port's list and the Rust's, by bits.
fn normalized(list: &[[f64; 2]]) -> [Vec<u64>; 2] {
    let mut out = vec![7.; 2 * list.len()];
    let mut pairs = 0;
    assert_eq!(normalize(&flat(list), &mut out, &mut pairs), 0);
    [bits(&out[..2 * pairs]), bits(&flat(&rust::normalize(list.to_vec())))]
}

/// Row 5: which of the given zeros stands at an end follows the order of joining.
#[test]
fn joined_zeros() {
    let [port, rust] = normalized(&[[-INF, 0.], [-INF, -0.]]);
    assert_eq!((&port, &port), (&rust, &bits(&[-INF, 0.])));
    let [port, rust] = normalized(&[[1., 2.], [-1., 0.], [-1., -0.]]);
    assert_eq!((port, rust), (bits(&[-1., -0., 1., 2.]), bits(&[-1., 0., 1., 2.])));
}

/// What is taken leaves the first list's own zero.
#[test]
fn subtracted_zeros() {
    let (mut out, mut pairs) = ([7.; 4], 0);
    assert_eq!(subtract(&[-1., 0.], &[-0., 1.], &mut out, &mut pairs), 0);
    assert_eq!((pairs, bits(&out[..2])), (1, bits(&[-1., 0.])));
    assert_eq!(bits(&flat(&rust::subtract(&[[-1., 0.]], &[[-0., 1.]]))), bits(&[-1., 0.]));
}

/// One chord through the box 0 to 4 of cells of 1, the tool along +z: the number, the entries and the visits.
fn swept(tool: &Tool, chord: [f64; 8], budget: u64) -> (u32, usize, u64) {
    let described = rust::spec([0.; 3], [4.; 3], 1., 48, 96);
    let (spans, links, heads) = Store::fill(&described).cells();
    let lending = Lending {
        spec: spec([0.; 3], [4.; 3], 1., 48, 96),
        units: "mm",
        spans: &spans,
        links: &links,
        heads: &heads,
        intervals: 96,
        axis: 4,
        tool,
        guard: 1e-3,
        chords: &chord,
        budget,
    };
    let (mut log, mut entries, mut visits) = (vec![0.; 6 * 48], 0, 0);
    let number = port(&lending, &mut log, &mut entries, &mut visits);
    (number, entries, visits)
}

const LEVEL: [f64; 8] = [1., 2., 2., 3., 2., 2., 1e-3, 2.];

fn ball() -> Tool {
    tool_of(&Given {
        shape: CutterShape::Ball,
        diameter: 2.,
        cutting: 4.,
        overall: 8.,
        radius: 1.,
        tip_height: 1.,
        slope: 0.,
        shoulder: 4.,
        shank_diameter: 2.,
        neck_diameter: None,
    })
}

/// Row 8: for each clause of `Cutter::prepare` a cutter that it refuses and the port takes.
#[test]
fn unprepared_cutters() {
    let clauses = cutters::refused();
    assert_eq!(clauses.len(), 15);
    for (words, definition) in clauses {
        let refusal = definition.prepare().err().expect(words);
        assert!(refusal.contains(words), "{words}: {refusal}");
        let t = tool_of(&cutters::worked_out(&definition));
        assert_eq!(tridexel_inner_check_tool(t.kind, t.own[0], t.own[1], t.c), 0, "{words}");
        assert_eq!(swept(&t, LEVEL, u64::MAX).0, 0, "{words}");
    }
}

/// The other way, every tool that `Cutter::prepare` makes is taken, but for beams.
#[test]
fn prepared_cutters() {
    for k in 0..20_000 {
        let g = &mut Gen::new(1, "prepared", k);
        let radius = g.scale(LEAST, MOST);
        let t = prepared(g, radius);
        let due = if t.kind == BEAM { 5 } else { 0 };
        assert_eq!(tridexel_inner_check_tool(t.kind, t.own[0], t.own[1], t.c), due, "{t:?}");
    }
}

/// Row 11: any plan length between the larger and twice the larger local difference is taken.
#[test]
fn plan_lengths() {
    let strip = |length: f64| {
        let s = tridexel_inner_stadium_strip(PlanePoint { x: 0., y: 0. }, PlanePoint { x: 3., y: 4. }, length, 1., 2., 2.);
        [s.lo, s.hi]
    };
    assert_eq!([4., 5., 8.].map(strip), [[-0.0625, 3.0625], [0.25, 2.75], [0.71875, 2.28125]]);
    let number = |length: f64| swept(&ball(), [0., 0., 2., 3., 4., 2., 0., length], u64::MAX).0;
    assert_eq!([4f64.next_down(), 4., 5., 8., 8f64.next_up()].map(number), [7, 0, 0, 0, 7]);
}

/// Row 12: a list of one pair has one form, and a change to it is accepted.
#[test]
fn one_pair() {
    let described = rust::spec([0.; 3], [4.; 3], 4., 3, 6);
    let state = State::uncut(&described);
    let (mut lent, mut tally, mut changed) = (state.store.lend([0; 3]), state.tally(), 0);
    let lists = [0., 4., 0., 4., 0., 3., 0., 3.];
    assert_eq!(Port.commit_changes(&described, &mut lent, &mut tally, 0, &[0, 0, 1, 1, 1, 1], &lists, &mut changed), 0);
    assert_eq!(changed, 1);
}

/// Row 13: the budget counts lateral rays, 24 of the 56 that the Rust visits.
#[test]
fn visit_budget() {
    assert_eq!(swept(&ball(), LEVEL, u64::MAX).2, 24);
    assert_eq!(swept(&ball(), LEVEL, 24).0, 0);
    assert_eq!(swept(&ball(), LEVEL, 23).0, 8);
}
