//! The cutter against camlib's, and the limits of a tool against document 01's words (camlib has none of them but the beam).
use crate::{
    function::{Function, Outcome, Words},
    strips::{Answer, answers},
};
use harness::{
    cutters,
    generate::Gen,
    wide::{LEAST, MOST},
};
use oracle::{
    dexel::opened::sweep as rust,
    tool::{CutterShape, PreparedAssembly, opened::Given},
};

pub use tridexel::Cutter as PreparedCutter;

#[derive(Clone, Copy)]
#[repr(C)]
pub struct RadiusNumbers {
    pub kind: u64,
    pub radius: f64,
}

unsafe extern "C" {
    pub safe fn tridexel_inner_radius_at(kind: u64, m: f64, n: f64, c: PreparedCutter, z: f64) -> RadiusNumbers;
    pub safe fn tridexel_inner_widest_height(c: PreparedCutter) -> f64;
    pub safe fn tridexel_inner_cut_radius(kind: u64, m: f64, n: f64, c: PreparedCutter, h: f64) -> f64;
    pub safe fn tridexel_inner_cut_max(kind: u64, m: f64, n: f64, c: PreparedCutter, h0: f64, h1: f64) -> RadiusNumbers;
    pub safe fn tridexel_inner_cut_min(kind: u64, m: f64, n: f64, c: PreparedCutter, h0: f64, h1: f64) -> RadiusNumbers;
    pub safe fn tridexel_inner_check_tool(kind: u64, m: f64, n: f64, c: PreparedCutter) -> u32;
}

pub const SHAPES: u64 = cutters::SHAPES.len() as u64;
const BULL: u64 = 2;
const CHAMFER: u64 = 4;
pub const BEAM: u64 = 5;
const DOVETAIL: u64 = 8;

/// A shape by its number and its own numbers, the cutter's numbers, and one or two heights.
#[derive(Clone, Debug)]
pub struct Tool {
    pub kind: u64,
    pub own: [f64; 2],
    pub c: PreparedCutter,
    pub h: [f64; 2],
}

impl Words for Tool {
    fn words(&self) -> String {
        format!("{} {} {} {}", self.kind, self.own.words(), self.c.numbers().words(), self.h.words())
    }
}

/// A tool as package `oracle` or `oracle_len` has it: the text of both is camlib's, but their types are their own.
macro_rules! assembled {
    ($package:ident, $tool:expr) => {{
        use $package::tool::{
            CutterShape,
            opened::{Given, prepared},
        };
        let crate::cutter::Tool { kind, own: [m, n], c, .. } = $tool;
        prepared(&Given {
            shape: match *kind {
                0 => CutterShape::Flat,
                1 => CutterShape::Ball,
                2 => CutterShape::Bull { corner_radius_mm: *m },
                3 => CutterShape::Drill { point_angle_rad: *m },
                4 => CutterShape::Chamfer { included_angle_rad: *m, tip_diameter_mm: *n },
                5 => CutterShape::Beam,
                6 => CutterShape::Probe,
                7 => CutterShape::Lollipop,
                _ => CutterShape::Dovetail { flank_angle_rad: *m },
            },
            diameter: c.diameter_mm,
            cutting: c.cutting_length_mm,
            overall: c.overall_length_mm,
            radius: c.radius,
            tip_height: c.tip_height,
            slope: c.slope,
            shoulder: c.shoulder,
            shank_diameter: c.shank_diameter_mm,
            neck_diameter: Some(c.neck_diameter_mm),
        })
    }};
}
pub(crate) use assembled;

pub fn assembly(t: &Tool) -> PreparedAssembly {
    assembled!(oracle, t)
}

/// The tool of these numbers. Where there is no neck its diameter is the shank's.
pub fn tool_of(g: &Given) -> Tool {
    let (kind, own) = match g.shape {
        CutterShape::Flat => (0, [0.; 2]),
        CutterShape::Ball => (1, [0.; 2]),
        CutterShape::Bull { corner_radius_mm } => (2, [corner_radius_mm, 0.]),
        CutterShape::Drill { point_angle_rad } => (3, [point_angle_rad, 0.]),
        CutterShape::Chamfer { included_angle_rad, tip_diameter_mm } => (4, [included_angle_rad, tip_diameter_mm]),
        CutterShape::Beam => (BEAM, [0.; 2]),
        CutterShape::Probe => (6, [0.; 2]),
        CutterShape::Lollipop => (7, [0.; 2]),
        CutterShape::Dovetail { flank_angle_rad } => (DOVETAIL, [flank_angle_rad, 0.]),
    };
    let c = PreparedCutter {
        diameter_mm: g.diameter,
        cutting_length_mm: g.cutting,
        overall_length_mm: g.overall,
        neck_diameter_mm: g.neck_diameter.unwrap_or(g.shank_diameter),
        shank_diameter_mm: g.shank_diameter,
        radius: g.radius,
        tip_height: g.tip_height,
        slope: g.slope,
        shoulder: g.shoulder,
    };
    Tool { kind, own, c, h: [0.; 2] }
}

fn length(g: &mut Gen, most: f64) -> f64 {
    match g.below(4) {
        0 => (g.below(2 * most as u64) + 1) as f64 / 2.,
        _ => g.within(1e-3, most),
    }
}

/// A height that is often at a place where the profile changes.
fn height(g: &mut Gen, t: &Tool) -> f64 {
    let x = match g.below(10) {
        0 => t.c.tip_height,
        1 => t.c.cutting_length_mm,
        2 => t.c.shoulder,
        3 => t.c.overall_length_mm,
        4 => 0.,
        5 => return g.double(),
        6 => g.within(-1., t.c.overall_length_mm + 1.),
        _ => return g.within(0., t.c.tip_height.max(1e-3)),
    };
    g.pick(&[x, x, x.next_up(), x.next_down()])
}

/// A tool as camlib's constructor makes them, more or less, so that most are within the limits.
pub fn likely(g: &mut Gen) -> Tool {
    let kind = g.below(SHAPES);
    let radius = length(g, 8.);
    let own = [length(g, radius.max(1.)).min(3.), length(g, radius.max(1.))];
    let slope = (own[0] / 2.).tan().abs();
    let tip_height = match kind {
        1 | 6 | 7 => radius,
        2 => own[0],
        3 | 4 => radius / slope.max(1e-3),
        _ => 0.,
    };
    let cutting = length(g, 20.);
    let shoulder = cutting + if g.once_in(2) { 0. } else { length(g, 10.) };
    let diameter = if g.once_in(8) { length(g, 16.) } else { 2. * radius };
    let shank = length(g, 16.);
    let neck = if g.once_in(2) { shank } else { length(g, 16.) };
    let c = PreparedCutter {
        diameter_mm: diameter,
        cutting_length_mm: cutting,
        overall_length_mm: shoulder + length(g, 30.),
        neck_diameter_mm: neck,
        shank_diameter_mm: shank,
        radius,
        tip_height,
        slope,
        shoulder,
    };
    let mut t = Tool { kind, own, c, h: [0.; 2] };
    t.h = [height(g, &t), height(g, &t)];
    t
}

fn odd(g: &mut Gen, x: f64) -> f64 {
    let limit: f64 = g.pick(&[0., 1e6, 1e-6]);
    match g.below(24) {
        0 => g.pick(&[limit, limit.next_up(), limit.next_down()]),
        1 => g.double(),
        _ => x,
    }
}

/// A likely tool with a number here and there that is any double, or stands at a limit.
pub fn any(g: &mut Gen) -> Tool {
    let t = likely(g);
    let own = t.own.map(|x| odd(g, x));
    let c = PreparedCutter::of_numbers(t.c.numbers().map(|x| odd(g, x)));
    Tool { own, c, ..t }
}

/// A height at, next to or between the places where the profile changes.
fn place(g: &mut Gen, c: &PreparedCutter) -> f64 {
    let places = [0., c.tip_height, c.cutting_length_mm, c.shoulder, c.overall_length_mm];
    let x = g.pick(&places);
    match g.below(5) {
        0 => x,
        1 => x.next_up(),
        2 => x.next_down(),
        _ => x + g.within(-0.1, 1.) * (g.pick(&places) - x),
    }
}

fn with_heights(g: &mut Gen, mut t: Tool) -> Tool {
    t.h = [place(g, &t.c), place(g, &t.c)];
    g.sign_zeros(&mut t.h);
    t
}

/// A tool of about this radius as camlib's constructor makes it.
pub fn prepared(g: &mut Gen, radius: f64) -> Tool {
    let kind = g.below(SHAPES);
    let t = tool_of(&cutters::prepared(g, kind, radius));
    with_heights(g, t)
}

/// A likely tool with its lengths in proportion to this radius, but none past the limit; its zeros have either sign.
pub fn in_proportion(g: &mut Gen, radius: f64) -> Tool {
    let mut t = likely(g);
    let (factor, slope) = (radius / t.c.radius, t.c.slope);
    let mut numbers = t.c.numbers().map(|x| (x * factor).min(MOST));
    g.sign_zeros(&mut numbers);
    t.c = PreparedCutter { slope, ..PreparedCutter::of_numbers(numbers) };
    match t.kind {
        BULL => t.own[0] *= factor,
        CHAMFER => t.own[1] *= factor,
        _ => {}
    }
    with_heights(g, t)
}

/// A tool of any size, or one with numbers that no constructor makes.
pub fn wide(g: &mut Gen) -> Tool {
    let radius = g.scale(LEAST, MOST);
    match g.below(4) {
        0 => in_proportion(g, radius),
        1 => prepared(g, radius),
        _ => any(g),
    }
}

/// A tool for which camlib's `Profile` is made and its `clamp` does not panic.
fn mills(t: &Tool) -> bool {
    t.kind != BEAM && t.c.cutting_length_mm >= 0.
}

/// The first that mills of the tools which `make` makes.
fn first_that_mills(g: &mut Gen, make: impl Fn(&mut Gen) -> Tool) -> Tool {
    loop {
        let t = make(g);
        if mills(&t) {
            return t;
        }
    }
}

pub fn milling(g: &mut Gen) -> Tool {
    first_that_mills(g, |g| if g.once_in(2) { likely(g) } else { any(g) })
}

fn wide_milling(g: &mut Gen) -> Tool {
    first_that_mills(g, wide)
}

pub fn rust_radius_at(t: &Tool) -> Answer {
    let s = assembly(t).cutter().radius_at(t.h[0]);
    s.map_or((0, [0.; 2]), |s| (if s.cutting { 1 } else { 2 }, [s.radius_mm, 0.]))
}

pub fn rust_widest_height(t: &Tool) -> Answer {
    (1, [assembly(t).cutter().widest_height(), 0.])
}

pub fn rust_cut_radius(t: &Tool) -> Answer {
    (1, [rust::cut_radius(&assembly(t), t.h[0]), 0.])
}

fn radius(r: Option<f64>) -> Answer {
    r.map_or((0, [0.; 2]), |r| (1, [r, 0.]))
}

pub fn rust_cut_max(t: &Tool) -> Answer {
    radius(rust::cut_max(&assembly(t), t.h[0], t.h[1]))
}

pub fn rust_cut_min(t: &Tool) -> Answer {
    radius(rust::cut_min(&assembly(t), t.h[0], t.h[1]))
}

/// Document 01's refusals 5 and 6, said by what must not hold.
pub fn refusal(t: &Tool) -> Answer {
    let c = &t.c;
    let beam = rust::refuses(&assembly(t));
    let own = match t.kind {
        BULL | 3 | DOVETAIL => &t.own[..1],
        CHAMFER => &t.own[..],
        _ => &[],
    };
    let nan = c.numbers().iter().chain(own).any(|x| x.is_nan());
    let positive = [c.diameter_mm, c.cutting_length_mm, c.radius];
    let limit = positive.iter().any(|x| *x <= 0. || *x > 1e6)
        || [c.tip_height, c.slope, c.shoulder].iter().chain(own).any(|x| *x < 0. || *x > 1e6)
        || c.overall_length_mm < c.cutting_length_mm
        || c.overall_length_mm > 1e6
        || (t.kind == DOVETAIL && c.slope < 1e-6);
    (
        if beam {
            5
        } else if nan || limit {
            6
        } else {
            0
        },
        [0.; 2],
    )
}

fn numbers(r: RadiusNumbers) -> Answer {
    (r.kind, [r.radius, 0.])
}

/// Document 01's example, at height 2, with every shape.
pub fn edges() -> Vec<Tool> {
    let c = PreparedCutter {
        diameter_mm: 10.,
        cutting_length_mm: 10.,
        overall_length_mm: 50.,
        neck_diameter_mm: 8.,
        shank_diameter_mm: 9.,
        radius: 5.,
        tip_height: 5.,
        slope: 1.,
        shoulder: 20.,
    };
    (0..SHAPES).map(|kind| Tool { kind, own: [1., 2.], c, h: [2., 10.] }).collect()
}

pub fn milling_edges() -> Vec<Tool> {
    edges().into_iter().filter(|t| t.kind != BEAM).collect()
}

pub fn functions() -> Vec<Function> {
    let port = |t: &Tool, f: &dyn Fn(u64, f64, f64, PreparedCutter) -> Answer| f(t.kind, t.own[0], t.own[1], t.c);
    vec![
        Function::new("radius_at", edges(), wide, move |t| {
            answers(rust_radius_at(t), port(t, &|k, m, n, c| numbers(tridexel_inner_radius_at(k, m, n, c, t.h[0]))))
        }),
        Function::new("widest_height", edges(), wide, |t| {
            answers(rust_widest_height(t), (1, [tridexel_inner_widest_height(t.c), 0.]))
        }),
        Function::new("cut_radius", milling_edges(), wide_milling, move |t| {
            answers(rust_cut_radius(t), port(t, &|k, m, n, c| (1, [tridexel_inner_cut_radius(k, m, n, c, t.h[0]), 0.])))
        }),
        Function::new("cut_max", milling_edges(), wide_milling, move |t| {
            answers(rust_cut_max(t), port(t, &|k, m, n, c| numbers(tridexel_inner_cut_max(k, m, n, c, t.h[0], t.h[1]))))
        }),
        Function::new("cut_min", milling_edges(), wide_milling, move |t| {
            answers(rust_cut_min(t), port(t, &|k, m, n, c| numbers(tridexel_inner_cut_min(k, m, n, c, t.h[0], t.h[1]))))
        }),
        Function::new("check_tool", edges(), wide, move |t| -> Outcome {
            answers(refusal(t), port(t, &|k, m, n, c| (tridexel_inner_check_tool(k, m, n, c) as u64, [0.; 2])))
        }),
    ]
}
