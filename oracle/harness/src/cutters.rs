//! Cutters as camlib's constructor takes them: definitions of any size that it prepares, and for each of its clauses
//! one that it refuses.
use crate::generate::Gen;
use oracle::tool::{
    Cutter, CutterShape, Neck,
    opened::{Given, given},
};
use std::f64::consts::{FRAC_PI_2, PI};

pub const SHAPES: [&str; 9] = ["flat", "ball", "bull", "drill", "chamfer", "beam", "probe", "lollipop", "dovetail"];

/// The shape of this number with numbers of its own, for a cutter of this radius.
fn shape(g: &mut Gen, kind: u64, radius: f64) -> CutterShape {
    let part = if g.once_in(4) { 1. } else { g.unit() };
    match kind {
        0 => CutterShape::Flat,
        1 => CutterShape::Ball,
        2 => CutterShape::Bull { corner_radius_mm: radius * part },
        3 => CutterShape::Drill { point_angle_rad: g.within(0.001, PI - 0.001) },
        4 => CutterShape::Chamfer { included_angle_rad: g.within(0.001, PI - 0.001), tip_diameter_mm: 2. * radius * (1. - part) },
        5 => CutterShape::Beam,
        6 => CutterShape::Probe,
        7 => CutterShape::Lollipop,
        _ => CutterShape::Dovetail { flank_angle_rad: g.within(0.01, FRAC_PI_2 - 0.001) },
    }
}

/// The tip height and the slope that the constructor works out, without its tests.
fn tip_and_slope(shape: &CutterShape, radius: f64) -> (f64, f64) {
    match *shape {
        CutterShape::Flat | CutterShape::Beam => (0., 0.),
        CutterShape::Ball | CutterShape::Probe | CutterShape::Lollipop => (radius, 0.),
        CutterShape::Bull { corner_radius_mm } => (corner_radius_mm, 0.),
        CutterShape::Drill { point_angle_rad } => {
            let slope = (point_angle_rad / 2.).tan();
            (radius / slope, slope)
        }
        CutterShape::Chamfer { included_angle_rad, tip_diameter_mm } => {
            let slope = (included_angle_rad / 2.).tan();
            ((radius - tip_diameter_mm / 2.) / slope, slope)
        }
        CutterShape::Dovetail { flank_angle_rad } => (0., flank_angle_rad.tan()),
    }
}

/// The cutting length, and the widest diameter that may stand on it.
fn cutting_part(g: &mut Gen, shape: &CutterShape, radius: f64) -> (f64, f64) {
    let (tip_height, slope) = tip_and_slope(shape, radius);
    let cutting = match shape {
        CutterShape::Probe => 2. * radius,
        CutterShape::Lollipop => g.within(radius, 2. * radius),
        CutterShape::Dovetail { .. } => radius * slope * g.within(0.05, 0.95),
        _ if g.once_in(8) => tip_height.max(radius),
        _ => tip_height.max(0.2 * radius) * g.scale(1., 10.),
    };
    let widest = match shape {
        CutterShape::Lollipop => 2. * (cutting * (2. * radius - cutting)).max(0.).sqrt(),
        CutterShape::Dovetail { .. } => 2. * (radius - cutting / slope),
        _ => 2. * radius,
    };
    (cutting, widest)
}

/// A definition that the constructor accepts in most cases.
fn definition(g: &mut Gen, kind: u64, radius: f64) -> Cutter {
    let shape = shape(g, kind, radius);
    let (cutting, widest) = cutting_part(g, &shape, radius);
    let necked = match shape {
        CutterShape::Probe => false,
        CutterShape::Lollipop => true,
        _ => g.once_in(2),
    };
    let shank = match shape {
        CutterShape::Probe | CutterShape::Dovetail { .. } if !necked => widest * g.within(0.3, 0.99),
        _ => 2. * radius * g.scale(0.5, 2.),
    };
    let neck = necked.then(|| Neck { diameter_mm: widest.min(shank) * g.within(0.2, 1.), length_mm: radius * g.scale(0.1, 10.) });
    let shoulder = cutting + neck.as_ref().map_or(0., |n| n.length_mm);
    Cutter {
        id: "c".into(),
        name: String::new(),
        center_cutting: shape != CutterShape::Probe,
        shape,
        diameter_mm: 2. * radius,
        cutting_length_mm: cutting,
        overall_length_mm: shoulder + radius * g.scale(0.1, 20.),
        shank_diameter_mm: shank,
        flutes: 2,
        material: String::new(),
        neck,
    }
}

/// The numbers that the constructor gives a cutter of this shape and radius; the radius is brought to where it accepts
/// every shape.
pub fn prepared(g: &mut Gen, kind: u64, radius: f64) -> Given {
    let radius = radius.clamp(1e-5, 3e5);
    loop {
        if let Ok(c) = definition(g, kind, radius).prepare() {
            return given(&c);
        }
    }
}

/// The numbers of a definition as the constructor works them out, whether or not it accepts them.
pub fn worked_out(c: &Cutter) -> Given {
    let radius = c.diameter_mm / 2.;
    let (tip_height, slope) = tip_and_slope(&c.shape, radius);
    Given {
        shape: c.shape.clone(),
        diameter: c.diameter_mm,
        cutting: c.cutting_length_mm,
        overall: c.overall_length_mm,
        radius,
        tip_height,
        slope,
        shoulder: c.cutting_length_mm + c.neck.as_ref().map_or(0., |n| n.length_mm),
        shank_diameter: c.shank_diameter_mm,
        neck_diameter: c.neck.as_ref().map(|n| n.diameter_mm),
    }
}

/// A cutter 10 wide and 50 long that cuts along 20, without a neck.
fn plain(shape: CutterShape) -> Cutter {
    Cutter {
        id: "c".into(),
        name: String::new(),
        shape,
        diameter_mm: 10.,
        cutting_length_mm: 20.,
        overall_length_mm: 50.,
        shank_diameter_mm: 10.,
        flutes: 2,
        center_cutting: true,
        material: String::new(),
        neck: None,
    }
}

/// For each clause of `Cutter::prepare`, in its order, some words of its refusal and a definition that it refuses.
pub fn refused() -> Vec<(&'static str, Cutter)> {
    let flat = || plain(CutterShape::Flat);
    let neck = |diameter_mm: f64| Some(Neck { diameter_mm, length_mm: 5. });
    let lollipop = |cutting_length_mm: f64, neck| Cutter { cutting_length_mm, neck, ..plain(CutterShape::Lollipop) };
    let dovetail = |flank_angle_rad: f64| plain(CutterShape::Dovetail { flank_angle_rad });
    let long = |shape: CutterShape| Cutter { cutting_length_mm: 3e4, overall_length_mm: 5e4, ..plain(shape) };
    let chamfer = |tip_diameter_mm: f64| CutterShape::Chamfer { included_angle_rad: 1., tip_diameter_mm };
    vec![
        ("stable identifier", Cutter { id: String::new(), ..flat() }),
        ("diameter_mm must be finite, in [1e-6, 1e6]", Cutter { diameter_mm: 1e-7, ..flat() }),
        ("flutes must be in 1..=1000", Cutter { flutes: 0, ..flat() }),
        ("fit within cutter and shank diameters", Cutter { neck: neck(11.), ..flat() }),
        ("positive shank length", Cutter { overall_length_mm: 20., ..flat() }),
        ("the stylus is a ball", plain(CutterShape::Probe)),
        ("needs a neck", lollipop(8., None)),
        ("between its radius and its diameter", lollipop(4., neck(2.))),
        ("neck must fit the sphere", lollipop(9., neck(8.))),
        ("flank angle must be finite", dovetail(1.57)),
        ("flank must end", dovetail(1.)),
        ("corner radius must be positive", plain(CutterShape::Bull { corner_radius_mm: 6. })),
        ("tool included angle", long(CutterShape::Drill { point_angle_rad: 0.0005 })),
        ("chamfer tip diameter", plain(chamfer(10.))),
        ("complete tool tip geometry", Cutter { cutting_length_mm: 4., ..plain(CutterShape::Ball) }),
    ]
}
