//! What a sweep is made with: the tool, its axis, its budgets and its chords.

/// The direction from the tool's tip toward the spindle.
#[derive(Clone, Copy, Debug, Eq, PartialEq)]
#[repr(u64)]
pub enum Axis {
    PosX = 0,
    NegX = 1,
    PosY = 2,
    NegY = 3,
    PosZ = 4,
    NegZ = 5,
}

/// A cutter's shape with its own numbers.
#[derive(Clone, Copy, Debug, PartialEq)]
pub enum Shape {
    Flat,
    Ball,
    /// Corner radius.
    Bull(f64),
    /// Point angle in radians.
    Drill(f64),
    /// Included angle in radians and tip diameter.
    Chamfer(f64, f64),
    /// Refused with 5.
    Beam,
    Probe,
    Lollipop,
    /// Flank angle in radians, from the tip face.
    Dovetail(f64),
}

impl Shape {
    /// The number of the case, and the case's own numbers.
    pub(crate) fn numbers(self) -> (u64, f64, f64) {
        match self {
            Shape::Flat => (0, 0., 0.),
            Shape::Ball => (1, 0., 0.),
            Shape::Bull(x) => (2, x, 0.),
            Shape::Drill(x) => (3, x, 0.),
            Shape::Chamfer(x, y) => (4, x, y),
            Shape::Beam => (5, 0., 0.),
            Shape::Probe => (6, 0., 0.),
            Shape::Lollipop => (7, 0., 0.),
            Shape::Dovetail(x) => (8, x, 0.),
        }
    }
}

/// A cutter's numbers beside its shape, in millimetres.
#[derive(Clone, Copy, Debug, PartialEq)]
#[repr(C)]
pub struct Cutter {
    pub diameter_mm: f64,
    pub cutting_length_mm: f64,
    pub overall_length_mm: f64,
    pub neck_diameter_mm: f64,
    pub shank_diameter_mm: f64,
    pub radius: f64,
    pub tip_height: f64,
    pub slope: f64,
    pub shoulder: f64,
}

impl Cutter {
    /// A ball cutter of this diameter with a straight shank.
    pub fn ball(diameter_mm: f64, cutting_length_mm: f64, overall_length_mm: f64) -> Cutter {
        let radius = diameter_mm / 2.;
        Cutter {
            diameter_mm,
            cutting_length_mm,
            overall_length_mm,
            neck_diameter_mm: diameter_mm,
            shank_diameter_mm: diameter_mm,
            radius,
            tip_height: radius,
            slope: 0.,
            shoulder: 0.,
        }
    }

    /// A flat end mill of this diameter with a straight shank.
    pub fn flat(diameter_mm: f64, cutting_length_mm: f64, overall_length_mm: f64) -> Cutter {
        Cutter { tip_height: 0., ..Cutter::ball(diameter_mm, cutting_length_mm, overall_length_mm) }
    }

    /// The numbers in the header's order.
    pub fn numbers(&self) -> [f64; 9] {
        [
            self.diameter_mm,
            self.cutting_length_mm,
            self.overall_length_mm,
            self.neck_diameter_mm,
            self.shank_diameter_mm,
            self.radius,
            self.tip_height,
            self.slope,
            self.shoulder,
        ]
    }

    /// The cutter of these numbers, in the header's order.
    pub fn of_numbers(x: [f64; 9]) -> Cutter {
        Cutter {
            diameter_mm: x[0],
            cutting_length_mm: x[1],
            overall_length_mm: x[2],
            neck_diameter_mm: x[3],
            shank_diameter_mm: x[4],
            radius: x[5],
            tip_height: x[6],
            slope: x[7],
            shoulder: x[8],
        }
    }
}

/// A straight move of the tool's tip from a to b in world coordinates; e bounds how far the true path strays from it.
#[derive(Clone, Copy, Debug, PartialEq)]
pub struct Chord {
    pub a: [f64; 3],
    pub b: [f64; 3],
    pub e: f64,
}

impl Chord {
    /// The eight doubles of the C interface; the plan length is `hypot` of the two differences across the tool axis.
    pub(crate) fn cells(&self, axis: Axis) -> [f64; 8] {
        let w = axis as usize / 2;
        let across = |k: usize| self.b[(w + k) % 3] - self.a[(w + k) % 3];
        let ([a0, a1, a2], [b0, b1, b2]) = (self.a, self.b);
        [a0, a1, a2, b0, b1, b2, self.e, across(1).hypot(across(2))]
    }
}

/// The tool and the budgets of a sweep.
#[derive(Clone, Copy, Debug, PartialEq)]
pub struct Pass {
    pub axis: Axis,
    pub shape: Shape,
    pub cutter: Cutter,
    /// Outer pairs are widened and inner pairs narrowed by it.
    pub guard_mm: f64,
    /// How many rays may be visited (8).
    pub max_visits: u64,
    /// For how many entries the log has room (16).
    pub max_entries: usize,
}
