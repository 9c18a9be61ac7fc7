//! Opens the private fields of tool.rs: `PreparedCutter` and `PreparedAssembly` from their numbers.
use super::*;

/// What document 01 makes inputs: the shape, and the numbers that the constructor works out.
#[derive(Clone, Debug)]
pub struct Given {
    pub shape: CutterShape,
    pub diameter: f64,
    pub cutting: f64,
    pub overall: f64,
    pub radius: f64,
    pub tip_height: f64,
    pub slope: f64,
    pub shoulder: f64,
    pub shank_diameter: f64,
    pub neck_diameter: Option<f64>,
}

pub fn prepared(g: &Given) -> PreparedAssembly {
    let cutter = Cutter {
        id: "c".into(),
        name: String::new(),
        shape: g.shape.clone(),
        diameter_mm: g.diameter,
        cutting_length_mm: g.cutting,
        overall_length_mm: g.overall,
        shank_diameter_mm: g.shank_diameter,
        flutes: 2,
        center_cutting: true,
        material: String::new(),
        neck: g.neck_diameter.map(|diameter_mm| Neck { diameter_mm, length_mm: g.shoulder - g.cutting }),
    };
    PreparedAssembly {
        definition: ToolAssembly {
            id: "t".into(),
            cutter: cutter.clone(),
            stickout_mm: g.overall,
            gauge_length_mm: g.overall,
            holders: vec![],
        },
        cutter: PreparedCutter {
            definition: cutter,
            radius: g.radius,
            tip_height: g.tip_height,
            slope: g.slope,
            shoulder: g.shoulder,
        },
    }
}

/// The numbers that camlib's constructor gives a real cutter.
pub fn given(c: &PreparedCutter) -> Given {
    Given {
        shape: c.definition.shape.clone(),
        diameter: c.definition.diameter_mm,
        cutting: c.definition.cutting_length_mm,
        overall: c.definition.overall_length_mm,
        radius: c.radius,
        tip_height: c.tip_height,
        slope: c.slope,
        shoulder: c.shoulder,
        shank_diameter: c.definition.shank_diameter_mm,
        neck_diameter: c.definition.neck.as_ref().map(|n| n.diameter_mm),
    }
}
