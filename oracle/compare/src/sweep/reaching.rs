//! What the sweeps reach: refusals, shapes, axes, hits, rays that are touched exactly, sizes and places, and minus zeros.
use super::{Case, ENTRY, rust_sweep::Entry, stock_over, touching};
use crate::reached::{COUNTS, DECADES, Group, NUMBERS, Reached, decade, minus_zero};
use harness::cutters::SHAPES;

const AXES: [&str; 6] = ["+x", "-x", "+y", "-y", "+z", "-z"];

pub const WANTED: &[Group] = &[
    ("refused", &["accepted", "1", "2", "3", "5", "6", "7", "8", "11", "12", "16"]),
    // of the accepted sweeps
    ("sweep", &["no chord", "no visit", "no hit", "hit"]),
    ("log", &["exact", "longer", "much longer"]),
    ("budget", &["exact", "larger"]),
    ("extent", &DECADES),
    ("bound", &DECADES),
    ("rays", &COUNTS),
    ("minus zero", &["bound", "span end", "coordinate", "e", "plan length", "tip height or slope"]),
    ("touching", &touching::KINDS),
    // of those that hit a ray
    ("shape", &["flat", "ball", "bull", "drill", "chamfer", "probe", "lollipop", "dovetail"]),
    ("prepared", &["flat", "ball", "bull", "drill", "chamfer", "probe", "lollipop", "dovetail"]),
    ("axis", &AXES),
    ("radius", &DECADES),
    ("e", &["0", "1e-5", "1e-4", "1e-3", "1e-2", "1e-1", "1", "10", "100", "1e3"]),
    ("hit ray", &["outer only", "outer and inner"]),
];

/// What an accepted sweep has, whether or not it hits a ray.
fn count_accepted(c: &Case, entries: usize, visits: u64, reached: &mut Reached) {
    let sweep = match (c.chords.is_empty(), visits, entries) {
        (true, ..) => "no chord",
        (_, 0, _) => "no visit",
        (_, _, 0) => "no hit",
        _ => "hit",
    };
    reached.count("sweep", sweep);
    let over = c.log - ENTRY * entries;
    reached.count(
        "log",
        if over == 0 {
            "exact"
        } else if over < ENTRY {
            "longer"
        } else {
            "much longer"
        },
    );
    reached.count("budget", if c.budget == visits { "exact" } else { "larger" });
    reached.count_box(c.min, c.max, c.heads.len() / 2);
    let (chords, _) = c.chords.as_chunks::<8>();
    let mut zero = |cells: &[f64], what: &str| reached.count_if(minus_zero(cells), "minus zero", what);
    zero(&[c.min, c.max].concat(), "bound");
    zero(&c.spans, "span end");
    zero(&chords.iter().flat_map(|x| x[..6].to_vec()).collect::<Vec<_>>(), "coordinate");
    zero(&chords.iter().map(|x| x[6]).collect::<Vec<_>>(), "e");
    zero(&chords.iter().map(|x| x[7]).collect::<Vec<_>>(), "plan length");
    zero(&[c.tool.c.tip_height, c.tool.c.slope], "tip height or slope");
}

/// What an accepted sweep has that hits a ray.
fn count_hits(c: &Case, entries: &[Entry], reached: &mut Reached) {
    let shape = SHAPES[c.tool.kind as usize];
    reached.count("shape", shape);
    reached.count_if(c.prepared, "prepared", shape);
    reached.count("axis", AXES[c.axis as usize]);
    reached.count("radius", decade(c.tool.c.radius));
    let largest = c.chords.as_chunks::<8>().0.iter().map(|x| x[6]).fold(0., f64::max);
    reached.count("e", if largest == 0. { "0" } else { decade(largest) });
    let inner = entries.iter().filter(|e| e.inner.is_some()).count();
    reached.count_times("hit ray", "outer and inner", inner as u64);
    reached.count_times("hit ray", "outer only", (entries.len() - inner) as u64);
}

/// Counts a case by camlib's answer.
pub fn count(c: &Case, refusal: u32, entries: &[Entry], visits: u64, reached: &mut Reached) {
    reached.count("refused", NUMBERS[refusal as usize]);
    if refusal != 0 {
        return;
    }
    count_accepted(c, entries.len(), visits, reached);
    let stock = stock_over(c.min, c.max, c.cell).expect("an accepted sweep");
    touching::count(c, &stock, reached);
    if !entries.is_empty() {
        count_hits(c, entries, reached);
    }
}
