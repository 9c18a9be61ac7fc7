//! How often the inputs of a function reached what they should reach, so that a reader sees over which domain it was compared.

/// Things to reach, under a name. Every one of them is printed, also one that never came.
pub type Group = (&'static str, &'static [&'static str]);

/// Names for the refusal numbers. 4 is retired, so no function wants it.
pub const NUMBERS: [&str; 20] =
    ["accepted", "1", "2", "3", "4", "5", "6", "7", "8", "9", "10", "11", "12", "13", "14", "15", "16", "17", "18", "19"];

/// Decades of a size; what is smaller counts to the first, what is larger to the last.
pub const DECADES: [&str; 12] = ["1e-5", "1e-4", "1e-3", "1e-2", "1e-1", "1", "10", "100", "1e3", "1e4", "1e5", "1e6"];

/// The name of a size's decade.
pub fn decade(size: f64) -> &'static str {
    DECADES[(0..DECADES.len() - 1).take_while(|k| 10f64.powi(*k as i32 - 4) <= size).count()]
}

/// Decades of a count, the last without limit.
pub const COUNTS: [&str; 5] = ["1", "10", "100", "1000", "10000"];

/// The name of a count's decade.
pub fn count_decade(n: usize) -> &'static str {
    COUNTS[n.max(1).ilog10().min(COUNTS.len() as u32 - 1) as usize]
}

/// Whether a minus zero is among the cells.
pub fn minus_zero(cells: &[f64]) -> bool {
    cells.iter().any(|x| x.to_bits() == (-0f64).to_bits())
}

#[derive(Clone, Debug, Default)]
pub struct Reached(Vec<(&'static str, Vec<(&'static str, u64)>)>);

impl Reached {
    pub fn new(wanted: &[Group]) -> Self {
        Reached(wanted.iter().map(|(group, things)| (*group, things.iter().map(|t| (*t, 0)).collect())).collect())
    }

    /// Counts a thing of a group; both must be wanted.
    pub fn count(&mut self, group: &str, thing: &str) {
        self.count_times(group, thing, 1);
    }

    pub fn count_if(&mut self, came: bool, group: &str, thing: &str) {
        self.count_times(group, thing, came as u64);
    }

    pub fn count_times(&mut self, group: &str, thing: &str, times: u64) {
        let things = self.0.iter_mut().find(|(name, _)| *name == group);
        let found = things.and_then(|(_, things)| things.iter_mut().find(|(name, _)| *name == thing));
        found.unwrap_or_else(|| panic!("not wanted: {group}, {thing}")).1 += times;
    }

    /// Counts the largest side of a box, its largest bound and its rays.
    pub fn count_box(&mut self, min: [f64; 3], max: [f64; 3], rays: usize) {
        self.count("extent", decade((0..3).map(|i| max[i] - min[i]).fold(0., f64::max)));
        self.count("bound", decade(min.iter().chain(&max).map(|x| x.abs()).fold(0., f64::max)));
        self.count("rays", count_decade(rays));
    }

    /// Both together, of the same function.
    pub fn and(mut self, other: &Reached) -> Reached {
        for (group, things) in &other.0 {
            for (thing, times) in things {
                self.count_times(group, thing, *times);
            }
        }
        self
    }

    /// A line for each group.
    pub fn lines(&self) -> impl Iterator<Item = String> + '_ {
        self.0.iter().map(|(group, things)| {
            let things: Vec<_> = things.iter().map(|(thing, times)| format!("{thing}: {times}")).collect();
            format!("{group:<12} {}", things.join(", "))
        })
    }

    /// What never came.
    pub fn missing(&self) -> Vec<String> {
        let never = |(group, things): &(&str, Vec<(&str, u64)>)| {
            let never = things.iter().filter(|(_, times)| *times == 0);
            never.map(|(thing, _)| format!("{group} {thing}")).collect::<Vec<_>>()
        };
        self.0.iter().flat_map(never).collect()
    }
}
