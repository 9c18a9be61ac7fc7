//! A stock that owns its buffers.
use crate::{Chord, Pass, Refusal, accepted, raw};

/// A pair [lo, hi]: it holds each p with lo ≤ p < hi.
pub type Pair = [f64; 2];

const UNITS: &[u8] = b"mm";

/// A blank's description, version 1, in millimetres.
#[derive(Clone, Debug, PartialEq)]
pub struct Spec {
    pub min_mm: [f64; 3],
    pub max_mm: [f64; 3],
    pub cell_size_mm: f64,
    pub max_rays: u64,
    pub max_intervals: u64,
}

impl Spec {
    /// The grid of the blank. 1 to 3: the blank's author.
    pub fn grid(&self) -> Result<Grid, Refusal> {
        let mut g = Grid { cells: [0; 3], steps: [0.; 3] };
        accepted(unsafe { raw::tridexel_grid(self.into(), UNITS.as_ptr(), UNITS.len(), &mut g.cells, &mut g.steps) })?;
        Ok(g)
    }
}

/// Cells along x, y, z and their widths.
#[derive(Clone, Copy, Debug, PartialEq)]
pub struct Grid {
    pub cells: [u64; 3],
    pub steps: [f64; 3],
}

impl Grid {
    /// How many rays run along an axis, 0 to 2.
    pub fn rays(&self, axis: usize) -> u64 {
        self.cells[(axis + 1) % 3] * self.cells[(axis + 2) % 3]
    }

    pub fn total_rays(&self) -> u64 {
        (0..3).map(|a| self.rays(a)).sum()
    }
}

/// Document 01's small record.
#[derive(Clone, Copy, Debug, Eq, PartialEq)]
pub struct Tally {
    pub generation: u64,
    pub intervals: u64,
}

/// The two lists of a ray.
#[derive(Clone, Debug, Default, PartialEq)]
pub struct Ray {
    pub possible: Vec<Pair>,
    pub certain: Vec<Pair>,
}

/// A ray before and after, for [`Stock::commit_changes`].
#[derive(Clone, Debug, PartialEq)]
pub struct Change {
    pub axis: u64,
    pub index: u64,
    pub before: Ray,
    pub after: Ray,
}

/// What is left of the blank, in cubic millimetres.
#[derive(Clone, Copy, Debug, PartialEq)]
pub struct Volume {
    /// Certain and possible by the rays along x, y and z.
    pub certain_mm3: [f64; 3],
    pub possible_mm3: [f64; 3],
    pub remaining_lower_mm3: f64,
    pub remaining_upper_mm3: f64,
    pub removed_lower_mm3: f64,
    pub removed_upper_mm3: f64,
}

/// One hit ray of a sweep.
#[derive(Clone, Copy, Debug, PartialEq)]
pub struct LogEntry {
    pub axis: f64,
    pub index: f64,
    pub outer: Pair,
    /// [0, 0] where there is none.
    pub inner: Pair,
}

impl LogEntry {
    /// The six doubles of the C interface.
    pub fn cells(&self) -> [f64; 6] {
        [self.axis, self.index, self.outer[0], self.outer[1], self.inner[0], self.inner[1]]
    }
}

/// The hits of a sweep, in visiting order.
#[derive(Clone, Debug, Default, PartialEq)]
pub struct Log {
    cells: Vec<f64>,
    /// How many rays were visited.
    pub visits: u64,
}

impl Log {
    /// A log of these entries, such as one that came over a wire.
    pub fn of(entries: &[LogEntry]) -> Log {
        Log { cells: entries.iter().flat_map(LogEntry::cells).collect(), visits: 0 }
    }

    pub fn len(&self) -> usize {
        self.cells.len() / 6
    }

    pub fn is_empty(&self) -> bool {
        self.cells.is_empty()
    }

    pub fn entries(&self) -> impl Iterator<Item = LogEntry> + '_ {
        self.cells.chunks_exact(6).map(|c| LogEntry { axis: c[0], index: c[1], outer: [c[2], c[3]], inner: [c[4], c[5]] })
    }

    /// The entries that name this ray along an axis, 0 to 2, in the log's order, as [`crate::trace`] takes them.
    pub fn entries_on(&self, axis: usize, index: u64) -> Vec<[f64; 6]> {
        self.entries().filter(|e| e.axis == axis as f64 && e.index == index as f64).map(|e| e.cells()).collect()
    }
}

/// A stock: a description with its store and its small record.
#[derive(Clone, Debug)]
pub struct Stock {
    spec: Spec,
    grid: Grid,
    spans: Vec<f64>,
    links: Vec<u64>,
    heads: Vec<u64>,
    tally: Tally,
}

impl Stock {
    /// The uncut stock of a blank. 1 to 3: the blank's author.
    pub fn fill(spec: Spec) -> Result<Stock, Refusal> {
        let grid = spec.grid()?;
        let records = 2 * spec.max_intervals as usize;
        let mut s = Stock {
            grid,
            spans: vec![0.; records],
            links: vec![0; records],
            heads: vec![0; 2 * grid.total_rays() as usize],
            tally: Tally { generation: 0, intervals: 0 },
            spec,
        };
        accepted(unsafe {
            raw::tridexel_fill(
                (&s.spec).into(),
                UNITS.as_ptr(),
                UNITS.len(),
                s.spans.as_mut_ptr(),
                s.spans.len(),
                s.links.as_mut_ptr(),
                s.links.len(),
                s.heads.as_mut_ptr(),
                s.heads.len(),
                &mut s.tally.generation,
                &mut s.tally.intervals,
            )
        })?;
        Ok(s)
    }

    pub fn spec(&self) -> &Spec {
        &self.spec
    }

    pub fn grid(&self) -> Grid {
        self.grid
    }

    pub fn tally(&self) -> Tally {
        self.tally
    }

    /// The lists of a ray along an axis, 0 to 2; none where there is no such ray.
    pub fn ray(&self, axis: usize, index: u64) -> Option<Ray> {
        if axis > 2 || index >= self.grid.rays(axis) {
            return None;
        }
        let ray = ((0..axis).map(|a| self.grid.rays(a)).sum::<u64>() + index) as usize;
        Some(Ray { possible: self.list(2 * ray), certain: self.list(2 * ray + 1) })
    }

    fn list(&self, head: usize) -> Vec<Pair> {
        let mut list = Vec::new();
        let mut k = self.heads[head] as usize;
        while k != 0 {
            list.push([self.spans[2 * k - 2], self.spans[2 * k - 1]]);
            k = self.links[2 * k - 2] as usize;
        }
        list
    }

    /// The volume that is left, by each of the three grids and by all of them.
    pub fn volume(&self) -> Volume {
        let mut v = [0.; 10];
        let number = unsafe {
            raw::tridexel_volume(
                (&self.spec).into(),
                UNITS.as_ptr(),
                UNITS.len(),
                self.spans.as_ptr(),
                self.spans.len(),
                self.links.as_ptr(),
                self.links.len(),
                self.heads.as_ptr(),
                self.heads.len(),
                self.tally.intervals,
                &mut v,
            )
        };
        accepted(number).expect("the stock is sound");
        Volume {
            certain_mm3: [v[0], v[2], v[4]],
            possible_mm3: [v[1], v[3], v[5]],
            remaining_lower_mm3: v[6],
            remaining_upper_mm3: v[7],
            removed_lower_mm3: v[8],
            removed_upper_mm3: v[9],
        }
    }

    /// The hits of a tool along chords. 5, 6, 7: the tool or chord author. 8, 16: the budgets of the pass.
    pub fn sweep(&self, pass: &Pass, chords: &[Chord]) -> Result<Log, Refusal> {
        let chords: Vec<f64> = chords.iter().flat_map(|c| c.cells(pass.axis)).collect();
        let mut log = vec![0.; 6 * pass.max_entries];
        let (mut entries, mut visits) = (0, 0);
        let (shape, first, second) = pass.shape.numbers();
        accepted(unsafe {
            raw::tridexel_sweep(
                (&self.spec).into(),
                UNITS.as_ptr(),
                UNITS.len(),
                self.spans.as_ptr(),
                self.spans.len(),
                self.links.as_ptr(),
                self.links.len(),
                self.heads.as_ptr(),
                self.heads.len(),
                self.tally.intervals,
                pass.axis as u64,
                shape,
                first,
                second,
                pass.cutter,
                pass.guard_mm,
                chords.as_ptr(),
                chords.len(),
                pass.max_visits,
                log.as_mut_ptr(),
                log.len(),
                &mut entries,
                &mut visits,
            )
        })?;
        log.truncate(6 * entries);
        Ok(Log { cells: log, visits })
    }

    /// Merges a log into the stock and says how many rays changed. 17: an entry names no ray. 9, 10: more rays or intervals than allowed.
    pub fn commit_log(&mut self, log: &Log, allowance: u64) -> Result<u64, Refusal> {
        let mut work = vec![0.; 12 * self.spec.max_intervals as usize + 36 * log.len()];
        let mut changed = 0;
        accepted(unsafe {
            raw::tridexel_commit_log(
                (&self.spec).into(),
                UNITS.as_ptr(),
                UNITS.len(),
                self.spans.as_mut_ptr(),
                self.spans.len(),
                self.links.as_mut_ptr(),
                self.links.len(),
                self.heads.as_mut_ptr(),
                self.heads.len(),
                &mut self.tally.generation,
                &mut self.tally.intervals,
                log.cells.as_ptr(),
                log.cells.len(),
                allowance,
                work.as_mut_ptr(),
                work.len(),
                &mut changed,
            )
        })?;
        Ok(changed)
    }

    /// Commits changes made on the stock at generation `base` and says how many rays changed. 14: the generation differs. 13: a change is turned away.
    pub fn commit_changes(&mut self, base: u64, changes: &[Change]) -> Result<u64, Refusal> {
        let mut numbers = Vec::with_capacity(6 * changes.len());
        let mut pairs: Vec<f64> = Vec::new();
        for c in changes {
            numbers.extend([c.axis, c.index]);
            for list in [&c.before.possible, &c.before.certain, &c.after.possible, &c.after.certain] {
                numbers.push(list.len() as u64);
                pairs.extend(list.as_flattened());
            }
        }
        let mut changed = 0;
        accepted(unsafe {
            raw::tridexel_commit_changes(
                (&self.spec).into(),
                UNITS.as_ptr(),
                UNITS.len(),
                self.spans.as_mut_ptr(),
                self.spans.len(),
                self.links.as_mut_ptr(),
                self.links.len(),
                self.heads.as_mut_ptr(),
                self.heads.len(),
                &mut self.tally.generation,
                &mut self.tally.intervals,
                base,
                numbers.as_ptr(),
                numbers.len(),
                pairs.as_ptr(),
                pairs.len(),
                &mut changed,
            )
        })?;
        Ok(changed)
    }
}
