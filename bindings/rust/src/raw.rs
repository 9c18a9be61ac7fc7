//! The C interface, as `include/tridexel.h` declares it: for callers that keep their own buffers.
use crate::{Cutter, Spec};

/// `tridexel_spec`.
#[repr(C)]
#[derive(Clone, Copy, Debug)]
pub struct RawSpec {
    pub version: u32,
    pub min_mm: [f64; 3],
    pub max_mm: [f64; 3],
    pub cell_size_mm: f64,
    pub max_rays: u64,
    pub max_intervals: u64,
}

impl From<&Spec> for RawSpec {
    fn from(s: &Spec) -> Self {
        RawSpec {
            version: 1,
            min_mm: s.min_mm,
            max_mm: s.max_mm,
            cell_size_mm: s.cell_size_mm,
            max_rays: s.max_rays,
            max_intervals: s.max_intervals,
        }
    }
}

unsafe extern "C" {
    pub fn tridexel_normalize(spans: *const f64, spans_len: usize, out: *mut f64, out_len: usize, pairs: *mut usize) -> u32;
    pub fn tridexel_subtract(
        a: *const f64,
        a_len: usize,
        b: *const f64,
        b_len: usize,
        out: *mut f64,
        out_len: usize,
        pairs: *mut usize,
    ) -> u32;
    pub fn tridexel_intersect(
        a: *const f64,
        a_len: usize,
        b: *const f64,
        b_len: usize,
        out: *mut f64,
        out_len: usize,
        pairs: *mut usize,
    ) -> u32;
    pub fn tridexel_contains(outer: *const f64, outer_len: usize, inner: *const f64, inner_len: usize, yes: *mut u32) -> u32;
    pub fn tridexel_overlaps(a: *const f64, a_len: usize, b: *const f64, b_len: usize, yes: *mut u32) -> u32;
    pub fn tridexel_merge(
        possible: *const f64,
        possible_len: usize,
        certain: *const f64,
        certain_len: usize,
        lo: f64,
        hi: f64,
        outer: *const f64,
        outer_len: usize,
        inner: *const f64,
        inner_len: usize,
        work: *mut f64,
        work_len: usize,
        moved: *mut [u32; 2],
        pairs: *mut [usize; 2],
    ) -> u32;
    pub fn tridexel_trace(
        possible: *const f64,
        possible_len: usize,
        certain: *const f64,
        certain_len: usize,
        lo: f64,
        hi: f64,
        log: *const f64,
        log_len: usize,
        place: f64,
        reason: *mut u32,
        entry: *mut usize,
    ) -> u32;
    pub fn tridexel_grid(spec: RawSpec, units: *const u8, units_len: usize, cells: *mut [u64; 3], steps: *mut [f64; 3]) -> u32;
    pub fn tridexel_fill(
        spec: RawSpec,
        units: *const u8,
        units_len: usize,
        spans: *mut f64,
        spans_len: usize,
        links: *mut u64,
        links_len: usize,
        heads: *mut u64,
        heads_len: usize,
        generation: *mut u64,
        intervals: *mut u64,
    ) -> u32;
    pub fn tridexel_volume(
        spec: RawSpec,
        units: *const u8,
        units_len: usize,
        spans: *const f64,
        spans_len: usize,
        links: *const u64,
        links_len: usize,
        heads: *const u64,
        heads_len: usize,
        intervals: u64,
        volume: *mut [f64; 10],
    ) -> u32;
    pub fn tridexel_sweep(
        spec: RawSpec,
        units: *const u8,
        units_len: usize,
        spans: *const f64,
        spans_len: usize,
        links: *const u64,
        links_len: usize,
        heads: *const u64,
        heads_len: usize,
        intervals: u64,
        axis: u64,
        shape: u64,
        first: f64,
        second: f64,
        cutter: Cutter,
        guard: f64,
        chords: *const f64,
        chords_len: usize,
        budget: u64,
        log: *mut f64,
        log_len: usize,
        entries: *mut usize,
        visits: *mut u64,
    ) -> u32;
    pub fn tridexel_commit_changes(
        spec: RawSpec,
        units: *const u8,
        units_len: usize,
        spans: *mut f64,
        spans_len: usize,
        links: *mut u64,
        links_len: usize,
        heads: *mut u64,
        heads_len: usize,
        generation: *mut u64,
        intervals: *mut u64,
        base: u64,
        changes: *const u64,
        changes_len: usize,
        pairs: *const f64,
        pairs_len: usize,
        changed: *mut u64,
    ) -> u32;
    pub fn tridexel_commit_log(
        spec: RawSpec,
        units: *const u8,
        units_len: usize,
        spans: *mut f64,
        spans_len: usize,
        links: *mut u64,
        links_len: usize,
        heads: *mut u64,
        heads_len: usize,
        generation: *mut u64,
        intervals: *mut u64,
        log: *const f64,
        log_len: usize,
        allowance: u64,
        work: *mut f64,
        work_len: usize,
        changed: *mut u64,
    ) -> u32;
}
