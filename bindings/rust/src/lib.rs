//! Stock rays for milling cells, with proofs: a safe binding to `libtridexel.a`.
//!
//! A [`Stock`] owns the buffers that the library lends from its caller, and only the library writes them, so its store is always sound. Every call
//! either succeeds or is refused by a number ([`Refusal`]); a refused call changes nothing.
//!
//! ```
//! use tridexel::{Axis, Chord, Cutter, Pass, Shape, Spec, Stock};
//!
//! let mut stock = Stock::fill(Spec {
//!     min_mm: [0., 0., 0.],
//!     max_mm: [20., 20., 10.],
//!     cell_size_mm: 1.,
//!     max_rays: 10_000,
//!     max_intervals: 10_000,
//! })?;
//! let pass = Pass {
//!     axis: Axis::PosZ,
//!     shape: Shape::Ball,
//!     cutter: Cutter::ball(6., 12., 40.),
//!     guard_mm: 0.001,
//!     max_visits: 100_000,
//!     max_entries: 10_000,
//! };
//! let log = stock.sweep(&pass, &[Chord { a: [0., 10., 6.], b: [20., 10., 6.], e: 0.01 }])?;
//! let changed = stock.commit_log(&log, u64::MAX)?;
//! assert!(changed > 0);
//! let volume = stock.volume();
//! assert!(volume.certain_mm3[0] < volume.possible_mm3[0]);
//! # Ok::<(), tridexel::Refusal>(())
//! ```
mod refusal;
mod stock;
mod tool;
mod trace;

pub mod raw;
pub mod spans;

pub use refusal::{Blame, Refusal};
pub use stock::{Change, Grid, Log, LogEntry, Pair, Ray, Spec, Stock, Tally, Volume};
pub use tool::{Axis, Chord, Cutter, Pass, Shape};
pub use trace::{Reason, trace};

/// Nothing for 0, else the refusal.
fn accepted(number: u32) -> Result<(), Refusal> {
    if number == 0 { Ok(()) } else { Err(Refusal::of(number)) }
}
