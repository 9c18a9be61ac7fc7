//! The port against the Rust. Each module of the port has one file here: the declarations of its inner C exports (nothing checks them
//! against the Rattle source; those of the entries are package `tridexel`'s), a generator and a comparison per function, and a line in `modules`.
pub mod commits;
pub mod cutter;
pub mod doubles;
pub mod explained;
pub mod function;
pub mod grid;
pub mod merge;
pub mod program;
pub mod reached;
pub mod row;
pub mod spans;
pub mod stock;
pub mod strips;
pub mod sweep;
pub mod trace;

use function::Function;

pub fn modules() -> Vec<(&'static str, Vec<Function>)> {
    vec![
        ("doubles", doubles::functions()), //
        ("spans", spans::functions()),
        ("cutter", cutter::functions()),
        ("strips", strips::functions()),
        ("grid", grid::functions()),
        ("merge", merge::functions()),
        ("trace", trace::functions()),
        ("stock", stock::functions()),
        ("program", program::functions()),
        ("sweep", sweep::functions()),
        ("commits", commits::functions()),
    ]
}
