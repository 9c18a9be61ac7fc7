//! camlib's text is in `dexel`, `dexel::sweep` and `tool`. `motion`, `stock`, `resources`, `verification` and `dexel::material`
//! are stand-ins with only what the text names.
#![allow(dead_code, unused_imports)]
include!(concat!(env!("OUT_DIR"), "/root.rs"));
pub mod motion;
pub mod resources;
pub mod stock;
pub mod verification;

std::thread_local! {
    /// The plan length that `stadium_strip` of package `oracle_len` uses next; None: `hypot`.
    pub static PLAN_LENGTH: std::cell::Cell<Option<f64>> = const { std::cell::Cell::new(None) };
}

pub fn plan_length(d: [f64; 2]) -> f64 {
    PLAN_LENGTH.get().unwrap_or_else(|| d[0].hypot(d[1]))
}
