//! How a row is timed: both sides in turn, so that a change in the machine's speed meets both; the best of the repetitions counts. And how a row is
//! run to count its instructions: the port's side alone, so many times.
use std::{cell::RefCell, hint::black_box, time::Instant};

const REPETITIONS: usize = 25;
/// Seconds per row after which no further repetition starts.
const LIMIT: f64 = 2.;
/// Seconds that one repetition takes, about.
const STRETCH: f64 = 0.004;

/// A call that writes over its state, which is restored before each call, outside the timed part.
pub trait Side {
    fn restore(&mut self);
    fn call(&mut self);
}

/// The row whose port side is to be run, and no other: `rounds` times its state is restored, and in the first `calls` of them it is called.
pub struct Count {
    pub row: String,
    pub calls: usize,
    pub rounds: usize,
}

pub enum Rows {
    All,
    /// those with this in their text
    With(String),
    Count(Count),
}

pub struct Table {
    rows: Rows,
    /// the heading of the rows to come, until one of them is printed
    heading: RefCell<Option<String>>,
}

/// How many calls take a repetition's time, and the seconds of one call.
fn calls<T>(f: &mut impl FnMut() -> T) -> (usize, f64) {
    let mut n = 1;
    loop {
        let t = stretch(n, f);
        if t > STRETCH / 4. || n > 1 << 24 {
            return (((n as f64 * STRETCH / t.max(1e-9)) as usize).clamp(1, 1 << 26), t / n as f64);
        }
        n *= 2;
    }
}

fn stretch<T>(n: usize, f: &mut impl FnMut() -> T) -> f64 {
    let start = Instant::now();
    for _ in 0..n {
        black_box(f());
    }
    start.elapsed().as_secs_f64()
}

/// The seconds of one call of a side.
pub fn seconds(side: &mut impl Side) -> f64 {
    side.restore();
    stretch(1, &mut || side.call())
}

/// The seconds of one call: the best of the repetitions, of which none starts after this many seconds.
pub fn best<T>(limit: f64, mut f: impl FnMut() -> T) -> f64 {
    let start = Instant::now();
    let (n, mut best) = calls(&mut f);
    for _ in 1..REPETITIONS {
        if start.elapsed().as_secs_f64() > limit {
            break;
        }
        best = best.min(stretch(n, &mut f) / n as f64);
    }
    best
}

/// The same for a side.
pub fn best_of(limit: f64, side: &mut impl Side) -> f64 {
    let start = Instant::now();
    let mut best = seconds(side);
    for _ in 1..REPETITIONS {
        if start.elapsed().as_secs_f64() > limit {
            break;
        }
        best = best.min(seconds(side));
    }
    best
}

impl Table {
    pub fn new(rows: Rows) -> Self {
        if !matches!(rows, Rows::Count(_)) {
            println!("Best of up to {REPETITIONS} repetitions, both sides in turn, one thread, both built for release.");
            println!("A ratio below 1: the port is faster.");
        }
        Self { rows, heading: RefCell::new(None) }
    }

    pub fn heading(&self, text: &str) {
        self.heading.replace(Some(text.into()));
    }

    /// Whether this row is to be run at all; asked before inputs that take long to make.
    pub fn takes(&self, what: &str) -> bool {
        match &self.rows {
            Rows::All => true,
            Rows::With(part) => what.contains(part.as_str()),
            Rows::Count(c) => c.row == what,
        }
    }

    /// Whether this row is to be timed; the heading is printed before the first. A row that is to be counted is run here.
    fn times(&self, what: &str, per: usize, mut restore_and_call: impl FnMut(bool)) -> bool {
        if !self.takes(what) {
            return false;
        }
        if let Rows::Count(c) = &self.rows {
            (0..c.rounds).for_each(|i| restore_and_call(i < c.calls));
            println!("{per}");
            return false;
        }
        if let Some(text) = self.heading.take() {
            println!("\n{text}\n{:<40} {:>12} {:>12} {:>8}", "", "port ns", "Rust ns", "ratio");
        }
        true
    }

    fn print(&self, what: &str, per: usize, best: [f64; 2]) {
        let [p, r] = best.map(|s| s * 1e9 / per as f64);
        println!("{what:<40} {p:>12.1} {r:>12.1} {:>8.2}", p / r);
    }

    /// Times a call of the port and the same call of the Rust, each doing its work `per` times.
    pub fn row<A, B>(&self, what: &str, per: usize, mut port: impl FnMut() -> A, mut rust: impl FnMut() -> B) {
        let once = |call: bool| {
            if call {
                black_box(port());
            }
        };
        if !self.times(what, per, once) {
            return;
        }
        let start = Instant::now();
        let (p, r) = (calls(&mut port), calls(&mut rust));
        let mut best = [p.1, r.1];
        for _ in 1..REPETITIONS {
            if start.elapsed().as_secs_f64() > LIMIT {
                break;
            }
            best[0] = best[0].min(stretch(p.0, &mut port) / p.0 as f64);
            best[1] = best[1].min(stretch(r.0, &mut rust) / r.0 as f64);
        }
        self.print(what, per, best);
    }

    /// The same for calls that write over their state.
    pub fn row_of_sides(&self, what: &str, per: usize, port: &mut impl Side, rust: &mut impl Side) {
        let once = |call: bool| {
            port.restore();
            if call {
                port.call();
            }
        };
        if !self.times(what, per, once) {
            return;
        }
        let start = Instant::now();
        let mut best = [f64::INFINITY; 2];
        for _ in 0..REPETITIONS {
            if start.elapsed().as_secs_f64() > LIMIT && best[0].is_finite() {
                break;
            }
            best = [best[0].min(seconds(port)), best[1].min(seconds(rust))];
        }
        self.print(what, per, best);
    }
}
