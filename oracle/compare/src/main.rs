//! `compare [--quick] [--meant] [--only MODULE::FUNCTION]... [--case NUMBER] [SEED] [COUNT]`: COUNT generated inputs
//! for each function. `--meant` shows the first of each kind of meant difference too. At the end stands what the inputs
//! of the larger functions reached.
use compare::{
    explained::Explained,
    function::{Difference, Function},
    modules,
    reached::Reached,
};
use std::{collections::BTreeMap, process::ExitCode, sync::mpsc, thread, time::Instant};

#[derive(Clone)]
struct Options {
    meant: bool,
    only: Vec<String>,
    case: Option<u64>,
    seed: u64,
    count: u64,
}

const USAGE: &str = "usage: oracle/run [--quick] [--meant] [--only MODULE::FUNCTION]... [--case NUMBER] [SEED] [COUNT]";

fn options() -> Option<Options> {
    let mut o = Options { meant: false, only: vec![], case: None, seed: 1, count: 1_000_000 };
    let mut numbers = vec![];
    let mut words = std::env::args().skip(1);
    while let Some(w) = words.next() {
        match w.as_str() {
            "--quick" => o.count = 50_000,
            "--meant" => o.meant = true,
            "--only" => o.only.push(words.next()?),
            "--case" => o.case = Some(words.next()?.parse().ok()?),
            n => numbers.push(n.parse().ok()?),
        }
    }
    match numbers[..] {
        [] => {}
        [seed] => o.seed = seed,
        [seed, count] => (o.seed, o.count) = (seed, count),
        _ => return None,
    }
    Some(o)
}

#[derive(Default)]
struct Tally {
    cases: u64,
    calls: u64,
    seconds: f64,
    meant: BTreeMap<Explained, u64>,
    different: u64,
    reached: Reached,
    /// the first difference of each row, and the first that no row explains
    first: BTreeMap<Option<Explained>, (u64, Difference)>,
}

/// Compares the cases of one worker: its own of every `workers`, or the one case that was asked for.
fn run(f: &Function, o: &Options, worker: u64, workers: u64) -> Tally {
    let mut t = Tally::default();
    let start = Instant::now();
    let numbers = match o.case {
        Some(number) => number..number + 1,
        None => 0..f.edges + o.count,
    };
    for number in numbers.skip(worker as usize).step_by(workers as usize) {
        t.cases += 1;
        if let Some(d) = f.case(o.seed, number) {
            match d.meant {
                Some(e) => *t.meant.entry(e).or_default() += 1,
                None => t.different += 1,
            }
            t.first.entry(d.meant).or_insert((number, d));
        }
    }
    t.calls = f.calls();
    t.reached = f.reached();
    t.seconds = start.elapsed().as_secs_f64();
    t
}

impl Tally {
    /// Both together; of the first differences the one with the lower number.
    fn and(mut self, other: Tally) -> Tally {
        self.cases += other.cases;
        self.calls += other.calls;
        self.seconds = self.seconds.max(other.seconds);
        self.different += other.different;
        self.reached = self.reached.and(&other.reached);
        for (e, n) in other.meant {
            *self.meant.entry(e).or_default() += n;
        }
        for (e, d) in other.first {
            match self.first.get(&e) {
                Some(first) if first.0 < d.0 => {}
                _ => drop(self.first.insert(e, d)),
            }
        }
        self
    }
}

/// The functions that are asked for, or all, by their names with the module in front.
fn functions(only: &[String]) -> Vec<(String, Function)> {
    let all =
        modules().into_iter().flat_map(|(module, list)| list.into_iter().map(move |f| (format!("{module}::{}", f.name), f)));
    all.filter(|(name, _)| only.is_empty() || only.contains(name)).collect()
}

/// Starts the workers. Each makes the functions for itself and sends a tally for each, in order.
fn start(o: &Options, workers: u64) -> Vec<mpsc::Receiver<Tally>> {
    let started = (0..workers).map(|worker| {
        let (sender, receiver) = mpsc::channel();
        let o = o.clone();
        thread::spawn(move || {
            for (_, f) in functions(&o.only) {
                sender.send(run(&f, &o, worker, workers)).expect("the tallies are read to the end");
            }
        });
        receiver
    });
    started.collect()
}

/// Prints the difference that no row explains, and with `meant` the others too.
fn print_first(t: &Tally, name: &str, o: &Options) {
    for (row, (number, d)) in &t.first {
        let what = match row {
            Some(e) if o.meant => format!("first of row {}", e.number()),
            Some(_) => continue,
            None => "first difference".into(),
        };
        println!("  {what}, again by: oracle/run --meant --only {name} --case {number} {}", o.seed);
        println!("  input {}\n  Rust  {}\n  port  {}", d.input, d.rust, d.port);
    }
}

/// What all functions come to.
#[derive(Default)]
struct Totals {
    cases: u64,
    calls: u64,
    different: u64,
    reached: Vec<(String, Reached)>,
}

/// Prints a row for each function as its tallies come in.
fn report(names: Vec<String>, o: &Options) -> Totals {
    println!(
        "{:<24} {:>10} {:>10} {:>22} {:>10} {:>8}",
        "function", "cases", "calls", "meant (row: times)", "different", "seconds"
    );
    let workers = start(o, thread::available_parallelism().map_or(1, |n| n.get() as u64));
    let mut totals = Totals::default();
    for name in names {
        let tallies = workers.iter().map(|w| w.recv().expect("a worker has stopped"));
        let t = tallies.reduce(Tally::and).expect("there is a worker");
        let meant: Vec<_> = t.meant.iter().map(|(e, n)| format!("{}: {n}", e.number())).collect();
        println!("{name:<24} {:>10} {:>10} {:>22} {:>10} {:>8.1}", t.cases, t.calls, meant.join(", "), t.different, t.seconds);
        print_first(&t, &name, o);
        totals.cases += t.cases;
        totals.calls += t.calls;
        totals.different += t.different;
        totals.reached.push((name, t.reached));
    }
    totals
}

/// Prints what the inputs of a function reached, and what of it never came.
fn print_reached(name: &str, reached: &Reached) {
    let lines: Vec<_> = reached.lines().collect();
    if lines.is_empty() {
        return;
    }
    println!("reached by {name}");
    for line in lines {
        println!("  {line}");
    }
    for never in reached.missing() {
        println!("  never: {never}");
    }
}

fn main() -> ExitCode {
    let Some(o) = options() else {
        eprintln!("{USAGE}");
        return ExitCode::from(2);
    };
    let names: Vec<_> = functions(&o.only).into_iter().map(|(name, _)| name).collect();
    if let Some(unknown) = o.only.iter().find(|only| !names.contains(only)) {
        eprintln!("no function {unknown}\n{USAGE}");
        return ExitCode::from(2);
    }
    println!("seed {}, {} generated inputs for each function, after its fixed ones", o.seed, o.count);
    let totals = report(names, &o);
    for (name, reached) in totals.reached.iter().filter(|_| o.case.is_none()) {
        print_reached(name, reached);
    }
    for e in Explained::ALL {
        println!("row {} of docs/DIFFERENCES.md: {}", e.number(), e.text());
    }
    let Totals { cases, calls, different, reached } = totals;
    println!("{} functions, {cases} cases, {calls} calls, {different} unexplained differences", reached.len());
    ExitCode::from((different > 0) as u8)
}
