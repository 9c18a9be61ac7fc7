//! The port's times beside the Rust's, from one run. Each module has one file here and a line in `modules`.
//! `bench [NAME]`: all rows and then the growth tables, or the rows whose text has NAME in it. `bench growth`: the growth tables alone.
//! `bench budgets [N [NAME]]`: log commits of N entries with their budgets out of reach and reached exactly. `bench count MODULE ROW CALLS
//! ROUNDS`: the port's side of a row alone, for a count of its instructions.
mod budgets;
mod commits;
mod doubles;
mod geometry;
mod growth;
mod laid;
mod merge;
mod spans;
mod stock;
mod sweep;
mod timing;
mod trace;

use timing::{Count, Rows, Table};

type Module = (&'static str, fn(&mut Table));

fn modules() -> Vec<Module> {
    vec![
        ("doubles", doubles::rows), //
        ("spans", spans::rows),
        ("geometry", geometry::rows),
        ("merge", merge::rows),
        ("trace", trace::rows),
        ("stock", stock::rows),
        ("sweep", sweep::rows),
        ("commits", commits::rows),
    ]
}

fn main() {
    let args: Vec<String> = std::env::args().skip(1).collect();
    let args: Vec<&str> = args.iter().map(String::as_str).collect();
    let number = |s: &str| s.parse().expect("a number");
    let (of, rows) = match args[..] {
        [] => (None, Rows::All),
        ["count", module, row, calls, rounds] => {
            (Some(module), Rows::Count(Count { row: row.into(), calls: number(calls), rounds: number(rounds) }))
        }
        ["growth"] => return growth::print(),
        ["budgets"] => return budgets::print(&budgets::SIZES, ""),
        ["budgets", n] => return budgets::print(&[number(n)], ""),
        ["budgets", n, name] => return budgets::print(&[number(n)], name),
        [name] => (None, Rows::With(name.into())),
        _ => panic!("bench [NAME], bench growth, bench budgets [N [NAME]] or bench count MODULE ROW CALLS ROUNDS"),
    };
    let mut table = Table::new(rows);
    for (name, rows) in modules() {
        if of.is_none_or(|of| of == name) {
            rows(&mut table);
        }
    }
    if args.is_empty() {
        growth::print();
    }
}
