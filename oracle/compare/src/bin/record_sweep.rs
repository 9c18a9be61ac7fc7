//! Records camlib's sweeps, and document 01's refusals, for the program `sweep_vectors`.
//!
//!     cd oracle && ./build && cargo run --release --bin record_sweep > ../crates/sweep_vectors/stdin
//!
//! A row is 243 words of 16 hexadecimal digits; what it does not use is 0: version · the length and three bytes of the units · min, max, cell size,
//! `max_rays`, `max_intervals` · the cells of the spans, the links and the heads, the interval total · the axis and the shape by their numbers, the
//! shape's own two numbers, the cutter's nine, the guard · the cells of the chords, the budget, the cells of the log · the refusal, the entries, the
//! visit total · 25 cells of chords, 48 of spans, 48 of links, 24 of heads · 60 cells of the log after the sweep. Cells of a store that do not count
//! are 7.
//!
//! A seeded sweep is recorded where it shows something that fewer than `OFTEN` rows before it show; every thing in `wanted` must be shown so often.
use compare::{
    row::{bits, doubles, numbers, print},
    sweep::{Case, logged, small},
};
use harness::{generate::Gen, grid::UNITS};
use std::collections::BTreeMap;

const SEED: u64 = 1;
const TRIES: u64 = 200_000;
const OFTEN: u64 = 4;
const WORDS: usize = 243;
const SHAPES: [&str; 9] = ["flat", "ball", "bull", "drill", "chamfer", "beam", "probe", "lollipop", "dovetail"];
const BEAM: u64 = 5;
/// the places for chords, spans, links, heads and the log
const ROOM: [usize; 5] = [25, 48, 48, 24, 60];

fn fits(c: &Case) -> bool {
    let used = [c.chords.len(), c.spans.len() + c.over, c.links.len() + c.over, c.heads.len() + c.over, c.log];
    c.axis < 6 && c.tool.kind < 9 && used.iter().zip(ROOM).all(|(n, room)| *n <= room)
}

/// These cells, and 7 in the poisoned ones.
fn poisoned<T: Clone>(cells: &[T], over: usize, seven: T) -> Vec<T> {
    [cells, &vec![seven; over]].concat()
}

fn row(c: &Case) -> Vec<u64> {
    let units = UNITS[c.units].as_bytes();
    let mut words = vec![c.version as u64, units.len() as u64];
    words.extend(numbers(&units.iter().map(|b| *b as u64).collect::<Vec<_>>(), 3));
    words.extend(c.min.iter().chain(&c.max).chain([&c.cell]).map(|x| bits(*x)));
    words.extend([c.max_rays, c.max_intervals]);
    words.extend([c.spans.len(), c.links.len(), c.heads.len()].map(|n| (n + c.over) as u64));
    words.extend([c.intervals, c.axis, c.tool.kind]);
    words.extend(c.tool.own.iter().chain(&c.tool.c.numbers()).chain([&c.guard]).map(|x| bits(*x)));
    words.extend([c.chords.len() as u64, c.budget, c.log as u64]);
    let (refusal, entries, visits) = c.rust();
    words.extend([refusal as u64, entries.len() as u64, visits]);
    words.extend(doubles(&c.chords, ROOM[0]));
    words.extend(doubles(&poisoned(&c.spans, c.over, 7.), ROOM[1]));
    words.extend(numbers(&poisoned(&c.links, c.over, 7), ROOM[2]));
    words.extend(numbers(&poisoned(&c.heads, c.over, 7), ROOM[3]));
    words.extend(doubles(&logged(&entries, c.log), ROOM[4]));
    words
}

/// What the chords of an accepted sweep do, seen along the tool.
fn motions(c: &Case) -> Vec<String> {
    let (along, up) = ((c.axis / 2) as usize, if c.axis.is_multiple_of(2) { 1. } else { -1. });
    let (chords, _) = c.chords.as_chunks::<8>();
    let of = |x: &[f64; 8]| {
        let rise = up * (x[3 + along] - x[along]);
        let still = (0..3).all(|i| i == along || x[i] == x[3 + i]);
        let face = (0..3).any(|i| [x[i], x[3 + i]].iter().any(|p| *p == c.min[i] || *p == c.max[i]));
        let motion = match (still, rise) {
            (true, 0.) => "of length 0",
            (true, r) if r < 0. => "plunging",
            (true, _) => "rising in place",
            (false, 0.) => "level",
            (false, r) if r < 0. => "falling",
            _ => "climbing",
        };
        [Some(motion.to_string()), face.then(|| "touching a face".to_string())]
    };
    chords.iter().flat_map(of).flatten().collect()
}

fn shown(c: &Case) -> Vec<String> {
    let (refusal, entries, visits) = c.rust();
    let (_, all, total) = Case { budget: u64::MAX, log: usize::MAX / 16, ..c.clone() }.rust();
    let full = 6 * all.len();
    let mut all_shown = vec![];
    let mut show = |holds: bool, what: String| {
        if holds {
            all_shown.push(what);
        }
    };
    show(refusal != 0, format!("refusal {refusal}"));
    show(refusal == 1 && c.version != 1, "another version".into());
    show(refusal == 1 && c.units != 0, "other units".into());
    show(refusal == 8 && c.budget + 1 == total, "a budget one short".into());
    show(refusal == 8 && c.log > 0, "8 clears the log".into());
    show(refusal == 16 && c.log + 1 == full, "a log one cell short".into());
    show(refusal == 16 && c.log > 0, "16 clears the log".into());
    let hit = refusal == 0 && !entries.is_empty();
    show(hit, format!("{} along {}", SHAPES[c.tool.kind as usize], c.axis));
    show(hit && c.budget == visits, "a budget exact".into());
    show(hit && c.log == full, "a log exact".into());
    show(hit && c.log > full, "a longer log".into());
    show(hit && c.over > 0, "cells that do not count".into());
    show(hit && entries.iter().any(|e| e.inner.is_some()), "an inner".into());
    show(hit && entries.iter().any(|e| e.inner.is_none()), "no inner".into());
    show(hit && c.intervals != c.heads.len() as u64, "a cut stock".into());
    show(refusal == 0 && c.chords.is_empty(), "no chord".into());
    show(refusal == 0 && visits > 0 && entries.is_empty(), "visits without a hit".into());
    show(refusal == 0 && visits == 0 && !c.chords.is_empty(), "a chord that visits nothing".into());
    if hit {
        all_shown.extend(motions(c));
    }
    all_shown
}

/// What the rows must show. No description is due 4.
fn wanted() -> Vec<String> {
    let tools =
        (0..6).flat_map(|axis| (0..9).filter(|k| *k != BEAM).map(move |k| format!("{} along {axis}", SHAPES[k as usize])));
    let refusals = [1, 2, 3, 5, 6, 7, 8, 11, 12, 16].map(|k| format!("refusal {k}"));
    let others = [
        "another version",
        "other units",
        "a budget one short",
        "8 clears the log",
        "a log one cell short",
        "16 clears the log",
        "a budget exact",
        "a log exact",
        "a longer log",
        "cells that do not count",
        "an inner",
        "no inner",
        "a cut stock",
        "no chord",
        "visits without a hit",
        "a chord that visits nothing",
        "of length 0",
        "plunging",
        "rising in place",
        "level",
        "falling",
        "climbing",
        "touching a face",
    ];
    tools.chain(refusals).chain(others.map(String::from)).collect()
}

fn main() {
    let mut count = BTreeMap::new();
    for k in 0..TRIES {
        let c = small(&mut Gen::new(SEED, "record", k));
        if !fits(&c) {
            continue;
        }
        let all_shown = shown(&c);
        if all_shown.iter().all(|what| count.get(what) >= Some(&OFTEN)) {
            continue;
        }
        for what in all_shown {
            *count.entry(what).or_insert(0) += 1;
        }
        print(&row(&c), WORDS);
    }
    for what in wanted() {
        assert!(count.get(&what) >= Some(&OFTEN), "{what}: {:?}", count.get(&what));
    }
}
