//! The comparison finds a wrong function: each fault below is put on top of the port's own.
use compare::{
    function::Function,
    merge::{self, Parts, compare_merge, merge, ray_and_room},
    program::{self, Text, compare_program, text, texts},
    spans::{
        compare_intersect, compare_normalize, compare_subtract, intersect, list_and_room, normalize, one_list_edges, subtract,
        two_list_edges, two_lists_and_room,
    },
    stock::{self, blank, blanks, compare_fill, compare_volume, fill, stock, stocks, volume},
    sweep::{self, Lending, compare_sweep},
    trace::{self, Traced, compare_trace, query, trace},
};
use harness::store::LentStore;

type Port = fn(&[f64], &[f64], &mut [f64], &mut usize) -> u32;

/// The first case whose difference no row explains.
fn first(f: Function) -> Option<u64> {
    (0..f.edges + 20_000).find(|k| f.case(1, *k).is_some_and(|d| d.meant.is_none()))
}

fn difference(port: Port) -> Option<u64> {
    first(Function::new("intersect", two_list_edges(), two_lists_and_room, move |i| compare_intersect(i, port)))
}

/// Gives every zero among the cells the other sign.
fn other_zeros(cells: &mut [f64]) {
    cells.iter_mut().filter(|x| **x == 0.).for_each(|x| *x = -*x);
}

#[test]
fn the_port_passes() {
    assert_eq!(difference(intersect), None);
}

#[test]
fn faults() {
    let faults: [(&str, Port); 9] = [
        ("the other zero at an end", |a, b, out, n| {
            let code = intersect(a, b, out, n);
            if code == 0 {
                other_zeros(&mut out[..2 * *n]);
            }
            code
        }),
        ("an end one double off, in lists of three pairs", |a, b, out, n| {
            let code = intersect(a, b, out, n);
            if code == 0 && *n == 3 {
                out[5] = out[5].next_up();
            }
            code
        }),
        ("minus zero past the result", |a, b, out, n| {
            let code = intersect(a, b, out, n);
            if code == 0 && 2 * *n < out.len() {
                out[2 * *n] = -0.;
            }
            code
        }),
        ("an odd last double left as it was", |a, b, out, n| {
            let last = out.last().copied();
            let code = intersect(a, b, out, n);
            if code == 0 && out.len() % 2 == 1 {
                *out.last_mut().unwrap() = last.unwrap();
            }
            code
        }),
        ("a refused call that clears the buffer", |a, b, out, n| {
            let code = intersect(a, b, out, n);
            if code != 0 {
                out.fill(0.);
            }
            code
        }),
        ("a refused call that writes the count", |a, b, out, n| {
            let code = intersect(a, b, out, n);
            if code != 0 {
                *n = 0;
            }
            code
        }),
        ("11 before 12", |a, b, out, n| match intersect(a, b, out, n) {
            12 if a.len() % 2 == 1 => 11,
            code => code,
        }),
        ("a pair too few in the count", |a, b, out, n| {
            let code = intersect(a, b, out, n);
            if code == 0 && *n == 2 {
                *n = 1;
            }
            code
        }),
        ("a buffer of one pair more demanded", |a, b, out, n| {
            if out.len() / 2 == a.len() / 2 + b.len() / 2 && !out.is_empty() {
                return 12;
            }
            intersect(a, b, out, n)
        }),
    ];
    for (name, port) in faults {
        assert!(difference(port).is_some(), "not found: {name}");
    }
}

#[test]
fn normalize_faults() {
    let difference = |port: fn(&[f64], &mut [f64], &mut usize) -> u32| {
        first(Function::new("normalize", one_list_edges(), list_and_room, move |i| compare_normalize(i, port)))
    };
    assert_eq!(difference(normalize), None);
    let other = |l: &[f64], out: &mut [f64], n: &mut usize| {
        let code = normalize(l, out, n);
        if code == 0 {
            other_zeros(&mut out[..2 * *n]);
        }
        code
    };
    assert!(difference(other).is_some(), "not found: a zero that was not given");
}

#[test]
fn subtract_faults() {
    let difference =
        |port: Port| first(Function::new("subtract", two_list_edges(), two_lists_and_room, move |i| compare_subtract(i, port)));
    assert_eq!(difference(subtract), None);
    let faults: [(&str, Port); 2] = [
        ("b's zero where a's is due", |a, b, out, n| {
            let code = subtract(a, b, out, n);
            for x in out.iter_mut().take(if code == 0 { 2 * *n } else { 0 }).filter(|x| **x == 0.) {
                *x = b.iter().find(|y| **y == 0.).copied().unwrap_or(*x);
            }
            code
        }),
        ("the other zero in lists of three pairs", |a, b, out, n| {
            let code = subtract(a, b, out, n);
            if code == 0 && *n == 3 {
                other_zeros(&mut out[..6]);
            }
            code
        }),
    ];
    for (name, port) in faults {
        assert!(difference(port).is_some(), "not found: {name}");
    }
}

type Merge = fn([&[f64]; 4], [f64; 2], &mut [f64], &mut Parts) -> u32;

#[test]
fn merge_faults() {
    let difference = |port: Merge| {
        let compare = move |i: &_, reached: &mut _| compare_merge(i, port, reached);
        first(Function::counting("merge", merge::WANTED, merge::edges(), ray_and_room, compare))
    };
    assert_eq!(difference(merge), None);
    let faults: [(&str, Merge); 9] = [
        ("the other zero at an end", |lists, b, w, parts| {
            let code = merge(lists, b, w, parts);
            if code == 0 {
                let cells = 2 * (0..2).map(|k| parts.moved[k] as usize * parts.pairs[k]).sum::<usize>();
                other_zeros(&mut w[..cells]);
            }
            code
        }),
        ("a hit's zero where the ray's is due", |[p, c, o, i], b, w, parts| {
            let code = merge([p, c, o, i], b, w, parts);
            if code == 0 && parts.moved[0] == 1 {
                for x in w[..2 * parts.pairs[0]].iter_mut().filter(|x| **x == 0.) {
                    *x = i.iter().find(|y| **y == 0.).copied().unwrap_or(*x);
                }
            }
            code
        }),
        ("certain less outer alone", |[p, c, o, _], b, w, parts| merge([p, c, o, &[]], b, w, parts)),
        ("possible loses the outer hits", |[p, c, o, i], b, w, parts| {
            let code = merge([p, c, o, i], b, w, parts);
            if code == 0 && parts.moved == [0, 1] { merge([p, c, o, o], b, w, parts) } else { code }
        }),
        ("bounds not looked at", |lists, _, w, parts| merge(lists, [f64::NEG_INFINITY, f64::INFINITY], w, parts)),
        ("a list that did not move told as moved", |lists, b, w, parts| {
            let code = merge(lists, b, w, parts);
            if code == 0 && parts.moved[0] == 0 {
                parts.moved[0] = 1;
            }
            code
        }),
        ("the work buffer left dirty", |lists, b, w, parts| {
            let code = merge(lists, b, w, parts);
            if let (0, Some(last)) = (code, w.last_mut()) {
                *last = -0.;
            }
            code
        }),
        ("a refused call clears its work", |lists, b, w, parts| {
            let code = merge(lists, b, w, parts);
            if code == 11 {
                w.fill(0.);
            }
            code
        }),
        ("a work buffer of four pairs per hit pair", |[p, c, o, i], b, w, parts| match merge([p, c, o, i], b, w, parts) {
            12 if w.len() / 2 >= 4 * [p, c, o, i].iter().map(|l| l.len() / 2).sum::<usize>() => 0,
            code => code,
        }),
    ];
    for (name, port) in faults {
        assert!(difference(port).is_some(), "not found: {name}");
    }
}

type Trace = fn([&[f64]; 3], [f64; 2], f64, &mut Traced) -> u32;

#[test]
fn trace_faults() {
    let difference = |port: Trace| {
        let compare = move |q: &_, reached: &mut _| compare_trace(q, port, reached);
        first(Function::counting("trace", trace::WANTED, trace::edges(), query, compare))
    };
    assert_eq!(difference(trace), None);
    /// The log with each entry changed.
    fn each(log: &[f64], change: fn(&mut [f64; 6])) -> Vec<f64> {
        let mut log = log.to_vec();
        log.as_chunks_mut::<6>().0.iter_mut().for_each(change);
        log
    }
    let faults: [(&str, Trace); 16] = [
        ("entries counted from 0", |lists, b, p, t| {
            let code = trace(lists, b, p, t);
            if code == 0 && t.entry > 0 {
                t.entry -= 1;
            }
            code
        }),
        ("the last entry in place of the first", |[l, c, log], b, p, t| {
            let code = trace([l, c, log], b, p, t);
            if code == 0 && t.entry > 0 {
                let at = 8 - 2 * t.reason as usize;
                let holds = |e: &[f64; 6]| e[at] <= p && p < e[at + 1];
                t.entry = log.as_chunks::<6>().0.iter().rposition(holds).unwrap() + 1;
            }
            code
        }),
        ("outer and inner pairs exchanged", |[l, c, log], b, p, t| {
            let swapped = each(log, |e| *e = [e[0], e[1], e[4], e[5], e[2], e[3]]);
            trace([l, c, &swapped], b, p, t)
        }),
        ("pairs that hold their upper end", |[l, c, log], b, p, t| {
            let wider = each(log, |e| (e[3], e[5]) = (e[3].next_up(), e[5].next_up()));
            trace([l, c, &wider], b, p, t)
        }),
        ("pairs that do not hold their lower end", |[l, c, log], b, p, t| {
            let narrower = each(log, |e| (e[2], e[4]) = (e[2].next_up(), e[4].next_up()));
            trace([l, c, &narrower], b, p, t)
        }),
        ("an inner pair counts within its outer one only", |[l, c, log], b, p, t| {
            let within = each(log, |e| (e[4], e[5]) = (e[4].max(e[2]), e[5].min(e[3])));
            trace([l, c, &within], b, p, t)
        }),
        ("minus zero below plus zero", |[l, c, log], b, p, t| {
            let code = trace([l, c, log], b, p, t);
            if code == 0 && p.to_bits() == (-0f64).to_bits() { trace([l, c, log], b, p.next_down(), t) } else { code }
        }),
        ("an infinite place not possible", |lists, b, p, t| {
            let code = trace(lists, b, p, t);
            if code == 0 && p.is_infinite() {
                *t = Traced { reason: 1, entry: 0 };
            }
            code
        }),
        ("entries that name no ray left out", |[l, c, log], b, p, t| {
            let named = each(log, |e| {
                if !(0. ..=2.).contains(&e[0]) {
                    e[2..].fill(0.);
                }
            });
            trace([l, c, &named], b, p, t)
        }),
        ("19 before 11", |lists, b, p, t| match trace(lists, b, p, t) {
            11 if p.is_nan() => 19,
            code => code,
        }),
        ("part of an entry left out", |[l, c, log], b, p, t| trace([l, c, log.as_chunks::<6>().0.as_flattened()], b, p, t)),
        ("a refused call that writes the entry", |lists, b, p, t| {
            let code = trace(lists, b, p, t);
            if code != 0 {
                t.entry = 0;
            }
            code
        }),
        ("a refused call that writes the reason", |lists, b, p, t| {
            let code = trace(lists, b, p, t);
            if code != 0 {
                t.reason = 1;
            }
            code
        }),
        ("a NaN place not possible", |lists, b, p, t| match trace(lists, b, p, t) {
            19 => {
                *t = Traced { reason: 1, entry: 0 };
                0
            }
            code => code,
        }),
        ("made uncertain where a later inner pair removes", |[l, c, log], b, p, t| {
            let code = trace([l, c, log], b, p, t);
            if code == 0 && t.reason == 2 {
                let before = &log[..6 * (t.entry - 1)];
                let mut earlier = *t;
                if trace([l, c, before], b, p, &mut earlier) == 0 && earlier.reason == 3 {
                    *t = earlier;
                }
            }
            code
        }),
        ("possible and certain exchanged", |[l, c, log], b, p, t| match trace([l, c, log], b, p, t) {
            0 if trace([c, l, log], b, p, t) != 0 => trace([c, c, log], b, p, t),
            code => code,
        }),
    ];
    for (name, port) in faults {
        assert!(difference(port).is_some(), "not found: {name}");
    }
}

type Fill = fn(compare::grid::DexelStockSpec, &[u8], &mut LentStore, &mut u64, &mut u64) -> u32;

#[test]
fn fill_faults() {
    let difference = |port: Fill| {
        let compare = move |b: &_, reached: &mut _| compare_fill(b, port, reached);
        first(Function::counting("fill", stock::FILLED, blanks(), blank, compare))
    };
    assert_eq!(difference(fill), None);
    let faults: [(&str, Fill); 7] = [
        ("a bound's minus zero lost", |spec, units, s, g, n| {
            let code = fill(spec, units, s, g, n);
            if code == 0 {
                s.spans.cells()[..2].iter_mut().for_each(|x| *x += 0.);
            }
            code
        }),
        ("records after the first thousand left out", |spec, units, s, g, n| {
            let code = fill(spec, units, s, g, n);
            if code == 0 && *n > 1000 {
                s.links.cells()[2001] = 0;
            }
            code
        }),
        ("bounds to seven digits", |spec, units, s, g, n| {
            let code = fill(spec, units, s, g, n);
            if code == 0 {
                s.spans.cells()[0] = s.spans.cells()[0] as f32 as f64;
            }
            code
        }),
        ("a free record left poisoned", |spec, units, s, g, n| {
            let code = fill(spec, units, s, g, n);
            if code == 0 && *n < spec.max_intervals {
                s.spans.cells()[2 * *n as usize] = f64::NAN;
            }
            code
        }),
        ("a cell past the records written", |spec, units, s, g, n| {
            let code = fill(spec, units, s, g, n);
            if let (0, Some(cell)) = (code, s.links.cells().get_mut(2 * spec.max_intervals as usize)) {
                *cell = 0;
            }
            code
        }),
        ("the generation kept", |spec, units, s, g, n| {
            let before = *g;
            let code = fill(spec, units, s, g, n);
            *g = before;
            code
        }),
        ("owners from 0", |spec, units, s, g, n| {
            let code = fill(spec, units, s, g, n);
            if code == 0 {
                s.links.cells()[1] = 0;
            }
            code
        }),
    ];
    for (name, port) in faults {
        assert!(difference(port).is_some(), "not found: {name}");
    }
}

type Volume = fn(compare::grid::DexelStockSpec, &[u8], (&[f64], &[u64], &[u64]), u64, &mut [f64; 10]) -> u32;

#[test]
fn volume_faults() {
    let difference = |port: Volume| {
        let compare = move |s: &_, reached: &mut _| compare_volume(s, port, reached);
        first(Function::counting("volume", stock::MEASURED, stocks(), stock, compare))
    };
    assert_eq!(difference(volume), None);
    let faults: [(&str, Volume); 5] = [
        ("a volume of minus zero", |spec, units, cells, n, v| {
            let code = volume(spec, units, cells, n, v);
            if code == 0 {
                other_zeros(v);
            }
            code
        }),
        ("volumes below 1e-9 told as none", |spec, units, cells, n, v| {
            let code = volume(spec, units, cells, n, v);
            if code == 0 {
                v.iter_mut().filter(|x| **x < 1e-9).for_each(|x| *x = 0.);
            }
            code
        }),
        ("the interval total not looked at", |spec, units, cells, n, v| match volume(spec, units, cells, n, v) {
            11 => (0..=spec.max_intervals).map(|n| volume(spec, units, cells, n, v)).find(|code| *code != 11).unwrap_or(11),
            code => code,
        }),
        ("a number one double off", |spec, units, cells, n, v| {
            let code = volume(spec, units, cells, n, v);
            if code == 0 {
                v[5] = v[5].next_up();
            }
            code
        }),
        ("12 after 11", |spec, units, cells, n, v| match volume(spec, units, cells, n, v) {
            12 if n > spec.max_intervals => 11,
            code => code,
        }),
    ];
    for (name, port) in faults {
        assert!(difference(port).is_some(), "not found: {name}");
    }
}

type Sweep = fn(&Lending, &mut [f64], &mut usize, &mut u64) -> u32;

/// The entries of an accepted sweep, with the others' cells behind them.
fn entries(log: &mut [f64], n: usize) -> &mut [[f64; 6]] {
    &mut log.as_chunks_mut().0[..n]
}

#[test]
fn sweep_faults() {
    let difference = |port: Sweep| {
        let compare = move |c: &_, reached: &mut _| compare_sweep(c, port, reached);
        first(Function::counting("sweep", sweep::WANTED, vec![], sweep::any, compare))
    };
    assert_eq!(difference(sweep::port), None);
    let faults: [(&str, Sweep); 10] = [
        ("minus zero past the entries", |l, log, n, v| {
            let code = sweep::port(l, log, n, v);
            if code == 0 {
                other_zeros(&mut log[6 * *n..]);
            }
            code
        }),
        ("no inner as minus zeros", |l, log, n, v| {
            let code = sweep::port(l, log, n, v);
            if code == 0 {
                entries(log, *n).iter_mut().filter(|e| e[4..] == [0., 0.]).for_each(|e| other_zeros(&mut e[4..]));
            }
            code
        }),
        ("a minus zero index", |l, log, n, v| {
            let code = sweep::port(l, log, n, v);
            if code == 0 {
                entries(log, *n).iter_mut().for_each(|e| other_zeros(&mut e[1..2]));
            }
            code
        }),
        ("the log left as it was by 8", |l, log, n, v| {
            let before = log.to_vec();
            let code = sweep::port(l, log, n, v);
            if code == 8 {
                log.copy_from_slice(&before);
            }
            code
        }),
        ("a ray that is only touched left out", |l, log, n, v| {
            let code = sweep::port(l, log, n, v);
            if code == 0 && *n > 0 && log[6 * *n - 3] - log[6 * *n - 4] == 2. * l.guard {
                *n -= 1;
                log[6 * *n..6 * *n + 6].fill(0.);
            }
            code
        }),
        ("indexes to 4096", |l, log, n, v| {
            let code = sweep::port(l, log, n, v);
            if code == 0 {
                entries(log, *n).iter_mut().for_each(|e| e[1] %= 4096.);
            }
            code
        }),
        ("errors above 500 turned away", |l, log, n, v| {
            let (chords, _) = l.chords.as_chunks::<8>();
            match sweep::port(l, log, n, v) {
                0 if chords.iter().any(|c| c[6] > 500.) => 7,
                code => code,
            }
        }),
        ("ends to seven digits", |l, log, n, v| {
            let code = sweep::port(l, log, n, v);
            if code == 0 {
                entries(log, *n).iter_mut().for_each(|e| e[2] = e[2] as f32 as f64);
            }
            code
        }),
        ("one visit more than the budget", |l, log, n, v| {
            let more = l.budget.saturating_add(1);
            sweep::port(&Lending { budget: more, ..*l }, log, n, v)
        }),
        ("a slope of a drill not looked at", |l, log, n, v| {
            let mut tool = l.tool.clone();
            if tool.kind == 3 {
                tool.c.slope = 1.;
            }
            sweep::port(&Lending { tool: &tool, ..*l }, log, n, v)
        }),
    ];
    for (name, port) in faults {
        assert!(difference(port).is_some(), "not found: {name}");
    }
}

#[test]
fn program_faults() {
    let difference = |port: fn(&[u8]) -> Text| {
        let compare = move |t: &_, reached: &mut _| compare_program(t, port, reached);
        first(Function::counting("merge_ray", program::WANTED, texts(), text, compare))
    };
    assert_eq!(difference(program::run), None);
    fn replaced(t: &[u8], from: &str, to: &str) -> Text {
        let text = String::from_utf8(program::run(t).0).unwrap();
        Text(text.replace(from, to).into_bytes())
    }
    let faults: [(&str, fn(&[u8]) -> Text); 2] = [
        ("minus zero printed as plus zero", |t| replaced(t, " 8000000000000000", " 0000000000000000")),
        ("plus zero printed as minus zero", |t| replaced(t, " 0000000000000000", " 8000000000000000")),
    ];
    for (name, port) in faults {
        assert!(difference(port).is_some(), "not found: {name}");
    }
}
