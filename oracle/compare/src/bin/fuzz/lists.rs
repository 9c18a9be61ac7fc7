//! The list functions, the one-ray merge and the trace of a place.
use crate::{
    trial::{Entry, Lent, MARK, Trial},
    words::doubles,
};
use compare::{
    merge::Ray,
    spans::{is_sound, normalize_refusal, two_list_refusal},
    trace::{Query, Traced},
};
use tridexel::raw;

fn zero(cells: &[u64]) -> bool {
    cells.iter().all(|w| *w == 0)
}

/// Accepted: a sound list of at most so many pairs, plus zero past it.
fn laid(t: &Trial, out: &Lent, pairs: u64, most: usize) {
    let cells = t.after::<u64>(out);
    let fits = pairs as usize <= most;
    t.require(fits, "more pairs than can be");
    if fits {
        let (list, rest) = cells.split_at(2 * pairs as usize);
        t.require(is_sound(&doubles(list)), "a result that is not sound");
        t.require(zero(rest), "a cell past the result that is not plus zero");
    }
}

/// 12 exactly for too few pairs of room, then 11 exactly for part of a pair; accepted: see `laid`.
pub fn normalize(t: &mut Trial, spans: &[u64], out: &[u64]) {
    t.begin(Entry::Normalize);
    let (a, o, n) = (t.read(spans), t.write(out), t.write(&[MARK]));
    let code = unsafe { raw::tridexel_normalize(a.cells(), a.len, o.cells(), o.len, n.cells()) };
    t.end(code);
    t.require(code == normalize_refusal(&(doubles(spans), out.len())), "another answer is due");
    if code == 0 {
        laid(t, &o, t.number(&n), spans.len() / 2);
    }
}

/// 12 exactly for too few pairs of room, then 11 exactly for a list that is not sound; accepted: see `laid`.
pub fn combine(t: &mut Trial, entry: Entry, a: &[u64], b: &[u64], out: &[u64]) {
    t.begin(entry);
    let call = if entry == Entry::Subtract { raw::tridexel_subtract } else { raw::tridexel_intersect };
    let (x, y, o, n) = (t.read(a), t.read(b), t.write(out), t.write(&[MARK]));
    let code = unsafe { call(x.cells(), x.len, y.cells(), y.len, o.cells(), o.len, n.cells()) };
    t.end(code);
    t.require(code == two_list_refusal(&(doubles(a), doubles(b), out.len())), "another answer is due");
    if code == 0 {
        laid(t, &o, t.number(&n), a.len() / 2 + b.len() / 2);
    }
}

/// 11 exactly for a list that is not sound; accepted: 1 or 0.
pub fn relate(t: &mut Trial, entry: Entry, a: &[u64], b: &[u64]) {
    t.begin(entry);
    let call = if entry == Entry::Contains { raw::tridexel_contains } else { raw::tridexel_overlaps };
    let (x, y, yes) = (t.read(a), t.read(b), t.write(&[MARK as u32]));
    let code = unsafe { call(x.cells(), x.len, y.cells(), y.len, yes.cells()) };
    t.end(code);
    let sound = is_sound(&doubles(a)) && is_sound(&doubles(b));
    t.require(code == if sound { 0 } else { 11 }, "another answer is due");
    if code == 0 {
        t.require(t.after::<u32>(&yes)[0] <= 1, "neither yes nor no");
    }
}

/// 12 exactly for too little work, then 11 exactly for part of a pair or a ray not valid; accepted: a list that did not move has its own pairs, those
/// that moved are sound and stand at the start of the work buffer, plus zero past them.
pub fn merge(t: &mut Trial, lists: [&[u64]; 4], bounds: [u64; 2], work: &[u64]) {
    t.begin(Entry::Merge);
    let [p, c, o, i] = lists.map(|l| t.read(l));
    let [lo, hi] = bounds.map(f64::from_bits);
    let (w, moved, pairs) = (t.write(work), t.write(&[MARK as u32; 2]), t.write(&[MARK; 2]));
    let code = unsafe {
        raw::tridexel_merge(
            p.cells(),
            p.len,
            c.cells(),
            c.len,
            lo,
            hi,
            o.cells(),
            o.len,
            i.cells(),
            i.len,
            w.cells(),
            w.len,
            moved.cells(),
            pairs.cells(),
        )
    };
    t.end(code);
    let [possible, certain, outer, inner] = lists.map(doubles);
    let ray = Ray { bounds: [lo, hi], possible, certain, outer, inner };
    t.require(code == ray.refusal(work.len()), "another answer is due");
    if code == 0 {
        merged(t, [p.len / 2, c.len / 2], &w, [&moved, &pairs]);
    }
}

fn merged(t: &Trial, own: [usize; 2], work: &Lent, [moved, pairs]: [&Lent; 2]) {
    let mut rest = t.after::<u64>(work);
    for ((n, moved), own) in t.after::<usize>(pairs).iter().zip(t.after::<u32>(moved)).zip(own) {
        let n = *n;
        match *moved {
            0 => t.require(n == own, "a list that did not move has other pairs"),
            1 if n <= rest.len() / 2 => {
                let (list, past) = rest.split_at(2 * n);
                t.require(is_sound(&doubles(list)), "a new list that is not sound");
                rest = past;
            }
            _ => t.require(false, "neither moved nor not, or more pairs than the work has"),
        }
    }
    t.require(zero(rest), "a cell of the work buffer past the new lists that is not plus zero");
}

/// 11 exactly for part of an entry over or a ray not valid, then 19 exactly for a place that is NaN; accepted: the reason by the request's words.
pub fn trace(t: &mut Trial, lists: [&[u64]; 3], bounds: [u64; 2], place: u64) {
    t.begin(Entry::Trace);
    let [p, c, log] = lists.map(|l| t.read(l));
    let ([lo, hi], place) = (bounds.map(f64::from_bits), f64::from_bits(place));
    let (reason, entry) = (t.write(&[MARK as u32]), t.write(&[MARK]));
    let code = unsafe {
        raw::tridexel_trace(
            p.cells(),
            p.len,
            c.cells(),
            c.len,
            lo,
            hi,
            log.cells(),
            log.len,
            place,
            reason.cells(),
            entry.cells(),
        )
    };
    t.end(code);
    let [possible, certain, log] = lists.map(doubles);
    let q = Query { ray: Ray { bounds: [lo, hi], possible, certain, outer: vec![], inner: vec![] }, log, place };
    t.require(code == q.refusal(), "another answer is due");
    if code == 0 {
        let traced = Traced { reason: t.after::<u32>(&reason)[0], entry: t.number(&entry) as usize };
        t.require(traced == q.by_words(), "another reason is due");
    }
}
