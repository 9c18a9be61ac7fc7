//! Why a place on a ray shows as it does: refusals by document 02; reasons by camlib's merge loop, run on the first 0, 1, 2, .. entries of the log. From
//! its lists alone it is read off when the place leaves possible and when it leaves certain.
use crate::{
    function::{Function, Outcome, Words},
    merge::{self, Ray},
    reached::{DECADES, Group, NUMBERS, Reached, count_decade, decade, minus_zero},
};
use harness::{Pair, flat, generate::Gen, holds, lent::Lent, pairs};
use tridexel::raw;

/// A ray before a log, the cells of that log and the place that is asked about. The ray has no hits of its own.
#[derive(Clone, Debug)]
pub struct Query {
    pub ray: Ray,
    pub log: Vec<f64>,
    pub place: f64,
}

/// The reason, 1 to 5, and the number of the entry or 0.
#[derive(Clone, Copy, Debug, PartialEq)]
pub struct Traced {
    pub reason: u32,
    pub entry: usize,
}

const POISON: Traced = Traced { reason: 0xdead_beef, entry: 0xdead_beef };

/// The port over possible, certain and the log.
pub fn trace([p, c, log]: [&[f64]; 3], [lo, hi]: Pair, place: f64, traced: &mut Traced) -> u32 {
    unsafe {
        raw::tridexel_trace(
            p.as_ptr(),
            p.len(),
            c.as_ptr(),
            c.len(),
            lo,
            hi,
            log.as_ptr(),
            log.len(),
            place,
            &mut traced.reason,
            &mut traced.entry,
        )
    }
}

impl Query {
    pub fn lists(&self) -> [&[f64]; 3] {
        [&self.ray.possible, &self.ray.certain, &self.log]
    }

    /// The outer and the inner pair of each whole entry.
    pub fn hits(&self) -> Vec<[Pair; 2]> {
        self.log.as_chunks::<6>().0.iter().map(|e| [[e[2], e[3]], [e[4], e[5]]]).collect()
    }

    /// The refusal that document 02 asks for, 0 for none.
    pub fn refusal(&self) -> u32 {
        if !self.log.len().is_multiple_of(6) || !self.ray.valid() {
            11
        } else if self.place.is_nan() {
            19
        } else {
            0
        }
    }

    /// Whether possible and certain hold the place after camlib's merge of these hits.
    fn shows_after(&self, hits: &[[Pair; 2]]) -> [bool; 2] {
        let [outer, inner] = [0, 1].map(|which| hits.iter().flat_map(|e| e[which]).collect());
        Ray { outer, inner, ..self.ray.clone() }.merged().map(|list| holds(&list, self.place))
    }

    /// The reason by camlib's merges, of a query that is not refused.
    pub fn traced(&self) -> Traced {
        let hits = self.hits();
        let shows: Vec<_> = (0..=hits.len()).map(|k| self.shows_after(&hits[..k])).collect();
        let [left_possible, left_certain] = [0, 1].map(|list| (1..=hits.len()).find(|k| !shows[*k][list]));
        let (reason, entry) = match shows[0] {
            [false, _] => (1, 0),
            [true, certain] => match (left_possible, certain, left_certain) {
                (Some(k), _, _) => (2, k),
                (None, false, _) => (4, 0),
                (None, true, Some(k)) => (3, k),
                (None, true, None) => (5, 0),
            },
        };
        Traced { reason, entry }
    }

    /// The same by the request's own words, in a plain loop over the pairs.
    pub fn by_words(&self) -> Traced {
        let first = |which: usize| {
            let held = |e: &[f64; 6]| e[2 + 2 * which] <= self.place && self.place < e[3 + 2 * which];
            self.log.as_chunks::<6>().0.iter().position(held).map(|i| i + 1)
        };
        let held = |list: &[f64]| list.as_chunks::<2>().0.iter().any(|s| s[0] <= self.place && self.place < s[1]);
        let (reason, entry) = if !held(&self.ray.possible) {
            (1, 0)
        } else if let Some(k) = first(1) {
            (2, k)
        } else if !held(&self.ray.certain) {
            (4, 0)
        } else {
            first(0).map_or((5, 0), |k| (3, k))
        };
        Traced { reason, entry }
    }
}

impl Words for Query {
    fn words(&self) -> String {
        let [p, c, log] = self.lists();
        format!("{} {} {} {} {}", self.ray.bounds.words(), p.words(), c.words(), log.words(), self.place.words())
    }
}

type Port = fn([&[f64]; 3], Pair, f64, &mut Traced) -> u32;

/// Names for the reasons.
const REASONS: [&str; 5] = ["not possible", "removed", "uncertain", "not certain", "still certain"];

/// What queries reach.
pub const WANTED: &[Group] = &[
    ("refused", &["accepted", "11", "19"]),
    ("11 for", &["the ray", "part of an entry", "both", "with a NaN place"]),
    // of the accepted ones
    ("reason", &REASONS),
    ("by entry", &["removed, 1", "removed, later", "uncertain, 1", "uncertain, later"]),
    ("removed", &["was certain", "was not certain", "outer pair before", "in no outer pair"]),
    (
        "place",
        &["lo of a pair", "hi of a pair", "beside an end", "plus zero", "minus zero", "+inf", "-inf", "subnormal", "other"],
    ),
    ("pairs", &["[0, 0]", "empty", "reversed", "NaN end", "infinite end", "inner not in outer"]),
    ("axis, index", &["NaN", "infinite", "any"]),
    ("minus zero", &["bound", "ray", "outer", "inner"]),
    ("entries", &["0", "1", "10", "100"]),
    ("infinite", &["bound", "end of the ray", "-inf possible"]),
    ("zero possible", &["plus", "minus"]),
    ("bound", &DECADES),
];

/// The place against every end with lo < hi, of the ray and of the hits.
fn count_place(q: &Query, hits: &[Pair], reached: &mut Reached) {
    let own = [q.ray.possible.as_slice(), &q.ray.certain].concat();
    let held: Vec<Pair> = pairs(&own).into_iter().chain(hits.iter().copied()).filter(|s| s[0] < s[1]).collect();
    let p = q.place;
    let beside = |x: f64| p == x.next_up() || p == x.next_down();
    let kinds = [
        (held.iter().any(|s| s[0] == p), "lo of a pair"),
        (held.iter().any(|s| s[1] == p), "hi of a pair"),
        (held.iter().any(|s| beside(s[0]) || beside(s[1])), "beside an end"),
        (p == 0. && p.is_sign_positive(), "plus zero"),
        (p == 0. && p.is_sign_negative(), "minus zero"),
        (p == f64::INFINITY, "+inf"),
        (p == f64::NEG_INFINITY, "-inf"),
        (p.is_subnormal(), "subnormal"),
    ];
    kinds.iter().for_each(|(came, kind)| reached.count_if(*came, "place", kind));
    reached.count_if(!kinds.iter().any(|(came, _)| *came), "place", "other");
    let possible = holds(&pairs(&q.ray.possible), p);
    reached.count_if(q.ray.bounds.iter().any(|x| x.is_infinite()), "infinite", "bound");
    reached.count_if(own.iter().any(|x| x.is_infinite()), "infinite", "end of the ray");
    reached.count_if(possible && p == f64::NEG_INFINITY, "infinite", "-inf possible");
    reached.count_if(possible && p == 0., "zero possible", if p.is_sign_positive() { "plus" } else { "minus" });
}

/// What the pairs of the entries are, and their axis and index.
fn count_entries(q: &Query, hits: &[Pair], reached: &mut Reached) {
    let any = |is: &dyn Fn(&Pair) -> bool| hits.iter().any(is);
    reached.count_if(any(&|s| *s == [0., 0.]), "pairs", "[0, 0]");
    reached.count_if(any(&|s| s[0] == s[1] && s[0] != 0.), "pairs", "empty");
    reached.count_if(any(&|s| s[1] < s[0]), "pairs", "reversed");
    reached.count_if(any(&|s| s[0].is_nan() || s[1].is_nan()), "pairs", "NaN end");
    reached.count_if(any(&|s| s[0] < s[1] && (s[0].is_infinite() || s[1].is_infinite())), "pairs", "infinite end");
    let out = |[o, i]: &[Pair; 2]| i[0] < i[1] && !(o[0] <= i[0] && i[1] <= o[1]);
    reached.count_if(q.hits().iter().any(out), "pairs", "inner not in outer");
    let names: Vec<f64> = q.log.chunks(6).flat_map(|e| [e[0], e[1]]).collect();
    reached.count_if(names.iter().any(|x| x.is_nan()), "axis, index", "NaN");
    reached.count_if(names.iter().any(|x| x.is_infinite()), "axis, index", "infinite");
    reached.count_if(names.iter().any(|x| x.is_finite()), "axis, index", "any");
    let own = [q.ray.possible.as_slice(), &q.ray.certain].concat();
    let [outer, inner] = [0, 1].map(|which| q.hits().iter().flat_map(|e| e[which]).collect::<Vec<f64>>());
    for (cells, what) in [(&q.ray.bounds[..], "bound"), (&own, "ray"), (&outer, "outer"), (&inner, "inner")] {
        reached.count_if(minus_zero(cells), "minus zero", what);
    }
    let entries = q.log.len() / 6;
    reached.count("entries", if entries == 0 { "0" } else { count_decade(entries) });
    reached.count("bound", decade(q.ray.bounds[0].abs().max(q.ray.bounds[1].abs())));
}

/// The reason with its entry, and how a place that is removed was held.
fn count_reason(q: &Query, traced: Traced, reached: &mut Reached) {
    let name = REASONS[traced.reason as usize - 1];
    reached.count("reason", name);
    if traced.entry > 0 {
        reached.count("by entry", &format!("{name}, {}", if traced.entry == 1 { "1" } else { "later" }));
    }
    if traced.reason == 2 {
        let certain = holds(&pairs(&q.ray.certain), q.place);
        let outer: Vec<Pair> = q.hits().iter().map(|e| e[0]).collect();
        reached.count("removed", if certain { "was certain" } else { "was not certain" });
        reached.count_if(holds(&outer[..traced.entry - 1], q.place), "removed", "outer pair before");
        reached.count_if(!holds(&outer, q.place), "removed", "in no outer pair");
    }
}

fn count_refused(q: &Query, number: u32, reached: &mut Reached) {
    reached.count("refused", NUMBERS[number as usize]);
    if number == 11 {
        let what = match (q.ray.valid(), q.log.len().is_multiple_of(6)) {
            (false, true) => "the ray",
            (true, _) => "part of an entry",
            (false, false) => "both",
        };
        reached.count("11 for", what);
        reached.count_if(q.place.is_nan(), "11 for", "with a NaN place");
    }
}

/// Calls with lists between guard cells and poisoned numbers, and looks at the refusal, both numbers and every cell.
pub fn compare_trace(q: &Query, port: Port, reached: &mut Reached) -> Outcome {
    let lent = q.lists().map(|l| Lent::of(l, 0));
    let mut traced = POISON;
    let code = port(std::array::from_fn(|k| lent[k].read()), q.ray.bounds, q.place, &mut traced);
    let kept = lent.iter().zip(q.lists()).all(|(l, before)| l.untouched(before));
    let number = q.refusal();
    count_refused(q, number, reached);
    let due = match number {
        0 => {
            let due = q.traced();
            let hits: Vec<Pair> = q.hits().into_iter().flatten().collect();
            count_reason(q, due, reached);
            count_place(q, &hits, reached);
            count_entries(q, &hits, reached);
            due
        }
        _ => POISON,
    };
    if (code, traced) == (number, due) && kept {
        return Outcome::Same;
    }
    let written = if kept { "" } else { ", an input was written" };
    Outcome::differs(None, format!("{number}, {due:x?}"), format!("{code}, {traced:x?}{written}"))
}

/// Most entries that a generated log has: the reference merges once for each.
const MOST_ENTRIES: usize = 300;

/// A pair of an entry: one of the hits, none, or one that holds nothing.
fn pair_of(g: &mut Gen, hits: &[Pair], i: usize) -> Pair {
    let s = hits.get(i).copied().unwrap_or([0., 0.]);
    match g.below(24) {
        0 | 1 => [0., 0.],
        2 => [s[0], s[0]],
        3 => [s[1], s[0]],
        4 => [f64::NAN, s[1]],
        5 => [s[0], f64::NAN],
        6 if !hits.is_empty() => g.pick(hits),
        _ => s,
    }
}

/// The hits of the ray as entries of a log, each with an outer and an inner pair, and any axis and index; now and then part of an entry over.
fn log_of(g: &mut Gen, ray: &Ray) -> Vec<f64> {
    let [outer, inner] = [&ray.outer, &ray.inner].map(|l| pairs(l));
    let mut log = vec![];
    for i in 0..outer.len().max(inner.len()).min(MOST_ENTRIES) {
        log.extend([g.double(), g.double()]);
        log.extend(pair_of(g, &outer, i));
        log.extend(pair_of(g, &inner, i));
    }
    if g.once_in(16) {
        log.extend((0..1 + g.below(5)).map(|_| g.double()));
    }
    log
}

/// A point of the pair: its first, its last, or one between.
fn point_of(g: &mut Gen, [lo, hi]: Pair) -> f64 {
    match g.below(4) {
        0 => lo,
        1 => hi.next_down(),
        _ if lo.is_finite() && hi.is_finite() => g.within(lo, hi),
        _ => 0f64.clamp(lo, hi),
    }
}

/// A place: a point of the ray, an end of the ray or of a hit, the double beside one, a zero, an infinity, NaN, a subnormal or any double.
fn place(g: &mut Gen, q: &Query) -> f64 {
    let own = pairs(if g.once_in(2) { &q.ray.certain } else { &q.ray.possible });
    let hits = q.hits();
    let end = |g: &mut Gen| match g.below(2) {
        0 if !hits.is_empty() => flat(&g.pick(&hits))[g.below(4) as usize],
        _ if !own.is_empty() => g.pick(own.as_flattened()),
        _ => g.double(),
    };
    match g.below(16) {
        0 | 1 => end(g),
        2 => end(g).next_up(),
        3 => end(g).next_down(),
        4 => g.pick(&[0., -0.]),
        5 => g.pick(&[f64::INFINITY, f64::NEG_INFINITY, f64::NAN]),
        6 => f64::from_bits(g.below(1 << 52)) * g.pick(&[1., -1.]),
        7 => g.double(),
        _ if own.is_empty() => g.double(),
        _ => {
            let s = g.pick(&own);
            if s[0] < s[1] { point_of(g, s) } else { s[0] }
        }
    }
}

/// The rays of `merge` with their hits as a log, and a place.
pub fn query(g: &mut Gen) -> Query {
    let ray = merge::ray(g);
    of_ray(g, ray)
}

/// The same for a ray of small numbers.
pub fn small_query(g: &mut Gen) -> Query {
    let (ray, _) = merge::small_ray_and_room(g);
    of_ray(g, ray)
}

fn of_ray(g: &mut Gen, ray: Ray) -> Query {
    let log = log_of(g, &ray);
    let mut q = Query { ray: Ray { outer: vec![], inner: vec![], ..ray }, log, place: 0. };
    q.place = place(g, &q);
    q
}

const INF: f64 = f64::INFINITY;
const NAN: f64 = f64::NAN;

/// A ray of these lists with this log, asked about every end of small logs, the doubles beside them, and some others.
fn at_places(bounds: Pair, possible: &[f64], certain: &[f64], log: &[f64]) -> Vec<Query> {
    let ray = Ray { bounds, possible: possible.into(), certain: certain.into(), outer: vec![], inner: vec![] };
    let ends = [0f64, 1., 2., 2.5, 3., 4., 5., 10.].into_iter().flat_map(|x| [x, x.next_up(), x.next_down()]);
    let places = ends.chain([-0., -1., 1.5, 7., f64::MIN_POSITIVE, INF, -INF, NAN, -NAN]);
    places.map(|place| Query { ray: ray.clone(), log: log.into(), place }).collect()
}

/// The ray of document 01's program with its hits as one entry.
pub fn worked() -> Vec<Query> {
    at_places([0., 10.], &[0., 10.], &[0., 10.], &[0., 0., 1., 4., 2., 3.])
}

/// The hits of that program, none, pairs that hold nothing, an inner pair out of its outer one, a second entry that is wider, and logs with part of an
/// entry over.
fn logs() -> Vec<Vec<f64>> {
    vec![
        vec![],
        vec![0., 0., 1., 4., 2., 3.],
        vec![NAN, INF, 1., 4., 2., 3.],
        vec![0., 0., 0., 0., 0., 0.],
        vec![0., 0., NAN, 4., 3., 2.],
        vec![0., 0., 1., NAN, 2.5, 2.5],
        vec![0., 0., 1., 2., 2., 4.],
        vec![0., 0., 1., 4., 0., 0., 0., 0., 1., 4., 2., 3.],
        vec![0., 0., 1., 4., 2., 3., 0., 0., 0., 10., 0., 10.],
        vec![0., 0., 0., 0., 2., 3., 0., 0., 1., 4., 0., 0.],
        vec![0., 0., -INF, INF, -0., 0., 0., 0., 0., 0., -INF, INF],
        vec![0., 0., 1., 4., 2., 3., 0.],
        vec![0., 0., 1., 4.],
    ]
}

/// Each of these logs on valid rays, infinite ones among them, and on rays that are not.
pub fn edges() -> Vec<Query> {
    let rays: [(Pair, &[f64], &[f64]); 9] = [
        ([0., 10.], &[0., 10.], &[0., 10.]),
        ([0., 10.], &[0., 10.], &[0., 5.]),
        ([-0., 10.], &[-0., 2., 3., 10.], &[3., 4.]),
        ([-INF, INF], &[-INF, INF], &[-INF, 0.]),
        ([NAN, 0.], &[], &[]),
        ([0., 10.], &[0., 4.], &[0., 5.]),
        ([0., 9.], &[0., 10.], &[]),
        ([0., 20.], &[0., 10., 11.], &[]),
        ([0., 10.], &[0., 1., 1., 2.], &[]),
    ];
    let on =
        |(bounds, p, c): (Pair, &[f64], &[f64])| logs().iter().flat_map(|log| at_places(bounds, p, c, log)).collect::<Vec<_>>();
    rays.into_iter().flat_map(on).collect()
}

pub fn functions() -> Vec<Function> {
    vec![Function::counting("trace", WANTED, edges(), query, |q, reached| compare_trace(q, trace, reached))]
}
