//! Records camlib's answers for the program `spans_vectors`: edge cases, seeded lists, document 01's examples, zeros of both signs.
//!
//!     cd oracle && cargo run --release --bin record_spans > ../crates/spans_vectors/stdin
//!
//! A row has 35 words of 16 hexadecimal digits: the function (0 normalize, 1 subtract, 2 intersect, 3 contains, 4 overlaps), how many cells
//! the two lists and the buffer have, seven cells of each list, the refusal's number or 0, the number of pairs or 1 for yes, and the 15 cells
//! of the buffer after the call, which held 7 in each cell before it. The refusals are document 01's; camlib has none.
use harness::{flat, generate::Gen, pairs, sound};
use oracle::dexel::opened as rust;

const SEED: u64 = 1;
const ROWS: u64 = 700;
const LIST: usize = 7;
const BUFFER: usize = 15;
const NAN: f64 = f64::NAN;
const INF: f64 = f64::INFINITY;

fn bits(x: f64) -> u64 {
    if x.is_nan() { 0x7ff8_0000_0000_0000 } else { x.to_bits() }
}

/// One question: the function, its lists and how many cells of the buffer are lent.
struct Query {
    op: u64,
    a: Vec<f64>,
    b: Vec<f64>,
    room: usize,
}

impl Query {
    fn refused(&self) -> u64 {
        let whole = |l: &[f64]| l.len() % 2 == 0 && sound(&pairs(l));
        let needed = self.a.len() / 2 + if self.op == 0 { 0 } else { self.b.len() / 2 };
        let bad = if self.op == 0 { self.a.len() % 2 != 0 } else { !whole(&self.a) || !whole(&self.b) };
        match () {
            _ if self.op < 3 && self.room / 2 < needed => 12,
            _ if bad => 11,
            _ => 0,
        }
    }

    fn row(&self) -> String {
        let mut out = vec![7.; BUFFER];
        let mut count = 0;
        let refused = self.refused();
        if refused == 0 {
            let (a, b) = (pairs(&self.a), pairs(&self.b));
            if self.op < 3 {
                let list = match self.op {
                    0 => rust::normalize(a),
                    1 => rust::subtract(&a, &b),
                    _ => rust::intersect(&a, &b),
                };
                count = list.len() as u64;
                out[..self.room].fill(0.);
                out[..2 * list.len()].copy_from_slice(&flat(&list));
            } else {
                count = u64::from(if self.op == 3 { rust::contains(&a, &b) } else { rust::overlaps(&a, &b) });
            }
        }
        let cells = |l: &[f64]| (0..LIST).map(|i| l.get(i).map_or(0, |x| bits(*x))).collect::<Vec<_>>();
        let mut words = vec![self.op, self.a.len() as u64, self.b.len() as u64, self.room as u64];
        words.extend(cells(&self.a));
        words.extend(cells(&self.b));
        words.extend([refused, count]);
        words.extend(out.iter().map(|x| bits(*x)));
        words.iter().map(|w| format!("{w:016x}")).collect::<Vec<_>>().join(" ")
    }
}

/// A question with a buffer one double short, exact, one double longer and long.
fn rooms(op: u64, a: &[f64], b: &[f64]) -> Vec<Query> {
    let needed = 2 * (a.len() / 2 + if op == 0 { 0 } else { b.len() / 2 });
    let rooms: &[usize] = if op < 3 { &[needed.saturating_sub(1), needed, needed + 1, BUFFER] } else { &[0] };
    rooms.iter().map(|room| Query { op, a: a.to_vec(), b: b.to_vec(), room: *room }).collect()
}

fn edges() -> Vec<Query> {
    let mut out = vec![];
    let lists: Vec<Vec<f64>> = vec![
        vec![],
        vec![1.],
        vec![NAN],
        vec![0., 1.],
        vec![1., 1.],
        vec![2., 1.],
        vec![0., NAN],
        vec![NAN, 2.],
        vec![-INF, INF],
        vec![INF, INF],
        vec![-INF, -INF, 0., INF],
        vec![-0., 0.],
        vec![0., -0., 1., 2.],
        vec![-1., -0., 0., 1.],
        vec![-1., 0., -0., 1.],
        vec![0., 5e-324],
        vec![0., 2., 3., 5.],
        vec![1., 4.],
        vec![1., 2., 3., 4.],
        vec![0., 10.],
        vec![3., 4., 1., 2., 2., 3.],
        vec![1., 1., NAN, 2., 2., 1.],
        vec![5., 6., 3., 4., 1., 2.],
        vec![0., 1., 1., 2., 2., 3.],
        vec![0., 9., 1., 2., 3., 4.],
        vec![1., 2., 3., 4., 0., 9.],
        vec![0., 1., 2., 3., 4.],
        vec![0., 1., 2., 3., 4., 5., 6.],
        vec![-INF, 0., 1., 2., 3., INF],
    ];
    for a in &lists {
        out.extend(rooms(0, a, &[]));
        for b in &lists {
            for op in 1..5 {
                let all = rooms(op, a, b);
                let exact = usize::from(op < 3);
                out.push(all.into_iter().nth(exact).unwrap());
            }
        }
        for op in 1..3 {
            out.extend(rooms(op, a, &[1., 4.]));
        }
    }
    // of the many pairs of lists one in three is kept, and one in nine of those that are not sound
    let mut kept = vec![];
    for (i, q) in out.into_iter().enumerate() {
        if q.op == 0 || i % if q.refused() == 11 { 9 } else { 3 } == 0 {
            kept.push(q);
        }
    }
    kept
}

fn seeded(case: u64) -> Query {
    let mut g = Gen::new(SEED, "spans", case);
    g.size = 3;
    let op = g.below(5);
    let mut a = if op == 0 { flat(&g.list()) } else { flat(&g.sound()) };
    let mut b = if op == 0 { vec![] } else { flat(&g.sound_near(&pairs(&a))) };
    b.truncate(6);
    if op > 0 && g.once_in(12) {
        a = flat(&g.unsound());
    }
    if op > 0 && g.once_in(12) {
        b = flat(&g.unsound());
    }
    if g.once_in(12) {
        a.push(g.double());
    }
    if op > 0 && g.once_in(12) {
        b.push(g.double());
    }
    let all = rooms(op, &a, &b);
    let room = match g.below(8) {
        0 => 0,
        1 => 2,
        2 => 3,
        _ => 1,
    };
    all.into_iter().nth(if op < 3 { room } else { 0 }).unwrap()
}

/// A question with a buffer that is long enough.
fn of(op: u64, a: &[f64], b: &[f64]) -> Query {
    Query { op, a: a.to_vec(), b: b.to_vec(), room: BUFFER }
}

/// Document 01's examples.
fn examples() -> Vec<Query> {
    let two = [0., 2., 3., 5.];
    vec![
        of(0, &[3., 4., 1., 2., 2., 3.], &[]),
        of(0, &[1., 1., NAN, 2., 2., 1.], &[]),
        of(0, &[1., 2., 3., 4.], &[]),
        of(1, &two, &[1., 4.]),
        of(1, &[0., 1.], &[1., 2.]),
        of(1, &[0., 10.], &[0., 10.]),
        of(2, &two, &[1., 4.]),
        of(3, &two, &[1., 4.]),
        of(3, &two, &[]),
    ]
}

/// A zero of each sign at an end of either list. Where two meet in `max` or `min` Rust leaves the sign open; it keeps the first here, as
/// document 01 does.
fn zeros() -> Vec<Query> {
    let mut out = vec![];
    for (x, y) in [(0., 0.), (0., -0.), (-0., 0.), (-0., -0.)] {
        for op in [1, 2] {
            out.push(of(op, &[x, 2.], &[y, 1.]));
            out.push(of(op, &[x, 2.], &[-1., y]));
            out.push(of(op, &[-2., x], &[y, 1.]));
            out.push(of(op, &[-2., x], &[-1., y]));
            out.push(of(op, &[-2., 2.], &[-1., y]));
            out.push(of(op, &[x, 2.], &[-1., 1.]));
        }
    }
    out
}

fn main() {
    for q in edges() {
        println!("{}", q.row());
    }
    for case in 0..ROWS {
        println!("{}", seeded(case).row());
    }
    for q in examples().into_iter().chain(zeros()) {
        println!("{}", q.row());
    }
}
