//! The five list functions: refusals by document 01, lists by camlib.
use crate::{
    explained::Explained,
    function::{Function, Outcome, Words},
};
use harness::{
    Pair, flat,
    generate::{Gen, all_lists, all_sound, paired},
    lent::Lent,
    one_zero, pairs, same, settled, sound,
};
use oracle::dexel::opened as rust;
use tridexel::raw;

pub fn normalize(spans: &[f64], out: &mut [f64], pairs: &mut usize) -> u32 {
    unsafe { raw::tridexel_normalize(spans.as_ptr(), spans.len(), out.as_mut_ptr(), out.len(), pairs) }
}

pub fn subtract(a: &[f64], b: &[f64], out: &mut [f64], pairs: &mut usize) -> u32 {
    unsafe { raw::tridexel_subtract(a.as_ptr(), a.len(), b.as_ptr(), b.len(), out.as_mut_ptr(), out.len(), pairs) }
}

pub fn intersect(a: &[f64], b: &[f64], out: &mut [f64], pairs: &mut usize) -> u32 {
    unsafe { raw::tridexel_intersect(a.as_ptr(), a.len(), b.as_ptr(), b.len(), out.as_mut_ptr(), out.len(), pairs) }
}

pub fn contains(outer: &[f64], inner: &[f64], yes: &mut u32) -> u32 {
    unsafe { raw::tridexel_contains(outer.as_ptr(), outer.len(), inner.as_ptr(), inner.len(), yes) }
}

pub fn overlaps(a: &[f64], b: &[f64], yes: &mut u32) -> u32 {
    unsafe { raw::tridexel_overlaps(a.as_ptr(), a.len(), b.as_ptr(), b.len(), yes) }
}

const POISON: u32 = 0xdead_beef;

/// Whole pairs, in a sound list.
pub fn is_sound(list: &[f64]) -> bool {
    list.len().is_multiple_of(2) && sound(&pairs(list))
}

/// What document 01 says of a call that writes a list into a buffer.
enum Due {
    Refused(u32),
    /// the list, and whether its ends are settled by bits; else they are as numbers
    List(Vec<Pair>, bool),
}

/// Calls with lists between guard cells and a poisoned buffer of `room` doubles, and looks at the number, the count and every cell.
fn written<const N: usize>(
    due: Due,
    lists: [&[f64]; N],
    room: usize,
    call: impl Fn([&[f64]; N], &mut [f64], &mut usize) -> u32,
) -> Outcome {
    let lent = lists.map(|l| Lent::of(l, 0));
    let mut out = Lent::<f64>::new(room);
    let mut count = POISON as usize;
    let code = call(std::array::from_fn(|i| lent[i].read()), out.cells(), &mut count);
    let kept = lent.iter().zip(lists).all(|(l, before)| l.untouched(before));
    let (meant, rust) = match due {
        Due::Refused(number) => {
            if code == number && count == POISON as usize && out.untouched(&[]) && kept {
                return Outcome::Same;
            }
            (None, format!("{number}, nothing written"))
        }
        Due::List(list, settled) => {
            let want = flat(&list);
            let laid = code == 0 && count == list.len() && kept && want.len() <= room && out.zero(want.len());
            let cells = || want.iter().zip(out.read());
            if laid && cells().all(|(w, c)| w.to_bits() == c.to_bits()) {
                return Outcome::Same;
            }
            let zeros = laid && !settled && cells().all(|(w, c)| same(*w, *c));
            let meant = zeros.then_some(Explained::Zeros);
            (meant, format!("0, pairs {}, list {}, zeros past it", list.len(), want.words()))
        }
    };
    let written = if kept { "" } else { ", an input was written" };
    Outcome::differs(meant, rust, format!("{code}, pairs {count}, buffer {}{written}", out.read().words()))
}

/// Calls a yes-or-no function of two lists.
fn told(a: &[f64], b: &[f64], rust: fn(&[Pair], &[Pair]) -> bool, port: fn(&[f64], &[f64], &mut u32) -> u32) -> Outcome {
    let due = if is_sound(a) && is_sound(b) { (0, rust(&pairs(a), &pairs(b)) as u32) } else { (11, POISON) };
    let lent = [a, b].map(|l| Lent::of(l, 0));
    let mut yes = POISON;
    let code = port(lent[0].read(), lent[1].read(), &mut yes);
    if (code, yes) == due && lent[0].untouched(a) && lent[1].untouched(b) {
        return Outcome::Same;
    }
    Outcome::differs(None, format!("{}, answer {:x}", due.0, due.1), format!("{code}, answer {yes:x}"))
}

/// A list and the doubles of the result buffer.
pub type One = (Vec<f64>, usize);
/// Two lists and the doubles of the result buffer.
pub type Two = (Vec<f64>, Vec<f64>, usize);

/// The refusal that document 01 asks for, 0 for none.
pub fn normalize_refusal((list, room): &One) -> u32 {
    if room / 2 < list.len() / 2 {
        12
    } else if list.len() % 2 == 1 {
        11
    } else {
        0
    }
}

pub fn two_list_refusal((a, b, room): &Two) -> u32 {
    if room / 2 < a.len() / 2 + b.len() / 2 {
        12
    } else if !is_sound(a) || !is_sound(b) {
        11
    } else {
        0
    }
}

/// By bits where no choice of a zero is left.
pub fn compare_normalize(input: &One, port: fn(&[f64], &mut [f64], &mut usize) -> u32) -> Outcome {
    let (list, room) = input;
    let due = match normalize_refusal(input) {
        0 => Due::List(rust::normalize(pairs(list)), settled(&pairs(list))),
        number => Due::Refused(number),
    };
    written(due, [list], *room, |[l], out, n| port(l, out, n))
}

type Port = fn(&[f64], &[f64], &mut [f64], &mut usize) -> u32;

fn compare_two(input: &Two, rust: fn(&[Pair], &[Pair]) -> Vec<Pair>, settled: bool, port: Port) -> Outcome {
    let (a, b, room) = input;
    let due = match two_list_refusal(input) {
        0 => Due::List(rust(&pairs(a), &pairs(b)), settled),
        number => Due::Refused(number),
    };
    written(due, [a, b], *room, |[a, b], out, n| port(a, b, out, n))
}

/// By bits: the Rust keeps a's end where an end of b is the same number.
pub fn compare_subtract(input: &Two, port: Port) -> Outcome {
    compare_two(input, rust::subtract, true, port)
}

/// By bits where no zeros of opposite sign meet in the Rust's `max` and `min`.
pub fn compare_intersect(input: &Two, port: Port) -> Outcome {
    let (a, b, _) = input;
    compare_two(input, rust::intersect, one_zero(&[&a[..], b].concat()), port)
}

/// Mostly short lists, now and then a long one.
pub fn choose_size(g: &mut Gen) {
    g.size = match g.below(1024) {
        0 => 400,
        1..=30 => 40,
        _ => 2 + g.below(9) as usize,
    };
}

/// A buffer that is one double short, exact, or longer, with an odd last double or not.
pub fn room(g: &mut Gen, need: usize) -> usize {
    match g.below(10) {
        0 => need.saturating_sub(1),
        1 => g.below(need as u64 + 1) as usize,
        2 => need + 1,
        3 => need + 2 + g.below(6) as usize,
        _ => need,
    }
}

/// The list, often with zeros of either sign.
fn signed(g: &mut Gen, mut list: Vec<f64>) -> Vec<f64> {
    if g.once_in(2) {
        g.sign_zeros(&mut list);
    }
    list
}

pub fn with_odd_end(g: &mut Gen, mut list: Vec<f64>) -> Vec<f64> {
    if g.once_in(16) {
        list.push(g.double());
    }
    list
}

/// Arbitrary pairs: mixed, of small whole ends, or of any bits.
pub fn any_list(g: &mut Gen) -> Vec<f64> {
    match g.below(4) {
        0 => flat(&g.list()),
        1 => (0..2 * g.count()).map(|_| f64::from_bits(g.u64())).collect(),
        _ => (0..2 * g.count()).map(|_| g.below(13) as f64 - 4.).collect(),
    }
}

/// A sound list: mixed, of small whole ends, or of any bits.
pub fn sound_list(g: &mut Gen) -> Vec<f64> {
    let ends: Vec<f64> = match g.below(4) {
        0 => return flat(&g.sound()),
        1 => (0..2 * g.count()).map(|_| f64::from_bits(g.u64())).filter(|x| !x.is_nan()).collect(),
        _ => {
            let most = 4 * g.size as u64 + 1;
            (0..2 * g.count()).map(|_| g.below(most) as f64 - 4.).collect()
        }
    };
    flat(&paired(ends))
}

/// Two lists, sound in most cases, often with ends in common.
fn two_lists(g: &mut Gen) -> (Vec<f64>, Vec<f64>) {
    choose_size(g);
    let list = |g: &mut Gen| match g.below(16) {
        0 => flat(&g.unsound()),
        1 => any_list(g),
        _ => sound_list(g),
    };
    let a = list(g);
    let b = match g.below(8) {
        0 if is_sound(&a) => flat(&g.sound_near(&pairs(&a))),
        1 if is_sound(&a) => {
            let near = g.sound_near(&pairs(&a));
            flat(&rust::intersect(&pairs(&a), &near))
        }
        2 => a.clone(),
        _ => list(g),
    };
    let (a, b) = (signed(g, a), signed(g, b));
    (with_odd_end(g, a), with_odd_end(g, b))
}

pub fn two_lists_and_room(g: &mut Gen) -> Two {
    let (a, b) = two_lists(g);
    let need = (a.len() / 2 + b.len() / 2) * 2;
    let room = room(g, need);
    (a, b, room)
}

pub fn list_and_room(g: &mut Gen) -> One {
    choose_size(g);
    let list = any_list(g);
    let list = signed(g, list);
    let list = with_odd_end(g, list);
    let room = room(g, list.len() / 2 * 2);
    (list, room)
}

const NAN: f64 = f64::NAN;
const INF: f64 = f64::INFINITY;

/// Every list of up to two pairs over some doubles, in a buffer that fits; document 01's examples; short ones in all buffers.
pub fn one_list_edges() -> Vec<One> {
    let mut edges = vec![];
    for n in 0..=2 {
        all_lists(&[-INF, -0., 0., f64::from_bits(1), 1., 2., INF, NAN], n, |l| edges.push((flat(l), 2 * n)));
    }
    for l in
        [vec![3., 4., 1., 2., 2., 3.], vec![1., 1., NAN, 2., 2., 1.], vec![1., 2., 3., 4.], vec![1.], vec![2., 1., 0.], vec![]]
    {
        edges.extend((0..=l.len() + 3).map(|room| (l.clone(), room)));
    }
    edges
}

/// Pairs of short lists, sound or not, document 01's examples among them.
fn short_pairs() -> Vec<(Vec<f64>, Vec<f64>)> {
    let lists = [
        vec![],
        vec![0., 10.],
        vec![0., 1.],
        vec![1., 2.],
        vec![1., 4.],
        vec![0., 2., 3., 5.],
        vec![-0., 1.],
        vec![-1., 0.],
        vec![-1., -0.],
        vec![-INF, INF],
        vec![1., 1.],
        vec![2., 1.],
        vec![NAN, 1.],
        vec![1., NAN],
        vec![0., 1., 1., 2.],
        vec![0., 2., 1., 3.],
        vec![3., 4., 1., 2.],
        vec![1.],
        vec![0., 1., 2.],
    ];
    lists.iter().flat_map(|a| lists.iter().map(|b| (a.clone(), b.clone()))).collect()
}

/// Every pair of sound lists over eight points, neighbouring doubles among them.
fn sound_pairs() -> Vec<(Vec<f64>, Vec<f64>)> {
    let lists = all_sound(&[-INF, -1., 0., f64::from_bits(1), 1., 1f64.next_up(), 2., INF]);
    lists.iter().flat_map(|a| lists.iter().map(|b| (flat(a), flat(b)))).collect()
}

pub fn two_list_edges() -> Vec<Two> {
    let need = |a: &[f64], b: &[f64]| (a.len() / 2 + b.len() / 2) * 2;
    let all_rooms = |(a, b): (Vec<f64>, Vec<f64>)| (0..=need(&a, &b) + 3).map(move |room| (a.clone(), b.clone(), room));
    let exact = |(a, b): (Vec<f64>, Vec<f64>)| {
        let room = need(&a, &b);
        (a, b, room)
    };
    short_pairs().into_iter().flat_map(all_rooms).chain(sound_pairs().into_iter().map(exact)).collect()
}

fn told_edges() -> Vec<(Vec<f64>, Vec<f64>)> {
    short_pairs().into_iter().chain(sound_pairs()).collect()
}

pub fn functions() -> Vec<Function> {
    vec![
        Function::new("normalize", one_list_edges(), list_and_room, |i| compare_normalize(i, normalize)),
        Function::new("subtract", two_list_edges(), two_lists_and_room, |i| compare_subtract(i, subtract)),
        Function::new("intersect", two_list_edges(), two_lists_and_room, |i| compare_intersect(i, intersect)),
        Function::new("contains", told_edges(), two_lists, |(a, b)| told(a, b, rust::contains, contains)),
        Function::new("overlaps", told_edges(), two_lists, |(a, b)| told(a, b, rust::overlaps, overlaps)),
    ]
}
