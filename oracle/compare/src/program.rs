//! Document 01's program, on slices, against a parser of its own: one that reads lines and words, not places.
use crate::{
    explained::Explained,
    function::{Function, Outcome, Words},
    merge::{Ray, ray},
    reached::{Group, Reached},
};
use harness::{Pair, generate::Gen, hex, pairs};
use std::cell::RefCell;

mod raw {
    unsafe extern "C" {
        pub fn tridexel_inner_merge_ray(s: *const u8, s_len: usize, out: *mut [u8; 65536]) -> usize;
    }
}

/// A text, or as many bytes of one.
#[derive(Clone, Debug, PartialEq)]
pub struct Text(pub Vec<u8>);

impl Words for Text {
    fn words(&self) -> String {
        format!("{:?}", String::from_utf8_lossy(&self.0))
    }
}

const FILL: [u8; 65536] = [0xa5; 65536];

std::thread_local! {
    static OUT: RefCell<[u8; 65536]> = const { RefCell::new(FILL) };
}

/// What the program writes for an input. The bytes past it have to stay.
pub fn run(s: &[u8]) -> Text {
    OUT.with_borrow_mut(|out| {
        let n = unsafe { raw::tridexel_inner_merge_ray(s.as_ptr(), s.len(), out) };
        let kept = n <= out.len() && out[n..] == FILL[n..];
        let text = if kept { out[..n].to_vec() } else { b"bytes past the text were written".to_vec() };
        out[..n.min(FILL.len())].fill(FILL[0]);
        Text(text)
    })
}

fn bits(word: &str) -> Option<f64> {
    let small = |b: u8| b.is_ascii_digit() || (b'a'..=b'f').contains(&b);
    if word.len() != 16 || !word.bytes().all(small) {
        return None;
    }
    u64::from_str_radix(word, 16).ok().map(f64::from_bits)
}

/// The ray of a text that can be read: B first and once, up to 64 lines of each other letter.
pub fn parse(text: &[u8]) -> Option<Ray> {
    let text = std::str::from_utf8(text).ok()?;
    let mut lines = text.strip_suffix('\n')?.split('\n');
    let line = |l: &str| -> Option<(char, Pair)> {
        let words: Vec<&str> = l.split(' ').collect();
        match words[..] {
            [letter, lo, hi] if letter.len() == 1 => Some((letter.chars().next()?, [bits(lo)?, bits(hi)?])),
            _ => None,
        }
    };
    let ('B', bounds) = line(lines.next()?)? else { return None };
    let mut lists: [Vec<f64>; 4] = Default::default();
    for l in lines {
        let (letter, pair) = line(l)?;
        let list = &mut lists["PCOI".find(letter)?];
        list.extend(pair);
        if list.len() > 128 {
            return None;
        }
    }
    let [possible, certain, outer, inner] = lists;
    Some(Ray { bounds, possible, certain, outer, inner })
}

fn line(letter: char, [lo, hi]: Pair) -> String {
    let bits = |x: f64| if x.is_nan() { "7ff8000000000000".into() } else { hex(x) };
    format!("{letter} {} {}\n", bits(lo), bits(hi))
}

/// What document 01 says that the program writes.
pub fn answer(text: &[u8]) -> String {
    let Some(ray) = parse(text) else { return "refused 18\n".into() };
    if !ray.valid() {
        return "refused 11\n".into();
    }
    let before = [pairs(&ray.possible), pairs(&ray.certain)];
    let after = ray.merged();
    let mut out = String::new();
    for ((letter, before), after) in ['P', 'C'].iter().zip(&before).zip(&after) {
        // a list that does not move is printed as it was read
        let list = if before == after { before } else { after };
        out.extend(list.iter().map(|s| line(*letter, *s)));
    }
    out + if before == after { "same\n" } else { "changed\n" }
}

/// A ray's lines, the letters in any order.
fn lines(g: &mut Gen, r: &Ray) -> Vec<String> {
    let mut rest: Vec<String> = vec![];
    for (letter, list) in ['P', 'C', 'O', 'I'].iter().zip(r.lists()) {
        let at = rest.len();
        rest.extend(pairs(list).iter().map(|s| format!("{letter} {} {}\n", hex(s[0]), hex(s[1]))));
        // now and then this letter's lines stand among the others'
        if g.once_in(4) {
            for k in at..rest.len() {
                let to = g.below(k as u64 + 1) as usize;
                let l = rest.remove(k);
                rest.insert(to, l);
            }
        }
    }
    rest.insert(0, format!("B {} {}\n", hex(r.bounds[0]), hex(r.bounds[1])));
    rest
}

/// A text that can be read, or one with a fault: a byte changed, lost or put in, a line twice, swapped or gone, too many lines.
pub fn text(g: &mut Gen) -> Text {
    let r = ray(g);
    let mut lines = lines(g, &r);
    match g.below(24) {
        0 => drop(lines.remove(0)),
        1 => {
            let l = g.pick(&lines);
            lines.push(l);
        }
        2 => lines.reverse(),
        3 => lines.extend(std::iter::repeat_n("O 0000000000000000 3ff0000000000000\n".into(), 60 + g.below(8) as usize)),
        4 => lines.clear(),
        _ => {}
    }
    let mut t = lines.concat().into_bytes();
    if !t.is_empty() && g.once_in(6) {
        let at = g.below(t.len() as u64) as usize;
        let byte = g.pick(b" \nAFGafgBPCOI09x\r\t\x00\xff");
        match g.below(4) {
            0 => t[at] = byte,
            1 => t.insert(at, byte),
            2 => drop(t.remove(at)),
            _ => t.truncate(at),
        }
    }
    Text(t)
}

/// Document 01's example, and each way to get 18 or 11.
pub fn texts() -> Vec<Text> {
    let ten = "0000000000000000 4024000000000000";
    let ray = format!("B {ten}\nP {ten}\nC {ten}\n");
    let hits = "O 3ff0000000000000 4010000000000000\nI 4000000000000000 4008000000000000\n";
    let many = |n: usize| format!("{ray}{}", "O 3ff0000000000000 4010000000000000\n".repeat(n));
    let texts = [
        format!("{ray}{hits}"),
        ray.clone(),
        String::new(),
        "\n".into(),
        ray.trim_end().into(),
        format!("{ray}B {ten}\n"),
        format!("P {ten}\nB {ten}\n"),
        ray.replace("4024", "4O24"),
        format!("{ray}O 3FF0000000000000 4010000000000000\n"),
        format!("{ray}X {ten}\n"),
        format!("{ray}O  3ff0000000000000 4010000000000000\n"),
        format!("{ray}O 3ff000000000000 40100000000000000\n"),
        format!("{ray}O 7ff8000000000000 4010000000000000\n"),
        format!("{ray}P 7ff8000000000000 4010000000000000\n"),
        format!("B {ten}\nC {ten}\n"),
        format!("B 4024000000000000 0000000000000000\nP {ten}\n"),
        many(64),
        many(65),
        many(1000),
    ];
    texts.map(|t| Text(t.into_bytes())).to_vec()
}

/// What the program's texts reach.
pub const WANTED: &[Group] = &[
    ("answer", &["refused 18", "refused 11", "same", "changed"]),
    // of the texts that are read
    ("compared", &["by bits", "as numbers"]),
    ("minus zero", &["read", "printed"]),
];

fn count(t: &Text, answer: &str, settled: bool, reached: &mut Reached) {
    let last = answer.lines().last().expect("a line");
    reached.count("answer", last);
    if !last.starts_with("refused") {
        let minus = |text: &[u8]| text.windows(17).any(|w| w == b" 8000000000000000");
        reached.count("compared", if settled { "by bits" } else { "as numbers" });
        reached.count_if(minus(&t.0), "minus zero", "read");
        reached.count_if(minus(answer.as_bytes()), "minus zero", "printed");
    }
}

/// By bits where every end of the answer is settled; else texts may differ in the sign of a zero.
pub fn compare_program(t: &Text, port: fn(&[u8]) -> Text, reached: &mut Reached) -> Outcome {
    let (rust, port) = (answer(&t.0), port(&t.0));
    let settled = parse(&t.0).is_none_or(|ray| ray.settled());
    count(t, &rust, settled, reached);
    let port = String::from_utf8_lossy(&port.0);
    if rust == port {
        return Outcome::Same;
    }
    let unsigned = |s: &str| s.replace(" 8000000000000000", " 0000000000000000");
    let meant = (!settled && unsigned(&rust) == unsigned(&port)).then_some(Explained::Zeros);
    Outcome::differs(meant, format!("{rust:?}"), format!("{port:?}"))
}

pub fn functions() -> Vec<Function> {
    vec![Function::counting("merge_ray", WANTED, texts(), text, |t, reached| compare_program(t, run, reached))]
}
