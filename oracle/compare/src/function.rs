//! One function of the port: its inputs and how its answers are compared.
use crate::{
    explained::Explained,
    reached::{Group, Reached},
};
use harness::{generate::Gen, hex};
use std::{
    cell::{Cell, RefCell},
    rc::Rc,
};

/// What a comparison found.
pub enum Outcome {
    Same,
    /// `meant`: the row of docs/DIFFERENCES.md that lists the difference
    Differs {
        meant: Option<Explained>,
        rust: String,
        port: String,
    },
}

impl Outcome {
    pub fn differs(meant: Option<Explained>, rust: impl Into<String>, port: impl Into<String>) -> Self {
        Outcome::Differs { meant, rust: rust.into(), port: port.into() }
    }
}

/// An input as hex words, lists in brackets.
pub trait Words {
    fn words(&self) -> String;

    /// How many calls of the port it is compared by.
    fn calls(&self) -> u64 {
        1
    }
}

impl Words for f64 {
    fn words(&self) -> String {
        hex(*self)
    }
}

impl Words for u32 {
    fn words(&self) -> String {
        self.to_string()
    }
}

impl Words for u64 {
    fn words(&self) -> String {
        format!("{self:016x}")
    }
}

impl Words for usize {
    fn words(&self) -> String {
        self.to_string()
    }
}

impl<T: Words> Words for [T] {
    fn words(&self) -> String {
        format!("[{}]", self.iter().map(Words::words).collect::<Vec<_>>().join(" "))
    }
}

impl<T: Words> Words for Vec<T> {
    fn words(&self) -> String {
        self.as_slice().words()
    }
}

impl<A: Words, B: Words> Words for (A, B) {
    fn words(&self) -> String {
        format!("{} {}", self.0.words(), self.1.words())
    }
}

impl<A: Words, B: Words, C: Words> Words for (A, B, C) {
    fn words(&self) -> String {
        format!("{} {} {}", self.0.words(), self.1.words(), self.2.words())
    }
}

/// A case whose answers differ.
pub struct Difference {
    pub meant: Option<Explained>,
    pub input: String,
    pub rust: String,
    pub port: String,
}

pub struct Function {
    pub name: &'static str,
    /// how many fixed cases there are; they have the numbers from 0 on
    pub edges: u64,
    calls: Rc<Cell<u64>>,
    reached: Rc<RefCell<Reached>>,
    case: Box<dyn Fn(u64, u64) -> Option<Difference>>,
}

impl Function {
    /// `edges` are compared on every run, then inputs that `make` generates.
    pub fn new<I: Words + 'static>(
        name: &'static str,
        edges: Vec<I>,
        make: impl Fn(&mut Gen) -> I + 'static,
        compare: impl Fn(&I) -> Outcome + 'static,
    ) -> Self {
        Self::counting(name, &[], edges, make, move |input, _| compare(input))
    }

    /// The same, where the comparison also counts what its inputs reach.
    pub fn counting<I: Words + 'static>(
        name: &'static str,
        wanted: &[Group],
        edges: Vec<I>,
        make: impl Fn(&mut Gen) -> I + 'static,
        compare: impl Fn(&I, &mut Reached) -> Outcome + 'static,
    ) -> Self {
        let calls = Rc::new(Cell::new(0));
        let reached = Rc::new(RefCell::new(Reached::new(wanted)));
        let (counted, reaching) = (calls.clone(), reached.clone());
        let judge = move |input: &I| {
            counted.update(|n| n + input.calls());
            match compare(input, &mut reaching.borrow_mut()) {
                Outcome::Same => None,
                Outcome::Differs { meant, rust, port } => Some(Difference { meant, input: input.words(), rust, port }),
            }
        };
        let count = edges.len() as u64;
        let case = Box::new(move |seed, number| match edges.get(number as usize) {
            Some(input) => judge(input),
            None => judge(&make(&mut Gen::new(seed, name, number))),
        });
        Self { name, edges: count, calls, reached, case }
    }

    /// The calls of the port by all cases so far.
    pub fn calls(&self) -> u64 {
        self.calls.get()
    }

    /// What the cases so far have reached.
    pub fn reached(&self) -> Reached {
        self.reached.borrow().clone()
    }

    /// Compares the case of this number: an edge, or past these a generated one.
    pub fn case(&self, seed: u64, number: u64) -> Option<Difference> {
        (self.case)(seed, number)
    }
}
