//! The calls one after the other: their buffers are lent, their answers counted, and what holds of every call is looked at.
use crate::rooms::{MOST, Room, Side};
use harness::generate::Gen;
use std::{
    slice,
    sync::atomic::{AtomicU64, Ordering::Relaxed},
};

/// The entries of `include/tridexel.h`.
#[derive(Clone, Copy, Debug, PartialEq)]
pub enum Entry {
    Normalize,
    Subtract,
    Intersect,
    Contains,
    Overlaps,
    Merge,
    Trace,
    Grid,
    Fill,
    Volume,
    CommitChanges,
    CommitLog,
    Sweep,
}

impl Entry {
    pub const ALL: [Entry; 13] = [
        Entry::Normalize,
        Entry::Subtract,
        Entry::Intersect,
        Entry::Contains,
        Entry::Overlaps,
        Entry::Merge,
        Entry::Trace,
        Entry::Grid,
        Entry::Fill,
        Entry::Volume,
        Entry::CommitChanges,
        Entry::CommitLog,
        Entry::Sweep,
    ];

    /// The answers that the documents allow.
    pub fn answers(self) -> &'static [u32] {
        match self {
            Entry::Normalize | Entry::Subtract | Entry::Intersect | Entry::Merge => &[0, 11, 12],
            Entry::Contains | Entry::Overlaps => &[0, 11],
            Entry::Trace => &[0, 11, 19],
            Entry::Grid => &[0, 1, 2, 3],
            Entry::Fill => &[0, 1, 2, 3, 12],
            Entry::Volume => &[0, 1, 2, 3, 11, 12],
            Entry::CommitChanges => &[0, 1, 2, 3, 10, 11, 12, 13, 14, 15],
            Entry::CommitLog => &[0, 1, 2, 3, 9, 10, 11, 12, 15, 17],
            Entry::Sweep => &[0, 1, 2, 3, 5, 6, 7, 8, 11, 12, 16],
        }
    }
}

/// The answers 0 to 19, and one place for every other.
pub const ANSWERS: usize = 21;

/// What the process that calls tells the one that waits for it. All zero at first.
#[derive(Default)]
pub struct Shared {
    pub case: AtomicU64,
    pub entry: AtomicU64,
    pub answers: [[AtomicU64; ANSWERS]; Entry::ALL.len()],
    pub violations: AtomicU64,
}

impl Shared {
    /// How often an entry gave each answer.
    pub fn times(&self, entry: Entry) -> [u64; ANSWERS] {
        self.answers[entry as usize].each_ref().map(|n| n.load(Relaxed))
    }
}

/// A lent buffer.
#[derive(Clone, Copy)]
pub struct Lent {
    at: *mut u8,
    pub len: usize,
    room: usize,
}

impl Lent {
    pub fn cells<T>(&self) -> *mut T {
        self.at.cast()
    }
}

fn raw_bytes<T: Copy>(cells: &[T]) -> &[u8] {
    unsafe { slice::from_raw_parts(cells.as_ptr().cast(), size_of_val(cells)) }
}

/// What a number that a call may write is before it.
pub const MARK: u64 = 0xdead_beef_dead_beef;
const READS: usize = 5;
const WRITES: usize = 7;

pub struct Trial<'a> {
    shared: &'a Shared,
    /// how a case is run again
    again: &'a dyn Fn(u64) -> String,
    /// print every call
    show: bool,
    reads: Vec<Room>,
    writes: Vec<Room>,
    /// how many rooms of each kind this call uses
    read: usize,
    written: usize,
    sides: Gen,
    entry: Entry,
}

impl<'a> Trial<'a> {
    pub fn new(shared: &'a Shared, again: &'a dyn Fn(u64) -> String, show: bool) -> Self {
        let rooms = |n: usize, writable: bool| (0..n).map(|_| Room::new(writable)).collect();
        Trial {
            shared,
            again,
            show,
            reads: rooms(READS, false),
            writes: rooms(WRITES, true),
            read: 0,
            written: 0,
            sides: Gen::new(0, "sides", 0),
            entry: Entry::Normalize,
        }
    }

    pub fn start(&mut self, seed: u64, case: u64) {
        self.shared.case.store(case, Relaxed);
        self.sides = Gen::new(seed, "sides", case);
    }

    pub fn begin(&mut self, entry: Entry) {
        self.entry = entry;
        self.shared.entry.store(entry as u64, Relaxed);
        (self.read, self.written) = (0, 0);
    }

    fn side(&mut self) -> Side {
        if self.sides.once_in(3) { Side::Front } else { Side::Back }
    }

    /// Lends cells that the call may not write.
    pub fn read<T: Copy>(&mut self, cells: &[T]) -> Lent {
        let (room, side) = (self.read, self.side());
        self.read += 1;
        Lent { at: self.reads[room].lend(raw_bytes(cells), side), len: cells.len(), room }
    }

    /// Lends cells that the call may write.
    pub fn write<T: Copy>(&mut self, cells: &[T]) -> Lent {
        let (room, side) = (self.written, self.side());
        self.written += 1;
        Lent { at: self.writes[room].lend(raw_bytes(cells), side), len: cells.len(), room }
    }

    /// The cells of a buffer after the call.
    pub fn after<T>(&self, lent: &Lent) -> &[T] {
        let bytes = self.writes[lent.room].bytes();
        unsafe { slice::from_raw_parts(bytes.as_ptr().cast(), lent.len) }
    }

    /// The first cell of a buffer after the call.
    pub fn number(&self, lent: &Lent) -> u64 {
        self.after(lent)[0]
    }

    pub fn require(&self, holds: bool, what: &str) {
        if !holds {
            let n = self.shared.violations.fetch_add(1, Relaxed);
            if n < 20 {
                println!("violation, {:?}: {what}; {}", self.entry, (self.again)(self.shared.case.load(Relaxed)));
            }
        }
    }

    /// For every entry: the answer is one of its own, no margin is written, and a refused call leaves every buffer and every number as it was (8 and 16
    /// of a sweep are looked at there). What may only be read cannot be written: its pages are read-only.
    pub fn end(&mut self, code: u32) {
        let known = self.entry.answers().contains(&code);
        let place = (code as usize).min(ANSWERS - 1);
        self.shared.answers[self.entry as usize][place].fetch_add(1, Relaxed);
        self.require(known, "an answer that is not among its refusals");
        let rooms = self.reads[..self.read].iter().chain(&self.writes[..self.written]);
        self.require(rooms.clone().all(Room::margin_kept), "a write beside a buffer");
        let zeroed = self.entry == Entry::Sweep && (code == 8 || code == 16);
        if code != 0 && !zeroed {
            self.require(self.writes[..self.written].iter().all(Room::untouched), "a refused call wrote");
        }
        if self.show {
            self.print(code);
        }
    }

    fn print(&self, code: u32) {
        println!("{:?}: {code}", self.entry);
        for (kind, rooms) in [("read", &self.reads[..self.read]), ("written", &self.writes[..self.written])] {
            for room in rooms {
                println!("  {kind}, before {}", hex(room.before()));
                if !room.untouched() {
                    println!("  {kind}, after  {}", hex(room.bytes()));
                }
            }
        }
    }
}

fn hex(bytes: &[u8]) -> String {
    let word = |w: &[u8]| w.iter().rev().map(|b| format!("{b:02x}")).collect::<String>();
    let all: Vec<String> = bytes.chunks(8).take(200).map(word).collect();
    format!("[{}]{}", all.join(" "), if bytes.len() > 1600 { " .." } else { "" })
}

/// No more cells than a room has place for.
pub fn fitted(mut cells: Vec<u64>) -> Vec<u64> {
    cells.truncate(MOST);
    cells
}
